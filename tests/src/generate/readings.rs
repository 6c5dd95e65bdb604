// Two readings of a controller's clock: the ticks between them at the ends of what each answer takes, those of some wait, or any; and clocks that roll over.
use crate::bytes::{places_of, word};
use crate::random::Random;

/// The ends of no tick, of a time, of too many ticks and of a clock gone back.
const ENDS: [u32; 10] = [0, 1, 65_534, 65_535, 65_536, 65_537, 2_147_483_646, 2_147_483_647, 2_147_483_648, u32::MAX];

/// The earlier and the later reading.
pub fn readings(random: &mut Random, table: &[u8]) -> (u32, u32) {
    let ticks = match random.below(8) {
        0 => 0,
        1 | 2 => random.pick(&ENDS),
        3 => random.next() as u32,
        4 => random.below(200_000) as u32,
        _ => of_a_wait(random, table),
    };
    let earlier = match random.below(4) {
        0 => random.pick(&[0, 4, 65_535, 2_147_483_647, 2_147_483_648, 4_294_967_290, u32::MAX]),
        1 => u32::MAX - random.below(1 + ticks as usize) as u32,
        _ => random.next() as u32,
    };
    (earlier, earlier.wrapping_add(ticks))
}

/// About what some wait holds, or a few ticks.
fn of_a_wait(random: &mut Random, table: &[u8]) -> u32 {
    let waits = places_of(table, 4);
    if waits.is_empty() || random.chance(30) {
        return 1 + random.below(5) as u32;
    }
    (u32::from(word(table, 16 * random.pick(&waits) + 14)) + random.below(3) as u32).saturating_sub(1)
}
