// Laws of ticks that are read off the bytes alone: readings moved on, ticks as a step, and time that adds up.
use crate::bytes;
use crate::laws::law;
use crate::library;
use crate::random::Random;
use crate::reply::Reply;

/// What two readings leave in an output of so many bytes, and the reply.
fn ticked(table: &[u8], earlier: u32, later: u32, room: usize) -> (Reply, Vec<u8>) {
    let mut out = vec![0xa5; room];
    let reply = library::ticks(table, earlier, later, &mut out);
    (reply, out)
}

/// The laws on one table, with the first reading anywhere.
pub fn laws(random: &mut Random, table: &[u8]) -> Result<(), String> {
    let room = random.pick(&[table.len() + 16, table.len(), table.len().saturating_sub(1)]);
    let [earlier, on, any] = [(); 3].map(|()| random.next() as u32);
    let ticks = random.pick(&[0, 1, 2, 40, 65_535, 65_536, 2_147_483_648, any]);
    let later = earlier.wrapping_add(ticks);
    let (reply, out) = ticked(table, earlier, later, room);
    let moved = ticked(table, earlier.wrapping_add(on), later.wrapping_add(on), room);
    law(moved == (reply, out.clone()), "two readings moved on have the same reply and output", table, &[])?;
    if (1..=65_535).contains(&ticks) {
        let mut next = vec![0xa5; room];
        let stepped = library::step(table, &bytes::a_move(3, ticks as usize, 0), &mut next);
        law(stepped == reply && next == out, "ticks are the step of that time", table, &[])?;
    }
    adds_up(random, table, earlier, room)
}

/// Readings one after the other, each on the table that was left, give what one reading over them gives.
fn adds_up(random: &mut Random, table: &[u8], first: u32, room: usize) -> Result<(), String> {
    let mut left = 65_535;
    let mut now = first;
    let (mut reply, mut out) = ticked(table, first, first, room);
    for _ in 0..random.below(5) {
        let any = random.below(left as usize + 1) as u32;
        let ticks = random.pick(&[0, 1, any]).min(left);
        left -= ticks;
        if reply.answer == 0 {
            (reply, out) = ticked(&out[..16 * reply.records], now, now.wrapping_add(ticks), room);
        }
        now = now.wrapping_add(ticks);
    }
    law(ticked(table, first, now, room) == (reply, out), "readings one after the other are one reading over them", table, &[])
}
