// Joint steps: the library's beside the independent implementation's: reply, tally, every byte of the output and those around it.
use crate::bytes::{self, delimitation, invoke, kill, parallel, protection, wait};
use crate::compare::{said, Case, Lent, Reached};
use crate::damage;
use crate::differ::{draw_table, found, Found};
use crate::generate;
use crate::library;
use crate::nights::Fault;
use crate::random::Random;
use crate::reference;
use crate::reply::Reply;
use crate::shrink;

/// A table, the positions that are listed, and the bytes of room in the output.
#[derive(Clone, Debug)]
pub struct Closing {
    pub table: Vec<u8>,
    pub stops: Vec<u16>,
    pub room: usize,
}

/// The library's reply, and whether all agrees.
fn agreed(c: &Closing) -> (Reply, bool) {
    let (table, stops) = (c.table.clone(), c.stops.clone());
    let (mut out, mut expected) = (Lent::new(c.room), Lent::new(c.room));
    let ours = library::joint(&table, &stops, out.lend());
    let theirs = reference::joint(&c.table, &c.stops, expected.lend());
    // once more into a block of its own, where a memory checker sees any byte outside
    let mut alone = Lent::new(c.room).bytes().to_vec();
    let again = library::joint(&table, &stops, &mut alone);
    let same = ours == theirs && out.same(&expected) && again == ours && alone == out.bytes();
    (ours.0, same && table == c.table && stops == c.stops)
}

pub fn compare(c: Closing, reached: &mut Reached) -> Result<(), Fault> {
    let (ours, agrees) = agreed(&c);
    if !agrees {
        return Err(Fault::Joint(c));
    }
    reached.closed.closing(&c, &ours);
    Ok(())
}

/// Every n-th case is a large table.
const LARGE: u64 = 193;

/// Generated lists; the number of a case and the seed give it again.
pub fn generated(seed: u64, cases: u64, reached: &mut Reached) -> Result<(), Found> {
    for case in 1..=cases {
        let mut random = Random::new(seed.wrapping_mul(1_000_039).wrapping_add(case));
        compare(draw(&mut random, case), reached).map_err(|fault| found(case, fault))?;
    }
    Ok(())
}

fn draw(random: &mut Random, case: u64) -> Closing {
    let table = match random.below(16) {
        _ if case % LARGE == 0 => generate::large_blocks(random),
        0 => draw_table(random, case),
        1 => {
            let whole = generate::blocks(random);
            generate::spoilt(random, whole)
        }
        _ => generate::blocks(random),
    };
    let stops = generate::stops(random, &table);
    let room = draw_room(random, &table, &stops);
    Closing { table, stops, room }
}

/// More than enough mostly; just enough, a byte less, too little, nothing.
fn draw_room(random: &mut Random, table: &[u8], stops: &[u16]) -> usize {
    let needed = needed(table, stops).unwrap_or(table.len());
    match random.below(12) {
        0 => needed,
        1 => needed.saturating_sub(1),
        2 => random.below(needed + 1),
        3 => 0,
        4 => 32_768,
        _ => needed + random.pick(&[1, 16, 48]),
    }
}

/// The bytes that a joint step leaves, if it is not refused.
pub fn needed(table: &[u8], stops: &[u16]) -> Option<usize> {
    let (reply, _) = library::joint(table, stops, &mut [0; 32_768]);
    (reply.answer == 0).then_some(16 * reply.records)
}

/// A table and some positions, with room enough.
fn with_room(table: &[u8], stops: &[u16]) -> Closing {
    Closing { table: table.to_vec(), stops: stops.to_vec(), room: table.len() + 16 }
}

/// A table with an empty list, its first position, all its kills, and the first of them twice.
pub fn each(table: &[u8], reached: &mut Reached) -> Result<(), Fault> {
    let kills: Vec<u16> = bytes::places_of(table, 1).into_iter().map(|a| a as u16).collect();
    let twice = [kills.first().copied().unwrap_or(0); 2];
    for stops in [&[][..], &[0], &kills, &twice] {
        compare(with_room(table, stops), reached)?;
    }
    Ok(())
}

/// Small scope: a table with every list of up to two of its positions and the one behind them.
pub fn every_pair(table: &[u8], reached: &mut Reached) -> Result<(), Fault> {
    let end = (table.len() / 16) as u16;
    compare(with_room(table, &[]), reached)?;
    for a in 0..=end {
        compare(with_room(table, &[a]), reached)?;
        (0..=end).try_for_each(|b| compare(with_room(table, &[a, b]), reached))?;
    }
    Ok(())
}

/// Damage: single bytes of tables changed, any number in a list, lists and outputs of every length, random bytes and tables cut off; one in so many.
pub fn damaged(random: &mut Random, stride: usize, reached: &mut Reached) -> Result<(), Fault> {
    damage::each_spoilt(random, stride, |table| each(table, reached))?;
    for stops in [&[0, 2][..], &[2, 0], &[1, 0], &[2, 1], &[0, 1, 2]] {
        damaged_list(stops, stride, reached)?;
    }
    Ok(())
}

/// Two blocks: N4, and one with a scope inside its own and a protection around its kill.
fn two_blocks() -> Vec<u8> {
    let (k, j, l) = (49_152, 49_153, 49_154);
    let sent = || invoke(1, 2, &[5]);
    let n4 = delimitation(k, parallel(kill(k), parallel(protection(sent()), sent())));
    let nested = delimitation(j, parallel(delimitation(l, parallel(kill(l), sent())), protection(kill(j))));
    parallel(n4, parallel(wait(3, bytes::nil()), nested))
}

/// Some of the two blocks' kills: the table's bytes changed, each of the positions anywhere, the list and the output of every length.
fn damaged_list(which: &[usize], stride: usize, reached: &mut Reached) -> Result<(), Fault> {
    let table = two_blocks();
    let kills = bytes::places_of(&table, 1);
    let stops: Vec<u16> = which.iter().map(|i| kills[*i] as u16).collect();
    for change in (0..255 * table.len()).step_by(3 * stride) {
        compare(with_room(&bytes::changed(&table, change), &stops), reached)?;
    }
    for number in (0..=40).chain((0..=65_535).step_by(17)).step_by(stride) {
        for at in 0..stops.len() {
            let mut other = stops.clone();
            other[at] = number;
            compare(with_room(&table, &other), reached)?;
        }
    }
    for count in (0..=40).chain([255, 256, 257, 258, 264, 65_535, 65_536, 65_538, 65_544]).step_by(stride.min(5)) {
        let list: Vec<u16> = stops.iter().copied().cycle().take(count).collect();
        compare(with_room(&table, &list), reached)?;
    }
    for room in (0..=table.len() + 32).step_by(stride) {
        compare(Closing { table: table.clone(), stops: stops.clone(), room }, reached)?;
    }
    Ok(())
}

/// The shortest list and the smallest table on which the two still differ.
pub fn smallest(mut c: Closing) -> Closing {
    let differ = |c: &Closing| !agreed(c).1;
    while let Some(shorter) = (0..c.stops.len()).map(|i| without(&c, i)).find(differ) {
        c = shorter;
    }
    from_case(&shrink::shrink(as_case(&c), |case| differ(&from_case(case))))
}

/// A position less.
fn without(c: &Closing, i: usize) -> Closing {
    let mut c = c.clone();
    c.stops.remove(i);
    c
}

/// The list as the moves of its kills, whose places follow when the table is made smaller.
fn as_case(c: &Closing) -> Case {
    let m = c.stops.iter().flat_map(|a| bytes::a_move(0, *a as usize, 0)).collect();
    Case { table: c.table.clone(), m, room: c.room }
}

fn from_case(case: &Case) -> Closing {
    let stops = case.m.chunks(6).map(|m| bytes::word(m, 2)).collect();
    Closing { table: case.table.clone(), stops, room: case.room }
}

/// A list on which the two differ, for the reader.
pub fn describe(c: &Closing) -> String {
    let (mut out, mut expected) = (vec![0xa5; c.room], vec![0xa5; c.room]);
    let (ours, tally) = library::joint(&c.table, &c.stops, &mut out);
    let (theirs, counts) = reference::joint(&c.table, &c.stops, &mut expected);
    format!(
        "  table ({} records): {}\n  joint step of {:?}, in {} bytes: library {}; independent {}; output {}\n  library {tally:?}; independent {counts:?}",
        c.table.len() / 16,
        bytes::text(&c.table),
        c.stops,
        c.room,
        said(&ours),
        said(&theirs),
        if out == expected { "the same" } else { "differs" },
    )
}
