// Laws of nights that are read off the bytes alone: no other implementation is asked.
use crate::bytes;
use crate::clock;
use crate::generate;
use crate::library;
use crate::nights::{self, next_move};
use crate::random::Random;
use crate::reply::{Reply, Tally};
use crate::together;

/// What was looked at.
#[derive(Default, Debug)]
pub struct Seen {
    pub nights: u64,
    pub accepted: u64,
    pub refused: u64,
    pub kills: u64,
    pub listed: u64,
    pub lists: u64,
    pub clocks: u64,
    pub joint: u64,
    pub several: u64,
}

/// Random nights, one in four of blocks, each law tried at each move; and joint steps on other blocks. The first law that fails is put into words.
pub fn run(seed: u64, count: u64) -> Result<Seen, String> {
    let mut seen = Seen::default();
    for night in 0..count {
        let mut random = Random::new(seed.wrapping_mul(7_919).wrapping_add(night));
        let records = random.pick(&[8, 20, 40, 80]);
        let table = if night % 4 == 3 { generate::blocks(&mut random) } else { generate::night(&mut random, records) };
        let moves = random.between(100, 400);
        one_night(&mut random, table, moves, &mut seen)?;
        seen.nights += 1;
        for _ in 0..5 {
            let table = generate::blocks(&mut random);
            joint(&mut random, &table, &mut seen)?;
        }
        if night % 10 == 0 {
            whole_list(&generate::large(&mut random), &mut seen)?;
            let table = generate::large_blocks(&mut random);
            joint(&mut random, &table, &mut seen)?;
        }
    }
    Ok(seen)
}

/// The laws of joint steps on one table.
fn joint(random: &mut Random, table: &[u8], seen: &mut Seen) -> Result<(), String> {
    let kills = together::laws(random, table)?;
    seen.joint += (kills > 0) as u64;
    seen.several += (kills > 1) as u64;
    Ok(())
}

/// Demand 3 over the whole list; the other laws at each of its moves.
fn one_night(random: &mut Random, start: Vec<u8>, moves: usize, seen: &mut Seen) -> Result<(), String> {
    let mut tally = Tally::default();
    let mut now = start.clone();
    let mut list = vec![];
    for _ in 0..moves {
        if random.chance(10) {
            clock::laws(random, &now)?;
            seen.clocks += 1;
        }
        if random.chance(10) {
            joint(random, &now, seen)?;
        }
        let m = next_move(random, &now);
        now = one_move(now, &m, &mut tally, seen)?;
        list.extend(m);
    }
    as_played(&start, &list, &now, &tally)?;
    let spent = 2 * tally.communications + tally.kills + tally.timeouts + bytes::load(&now);
    law(spent <= bytes::load(&start) + tally.copied, "demand 3's inequality", &start, &[])
}

/// Play gives the tally and the last table of the single steps, and zeros behind it.
fn as_played(start: &[u8], list: &[u8], last: &[u8], tally: &Tally) -> Result<(), String> {
    let (mut out, mut replies) = (vec![0xa5; 32_768], vec![0xa5; list.len()]);
    let (reply, counts) = library::play(start, list, &mut out, &mut replies);
    let fine = Reply { answer: 0, place: 0, records: last.len() / 16 };
    law(reply == fine && counts == *tally, "play's reply and tally are those of its steps", start, &[])?;
    let (table, behind) = out.split_at(last.len());
    law(table == last && behind.iter().all(|b| *b == 0), "play leaves the last table and zeros", start, &[])?;
    let load = Reply { records: bytes::load(last) as usize, ..fine };
    law(library::load(last) == load, "the load is counted", start, &[])
}

/// One move: the table that stands after it.
fn one_move(now: Vec<u8>, m: &[u8], tally: &mut Tally, seen: &mut Seen) -> Result<Vec<u8>, String> {
    let before = vec![0xa5; 32_768];
    let mut out = before.clone();
    let reply = library::step(&now, m, &mut out);
    law(library::step(&now, m, &mut before.clone()) == reply, "the same bytes, the same reply", &now, m)?;
    let list = open_list(&now)?;
    let listed = list.chunks_exact(6).any(|l| l == m);
    law(listed == (reply.answer == 0 && m[0] != 3), "a move is listed exactly if it is accepted and no time", &now, m)?;
    let time = m[0] == 3 && m[1] == 0 && bytes::word(m, 4) == 0;
    law(!time || (reply.answer == 17) == (bytes::word(m, 2) == 0), "a time is refused exactly if it is 0", &now, m)?;
    law(!time || reply.answer == 17 || reply.answer == 0, "any other time goes on", &now, m)?;
    if reply.answer != 0 {
        seen.refused += 1;
        law(out == before && reply.records == 0, "a refusal changes nothing", &now, m)?;
        return Ok(now);
    }
    if seen.accepted % 8 == 0 {
        each_accepted(&now, &list, seen)?;
    }
    seen.accepted += 1;
    let next = out[..16 * reply.records].to_vec();
    law(out[next.len()..] == before[next.len()..], "bytes behind the successor stay", &now, m)?;
    let fine = Reply { answer: 0, place: 0, records: reply.records };
    law(library::check(&next) == fine, "the successor is well formed", &now, m)?;
    nights::tally(tally, &now, m);
    of_kind(&now, &next, m, seen)?;
    Ok(next)
}

/// The list of open moves: an empty buffer gives their number, and six bytes for each are room enough.
fn open_list(now: &[u8]) -> Result<Vec<u8>, String> {
    let asked = library::open(now, &mut []);
    let mut list = vec![0; 6 * asked.place];
    let number = Reply { answer: 0, place: 0, records: asked.place };
    law(asked.answer == if asked.place == 0 { 0 } else { 22 } && asked.records == 0, "an empty buffer gives the number of moves", now, &[])?;
    law(library::open(now, &mut list) == number, "six bytes for each open move are enough", now, &[])?;
    Ok(list)
}

/// Step accepts each move of a list; kind, a and b go up from one to the next, so that the order is the request's and none stands twice.
fn each_accepted(now: &[u8], list: &[u8], seen: &mut Seen) -> Result<(), String> {
    let mut out = vec![0; 32_768];
    let numbers = |m: &[u8]| (m[0], bytes::word(m, 2), bytes::word(m, 4));
    seen.lists += 1;
    for (i, m) in list.chunks_exact(6).enumerate() {
        seen.listed += 1;
        law(m[0] != 3 && library::step(now, m, &mut out).answer == 0, "a listed move is accepted", now, m)?;
        law(i == 0 || numbers(&list[6 * i - 6..]) < numbers(m), "each listed move once, in the order of kind, a and b", now, m)?;
    }
    Ok(())
}

/// A table at the limits, if it is well formed: what step accepts of its kills, timeouts, unfoldings and extrusions is listed, and nothing else is.
fn whole_list(table: &[u8], seen: &mut Seen) -> Result<(), String> {
    if library::check(table).answer != 0 {
        return Ok(());
    }
    let list = open_list(table)?;
    each_accepted(table, &list, seen)?;
    let mut out = vec![0; 32_768];
    for (kind, record) in [(0, 1), (2, 4), (4, 9), (5, 8)] {
        for a in bytes::places_of(table, record) {
            let m = bytes::a_move(kind, a, 0);
            let accepted = library::step(table, &m, &mut out).answer == 0;
            law(accepted == list.chunks_exact(6).any(|l| l == m), "a move is listed exactly if it is accepted", table, &m)?;
        }
    }
    Ok(())
}

/// What each kind of move does to the records.
fn of_kind(now: &[u8], next: &[u8], m: &[u8], seen: &mut Seen) -> Result<(), String> {
    let a = bytes::word(m, 2) as usize;
    let (was, is) = (bytes::load(now), bytes::load(next));
    match m[0] {
        0 => {
            seen.kills += 1;
            law(is < was && next.len() <= now.len(), "a kill ends itself at least", now, m)?;
            law(halted(now, next, a), "halting leaves no load outside protections", now, m)
        }
        1 => law(is + 2 <= was, "a communication takes two off the load", now, m),
        2 => law(is < was, "a timeout takes one off the load", now, m),
        3 => law(is == was && lowered(now, next, a), "time lowers intervals, to 0 where they hold less, and nothing else", now, m),
        4 => {
            let body = bytes::end(now, a) - a - 1;
            law(next.len() == now.len() + 16 * (body + 1), "an unfolding adds the body and a parallel", now, m)
        }
        _ => law(is == was && next.len() == now.len(), "an extrusion keeps the records", now, m),
    }
}

/// Inside [k] every load stands under a protection that does not hold the place of the kill.
fn halted(now: &[u8], next: &[u8], a: usize) -> bool {
    let label = bytes::word(now, 16 * a + 2);
    let path = way_in(now, next, a);
    let scope = path.iter().copied().find(|p| bytes::kind(next, *p) == 8 && bytes::word(next, 16 * p + 2) == label);
    let Some(scope) = scope else { return false };
    (scope..bytes::end(next, scope)).all(|place| {
        let counts = (1..=4).contains(&bytes::kind(next, place));
        let sheltered = |p: &usize| *p > scope && bytes::kind(next, *p) == 7 && !path.contains(p);
        !counts || bytes::way(next, place).iter().any(sheltered)
    })
}

/// The records of the successor on the way that led to a place before: the same child at each.
fn way_in(now: &[u8], next: &[u8], a: usize) -> Vec<usize> {
    let mut here = 0;
    let mut path = vec![];
    let way = bytes::way(now, a);
    for (level, place) in way.iter().enumerate() {
        let below = way.get(level + 1).copied().unwrap_or(a);
        let child = bytes::parts(now, *place).iter().position(|p| *p == below).unwrap();
        path.push(here);
        here = bytes::parts(next, here)[child];
    }
    path
}

/// Each wait falls by the time, and to 0 where it holds less; what stands behind a receive or a wait or under a replication stays, and so does every other record.
fn lowered(now: &[u8], next: &[u8], time: usize) -> bool {
    let mut expected = now.to_vec();
    let mut place = 0;
    while place < now.len() / 16 {
        let kind = bytes::kind(now, place);
        if kind == 4 {
            let left = (bytes::word(now, 16 * place + 14) as usize).saturating_sub(time);
            expected[16 * place + 14..16 * place + 16].copy_from_slice(&(left as u16).to_le_bytes());
        }
        place = if [3, 4, 9].contains(&kind) { bytes::end(now, place) } else { place + 1 };
    }
    next == expected
}

pub fn law(holds: bool, words: &str, table: &[u8], m: &[u8]) -> Result<(), String> {
    if holds {
        return Ok(());
    }
    Err(format!("law broken: {words}\n  move {m:?} on {}", bytes::text(table)))
}
