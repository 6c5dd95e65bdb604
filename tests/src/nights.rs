// Nights: lists of moves played through the library, and compared with the independent implementation's play.
use crate::bytes;
use crate::closings::Closing;
use crate::compare::{self, Case, Reached};
use crate::generate;
use crate::library;
use crate::orc::Script;
use crate::plays;
use crate::random::Random;
use crate::readings::Readings;
use crate::reference;
use crate::reply::{Reply, Tally};

/// A night as it was played: a reply of six bytes for each move, the last table and the tally.
#[derive(PartialEq, Eq, Debug)]
pub struct Night {
    pub replies: Vec<u8>,
    pub table: Vec<u8>,
    pub tally: Tally,
}

/// A list played through the library's step, the tally kept from the accepted kinds and the bytes.
pub fn by_steps(table: &[u8], moves: &[u8]) -> Night {
    let mut night = Night { replies: vec![], table: table.to_vec(), tally: Tally::default() };
    let mut out = vec![0; 32_768];
    for m in moves.chunks_exact(6) {
        let reply = library::step(&night.table, m, &mut out);
        if reply.answer == 0 {
            tally(&mut night.tally, &night.table, m);
            night.table = out[..16 * reply.records].to_vec();
        }
        push_reply(&mut night.replies, &reply, night.table.len() / 16);
    }
    night
}

fn push_reply(replies: &mut Vec<u8>, reply: &Reply, records: usize) {
    for number in [reply.answer as usize, reply.place, records] {
        replies.extend((number as u16).to_le_bytes());
    }
}

/// An accepted move counted: its kind, and for an unfolding the load of the body.
pub fn tally(tally: &mut Tally, before: &[u8], m: &[u8]) {
    match m[0] {
        0 => tally.kills += 1,
        1 => tally.communications += 1,
        2 => tally.timeouts += 1,
        4 => {
            let place = bytes::word(m, 2) as usize;
            tally.copied += bytes::load(&before[16 * (place + 1)..16 * bytes::end(before, place)]);
        }
        _ => {}
    }
}

/// The same list by the independent implementation.
pub fn by_reference(table: &[u8], moves: &[u8]) -> Night {
    let (mut out, mut replies) = (vec![7; 32_768], vec![7; moves.len() / 6 * 6]);
    let (reply, tally) = reference::play(table, moves, &mut out, &mut replies);
    out.truncate(16 * reply.records);
    Night { replies, table: out, tally }
}

/// What went wrong: a single move, two readings of a clock, a joint step, a night's list as a whole, the list of open moves of a table, or an Orc script.
pub enum Fault {
    Step(Case),
    Ticks(Readings),
    Joint(Closing),
    Open(Vec<u8>),
    Script(Script),
    List { table: Vec<u8>, moves: Vec<u8>, what: &'static str },
}

/// A night drawn move by move on the tables that the library leaves, each move compared.
pub fn draw(random: &mut Random, table: Vec<u8>, moves: usize, reached: &mut Reached) -> Result<Vec<u8>, Fault> {
    let mut list = vec![];
    let mut now = table;
    for _ in 0..moves {
        let m = next_move(random, &now);
        let case = Case { table: now.clone(), m: m.clone(), room: 32_768 };
        let outcome = compare::step(&case);
        if !outcome.agrees() {
            return Err(Fault::Step(case));
        }
        reached.step(&m, &outcome.ours);
        if outcome.ours.answer == 0 {
            now = outcome.successor;
        }
        list.extend(m);
    }
    Ok(list)
}

/// A move of six bytes; few unfoldings once the table is large.
pub fn next_move(random: &mut Random, table: &[u8]) -> Vec<u8> {
    loop {
        let mut m = generate::any_move(random, table);
        m.resize(6, 0);
        let grows = m[0] == 4 && table.len() > 16 * 200;
        if !grows || random.chance(3) {
            return m;
        }
    }
}

/// A list compared as a whole: replies, last table, tally, by the library's step and by its play.
pub fn compare_list(table: &[u8], moves: &[u8], reached: &mut Reached) -> Result<(), Fault> {
    let fault = |what| Err(Fault::List { table: table.to_vec(), moves: moves.to_vec(), what });
    let (ours, theirs) = (by_steps(table, moves), by_reference(table, moves));
    if ours.replies != theirs.replies {
        return fault("replies");
    }
    if ours.table != theirs.table {
        return fault("last table");
    }
    if ours.tally != theirs.tally {
        return fault("tally");
    }
    if let Some(what) = plays::differs(table, moves, reached) {
        return fault(what);
    }
    Ok(())
}
