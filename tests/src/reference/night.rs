// One move on any bytes, and a night of moves: refusals 10, 19, 20 and 21, replies, outputs and the tally.
use super::faults::{planted, Fault};
use super::format::encode;
use super::moves::{read_move, successor, Move};
use super::tables;
use super::terms::{Head, Term};
use super::{Refusal, Reply};
use crate::reply::Tally;

/// The reply to a judgement: the records of the term, or the refusal.
fn reply(judged: &Result<Term, Refusal>) -> Reply {
    match judged {
        Ok(term) => Reply { answer: 0, place: 0, records: term.size() },
        Err(r) => Reply { answer: r.answer, place: r.place, records: 0 },
    }
}

/// Whether bytes are a well-formed table.
pub fn check(table: &[u8]) -> Reply {
    reply(&tables::check(table))
}

/// The load of a table: its kills, invokes, receives and waits, in place of the records.
pub fn load(table: &[u8]) -> Reply {
    let judged = tables::check(table);
    let load = judged.as_ref().map_or(0, Term::load);
    Reply { records: load as usize, ..reply(&judged) }
}

/// A move on a term with room for so many bytes: refusals 10 to 21.
fn judge(term: &Term, m: &[u8], room: usize) -> Result<Term, Refusal> {
    let m = read_move(m).ok_or(Refusal { answer: 10, place: 0 })?;
    let next = successor(term, m)?;
    let no_room = room < 16 * next.size() + planted(Fault::RoomForOneMore) as usize;
    if no_room && planted(Fault::RoomBeforeLimits) {
        return Err(Refusal { answer: 21, place: 0 });
    }
    if too_large(&next) {
        return Err(Refusal { answer: 20, place: 0 });
    }
    if no_room {
        return Err(Refusal { answer: 21, place: 0 });
    }
    Ok(next)
}

/// 20: a successor of over 2,048 records or depth 256.
pub fn too_large(next: &Term) -> bool {
    let too_many = next.size() > 2_048 && !planted(Fault::NoLimitOfRecords);
    let too_deep = next.depth() > 256 && !planted(Fault::NoLimitOfDepth);
    too_many || too_deep
}

/// One move on a table: the reply, and the successor from the start of the output.
pub fn step(table: &[u8], m: &[u8], out: &mut [u8]) -> Reply {
    let judged = tables::check(table).and_then(|term| judge(&term, m, out.len()));
    match &judged {
        Ok(next) => {
            let bytes = encode(next);
            out[..bytes.len()].copy_from_slice(&bytes);
            if planted(Fault::ByteBehind) && bytes.len() < out.len() {
                out[bytes.len()] = 0;
            }
        }
        Err(_) if planted(Fault::RefusalWrites) && !out.is_empty() => out[0] = 0,
        Err(_) => {}
    }
    reply(&judged)
}

/// A list of moves: play's own reply, both buffers and the tally.
pub fn play(table: &[u8], moves: &[u8], out: &mut [u8], replies: &mut [u8]) -> (Reply, Tally) {
    let refused = |answer, place| (Reply { answer, place, records: 0 }, Tally::default());
    let mut term = match tables::check(table) {
        Ok(term) => term,
        Err(r) => return refused(r.answer, r.place),
    };
    let longest = if planted(Fault::TailBeyondList) { 60_005 } else { 60_000 };
    if moves.len() > longest {
        return refused(19, 0);
    }
    if out.len() < 32_768 || replies.len() < moves.len() / 6 * 6 {
        return refused(21, 0);
    }
    let mut tally = Tally::default();
    for (m, answer) in moves.chunks_exact(6).zip(replies.chunks_exact_mut(6)) {
        play_move(&mut term, m, answer, &mut tally);
    }
    finish(&term, out);
    (Reply { answer: 0, place: 0, records: term.size() }, tally)
}

/// One move of a night: the term that is kept, the tally, and six bytes of reply.
fn play_move(term: &mut Term, m: &[u8], answer: &mut [u8], tally: &mut Tally) {
    let judged = judge(term, m, 32_768);
    let said = reply(&judged);
    if judged.is_ok() || planted(Fault::RefusedCounted) {
        count(term, m, tally);
    }
    let mut now = term.size();
    if let Ok(next) = judged {
        now = next.size();
        *term = next;
    } else if planted(Fault::NoRecordsKept) {
        now = 0;
    }
    for (slot, number) in [said.answer as usize, said.place, now].into_iter().enumerate() {
        answer[2 * slot..2 * slot + 2].copy_from_slice(&(number as u16).to_le_bytes());
    }
}

/// A meeting, kill or timeout adds 1 to its count, an unfolding the load of the body as it stood before.
fn count(term: &Term, m: &[u8], tally: &mut Tally) {
    match read_move(m) {
        Some(Move::Communicate(..)) => tally.communications += 1,
        Some(Move::Kill(_)) => tally.kills += 1,
        Some(Move::Timeout(_)) => tally.timeouts += 1,
        Some(Move::Unfold(a)) => tally.copied += copied(term, a),
        _ => {}
    }
}

fn copied(term: &Term, a: usize) -> u64 {
    let all = super::places::places(term);
    match all.get(a) {
        _ if planted(Fault::CopiedWholeTable) => term.load(),
        Some(p) if p.here.head == Head::Replication => p.here.parts[0].load(),
        _ => 0,
    }
}

/// The last table with zeros up to byte 32,768.
fn finish(term: &Term, out: &mut [u8]) {
    let bytes = encode(term);
    out[..bytes.len()].copy_from_slice(&bytes);
    if !planted(Fault::NoZerosBehind) {
        out[bytes.len()..32_768].fill(0);
    }
}
