// What can happen now (request 2026-01): every move but time that would be accepted, in the request's order, and the list in a lent buffer.
use super::communicate::Around;
use super::faults::{planted, Fault};
use super::moves::{successor_among, write_move, Move};
use super::night::too_large;
use super::places::{places, Place};
use super::tables;
use super::terms::{Head, Term};
use super::{Refusal, Reply};

/// The open moves of a table in the order of the list, and the refusals of the other moves that its records are of the kinds for.
#[derive(Default)]
pub struct Found {
    pub open: Vec<Move>,
    pub refused: Vec<(Move, u8)>,
}

/// The open moves of a table, or its refusal of 1 to 7.
pub fn open_moves(table: &[u8]) -> Result<Found, Refusal> {
    Ok(judged(&tables::check(table)?))
}

/// Each candidate judged for itself.
fn judged(term: &Term) -> Found {
    let all = places(term);
    let mut around = Around::new(&all);
    if planted(Fault::HeldReceiveUnlisted) {
        around.leave_held_out();
    }
    let mut found = Found::default();
    for m in candidates(&all) {
        match judge(&all, &around, m) {
            Ok(()) => found.open.push(m),
            Err(r) => found.refused.push((m, r.answer)),
        }
    }
    misread(&mut found);
    found
}

/// The moves whose records are of the kinds wanted: stops by a, meetings by a then b, expiries, unfoldings, floatings by a.
fn candidates(all: &[Place]) -> Vec<Move> {
    let of = |kind: fn(&Head) -> bool| all.iter().filter(move |p| kind(&p.here.head)).map(|p| p.number);
    let mut moves: Vec<Move> = of(|h| matches!(h, Head::Kill(_))).map(Move::Kill).collect();
    for a in of(|h| matches!(h, Head::Receive(_))) {
        moves.extend(of(|h| matches!(h, Head::Invoke(_))).map(|b| Move::Communicate(a, b)));
    }
    moves.extend(of(|h| matches!(h, Head::Wait(_))).map(Move::Timeout));
    moves.extend(of(|h| *h == Head::Replication).map(Move::Unfold));
    moves.extend(of(|h| matches!(h, Head::Delimitation(_))).map(Move::Extrude));
    moves
}

/// Refusals 11 to 18 and 20. A meeting puts no record where none was and none deeper, so that it is never 20.
fn judge(all: &[Place], around: &Around, m: Move) -> Result<(), Refusal> {
    if let Move::Communicate(a, b) = m {
        return around.meeting(a, b).map(|_| ());
    }
    let next = successor_among(all, m)?;
    if too_large(&next) && !planted(Fault::TooLargeListed) {
        return Err(Refusal { answer: 20, place: 0 });
    }
    Ok(())
}

/// The planted faults of the list as a whole.
fn misread(found: &mut Found) {
    let open = &mut found.open;
    let meets = |m: &Move| matches!(m, Move::Communicate(..));
    if planted(Fault::LastFloatingLeftOut) && matches!(open.last(), Some(Move::Extrude(_))) {
        open.pop();
    }
    if let Some(at) = open.iter().rposition(meets).filter(|_| planted(Fault::MeetingTwice)) {
        open.insert(at, open[at]);
    }
    if planted(Fault::MeetingsByB) {
        open.sort_by_key(|m| (m.numbers().0, m.numbers().2, m.numbers().1));
    }
    if planted(Fault::ByPlace) {
        open.sort_by_key(|m| (m.numbers().1, m.numbers().2));
    }
}

/// The reply for a buffer of that length, and the moves from its start if all of them have room; else 22.
pub fn put_list(found: &Result<Found, Refusal>, list: &mut [u8]) -> Reply {
    let open = match found {
        Ok(found) => &found.open,
        Err(r) => return Reply { answer: r.answer, place: r.place, records: 0 },
    };
    let bytes: Vec<u8> = open.iter().flat_map(|m| write_move(*m)).collect();
    if list.len() < bytes.len() + planted(Fault::RoomForMoreThanList) as usize {
        return no_room(&bytes, list);
    }
    list[..bytes.len()].copy_from_slice(&bytes);
    if planted(Fault::ByteBehindList) && bytes.len() < list.len() {
        list[bytes.len()] = 0;
    }
    Reply { answer: 0, place: 0, records: open.len() }
}

/// 22: the number of moves, and an untouched buffer.
fn no_room(bytes: &[u8], list: &mut [u8]) -> Reply {
    let fits = list.len() / 6;
    if planted(Fault::PartOfList) {
        list[..6 * fits].copy_from_slice(&bytes[..6 * fits]);
    }
    let place = if planted(Fault::PlaceOfTheRest) { bytes.len() / 6 - fits } else { bytes.len() / 6 };
    Reply { answer: 22, place, records: 0 }
}

/// The open moves of a table in a lent buffer.
pub fn open(table: &[u8], list: &mut [u8]) -> Reply {
    put_list(&open_moves(table), list)
}
