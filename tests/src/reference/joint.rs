// One dome-close for several blocks (request 2026-06): 1 to 8 stops of a table fired as one step.
use super::faults::{planted, Fault};
use super::format::encode;
use super::moves::{killed, refuse, successor, Move};
use super::places::{places, Place};
use super::tables;
use super::terms::{is_label, Atom, Head, Term};
use super::{Refusal, Reply};
use crate::reply::Tally;

/// The stops at some positions fired as one step: the reply, the successor from the start of the output, and the tally.
pub fn joint(table: &[u8], stops: &[u16], out: &mut [u8]) -> (Reply, Tally) {
    let listed = positions(stops);
    let judged = judge(table, &listed, out.len());
    put(&judged, out);
    let kills = match &judged {
        Ok(_) if planted(Fault::TallyOfOne) => 1,
        Err(_) if !planted(Fault::TallyOfRefused) => 0,
        _ => listed.len() as u64,
    };
    let reply = match judged {
        Ok(next) => Reply { answer: 0, place: 0, records: next.size() },
        Err(r) => Reply { answer: r.answer, place: told(&r, &listed), records: 0 },
    };
    (reply, Tally { kills, ..Tally::default() })
}

/// The positions as they are listed: one that is listed twice counts as two.
fn positions(stops: &[u16]) -> Vec<usize> {
    let again = |i: usize| planted(Fault::TwiceIsOnce) && stops[..i].contains(&stops[i]);
    (0..stops.len()).filter(|i| !again(*i)).map(|i| stops[i] as usize).collect()
}

/// The place of a refusal.
fn told(r: &Refusal, listed: &[usize]) -> usize {
    let in_list = listed.iter().position(|a| *a == r.place).filter(|_| planted(Fault::PlaceInList) && [11, 26].contains(&r.answer));
    in_list.unwrap_or(r.place)
}

/// Refusals 1 to 7, 25, 11, 26 and 21 in this order, or the successor.
fn judge(table: &[u8], listed: &[usize], room: usize) -> Result<Term, Refusal> {
    if planted(Fault::NumberBeforeTable) {
        right_number(listed)?;
    }
    let term = tables::check(table)?;
    let all = places(&term);
    if planted(Fault::AbsentBeforeNumber) {
        live_stops(&all, listed)?;
    }
    right_number(listed)?;
    if planted(Fault::ClashBeforeAbsent) {
        apart(&found(&all, listed))?;
    }
    let stops = live_stops(&all, listed)?;
    if planted(Fault::RoomBeforeClash) {
        has_room(&fired(&term, &stops)?, room)?;
    }
    apart(&stops)?;
    let next = fired(&term, &stops)?;
    has_room(if planted(Fault::RoomForTable) { &term } else { &next }, room)?;
    Ok(next)
}

/// 25: none, or more than eight.
fn right_number(listed: &[usize]) -> Result<(), Refusal> {
    let least = !planted(Fault::EmptyHandedOn) as usize;
    let most = 8 + planted(Fault::NineFire) as usize - planted(Fault::SevenTheMost) as usize;
    if (least..=most).contains(&listed.len()) {
        return Ok(());
    }
    refuse(25, 0)
}

/// 21: the output is shorter than the successor.
fn has_room(next: &Term, room: usize) -> Result<(), Refusal> {
    if room < 16 * next.size() {
        return refuse(21, 0);
    }
    Ok(())
}

/// The live stop at a position, if there is one.
fn live_stop<'a, 'b>(all: &'b [Place<'a>], a: usize) -> Option<&'b Place<'a>> {
    let replicated = |p: &Place| p.way.iter().any(|above| above.term.head == Head::Replication);
    let misread = |p: &Place| planted(Fault::ReplicatedFires) && p.ready() || planted(Fault::DormantFires) && !replicated(p);
    all.get(a).filter(|p| matches!(p.here.head, Head::Kill(_)) && (p.live() || misread(p)))
}

/// The live stops among the listed positions.
fn found<'a, 'b>(all: &'b [Place<'a>], listed: &[usize]) -> Vec<&'b Place<'a>> {
    listed.iter().filter_map(|a| live_stop(all, *a)).collect()
}

/// 11: the first listed at which no live stop stands.
fn live_stops<'a, 'b>(all: &'b [Place<'a>], listed: &[usize]) -> Result<Vec<&'b Place<'a>>, Refusal> {
    let mut absent = listed.iter().copied().filter(|a| live_stop(all, *a).is_none());
    let first = if planted(Fault::AbsentByPlace) { absent.min() } else { absent.next() };
    first.map_or(Ok(found(all, listed)), |a| refuse(11, a))
}

/// 26: the first listed whose delimitation clashes with another's.
fn apart(stops: &[&Place]) -> Result<(), Refusal> {
    let counts = |i: usize, j: usize| if planted(Fault::EarlierOnly) { j < i } else { j != i };
    let clashes = |i: usize| (0..stops.len()).any(|j| counts(i, j) && clash(stops[i], stops[j]));
    let mut clashing = (0..stops.len()).filter(|i| clashes(*i)).map(|i| stops[i].number);
    let first = if planted(Fault::ClashByPlace) { clashing.min() } else { clashing.next() };
    first.map_or(Ok(()), |place| refuse(26, place))
}

/// Whether the delimitation of a stop lies inside that of another, holds it, or is the same.
fn clash(p: &Place, q: &Place) -> bool {
    let same = p.way[delimitation(p)].number == q.way[delimitation(q)].number;
    let spared = planted(Fault::SameScopeFires) && p.number != q.number;
    same && !spared || inside(p, q) && !planted(Fault::OnlyOuter) || inside(q, p) && !planted(Fault::OnlyInner)
}

/// How far down the way to a stop its delimitation stands: that of its own label.
fn delimitation(p: &Place) -> usize {
    let Head::Kill(label) = p.here.head else { unreachable!() };
    let nearest = || p.way.iter().rposition(|above| matches!(above.term.head, Head::Delimitation(any) if is_label(any)));
    if planted(Fault::NearestLabel) { nearest() } else { p.scope(label) }.unwrap()
}

/// Whether the delimitation of a stop lies inside that of another.
fn inside(p: &Place, q: &Place) -> bool {
    let above = &p.way[..delimitation(p)];
    let outer = q.way[delimitation(q)].number;
    let sheltered = |from: usize| planted(Fault::ShelteredApart) && above[from..].iter().any(|a| a.term.head == Head::Protection);
    above.iter().position(|a| a.number == outer).is_some_and(|at| !sheltered(at))
}

/// The stops fired singly, each at its record, which has the same way as long as their delimitations are apart.
fn fired(term: &Term, stops: &[&Place]) -> Result<Term, Refusal> {
    let mut now = term.clone();
    for (i, p) in stops.iter().enumerate() {
        now = if planted(Fault::NotCarried) { successor(&now, Move::Kill(p.number))? } else { fire(&now, p, i > 0) };
    }
    Ok(now)
}

/// One of the stops fired; `later` for all but the first, of use to planted faults only.
fn fire(now: &Term, p: &Place, later: bool) -> Term {
    let Head::Kill(label) = p.here.head else { unreachable!() };
    if later && planted(Fault::FirstAlone) {
        return now.clone();
    }
    if later && planted(Fault::SecondNotHalted) {
        return now.with(&p.path(), Term::nil());
    }
    let next = killed(now, &p.path(), label, false);
    if later && planted(Fault::SecondShelterHalted) {
        return emptied(&next, label, false);
    }
    next
}

/// The term with nothing left inside [k], not even in protections (of use to a planted fault only).
fn emptied(term: &Term, label: Atom, inside: bool) -> Term {
    let inside = inside || term.head.delimits(label);
    let stays = matches!(term.head, Head::Parallel | Head::Protection | Head::Delimitation(_) | Head::Replication);
    if inside && !stays {
        return Term::nil();
    }
    Term { head: term.head.clone(), parts: term.parts.iter().map(|p| emptied(p, label, inside)).collect() }
}

/// The successor from the start of the output.
fn put(judged: &Result<Term, Refusal>, out: &mut [u8]) {
    match judged {
        Ok(next) => {
            let bytes = encode(next);
            out[..bytes.len()].copy_from_slice(&bytes);
            if planted(Fault::ByteBehindJoint) && bytes.len() < out.len() {
                out[bytes.len()] = 0;
            }
        }
        Err(_) if planted(Fault::RefusedJointWrites) && !out.is_empty() => out[0] = 0,
        Err(_) => {}
    }
}
