// The six moves on a term: what refuses each (11 to 18), and its successor.
use super::communicate::{self, Around};
use super::faults::{planted, Fault};
use super::places::{places, Place};
use super::terms::{is_label, set_of, smallest_of, Atom, Head, Term};
use super::Refusal;

#[derive(Clone, Copy, PartialEq, Eq, Debug)]
pub enum Move {
    Kill(usize),
    Communicate(usize, usize),
    Timeout(usize),
    Elapse(u16),
    Unfold(usize),
    Extrude(usize),
}

/// A move is 6 bytes: kind, a zero byte, a, b; only a communication uses b (refusal 10).
pub fn read_move(bytes: &[u8]) -> Option<Move> {
    if bytes.len() != 6 || bytes[1] != 0 {
        return None;
    }
    let a = u16::from_le_bytes([bytes[2], bytes[3]]);
    let b = u16::from_le_bytes([bytes[4], bytes[5]]);
    let unused = b == 0 || (planted(Fault::ElapseUsesB) && bytes[0] == 3);
    match bytes[0] {
        1 => Some(Move::Communicate(a as usize, b as usize)),
        0 if unused => Some(Move::Kill(a as usize)),
        2 if unused => Some(Move::Timeout(a as usize)),
        3 if unused => Some(Move::Elapse(a)),
        4 if unused => Some(Move::Unfold(a as usize)),
        5 if unused => Some(Move::Extrude(a as usize)),
        _ => None,
    }
}

impl Move {
    /// Kind, a and b, as they stand in a move's bytes.
    pub fn numbers(self) -> (usize, usize, usize) {
        match self {
            Move::Kill(a) => (0, a, 0),
            Move::Communicate(a, b) => (1, a, b),
            Move::Timeout(a) => (2, a, 0),
            Move::Elapse(d) => (3, d as usize, 0),
            Move::Unfold(a) => (4, a, 0),
            Move::Extrude(a) => (5, a, 0),
        }
    }

    pub fn kind(self) -> usize {
        self.numbers().0
    }
}

/// The six bytes of a move.
pub fn write_move(m: Move) -> [u8; 6] {
    let (kind, a, b) = m.numbers();
    let (a, b) = ((a as u16).to_le_bytes(), (b as u16).to_le_bytes());
    [kind as u8, 0, a[0], a[1], b[0], b[1]]
}

/// The successor of a well-formed term, or the move's refusal of 11 to 18.
pub fn successor(term: &Term, m: Move) -> Result<Term, Refusal> {
    successor_among(&places(term), m)
}

/// The same from the places of the term.
pub fn successor_among(all: &[Place], m: Move) -> Result<Term, Refusal> {
    match m {
        Move::Kill(a) => kill(all, a),
        Move::Communicate(a, b) => communicate::communicate(all, a, b),
        Move::Timeout(a) => timeout(all, a),
        Move::Elapse(d) => elapse(all, d),
        Move::Unfold(a) => unfold(all, a),
        Move::Extrude(a) => extrude(all, a),
    }
}

pub fn refuse<T>(answer: u8, place: usize) -> Result<T, Refusal> {
    Err(Refusal { answer, place })
}

/// The live record at a place, if it is of the kind wanted; else 11.
pub fn wanted<'a, 'b>(all: &'b [Place<'a>], a: usize, kind: impl Fn(&Head) -> bool) -> Result<&'b Place<'a>, Refusal> {
    match all.get(a) {
        Some(p) if p.live() && kind(&p.here.head) => Ok(p),
        _ => refuse(11, a),
    }
}

/// A kill: inside [k], at each parallel on the way down to it, the other side is halted.
fn kill(all: &[Place], a: usize) -> Result<Term, Refusal> {
    let p = wanted(all, a, |h| matches!(h, Head::Kill(_)))?;
    let Head::Kill(label) = p.here.head else { unreachable!() };
    Ok(killed(all[0].here, &p.path(), label, false))
}

/// The term after the kill at the end of a path; `inside` once [k] is passed.
pub fn killed(term: &Term, path: &[usize], label: Atom, inside: bool) -> Term {
    let Some((way, rest)) = path.split_first() else { return Term::nil() };
    let sheltered = planted(Fault::ProtectionShelters) && term.head == Head::Protection;
    let inside = planted(Fault::HaltsOutside) || ((inside || term.head.delimits(label)) && !sheltered);
    let halts = inside && term.head == Head::Parallel;
    let mut parts = vec![];
    for (child, part) in term.parts.iter().enumerate() {
        parts.push(if child == *way {
            killed(part, rest, label, inside)
        } else if halts {
            halt(part)
        } else {
            part.clone()
        });
    }
    Term { head: term.head.clone(), parts }
}

/// Nil for kills, invokes, whole choices, receives and waits; a protection stays whole.
fn halt(term: &Term) -> Term {
    let through = || Term { head: term.head.clone(), parts: term.parts.iter().map(halt).collect() };
    match &term.head {
        Head::Protection if planted(Fault::HaltEntersProtection) => through(),
        Head::Protection => term.clone(),
        Head::Replication if planted(Fault::HaltSparesReplication) => term.clone(),
        Head::Invoke(_) if planted(Fault::HaltSparesInvokes) => term.clone(),
        Head::Choice if planted(Fault::HaltEntersChoice) => through(),
        Head::Delimitation(_) if planted(Fault::HaltDropsDelimitation) => halt(&term.parts[0]),
        Head::Parallel | Head::Delimitation(_) | Head::Replication => through(),
        Head::Nil | Head::Kill(_) | Head::Invoke(_) => Term::nil(),
        Head::Choice | Head::Receive(_) | Head::Wait(_) => Term::nil(),
    }
}

/// The path to the whole choice around a guard: up over all choices directly above it.
pub fn whole_choice(p: &Place) -> Vec<usize> {
    let mut path = p.path();
    let mut climbed = 0;
    while path.last().is_some() && p.way[path.len() - 1].term.head == Head::Choice {
        if planted(Fault::InnerChoice) && climbed == 1 {
            break;
        }
        path.pop();
        climbed += 1;
    }
    path
}

/// A timeout: the wait, with the whole choice around it, becomes its continuation.
fn timeout(all: &[Place], a: usize) -> Result<Term, Refusal> {
    let p = wanted(all, a, |h| matches!(h, Head::Wait(_)))?;
    if planted(Fault::TimeoutHeld) {
        Around::new(all).not_held(&[p])?;
    }
    if p.here.head != Head::Wait(0) && !planted(Fault::TimeoutEarly) {
        return refuse(16, a);
    }
    Ok(all[0].here.with(&whole_choice(p), p.here.parts[0].clone()))
}

/// Time: each live wait falls, whatever it holds. Only a time of 0 is refused.
fn elapse(all: &[Place], by: u16) -> Result<Term, Refusal> {
    if by == 0 && !planted(Fault::TimeZero) {
        return refuse(17, 0);
    }
    if planted(Fault::WaitHoldsTime) {
        if let Some((p, _)) = live_waits(all).find(|(_, n)| *n < by) {
            return refuse(17, p);
        }
    }
    if planted(Fault::UpToShortest) {
        let shortest = live_waits(all).map(|(_, n)| n).min().unwrap_or(by);
        return Ok(elapsed(all[0].here, by.min(shortest)));
    }
    Ok(elapsed(all[0].here, by))
}

/// (for planted faults) The places and intervals of the live waits.
fn live_waits<'a>(all: &'a [Place<'a>]) -> impl Iterator<Item = (usize, u16)> + 'a {
    all.iter().filter(|p| p.live()).filter_map(|p| if let Head::Wait(n) = p.here.head { Some((p.number, n)) } else { None })
}

/// Every live wait less the time; what stands behind a wait, a receive or a replication is not live.
fn elapsed(term: &Term, by: u16) -> Term {
    match term.head {
        Head::Wait(n) => Term { head: Head::Wait(lowered(n, by)), parts: term.parts.clone() },
        Head::Receive(_) => term.clone(),
        Head::Replication if !planted(Fault::ReplicatedWaitFalls) => term.clone(),
        _ => Term { head: term.head.clone(), parts: term.parts.iter().map(|p| elapsed(p, by)).collect() },
    }
}

/// An interval less the time, and 0 where it holds less.
fn lowered(interval: u16, by: u16) -> u16 {
    if interval >= by {
        return interval - by;
    }
    if planted(Fault::WaitGoesRound) {
        return interval.wrapping_sub(by);
    }
    if planted(Fault::ShorterWaitKept) {
        return interval;
    }
    0
}

/// Unfolding: a parallel of a copy of the body (left) and the replication itself.
fn unfold(all: &[Place], a: usize) -> Result<Term, Refusal> {
    let p = wanted(all, a, |h| *h == Head::Replication)?;
    let copy = renamed(all, &p.here.parts[0]);
    let mut parts = vec![copy, p.here.clone()];
    if planted(Fault::CopyRight) {
        parts.reverse();
    }
    Ok(all[0].here.with(&p.path(), Term { head: Head::Parallel, parts }))
}

/// A copy of a body whose delimited atoms are new, chosen in record order.
fn renamed(all: &[Place], body: &Term) -> Term {
    let mut taken: Vec<Atom> = all.iter().flat_map(|p| p.here.head.atoms()).collect();
    if planted(Fault::OnlyDelimitedTaken) {
        taken = all.iter().filter(|p| matches!(p.here.head, Head::Delimitation(_))).flat_map(|p| p.here.head.atoms()).collect();
    }
    let mut news: Vec<(Atom, Atom)> = vec![];
    for old in delimited(body) {
        let new = (smallest_of(set_of(old).unwrap())..).find(|n| !taken.contains(n)).unwrap();
        if !planted(Fault::NewAtomTwice) {
            taken.push(new);
        }
        news.push((old, new));
    }
    if planted(Fault::CopyNotRenamed) {
        news.clear();
    }
    body.map(&|atom| news.iter().find(|(old, _)| *old == atom).map_or(atom, |(_, new)| *new))
}

/// The atoms that a term delimits, in record order.
fn delimited(term: &Term) -> Vec<Atom> {
    let mut atoms: Vec<Atom> = term.heads().iter().filter_map(|h| if let Head::Delimitation(a) = h { Some(*a) } else { None }).collect();
    if planted(Fault::RenamedBackwards) {
        atoms.reverse();
    }
    atoms
}

/// Extrusion: the delimitation changes places with its parent.
fn extrude(all: &[Place], a: usize) -> Result<Term, Refusal> {
    let p = wanted(all, a, |h| matches!(h, Head::Delimitation(_)))?;
    let Head::Delimitation(atom) = p.here.head else { unreachable!() };
    if is_label(atom) && !planted(Fault::LabelExtruded) {
        return refuse(18, a);
    }
    let Some(above) = p.way.last() else { return refuse(18, a) };
    if !matches!(above.term.head, Head::Parallel | Head::Protection | Head::Delimitation(_)) {
        return refuse(18, a);
    }
    let mut parent = above.term.clone();
    parent.parts[above.child] = p.here.parts[0].clone();
    if planted(Fault::SidesSwapped) {
        parent.parts.reverse();
    }
    let path = p.path();
    let outer = Term { head: p.here.head.clone(), parts: vec![parent] };
    Ok(all[0].here.with(&path[..path.len() - 1], outer))
}
