// Which bytes are a well-formed table: refusals 1 to 7.
use super::faults::{planted, Fault};
use super::format::read_head;
use super::places::{places, Place};
use super::terms::{is_value, Atom, Head, Term};
use super::Refusal;

/// The term of a well-formed table, or the refusal with the lowest number, then the lowest place.
pub fn check(table: &[u8]) -> Result<Term, Refusal> {
    let too_long = table.len() > 32_768 && !planted(Fault::LongTable);
    if table.is_empty() || too_long || table.len() % 16 != 0 {
        return Err(Refusal { answer: 1, place: 0 });
    }
    let term = read_table(table)?;
    check_term(&term)?;
    Ok(term)
}

/// Refusals 2 and 3.
fn read_table(table: &[u8]) -> Result<Term, Refusal> {
    let heads: Vec<Option<Head>> = table.chunks(16).map(read_head).collect();
    if let Some(place) = heads.iter().position(Option::is_none) {
        let early = planted(Fault::BehindTheTerm) && ended_before(&heads, place);
        if !early {
            return Err(Refusal { answer: 2, place });
        }
    }
    let heads: Vec<Head> = heads.into_iter().map(|h| h.unwrap_or(Head::Nil)).collect();
    let mut next = 0;
    let Some(term) = read_term(&heads, &mut next) else {
        let place = heads.len() - planted(Fault::ShapePlace) as usize;
        return Err(Refusal { answer: 3, place });
    };
    if next < heads.len() {
        return Err(Refusal { answer: 3, place: next });
    }
    Ok(term)
}

/// Whether the term ends before a place (of use to a planted fault only).
fn ended_before(heads: &[Option<Head>], place: usize) -> bool {
    let before: Vec<Head> = heads[..place].iter().flatten().cloned().collect();
    read_term(&before, &mut 0).is_some()
}

/// A record, then its children; none if the records run out.
fn read_term(heads: &[Head], next: &mut usize) -> Option<Term> {
    let head = heads.get(*next)?.clone();
    *next += 1;
    let mut parts = vec![];
    for _ in 0..head.children() {
        parts.push(read_term(heads, next)?);
    }
    Some(Term { head, parts })
}

/// Refusals 4 to 7.
fn check_term(term: &Term) -> Result<(), Refusal> {
    let all = places(term);
    let deepest = if planted(Fault::Depth257) { 257 } else { 256 };
    refuse_first(4, &all, |p| p.way.len() + 1 > deepest)?;
    if planted(Fault::OpenBeforeGuards) {
        refuse_first(6, &all, open)?;
    }
    refuse_first(5, &all, no_guard)?;
    refuse_first(6, &all, open)?;
    refuse_first(7, &all, |p| second_delimitation(&all, p) || outside(&all, p))
}

/// Refused at the first place that fails a test.
fn refuse_first(answer: u8, all: &[Place], fails: impl Fn(&Place) -> bool) -> Result<(), Refusal> {
    match all.iter().find(|p| fails(p)) {
        Some(p) => Err(Refusal { answer, place: p.number }),
        None => Ok(()),
    }
}

/// 5: a choice's child that is no guard.
fn no_guard(p: &Place) -> bool {
    let Some(above) = p.way.last() else { return false };
    let spared = planted(Fault::RightChildFree) && above.child == 1;
    above.term.head == Head::Choice && !p.here.head.is_guard() && !spared
}

/// 6: a variable or label used outside every delimitation of it.
fn open(p: &Place) -> bool {
    p.here.head.uses().iter().any(|a| !is_value(*a) && !p.inside(*a))
}

/// 7: an atom that an earlier record delimits too.
fn second_delimitation(all: &[Place], p: &Place) -> bool {
    let Head::Delimitation(atom) = p.here.head else { return false };
    if planted(Fault::SecondBeside) {
        return p.inside(atom);
    }
    all[..p.number].iter().any(|q| q.here.head.delimits(atom))
}

/// 7: a delimited value used outside every delimitation of it.
fn outside(all: &[Place], p: &Place) -> bool {
    let upto = if planted(Fault::UseBefore) { p.number } else { all.len() };
    let delimited = |a: Atom| all[..upto].iter().any(|q| q.here.head.delimits(a));
    p.here.head.uses().iter().any(|a| is_value(*a) && !p.inside(*a) && delimited(*a))
}
