// Communication: refusals 11 to 15, and the substitution.
use super::faults::{planted, Fault};
use super::moves::{refuse, wanted, whole_choice};
use super::places::Place;
use super::terms::{is_label, is_variable, Atom, Ends, Head, Term};
use super::Refusal;
use std::cell::OnceCell;

/// What the variables of a pattern take.
type Pairs = Vec<(Atom, Atom)>;

/// What every communication of a table looks at: its places; the [k], each with whether it holds a ready kill of k, which is found when it is first
/// asked; and the ready receives.
pub struct Around<'a, 'b> {
    all: &'b [Place<'a>],
    scopes: Vec<(&'b Place<'a>, OnceCell<bool>)>,
    rivals: Vec<&'b Place<'a>>,
}

/// Two parties that may communicate, and what the variables take.
pub struct Meeting<'a, 'b> {
    receive: &'b Place<'a>,
    invoke: &'b Place<'a>,
    pairs: Pairs,
}

pub fn communicate(all: &[Place], a: usize, b: usize) -> Result<Term, Refusal> {
    let Meeting { receive, invoke, pairs } = Around::new(all).meeting(a, b)?;
    Ok(joined(all, receive, invoke, &pairs))
}

impl<'a, 'b> Around<'a, 'b> {
    pub fn new(all: &'b [Place<'a>]) -> Around<'a, 'b> {
        let labelled = |p: &&Place| matches!(p.here.head, Head::Delimitation(label) if is_label(label));
        let counts = |p: &Place| if planted(Fault::ConflictAmongLive) { p.live() } else { p.ready() };
        let scopes = all.iter().filter(labelled).map(|p| (p, OnceCell::new())).collect();
        let rivals = all.iter().filter(|p| matches!(p.here.head, Head::Receive(_)) && counts(p)).collect();
        Around { all, scopes, rivals }
    }

    /// Refusals 11 to 15.
    pub fn meeting(&self, a: usize, b: usize) -> Result<Meeting<'a, 'b>, Refusal> {
        if planted(Fault::FaultAtB) {
            wanted(self.all, b, |h| matches!(h, Head::Invoke(_)))?;
        }
        let receive = wanted(self.all, a, |h| matches!(h, Head::Receive(_)))?;
        let invoke = wanted(self.all, b, |h| matches!(h, Head::Invoke(_)))?;
        let (pattern, sent) = (ends(receive), ends(invoke));
        let pairs = matching(pattern, sent).or_else(|what| refuse(12, if planted(Fault::DiffersAtReceive) { a } else { what }))?;
        if pairs.iter().any(|pair| !in_scope(self.all, receive, invoke, pair, &pairs)) {
            return refuse(13, a);
        }
        if planted(Fault::ConflictFirst) {
            self.no_tighter(receive, invoke, &pairs)?;
        }
        self.not_held(&[receive, invoke])?;
        self.no_tighter(receive, invoke, &pairs)?;
        Ok(Meeting { receive, invoke, pairs })
    }

    /// 14: no [k] around a party holds a ready kill of k.
    pub fn not_held(&self, parties: &[&Place]) -> Result<(), Refusal> {
        let watched = if planted(Fault::ReceiversScopes) { &parties[..1] } else { parties };
        let around = |p: &Place| planted(Fault::KillNextDoor) || watched.iter().any(|party| party.below(p.number));
        let holds = |p: &Place, known: &OnceCell<bool>| *known.get_or_init(|| holds_back(self.all, p));
        let mut held = self.scopes.iter().filter(|(p, known)| around(p) && holds(p, known));
        let first = if planted(Fault::NearestHeld) { held.last() } else { held.next() };
        first.map_or(Ok(()), |(p, _)| refuse(14, p.number))
    }

    /// 15: no ready receive of the whole table that fits the same values has fewer pattern variables.
    fn no_tighter(&self, receive: &Place, invoke: &Place, pairs: &Pairs) -> Result<(), Refusal> {
        let left_out = |other: &Place| planted(Fault::HeldReceiveLeftOut) && self.not_held(&[other]).is_err();
        let mut tighter = self.rivals.iter().filter(|other| fewer(other, receive, invoke, pairs));
        tighter.find(|p| !left_out(p)).map_or(Ok(()), |p| refuse(15, p.number))
    }

    /// The receives that are held back themselves no longer count (of use to a planted fault only).
    pub fn leave_held_out(&mut self) {
        let free: Vec<&Place> = self.rivals.iter().copied().filter(|p| self.not_held(&[p]).is_ok()).collect();
        self.rivals = free;
    }
}

fn ends<'a>(p: &Place<'a>) -> &'a Ends {
    match &p.here.head {
        Head::Receive(ends) | Head::Invoke(ends) => ends,
        _ => unreachable!(),
    }
}

/// What the pattern's variables take; or what differs, the lowest that applies: 0 a variable is sent, in the endpoint or the tuple, 1 another endpoint,
/// 2 another count, 3 to 6 another value in the first slot where the pattern has a value that is not the one sent.
fn matching(pattern: &Ends, sent: &Ends) -> Result<Pairs, usize> {
    let other_endpoint = (pattern.partner, pattern.operation) != (sent.partner, sent.operation);
    let unseen = other_endpoint && planted(Fault::SentVariableUnseen);
    let tuple: &[Atom] = if unseen { &[] } else { &sent.tuple };
    let unset = [sent.partner, sent.operation].iter().chain(tuple).any(|a| is_variable(*a)) && !planted(Fault::VariableSent);
    let mut whole = [(unset, 0), (other_endpoint, 1), (pattern.tuple.len() != sent.tuple.len(), 2)];
    if planted(Fault::CountBeforeEndpoint) {
        whole.swap(1, 2);
    }
    if let Some((_, number)) = whole.into_iter().find(|(applies, _)| *applies) {
        return Err(number);
    }
    let slots: Pairs = pattern.tuple.iter().copied().zip(sent.tuple.iter().copied()).collect();
    let taken = |w: Atom| is_variable(w) && !planted(Fault::PatternVariableDiffers);
    let mut others = slots.iter().enumerate().filter(|(_, (w, v))| !taken(*w) && w != v);
    let told = if planted(Fault::LastSlotTold) { others.next_back() } else { others.next() };
    match told {
        Some((i, _)) => Err(3 + i),
        None => Ok(slots.into_iter().filter(|(w, _)| is_variable(*w)).collect()),
    }
}

/// 13: the variable's delimitation encloses both parties; that of the value sent, if there is one, encloses the variable's.
fn in_scope(all: &[Place], receive: &Place, invoke: &Place, pair: &(Atom, Atom), pairs: &Pairs) -> bool {
    let (variable, value) = *pair;
    let Some(at) = receive.scope(variable) else { return false };
    let encloses_both = invoke.below(receive.way[at].number) || planted(Fault::ScopeOfReceive);
    let encloses_variable = |v: Atom| receive.way[..at].iter().any(|above| above.term.head.delimits(v));
    let delimited = |v: Atom| all.iter().any(|p| p.here.head.delimits(v));
    let value_fits = |v: Atom| !delimited(v) || encloses_variable(v) || planted(Fault::ValueEscapes);
    let others_fit = !planted(Fault::EveryValueEncloses) || pairs.iter().all(|(_, v)| value_fits(*v));
    encloses_both && value_fits(value) && others_fit
}

/// Whether a record is a [k] that holds a ready kill of k.
fn holds_back(all: &[Place], p: &Place) -> bool {
    let Head::Delimitation(label) = p.here.head else { return false };
    let own = |q: &Place| match q.here.head {
        Head::Kill(k) => k == label || planted(Fault::AnyLabelHolds),
        _ => false,
    };
    let counts = |q: &Place| if planted(Fault::LiveKillsOnly) { q.live() } else { q.ready() };
    is_label(label) && all.iter().any(|q| q.below(p.number) && counts(q) && own(q))
}

/// Whether another receive fits what is sent and has fewer pattern variables.
fn fewer(other: &Place, receive: &Place, invoke: &Place, ours: &Pairs) -> bool {
    let Ok(theirs) = matching(ends(other), ends(invoke)) else { return false };
    let open_for = |pairs: &Pairs, at: &Place, p: &Place| {
        let shared = |x: Atom| at.scope(x).is_some_and(|i| p.below(at.way[i].number));
        pairs.iter().filter(|(x, _)| shared(*x)).count()
    };
    let mut numbers = (theirs.len(), ours.len());
    if planted(Fault::OpenOfTheirs) {
        numbers.0 = open_for(&theirs, other, invoke);
    }
    if planted(Fault::OpenOfOurs) {
        numbers.1 = open_for(ours, receive, other);
    }
    let equal_hinders = planted(Fault::EqualHinders) && other.number != receive.number;
    numbers.0 < numbers.1 || (equal_hinders && numbers.0 == numbers.1)
}

/// The invoke becomes nil, the receive with its whole choice its continuation, and each variable its value throughout its delimitation.
fn joined(all: &[Place], receive: &Place, invoke: &Place, pairs: &Pairs) -> Term {
    let mut continuation = receive.here.parts[0].clone();
    if planted(Fault::OnlyContinuation) {
        for (x, v) in pairs {
            continuation = replaced(&continuation, *x, *v);
        }
    }
    let silent = if planted(Fault::InvokeStays) { all[0].here.clone() } else { all[0].here.with(&invoke.path(), Term::nil()) };
    let mut term = silent.with(&whole_choice(receive), continuation);
    if !planted(Fault::OnlyContinuation) {
        for (x, v) in pairs {
            term = bound(&term, *x, *v);
        }
    }
    term
}

/// The delimitation of x goes, and what was inside has v for x.
fn bound(term: &Term, x: Atom, v: Atom) -> Term {
    if term.head.delimits(x) {
        let inside = replaced(&term.parts[0], x, v);
        let stays = planted(Fault::DelimitationStays);
        return if stays { Term { head: term.head.clone(), parts: vec![inside] } } else { inside };
    }
    Term { head: term.head.clone(), parts: term.parts.iter().map(|p| bound(p, x, v)).collect() }
}

/// v for x everywhere: protected, replicated and dormant parts too.
fn replaced(term: &Term, x: Atom, v: Atom) -> Term {
    let spared = match term.head {
        Head::Protection => planted(Fault::ProtectedKeepVariables),
        Head::Replication => planted(Fault::ReplicatedKeepVariables),
        _ => false,
    };
    if spared {
        return term.clone();
    }
    let head = term.head.map(&|a| if a == x { v } else { a });
    Term { head, parts: term.parts.iter().map(|p| replaced(p, x, v)).collect() }
}
