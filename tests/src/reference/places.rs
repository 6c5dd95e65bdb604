// The records of a term in prefix order, each with the way to it; which of them are live and which ready.
use super::faults::{planted, Fault};
use super::terms::{Atom, Head, Term};

/// A record with the records above it, the root first.
pub struct Place<'a> {
    pub number: usize,
    pub here: &'a Term,
    pub way: Vec<Above<'a>>,
}

/// A record on a way, and which of its children the way takes.
#[derive(Clone, Copy)]
pub struct Above<'a> {
    pub number: usize,
    pub term: &'a Term,
    pub child: usize,
}

/// All places, in record order.
pub fn places(term: &Term) -> Vec<Place<'_>> {
    let mut all = vec![];
    collect(term, vec![], &mut all);
    all
}

fn collect<'a>(here: &'a Term, way: Vec<Above<'a>>, all: &mut Vec<Place<'a>>) {
    let number = all.len();
    all.push(Place { number, here, way: way.clone() });
    for (child, part) in here.parts.iter().enumerate() {
        let mut below = way.clone();
        below.push(Above { number, term: here, child });
        collect(part, below, all);
    }
}

impl<'a> Place<'a> {
    /// The way passes only parallel, protection, delimitation and choice.
    pub fn live(&self) -> bool {
        self.way.iter().all(|above| match above.term.head {
            Head::Replication => planted(Fault::LiveUnderReplication),
            _ => passes(&above.term.head),
        })
    }

    /// The same with replication allowed.
    pub fn ready(&self) -> bool {
        self.way.iter().all(|above| above.term.head == Head::Replication || passes(&above.term.head))
    }

    /// The child numbers from the root to here.
    pub fn path(&self) -> Vec<usize> {
        self.way.iter().map(|above| above.child).collect()
    }

    /// Whether the record at a place stands above this one.
    pub fn below(&self, number: usize) -> bool {
        self.way.iter().any(|above| above.number == number)
    }

    /// Whether a delimitation of the atom stands above.
    pub fn inside(&self, atom: Atom) -> bool {
        self.way.iter().any(|above| above.term.head.delimits(atom))
    }

    /// How far down the way the delimitation of an atom stands.
    pub fn scope(&self, atom: Atom) -> Option<usize> {
        self.way.iter().position(|above| above.term.head.delimits(atom))
    }
}

fn passes(head: &Head) -> bool {
    matches!(head, Head::Parallel | Head::Protection | Head::Delimitation(_) | Head::Choice)
}
