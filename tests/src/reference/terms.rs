// Terms of COWS as a plain tree, and the atoms in them.

pub type Atom = u16;

/// The three disjoint sets of atoms.
#[derive(Clone, Copy, PartialEq, Eq, Debug)]
pub enum Set {
    Value,
    Variable,
    Label,
}

/// The set of an atom; atom 0 is in none.
pub fn set_of(atom: Atom) -> Option<Set> {
    match atom {
        0 => None,
        1..=32_767 => Some(Set::Value),
        32_768..=49_151 => Some(Set::Variable),
        49_152..=65_535 => Some(Set::Label),
    }
}

pub fn is_value(atom: Atom) -> bool {
    set_of(atom) == Some(Set::Value)
}

pub fn is_variable(atom: Atom) -> bool {
    set_of(atom) == Some(Set::Variable)
}

pub fn is_label(atom: Atom) -> bool {
    set_of(atom) == Some(Set::Label)
}

/// The smallest atom of a set.
pub fn smallest_of(set: Set) -> Atom {
    match set {
        Set::Value => 1,
        Set::Variable => 32_768,
        Set::Label => 49_152,
    }
}

/// Endpoint and tuple of an invoke or a receive.
#[derive(Clone, PartialEq, Eq, Debug)]
pub struct Ends {
    pub partner: Atom,
    pub operation: Atom,
    pub tuple: Vec<Atom>,
}

/// What a record says, without its children.
#[derive(Clone, PartialEq, Eq, Debug)]
pub enum Head {
    Nil,
    Kill(Atom),
    Invoke(Ends),
    Receive(Ends),
    Wait(u16),
    Choice,
    Parallel,
    Protection,
    Delimitation(Atom),
    Replication,
}

/// A term: a record and its children, left first.
#[derive(Clone, PartialEq, Eq, Debug)]
pub struct Term {
    pub head: Head,
    pub parts: Vec<Term>,
}

impl Head {
    /// Kinds 3 and up have a child, 5 and 6 one more.
    pub fn children(&self) -> usize {
        match self {
            Head::Nil | Head::Kill(_) | Head::Invoke(_) => 0,
            Head::Choice | Head::Parallel => 2,
            _ => 1,
        }
    }

    /// A guard is a nil, a receive, a wait, or a choice.
    pub fn is_guard(&self) -> bool {
        matches!(self, Head::Nil | Head::Receive(_) | Head::Wait(_) | Head::Choice)
    }

    pub fn delimits(&self, atom: Atom) -> bool {
        *self == Head::Delimitation(atom)
    }

    /// The atoms that the record uses. A delimitation is no use of its atom.
    pub fn uses(&self) -> Vec<Atom> {
        match self {
            Head::Kill(label) => vec![*label],
            Head::Invoke(ends) | Head::Receive(ends) => {
                let mut atoms = vec![ends.partner, ends.operation];
                atoms.extend(&ends.tuple);
                atoms
            }
            _ => vec![],
        }
    }

    /// Every atom written in the record.
    pub fn atoms(&self) -> Vec<Atom> {
        match self {
            Head::Delimitation(atom) => vec![*atom],
            _ => self.uses(),
        }
    }

    /// The record with f of each of its atoms.
    pub fn map(&self, f: &dyn Fn(Atom) -> Atom) -> Head {
        let of = |ends: &Ends| Ends { partner: f(ends.partner), operation: f(ends.operation), tuple: ends.tuple.iter().map(|a| f(*a)).collect() };
        match self {
            Head::Kill(label) => Head::Kill(f(*label)),
            Head::Invoke(ends) => Head::Invoke(of(ends)),
            Head::Receive(ends) => Head::Receive(of(ends)),
            Head::Delimitation(atom) => Head::Delimitation(f(*atom)),
            other => other.clone(),
        }
    }
}

impl Term {
    pub fn nil() -> Term {
        Term { head: Head::Nil, parts: vec![] }
    }

    /// The number of records.
    pub fn size(&self) -> usize {
        1 + self.parts.iter().map(Term::size).sum::<usize>()
    }

    /// The root has depth 1.
    pub fn depth(&self) -> usize {
        1 + self.parts.iter().map(Term::depth).max().unwrap_or(0)
    }

    /// The records in prefix order.
    pub fn heads(&self) -> Vec<&Head> {
        let mut all = vec![&self.head];
        for part in &self.parts {
            all.extend(part.heads());
        }
        all
    }

    /// Kills, invokes, receives and waits written anywhere.
    pub fn load(&self) -> u64 {
        let counts = |h: &&&Head| matches!(h, Head::Kill(_) | Head::Invoke(_) | Head::Receive(_) | Head::Wait(_));
        self.heads().iter().filter(counts).count() as u64
    }

    /// The term with f of every atom.
    pub fn map(&self, f: &dyn Fn(Atom) -> Atom) -> Term {
        Term { head: self.head.map(f), parts: self.parts.iter().map(|p| p.map(f)).collect() }
    }

    /// The term with another one at the end of a path of child numbers.
    pub fn with(&self, path: &[usize], new: Term) -> Term {
        let Some((first, rest)) = path.split_first() else { return new };
        let mut parts = self.parts[..*first].to_vec();
        parts.push(self.parts[*first].with(rest, new));
        parts.extend_from_slice(&self.parts[first + 1..]);
        Term { head: self.head.clone(), parts }
    }
}
