// The library beside the independent implementation: one case, compared byte by byte, and what was reached.
use crate::bytes;
use crate::closed::Closed;
use crate::library;
use crate::lists::Listed;
use crate::readings::Ticking;
use crate::reference;
use crate::reply::Reply;
use crate::translations::Translations;

/// A table, a move and the bytes of room in the output.
#[derive(Clone, Debug)]
pub struct Case {
    pub table: Vec<u8>,
    pub m: Vec<u8>,
    pub room: usize,
}

/// Bytes that must not change stand on both sides of every buffer that is lent.
const FENCE: usize = 48;

/// A lent buffer of so many bytes between two fences, filled with a pattern.
pub struct Lent {
    all: Vec<u8>,
    room: usize,
}

impl Lent {
    pub fn new(room: usize) -> Lent {
        let all = (0..room + 2 * FENCE).map(|i| (i * 37 + 11) as u8 | 1).collect();
        Lent { all, room }
    }

    pub fn lend(&mut self) -> &mut [u8] {
        &mut self.all[FENCE..FENCE + self.room]
    }

    pub fn bytes(&self) -> &[u8] {
        &self.all[FENCE..FENCE + self.room]
    }

    /// Whether two buffers hold the same bytes, fences included.
    pub fn same(&self, other: &Lent) -> bool {
        self.all == other.all
    }
}

/// What both gave for a case.
pub struct Outcome {
    pub ours: Reply,
    pub theirs: Reply,
    pub successor: Vec<u8>,
    pub same_output: bool,
    pub input_kept: bool,
}

impl Outcome {
    pub fn agrees(&self) -> bool {
        self.ours == self.theirs && self.same_output && self.input_kept
    }
}

/// A step by the library (ours) and by the independent implementation (theirs).
pub fn step(case: &Case) -> Outcome {
    let (table, m) = (case.table.clone(), case.m.clone());
    let (mut out, mut expected) = (Lent::new(case.room), Lent::new(case.room));
    let ours = library::step(&table, &m, out.lend());
    let theirs = reference::step(&case.table, &case.m, expected.lend());
    // once more into a block of its own, where a memory checker sees any byte outside
    let mut alone = Lent::new(case.room).bytes().to_vec();
    let again = library::step(&table, &m, &mut alone);
    let same_output = out.same(&expected) && again == ours && alone == out.bytes();
    let successor = out.bytes()[..(16 * ours.records).min(case.room)].to_vec();
    Outcome { ours, theirs, successor, same_output, input_kept: table == case.table && m == case.m }
}

/// A check by both, and the load.
pub fn check(table: &[u8]) -> Outcome {
    let lent = table.to_vec();
    let ours = library::check(&lent);
    let theirs = reference::check(table);
    let same_load = library::load(&lent) == reference::load(table);
    Outcome { ours, theirs, successor: vec![], same_output: same_load, input_kept: lent == table }
}

/// A reply in words.
pub fn said(r: &Reply) -> String {
    format!("{} at {}, {} records", r.answer, r.place, r.records)
}

/// A case and the two answers, for the reader.
pub fn describe(case: &Case) -> String {
    let outcome = step(case);
    let (checked, expected) = (library::check(&case.table), reference::check(&case.table));
    let (loaded, weighed) = (library::load(&case.table), reference::load(&case.table));
    format!(
        "  table ({} records): {}\n  move {:?}, room {}\n  step: library {}; independent {}; output {}\n  check: library {}; independent {}\n  load: library {}; independent {}",
        case.table.len() / 16,
        bytes::text(&case.table),
        case.m,
        case.room,
        said(&outcome.ours),
        said(&outcome.theirs),
        if outcome.same_output { "the same" } else { "differs" },
        said(&checked),
        said(&expected),
        said(&loaded),
        said(&weighed),
    )
}

/// How often each answer was given, each place of 12 by a step, and each kind of move accepted.
#[derive(Clone, Default)]
pub struct Reached {
    pub answers: Vec<u64>,
    pub differences: [u64; 7],
    pub accepted: [u64; 6],
    pub steps: u64,
    pub checks: u64,
    pub plays: u64,
    pub played: u64,
    pub listed: Listed,
    pub translations: Translations,
    pub ticking: Ticking,
    pub closed: Closed,
}

impl Reached {
    pub fn new() -> Reached {
        Reached { answers: vec![0; 256], ..Reached::default() }
    }

    pub fn step(&mut self, m: &[u8], reply: &Reply) {
        self.steps += 1;
        self.answers[reply.answer as usize] += 1;
        match reply.answer {
            0 => self.accepted[m[0] as usize] += 1,
            12 if reply.place < 7 => self.differences[reply.place] += 1,
            _ => {}
        }
    }

    pub fn check(&mut self, reply: &Reply) {
        self.checks += 1;
        self.answers[reply.answer as usize] += 1;
    }

    /// A list of open moves in a buffer of so many bytes.
    pub fn list(&mut self, room: usize, reply: &Reply) {
        self.answers[reply.answer as usize] += 1;
        self.listed.list(room, reply);
    }

    /// A list of so many moves.
    pub fn play(&mut self, moves: usize, reply: &Reply) {
        self.plays += 1;
        self.answers[reply.answer as usize] += 1;
        if reply.answer == 0 {
            self.played += moves as u64;
        }
    }
}
