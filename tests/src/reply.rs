// What the operations answer, in document 01's words: a reply, and the tally of a night.

/// Answer 0 is accepted, any other is the refusal's number.
#[derive(Clone, Copy, PartialEq, Eq, Debug, Default)]
pub struct Reply {
    pub answer: u8,
    pub place: usize,
    pub records: usize,
}

/// The counts of a night.
#[derive(Clone, Copy, PartialEq, Eq, Debug, Default)]
pub struct Tally {
    pub communications: u64,
    pub kills: u64,
    pub timeouts: u64,
    pub copied: u64,
}
