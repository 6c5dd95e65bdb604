// Check, step and play of the implementations that are timed, each called in the same way: the library, the independent one, and the baseline where one is
// given.
use std::hint::black_box;
use trial::workloads::Workload;
use trial::{library, reference};

/// A table, a list of moves, the output and the replies.
type Play = fn(&[u8], &[u8], &mut [u8], &mut [u8]) -> u16;

/// The operations of one implementation. Each gives its answer.
#[derive(Clone, Copy)]
pub struct Operations {
    check: fn(&[u8]) -> u16,
    step: fn(&[u8], &[u8], &mut [u8]) -> u16,
    play: Play,
}

pub const LIBRARY: Operations = Operations {
    check: |table| library::check(table).answer.into(),
    step: |table, m, out| library::step(table, m, out).answer.into(),
    play: |table, moves, out, replies| library::play(table, moves, out, replies).0.answer.into(),
};

pub const INDEPENDENT: Operations = Operations {
    check: |table| reference::check(table).answer.into(),
    step: |table, m, out| reference::step(table, m, out).answer.into(),
    play: |table, moves, out, replies| reference::play(table, moves, out, replies).0.answer.into(),
};

#[cfg(not(baseline))]
pub const BASELINE: Option<Operations> = None;

#[cfg(baseline)]
extern crate night;

#[cfg(baseline)]
pub const BASELINE: Option<Operations> = Some(Operations {
    check: |table| night::check_table(table).0,
    step: |table, m, out| night::step(table, m, out).0,
    play: |table, moves, out, replies| night::play(table, moves, out, replies).0.answer,
});

/// What a call may write.
#[derive(PartialEq)]
pub struct Room {
    pub out: Vec<u8>,
    pub replies: Vec<u8>,
}

impl Room {
    pub fn new() -> Room {
        Room { out: vec![0; 32_768], replies: vec![0; 60_000] }
    }

    /// Copies what a call reads, so that it is in the cache.
    pub fn touch(&mut self, w: &Workload) {
        self.out[..w.table.len()].copy_from_slice(black_box(&w.table));
        self.replies[..w.moves.len()].copy_from_slice(black_box(&w.moves));
    }
}

impl Operations {
    /// One run of a workload, and its answer.
    pub fn run(&self, w: &Workload, room: &mut Room) -> u16 {
        match w.operation {
            "check" => (self.check)(black_box(&w.table)),
            "play" => (self.play)(black_box(&w.table), &w.moves, &mut room.out, &mut room.replies),
            _ => (self.step)(black_box(&w.table), &w.moves[..6], &mut room.out),
        }
    }

    /// One run of each workload of a turn.
    pub fn turn(&self, turn: &[&Workload], room: &mut Room) {
        turn.iter().for_each(|w| _ = black_box(self.run(w, room)));
    }
}
