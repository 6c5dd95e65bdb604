// What the benchmark times. A workload is a table and a list of moves. Of check, each move and play there are turns: random workloads of one make, timed one
// after the other, so that no branch is learned. Beside them worst cases, tables to list the open moves of, tables with kills to fire as one step, and
// Orc scripts to translate, each alone.
mod lists;
mod maker;
mod scripts;
mod steps;
mod stops;
mod worst;

pub use lists::{lists, short};
pub use scripts::{scripts, RESULT, SCRIPTS};
pub use steps::at_sizes;
pub use stops::{joint, KILLS};
pub use worst::{meetings, worst};

use crate::bytes::a_move;
use maker::Maker;

pub struct Workload {
    pub name: String,
    pub operation: &'static str,
    /// of "orc" the script
    pub table: Vec<u8>,
    /// the first move is the one that is stepped; the whole list is played, or is the kills of a joint step
    pub moves: Vec<u8>,
    /// the answer that the first move must have, or the joint step
    pub answer: u8,
}

/// Random workloads of one make, of one name and operation.
pub type Turn = Vec<Workload>;

pub const SIZES: [usize; 5] = [16, 64, 256, 1_024, 2_048];

const X: u16 = 40_000;
const K: u16 = 60_000;

fn workload(name: String, operation: &'static str, table: Vec<u8>, m: [u8; 6], answer: u8) -> Workload {
    Workload { name, operation, table, moves: m.to_vec(), answer }
}

/// The records of all tables of a turn: five rounds of 256 KiB each, which the cache next to the core holds.
const TURN: usize = 81_920;

/// So many workloads of a make; none where the name does not have the wanted part.
fn turn(wanted: &str, name: String, tables: usize, make: impl Fn(&mut Maker, String) -> Workload) -> Option<Turn> {
    name.contains(wanted).then(|| (0..tables as u64).map(|seed| make(&mut Maker::new(seed), name.clone())).collect())
}

/// The first workload of an operation at every size.
fn firsts(operation: &str) -> impl Iterator<Item = Workload> {
    at_sizes(operation).into_iter().filter_map(|turn| turn.into_iter().next())
}

/// The tables on which a time move is timed: that of elapse at every size, and the worst cases.
pub fn timed() -> Vec<Workload> {
    firsts("elapse").chain(worst("elapse")).collect()
}

/// The tables whose open moves are listed: those of check and of communicate at every size, the worst cases, and the longest lists.
pub fn listed() -> Vec<Workload> {
    let usual = firsts("check").chain(firsts("communicate"));
    let meetings = [("meetings", meetings(341, 513, 0)), ("meetings-variables", meetings(341, 511, 4))];
    let longest = meetings.map(|(name, table)| workload(format!("worst-{name}"), "open", table, a_move(3, 0, 0), 17));
    let as_open = |w: Workload| Workload { name: format!("open-{}", w.name), operation: "open", ..w };
    usual.chain(worst("")).chain(longest).map(as_open).collect()
}
