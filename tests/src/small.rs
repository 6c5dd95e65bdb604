// Small scope: every term of up to five records over a few atoms, every move on it, the list of those that are open, readings of a clock, and joint steps
// of up to two positions. What goes wrong at all mostly goes wrong on a small table.
use crate::bytes::{self, a_move};
use crate::closings;
use crate::compare::{Case, Reached};
use crate::differ::{compare_check, compare_step};
use crate::library;
use crate::lists;
use crate::nights::Fault;
use crate::readings;

const X: u16 = 32_768;
const K: u16 = 49_152;

/// The records: a value 1 as partner, operation and datum, a value 2 that may be delimited, a variable and a label.
fn leaves() -> Vec<Vec<u8>> {
    vec![
        bytes::record(0, 0, 0, &[], 0),
        bytes::record(1, K, 0, &[], 0),
        bytes::record(2, 1, 1, &[1], 0),
        bytes::record(2, 1, 1, &[2], 0),
        bytes::record(2, 1, 1, &[X], 0),
    ]
}

fn prefixes() -> Vec<Vec<u8>> {
    vec![
        bytes::record(3, 1, 1, &[1], 0),
        bytes::record(3, 1, 1, &[X], 0),
        bytes::record(4, 0, 0, &[], 0),
        bytes::record(4, 0, 0, &[], 1),
        bytes::record(7, 0, 0, &[], 0),
        bytes::record(8, 2, 0, &[], 0),
        bytes::record(8, X, 0, &[], 0),
        bytes::record(8, K, 0, &[], 0),
        bytes::record(9, 0, 0, &[], 0),
    ]
}

fn joins() -> Vec<Vec<u8>> {
    vec![bytes::record(5, 0, 0, &[], 0), bytes::record(6, 0, 0, &[], 0)]
}

/// All terms by their number of records, up to a number of them.
fn terms(most: usize) -> Vec<Vec<Vec<u8>>> {
    let mut by_size = vec![vec![], leaves()];
    for records in 2..=most {
        let mut all = vec![];
        for head in prefixes() {
            all.extend(by_size[records - 1].iter().map(|t| [head.clone(), t.clone()].concat()));
        }
        for head in joins() {
            for left in 1..records - 1 {
                let rights = &by_size[records - 1 - left];
                all.extend(by_size[left].iter().flat_map(|l| rights.iter().map(|r| [head.clone(), l.clone(), r.clone()].concat())));
            }
        }
        by_size.push(all);
    }
    by_size
}

/// Every move whose places stand in the table, time first, then in the order of the list of open moves.
fn moves(records: usize) -> Vec<[u8; 6]> {
    let mut all: Vec<[u8; 6]> = (1..=2).map(|d| a_move(3, d, 0)).collect();
    for kind in [0, 1, 2, 4, 5] {
        let others = if kind == 1 { records } else { 1 };
        all.extend((0..records).flat_map(|a| (0..others).map(move |b| a_move(kind, a, b))));
    }
    all
}

/// Every term checked, and every move and pair of positions on those that are well formed, and the list of open moves, some ticks and joint steps of all.
pub fn run(most: usize, reached: &mut Reached) -> Result<(), Fault> {
    for (records, tables) in terms(most).into_iter().enumerate() {
        let moves = moves(records);
        for table in tables {
            compare_check(&table, reached)?;
            lists::compare(&table, reached)?;
            readings::each(&table, reached)?;
            closings::each(&table, reached)?;
            if library::check(&table).answer == 0 {
                every_move(&table, &moves, reached)?;
                closings::every_pair(&table, reached)?;
            }
        }
    }
    Ok(())
}

fn every_move(table: &[u8], moves: &[[u8; 6]], reached: &mut Reached) -> Result<(), Fault> {
    let mut accepted = vec![];
    for m in moves {
        let before = reached.answers[0];
        compare_step(Case { table: table.to_vec(), m: m.to_vec(), room: 2 * table.len() + 16 }, reached)?;
        if reached.answers[0] > before && m[0] != 3 {
            accepted.extend(m);
        }
    }
    let mut list = vec![0; accepted.len()];
    let reply = library::open(table, &mut list);
    if reply.records == accepted.len() / 6 && list == accepted {
        return Ok(());
    }
    Err(Fault::Open(table.to_vec()))
}
