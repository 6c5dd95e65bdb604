// The differential trial: generated cases through the library and the independent implementation.
use crate::closings;
use crate::compare::{self, Case, Reached};
use crate::generate;
use crate::lists;
use crate::nights::{self, Fault};
use crate::papers::{self, Paper};
use crate::plays;
use crate::random::Random;
use crate::readings;
use crate::scripts;
use crate::shrink;

/// A disagreement, its case made as small as possible.
pub struct Found {
    pub case: u64,
    pub records: usize,
    pub words: String,
}

/// Every n-th case is a night of hundreds of moves, every n-th a large table, every n-th a gathering, every n-th a short play with buffers of any length,
/// every n-th a meeting of two that differ.
const NIGHTS: u64 = 400;
const LARGE: u64 = 90;
const GATHERINGS: u64 = 43;
const PLAYS: u64 = 31;
const UNLIKE: u64 = 29;

/// The papers, then so many generated cases; the first disagreement stops it.
pub fn run(seed: u64, cases: u64, reached: &mut Reached) -> Result<(), Found> {
    for paper in papers::nights().iter().chain(&papers::further()) {
        run_paper(paper, reached).map_err(|fault| found(0, fault))?;
    }
    lists::longest(reached).map_err(|fault| found(0, fault))?;
    generated(seed, cases, Lists::Compared, reached)
}

/// Whether the list of open moves of each table is compared too.
#[derive(Clone, Copy, PartialEq, Eq)]
pub enum Lists {
    Compared,
    LeftOut,
}

/// The generated cases; the number of a case and the seed give it again.
pub fn generated(seed: u64, cases: u64, lists: Lists, reached: &mut Reached) -> Result<(), Found> {
    for case in 1..=cases {
        let mut random = Random::new(seed.wrapping_mul(1_000_003).wrapping_add(case));
        run_case(&mut random, case, lists, reached).map_err(|fault| found(case, fault))?;
    }
    Ok(())
}

fn run_case(random: &mut Random, case: u64, lists: Lists, reached: &mut Reached) -> Result<(), Fault> {
    if case % NIGHTS == 0 {
        return run_night(random, reached);
    }
    if case % PLAYS == 0 {
        return plays::run(random, reached);
    }
    if case % UNLIKE == 0 {
        let (table, m) = generate::unlike(random);
        return compare_step(Case { table, m: m.to_vec(), room: 160 }, reached);
    }
    let table = draw_table(random, case);
    compare_check(&table, reached)?;
    if lists == Lists::Compared {
        lists::compare(&table, reached)?;
    }
    let large = case % LARGE == 0 && random.chance(50);
    let m = if large { generate::a_large_move(random, &table) } else { generate::any_move(random, &table) };
    let room = draw_room(random, &table);
    compare_step(Case { table, m, room }, reached)
}

pub fn draw_table(random: &mut Random, case: u64) -> Vec<u8> {
    let records = random.pick(&[3, 6, 10, 16, 24, 40]);
    if case % LARGE == 0 {
        return generate::large(random);
    }
    if case % GATHERINGS == 0 {
        return generate::gathering(random);
    }
    if random.chance(25) {
        return generate::damaged(random, records);
    }
    if random.chance(25) {
        return generate::crowd(random);
    }
    generate::table(random, records)
}

/// Room for any successor mostly; now and then too little, or just enough.
pub fn draw_room(random: &mut Random, table: &[u8]) -> usize {
    let length = table.len();
    match random.below(20) {
        0 => random.below(2 * length + 1),
        1 => length,
        2 => length.saturating_sub(random.pick(&[1, 16, 32])),
        3 => length + random.pick(&[1, 15, 16, 17]),
        4 => 32_768,
        _ => 2 * length + 64,
    }
}

pub fn compare_check(table: &[u8], reached: &mut Reached) -> Result<(), Fault> {
    let outcome = compare::check(table);
    reached.check(&outcome.ours);
    if outcome.agrees() {
        return Ok(());
    }
    Err(Fault::Step(Case { table: table.to_vec(), m: vec![], room: 0 }))
}

pub fn compare_step(case: Case, reached: &mut Reached) -> Result<(), Fault> {
    let outcome = compare::step(&case);
    reached.step(&case.m, &outcome.ours);
    if outcome.agrees() {
        return Ok(());
    }
    Err(Fault::Step(case))
}

/// A night of hundreds of moves, each compared, and then the list as a whole.
fn run_night(random: &mut Random, reached: &mut Reached) -> Result<(), Fault> {
    let records = random.pick(&[8, 16, 30, 50]);
    let table = generate::night(random, records);
    let moves = random.between(200, 600);
    let list = nights::draw(random, table.clone(), moves, reached)?;
    nights::compare_list(&table, &list, reached)
}

/// A night of the papers: the paper's replies and last table, and then the two implementations.
fn run_paper(paper: &Paper, reached: &mut Reached) -> Result<(), Fault> {
    let list = papers::list(paper);
    let fault = |what| Err(Fault::List { table: paper.table.clone(), moves: list.clone(), what });
    let night = nights::by_steps(&paper.table, &list);
    if night.replies != papers::replies(paper) {
        return fault("replies against the paper's");
    }
    if paper.last.as_ref().is_some_and(|last| *last != night.table) {
        return fault("last table against the paper's");
    }
    compare_moves(&paper.table, &list, reached)?;
    nights::compare_list(&paper.table, &list, reached)
}

/// Each move of a list compared on the tables that the library leaves.
fn compare_moves(table: &[u8], list: &[u8], reached: &mut Reached) -> Result<(), Fault> {
    compare_check(table, reached)?;
    lists::compare(table, reached)?;
    let mut now = table.to_vec();
    for m in list.chunks_exact(6) {
        let case = Case { table: now.clone(), m: m.to_vec(), room: 32_768 };
        let outcome = compare::step(&case);
        compare_step(case, reached)?;
        if outcome.ours.answer == 0 {
            now = outcome.successor;
        }
    }
    Ok(())
}

/// The disagreement made small and put into words.
pub fn found(case: u64, fault: Fault) -> Found {
    match fault {
        Fault::Step(first) => {
            let small = shrink::shrink(first, shrink::differ);
            Found { case, records: small.table.len() / 16, words: compare::describe(&small) }
        }
        Fault::Open(table) => {
            let small = shrink::shrink(Case { table, m: vec![], room: 0 }, |case| lists::differ(&case.table));
            Found { case, records: small.table.len() / 16, words: lists::describe(&small.table) }
        }
        Fault::Ticks(first) => {
            let small = readings::smallest(first);
            Found { case, records: small.table.len() / 16, words: readings::describe(&small) }
        }
        Fault::Joint(first) => {
            let small = closings::smallest(first);
            Found { case, records: small.table.len() / 16, words: closings::describe(&small) }
        }
        Fault::Script(first) => {
            let small = scripts::smallest(first);
            Found { case, records: small.bytes.len() / 8, words: scripts::describe(&small) }
        }
        Fault::List { table, moves, what } => {
            let (table, moves) = shorter(table, moves);
            let words = format!("  {what} of a list of {} moves {:?}\n  on {}", moves.len() / 6, moves, crate::bytes::text(&table));
            Found { case, records: table.len() / 16, words }
        }
    }
}

/// A list with fewer moves that still differs: parts of it are left out, half of it first, then smaller ones.
fn shorter(table: Vec<u8>, mut moves: Vec<u8>) -> (Vec<u8>, Vec<u8>) {
    let mut part = (moves.len() / 12 * 6).max(6);
    let (mut at, mut tries) = (0, 0);
    while tries < 300 && part > 0 {
        let mut fewer = moves.clone();
        fewer.drain(at.min(moves.len())..(at + part).min(moves.len()));
        if fewer.len() < moves.len() && nights::compare_list(&table, &fewer, &mut Reached::new()).is_err() {
            moves = fewer;
        } else {
            at += part;
        }
        if at >= moves.len() {
            (at, part) = (0, part / 12 * 6);
        }
        tries += 1;
    }
    (table, moves)
}
