// Ticks: the library's time move from two readings beside the independent implementation's: reply, every byte of the output and those around it.
use crate::bytes;
use crate::compare::{said, Case, Lent, Reached};
use crate::damage;
use crate::differ::{draw_room, draw_table, found, Found};
use crate::generate;
use crate::library;
use crate::nights::Fault;
use crate::papers;
use crate::random::Random;
use crate::reference;
use crate::reply::Reply;
use crate::shrink;

/// A table, two readings of a clock and the bytes of room in the output.
#[derive(Clone, Debug)]
pub struct Readings {
    pub table: Vec<u8>,
    pub earlier: u32,
    pub later: u32,
    pub room: usize,
}

impl Readings {
    /// So many ticks from a reading on.
    pub fn from(earlier: u32, ticks: u32, table: &[u8], room: usize) -> Readings {
        Readings { table: table.to_vec(), earlier, later: earlier.wrapping_add(ticks), room }
    }
}

/// The library's reply, and whether all agrees.
fn agreed(r: &Readings) -> (Reply, bool) {
    let lent = r.table.clone();
    let (mut out, mut expected) = (Lent::new(r.room), Lent::new(r.room));
    let ours = library::ticks(&lent, r.earlier, r.later, out.lend());
    let theirs = reference::ticks(&r.table, r.earlier, r.later, expected.lend());
    // once more into a block of its own, where a memory checker sees any byte outside
    let mut alone = Lent::new(r.room).bytes().to_vec();
    let again = library::ticks(&lent, r.earlier, r.later, &mut alone);
    (ours, ours == theirs && out.same(&expected) && again == ours && alone == out.bytes() && lent == r.table)
}

pub fn compare(r: Readings, reached: &mut Reached) -> Result<(), Fault> {
    let (ours, agrees) = agreed(&r);
    reached.ticking.readings(&r, &ours);
    if agrees {
        return Ok(());
    }
    Err(Fault::Ticks(r))
}

/// Generated readings; the number of a case and the seed give it again.
pub fn generated(seed: u64, cases: u64, reached: &mut Reached) -> Result<(), Found> {
    for case in 1..=cases {
        let mut random = Random::new(seed.wrapping_mul(1_000_037).wrapping_add(case));
        let table = draw_table(&mut random, case);
        let (earlier, later) = generate::readings(&mut random, &table);
        let room = draw_room(&mut random, &table);
        compare(Readings { table, earlier, later, room }, reached).map_err(|fault| found(case, fault))?;
    }
    Ok(())
}

/// Readings that roll over: no tick, times, the ends of 24 and of 23.
const TICKS: [u32; 7] = [0, 1, 65_535, 65_536, 2_147_483_647, 2_147_483_648, u32::MAX];

/// A table with each of those numbers of ticks, with room enough.
pub fn each(table: &[u8], reached: &mut Reached) -> Result<(), Fault> {
    TICKS.into_iter().try_for_each(|ticks| compare(Readings::from(u32::MAX - 1, ticks, table, table.len() + 16), reached))
}

/// Damage: single bytes of the papers' tables changed, random bytes, tables cut off and outputs at every length, each with every number of ticks; one in so
/// many.
pub fn damaged(random: &mut Random, stride: usize, reached: &mut Reached) -> Result<(), Fault> {
    damage::each_spoilt(random, stride, |table| each(table, reached))?;
    for paper in papers::nights().iter().chain(&papers::further()) {
        for room in (0..=paper.table.len() + 32).step_by(stride) {
            for ticks in TICKS {
                compare(Readings::from(3, ticks, &paper.table, room), reached)?;
            }
        }
    }
    Ok(())
}

/// The smallest table on which the two still differ.
pub fn smallest(r: Readings) -> Readings {
    let with = |case: &Case| Readings { table: case.table.clone(), room: case.room, ..r };
    let small = shrink::shrink(Case { table: r.table.clone(), m: vec![], room: r.room }, |case| !agreed(&with(case)).1);
    with(&small)
}

/// Readings on which the two differ, for the reader.
pub fn describe(r: &Readings) -> String {
    let (mut out, mut expected) = (vec![0xa5; r.room], vec![0xa5; r.room]);
    let ours = library::ticks(&r.table, r.earlier, r.later, &mut out);
    let theirs = reference::ticks(&r.table, r.earlier, r.later, &mut expected);
    format!(
        "  table ({} records): {}\n  readings {} and {}, in {} bytes: library {}; independent {}; output {}",
        r.table.len() / 16,
        bytes::text(&r.table),
        r.earlier,
        r.later,
        r.room,
        said(&ours),
        said(&theirs),
        if out == expected { "the same" } else { "differs" },
    )
}

/// How often each of what must be reached was, in calls of the library.
#[derive(Clone, Default)]
pub struct Ticking {
    pub calls: u64,
    reached: [u64; WANTED.len()],
}

/// Whether two readings with so many ticks between them, and their reply, are what is wanted.
type Wanted = fn(&Readings, u32, &Reply) -> bool;

const WANTED: [(&str, Wanted); 15] = [
    ("accepted without a tick", |_, ticks, reply| reply.answer == 0 && ticks == 0),
    ("accepted with 1 tick", |_, ticks, reply| reply.answer == 0 && ticks == 1),
    ("accepted with 65,535 ticks", |_, ticks, reply| reply.answer == 0 && ticks == 65_535),
    ("accepted where the clock has rolled over", |r, _, reply| reply.answer == 0 && r.later < r.earlier),
    ("refusal 24 of 65,536 ticks", |_, ticks, reply| reply.answer == 24 && ticks == 65_536),
    ("refusal 24 of 2,147,483,647 ticks", |_, ticks, reply| reply.answer == 24 && ticks == 2_147_483_647),
    ("refusal 24 without room for the table", |r, _, reply| reply.answer == 24 && r.room < r.table.len()),
    ("refusal 23 of 2,147,483,648 ticks", |_, ticks, reply| reply.answer == 23 && ticks == 2_147_483_648),
    ("refusal 23 of 4,294,967,295 ticks", |_, ticks, reply| reply.answer == 23 && ticks == u32::MAX),
    ("refusal 23 without room for the table", |r, _, reply| reply.answer == 23 && r.room < r.table.len()),
    ("refusal 21 without a tick", |_, ticks, reply| reply.answer == 21 && ticks == 0),
    ("refusal 21 of a time", |_, ticks, reply| reply.answer == 21 && ticks > 0),
    ("a table's refusal without a tick", |_, ticks, reply| (1..=7).contains(&reply.answer) && ticks == 0),
    ("a table's refusal before 24", |_, ticks, reply| (1..=7).contains(&reply.answer) && (65_536..2_147_483_648).contains(&ticks)),
    ("a table's refusal before 23", |_, ticks, reply| (1..=7).contains(&reply.answer) && ticks >= 2_147_483_648),
];

impl Ticking {
    fn readings(&mut self, r: &Readings, reply: &Reply) {
        self.calls += 1;
        let ticks = r.later.wrapping_sub(r.earlier);
        for (count, (_, wanted)) in self.reached.iter_mut().zip(WANTED) {
            *count += wanted(r, ticks, reply) as u64;
        }
    }

    /// What must be reached, in words, and how often it was.
    pub fn counts(&self) -> Vec<(String, u64)> {
        WANTED.iter().zip(self.reached).map(|((words, _), count)| (words.to_string(), count)).collect()
    }
}
