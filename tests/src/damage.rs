// Damage: single bytes changed, random bytes, every length, and outputs and lists of every length.
use crate::bytes;
use crate::closings;
use crate::compare::{Case, Reached};
use crate::differ::{compare_check, compare_step};
use crate::generate;
use crate::lists;
use crate::nights::Fault;
use crate::papers::{self, Paper};
use crate::plays;
use crate::random::Random;
use crate::readings;
use crate::scripts;

/// How much of the damage is tried: all of it, or a sample (under a memory checker, which is slow).
#[derive(Clone, Copy, PartialEq, Eq)]
pub enum Extent {
    All,
    Sample,
}

impl Extent {
    /// Steps through numbers: each of them, or one in so many.
    fn stride(self, sample: usize) -> usize {
        if self == Extent::All {
            1
        } else {
            sample
        }
    }
}

pub fn run(seed: u64, extent: Extent, reached: &mut Reached) -> Result<(), Fault> {
    let mut random = Random::new(seed);
    single_bytes(extent, reached)?;
    random_bytes(&mut random, extent, reached)?;
    lengths(&mut random, extent, reached)?;
    limits(reached)?;
    plays::limits(reached)?;
    plays::damaged(&mut random, extent.stride(97), reached)?;
    scripts::damaged(&mut random, extent.stride(97), reached)?;
    readings::damaged(&mut random, extent.stride(97), reached)?;
    closings::damaged(&mut random, extent.stride(97), reached)?;
    if extent == Extent::All {
        plays::longest(&mut random, reached)?;
    }
    outputs(&mut random, extent, reached)
}

fn all_papers() -> Vec<Paper> {
    papers::nights().into_iter().chain(papers::further()).collect()
}

/// Tables for a comparison: single bytes of the papers' tables changed, a table cut off or filled up at every length, and random bytes of each; one in so many.
pub fn each_spoilt(random: &mut Random, stride: usize, mut each: impl FnMut(&[u8]) -> Result<(), Fault>) -> Result<(), Fault> {
    for paper in all_papers() {
        for change in (0..255 * paper.table.len()).step_by(16 * stride) {
            each(&bytes::changed(&paper.table, change))?;
        }
    }
    let whole = generate::table(random, 260);
    for length in (0..=4_200).chain(32_760..=32_800).step_by(stride) {
        let mut cut = whole.clone();
        cut.resize(length, 0);
        each(&cut)?;
        each(&random.bytes(length))?;
    }
    Ok(())
}

fn first_move(paper: &Paper) -> Vec<u8> {
    papers::list(paper)[..6].to_vec()
}

/// Every change of a single byte of the papers' tables and of their first moves.
fn single_bytes(extent: Extent, reached: &mut Reached) -> Result<(), Fault> {
    for paper in all_papers() {
        let (table, m) = (&paper.table, first_move(&paper));
        for (at, change) in changes(table.len(), extent) {
            let mut changed = table.clone();
            changed[at] ^= change;
            compare_check(&changed, reached)?;
            lists::compare(&changed, reached)?;
            compare_step(Case { room: table.len() + 48, table: changed, m: m.clone() }, reached)?;
        }
        for (at, change) in changes(6, extent) {
            let mut changed = m.clone();
            changed[at] ^= change;
            compare_step(Case { room: table.len() + 48, table: table.clone(), m: changed }, reached)?;
        }
    }
    Ok(())
}

fn changes(length: usize, extent: Extent) -> impl Iterator<Item = (usize, u8)> {
    (0..length).flat_map(|at| (1..=255u8).map(move |change| (at, change))).step_by(extent.stride(97))
}

/// Random bytes as tables and as moves; and records whose kinds at least are known.
fn random_bytes(random: &mut Random, extent: Extent, reached: &mut Reached) -> Result<(), Fault> {
    for _ in (0..20_000).step_by(extent.stride(100)) {
        let length = random.pick(&[0, 1, 15, 16, 17, 32, 48, 64, 160]);
        let mut table = random.bytes(length);
        if random.chance(50) {
            table.chunks_mut(16).for_each(|r| r[0] = random.below(10) as u8);
        }
        let length = random.below(13);
        let m = random.bytes(length);
        compare_check(&table, reached)?;
        lists::compare(&table, reached)?;
        compare_step(Case { room: random.below(400), table, m }, reached)?;
    }
    Ok(())
}

/// Every length from 0 to 4,096 of zeros, of random bytes and of a table cut off; and around the longest table.
fn lengths(random: &mut Random, extent: Extent, reached: &mut Reached) -> Result<(), Fault> {
    let whole = generate::table(random, 700);
    let around = (32_700..=32_800).chain([65_535, 65_536, 65_552, 100_000]);
    for length in (0..=4_096).step_by(extent.stride(61)).chain(around.step_by(extent.stride(8))) {
        let mut cut = whole.clone();
        cut.resize(length, 0);
        for table in [vec![0; length], random.bytes(length), cut] {
            compare_check(&table, reached)?;
            lists::compare(&table, reached)?;
            compare_step(Case { table, m: bytes::a_move(3, 1, 0).to_vec(), room: 64 }, reached)?;
        }
    }
    for length in 0..=64 {
        compare_step(Case { table: bytes::nil(), m: vec![3; length], room: 64 }, reached)?;
    }
    Ok(())
}

/// The limits of document 01: 2,048 records and 2,049, depth 256 and 257, tuples of 4 and 5, atoms at the ends of their sets.
fn limits(reached: &mut Reached) -> Result<(), Fault> {
    for levels in 254..=258 {
        let chain = (0..levels).fold(bytes::nil(), |t, _| bytes::protection(t));
        compare_check(&chain, reached)?;
        lists::compare(&chain, reached)?;
    }
    for records in [2_046, 2_047, 2_048, 2_049] {
        compare_check(&full(records), reached)?;
        lists::compare(&full(records), reached)?;
        compare_step(Case { table: full(records), m: bytes::a_move(3, 1, 0).to_vec(), room: 32_768 }, reached)?;
    }
    for count in 0..=6 {
        let mut table = bytes::invoke(1, 2, &[1, 1, 1, 1]);
        table[1] = count;
        compare_check(&table, reached)?;
    }
    for atom in [0, 1, 32_767, 32_768, 49_151, 49_152, 65_535] {
        compare_check(&bytes::delimitation(atom, bytes::invoke(atom, 1, &[])), reached)?;
        compare_check(&bytes::delimitation(atom, bytes::kill(atom)), reached)?;
        compare_check(&bytes::delimitation(atom, bytes::receive(1, 1, &[atom], bytes::nil())), reached)?;
    }
    Ok(())
}

/// Exactly so many records: parallels of nils, and a protection where the number is even.
fn full(records: usize) -> Vec<u8> {
    let mut rows = vec![bytes::nil(); (records + 1) / 2];
    while rows.len() > 1 {
        let (left, right) = (rows.remove(0), rows.remove(0));
        rows.push(bytes::parallel(left, right));
    }
    if records % 2 == 0 {
        return bytes::protection(rows.remove(0)[..16 * (records - 1)].to_vec());
    }
    rows.remove(0)
}

/// Outputs of every length from 0 to the successor's and 32 more, for the papers' moves and some drawn ones; and the lists of open moves in rooms of every
/// length.
fn outputs(random: &mut Random, extent: Extent, reached: &mut Reached) -> Result<(), Fault> {
    let mut cases: Vec<(Vec<u8>, Vec<u8>)> = all_papers().iter().map(|p| (p.table.clone(), first_move(p))).collect();
    for _ in 0..60 / extent.stride(6) {
        let table = generate::table(random, 14);
        let m = generate::a_planners_move(random, &table).to_vec();
        cases.push((table, m));
    }
    for (table, m) in cases {
        lists::compare_lengths(&table, extent.stride(5), reached)?;
        let mut out = vec![0; 32_768];
        let records = crate::library::step(&table, &m, &mut out).records;
        for room in (0..=16 * records + 32).step_by(extent.stride(5)) {
            compare_step(Case { table: table.clone(), m: m.clone(), room }, reached)?;
        }
    }
    Ok(())
}
