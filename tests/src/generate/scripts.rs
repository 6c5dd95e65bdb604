// Random Orc scripts: well formed mostly, from few atoms, so that fresh ones have to pass by those in use; some with a variable out of its scope or bound
// again; damaged ones, and scripts at the limits of records and depth, their own and those of their translations.
use super::expressions::{expression, mixture, Shape, PARALLEL, SEQUENCE, WHERE};
use crate::orc::{call, nothing, parallel, record, sequence, where_in, Script};
use crate::random::Random;

/// The values that sites, parameters and result endpoints are drawn from.
const VALUES: [[u16; 5]; 4] = [[1, 2, 3, 4, 5], [2, 4, 6, 8, 10], [1, 1, 3, 32_766, 32_767], [40, 41, 300, 257, 1]];

/// Atoms of every set, at its ends and near them, and none.
const ATOMS: [u16; 10] = [0, 1, 3, 32_767, 32_768, 32_769, 49_151, 49_152, 49_153, 65_535];

/// A script and the endpoint of its results.
pub fn script(random: &mut Random) -> Script {
    let values = random.pick(&VALUES);
    let bytes = match random.below(30) {
        0..=19 => usual(random, values),
        20..=24 => damaged(random, values),
        25 => tall(random, values),
        26 => long(random, values),
        27 => filling(random, values),
        28 => lowered(random),
        _ => (0..random.below(80)).map(|_| random.pick(&[0, 0, 0, 0, 1, 2, 3, 4, 128, 192])).collect(),
    };
    let mut result = (random.pick(&values), random.pick(&values));
    if random.chance(4) {
        result.0 = random.pick(&ATOMS);
    }
    if random.chance(4) {
        result.1 = random.pick(&ATOMS);
    }
    Script { bytes, result }
}

fn usual(random: &mut Random, values: [u16; 5]) -> Vec<u8> {
    let operators = random.pick(&[0, 1, 1, 2, 2, 3, 4, 5, 7, 12, 20, 31]);
    let operators = mixture(random, operators);
    let shape = random.pick(&[Shape::Any, Shape::Any, Shape::Any, Shape::Left, Shape::Right, Shape::Chain]);
    let slips = random.pick(&[0, 0, 0, 3, 20]);
    expression(random, shape, operators, values, slips)
}

/// A script with one to three changes, each aimed at 30 or 31.
fn damaged(random: &mut Random, values: [u16; 5]) -> Vec<u8> {
    let mut script = usual(random, values);
    for _ in 0..random.between(1, 3) {
        change(random, &mut script);
    }
    script
}

fn change(random: &mut Random, script: &mut Vec<u8>) {
    if script.len() < 8 {
        return;
    }
    let place = random.below(script.len() / 8);
    match random.below(8) {
        0 => script.truncate(random.below(script.len())),
        1 => {
            let more = random.between(1, 8);
            script.extend(random.bytes(more));
        }
        2 => script.extend(record(random.below(6) as u8, random.pick(&ATOMS), (0, 0))),
        3 => script[8 * place + random.below(2)] = random.below(7) as u8,
        4 | 5 => {
            let at = 8 * place + random.pick(&[2, 4, 6]);
            script[at..at + 2].copy_from_slice(&random.pick(&ATOMS).to_le_bytes());
        }
        6 => drop(script.drain(8 * place..8 * place + 8)),
        _ => {
            let copy = script[8 * place..8 * place + 8].to_vec();
            script.splice(8 * place..8 * place, copy);
        }
    }
}

/// Chains about 64 deep, whole, cut off or with a record too many; and bare operators.
fn tall(random: &mut Random, values: [u16; 5]) -> Vec<u8> {
    let operators = random.pick(&[62, 63, 63, 63, 64, 64, 65, 70]);
    if random.chance(20) {
        return record(PARALLEL, 0, (0, 0)).repeat(operators);
    }
    let drawn = if random.chance(50) { vec![PARALLEL; operators] } else { mixture(random, operators) };
    let shape = random.pick(&[Shape::Left, Shape::Right, Shape::Chain]);
    let mut script = expression(random, shape, drawn, values, 0);
    match random.below(5) {
        0 => script.truncate(8 * random.between(script.len() / 16, script.len() / 8)),
        1 => script.extend(nothing()),
        _ => {}
    }
    script
}

/// About 512 records: an expression has an odd number, so that 511 is the most and 512 is none.
fn long(random: &mut Random, values: [u16; 5]) -> Vec<u8> {
    let count = random.pick(&[254, 255, 255, 255, 256]);
    let operators = mixture(random, count);
    let shape = random.pick(&[Shape::Any, Shape::Balanced]);
    let mut script = expression(random, shape, operators, values, 0);
    match random.below(5) {
        0 => script.extend(nothing()),
        1 => script.truncate(script.len() - random.pick(&[1, 8])),
        _ => {}
    }
    script
}

/// A translation of 2,045 to 2,052 records: a where has 8 of them, a sequence 6, a parallel 1, and each comes with a leaf more. Wheres are most of it; of
/// what is left some is sequences, an odd number of them if it is odd, and the rest parallels.
fn filling(random: &mut Random, values: [u16; 5]) -> Vec<u8> {
    let records = random.pick(&[2_045, 2_046, 2_047, 2_048, 2_048, 2_049, 2_050, 2_052]);
    let wheres = (records - 1 - random.between(20, 60)) / 9;
    let left = records - 1 - 9 * wheres;
    let sequences = left % 2 + 2 * random.between(0, 1);
    let mut operators = [vec![WHERE; wheres], vec![SEQUENCE; sequences], vec![PARALLEL; (left - 7 * sequences) / 2]].concat();
    random.shuffle(&mut operators);
    expression(random, Shape::Balanced, operators, values, 0)
}

/// A chain whose translation is about 256 deep: a part of a where stands 4 deeper on the left and 6 on the right, of a sequence 3 and 6, of a parallel 1.
fn lowered(random: &mut Random) -> Vec<u8> {
    let deepest = random.between(251, 260);
    let (mut depth, mut x) = (1, 32_768);
    let mut script = call((1, 2), 3);
    while depth < deepest {
        let fitting: Vec<usize> = [1, 3, 4, 6, 6, 6, 6, 6, 6].into_iter().filter(|step| depth + step <= deepest).collect();
        let step = random.pick(&fitting);
        script = match step {
            1 => parallel(script, nothing()),
            3 => sequence(script, x, nothing()),
            4 => where_in(script, x, nothing()),
            _ if random.chance(50) => sequence(nothing(), x, script),
            _ => where_in(nothing(), x, script),
        };
        depth += step;
        x += 1;
    }
    script
}
