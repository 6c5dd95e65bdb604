// Orc scripts to translate, at every size, and the worst cases.
use super::Workload;
use crate::generate::{expression, Shape, PARALLEL, SEQUENCE, WHERE};
use crate::random::Random;

/// The endpoint that the results of a script that is timed are sent to.
pub const RESULT: (u16, u16) = (1, 2);

/// The records of the scripts that are timed; beyond the largest a table of wheres would be too long.
pub const SCRIPTS: [usize; 5] = [15, 63, 127, 255, 455];

/// Scripts to translate: of all operators at every size; then as many records as they or their tables may have, and chains as deep.
pub fn scripts() -> Vec<Workload> {
    let turns = |n: usize| [SEQUENCE, PARALLEL, WHERE].into_iter().cycle().take(n / 2).collect();
    let mut all: Vec<Workload> = SCRIPTS.iter().map(|n| script(format!("orc-{n:04}"), Shape::Balanced, turns(*n))).collect();
    for (name, shape, kind, operators) in [
        ("parallels", Shape::Balanced, PARALLEL, 255),
        ("sequences", Shape::Balanced, SEQUENCE, 255),
        ("wheres", Shape::Balanced, WHERE, 227),
        ("parallels-deep-left", Shape::Left, PARALLEL, 63),
        ("sequences-deep-left", Shape::Left, SEQUENCE, 63),
        ("sequences-deep-right", Shape::Right, SEQUENCE, 42),
        ("wheres-deep-left", Shape::Left, WHERE, 63),
        ("wheres-deep-right", Shape::Right, WHERE, 42),
    ] {
        all.push(script(format!("worst-orc-{name}"), shape, vec![kind; operators]));
    }
    all.push(crowded(script("worst-orc-atoms-in-use".into(), Shape::Balanced, vec![WHERE; 227])));
    all
}

fn script(name: String, shape: Shape, operators: Vec<u8>) -> Workload {
    let bytes = expression(&mut Random::new(1), shape, operators, [3, 4, 5, 6, 7], 0);
    Workload { name, operation: "orc", table: bytes, moves: vec![], answer: 0 }
}

/// Every call with a site of its own, so that the smallest values are all in use.
fn crowded(mut w: Workload) -> Workload {
    for (i, call) in w.table.chunks_mut(8).filter(|r| r[0] == 1).enumerate() {
        for (slot, value) in [3 + 2 * i, 4 + 2 * i].into_iter().enumerate() {
            call[4 + 2 * slot..6 + 2 * slot].copy_from_slice(&(value as u16).to_le_bytes());
        }
    }
    w
}
