// Joint steps: tables with kills that are fired as one step, at every size, and the worst cases.
use super::maker::Maker;
use super::worst::{balanced, LEVELS};
use super::{Workload, K, SIZES};
use crate::bytes::*;

/// How many kills are fired as one step.
pub const KILLS: [usize; 3] = [1, 2, 8];

/// Joint steps of so many kills at every size that has room for their scopes; and the worst cases: kills 250 deep, and the last two of one scope.
pub fn joint() -> Vec<Workload> {
    let usual = KILLS.into_iter().flat_map(|kills| SIZES.map(|n| (n, kills)));
    let fitting = usual.filter(|(n, kills)| *n >= 8 * kills);
    let mut all: Vec<Workload> = fitting.map(|(n, kills)| joint_of(format!("joint-{kills}-{n:04}"), spread(n, kills), 0)).collect();
    all.push(joint_of("worst-joint-deep".into(), deep_scopes(), 0));
    all.push(joint_of("worst-joint-clash".into(), clashing(), 26));
    all
}

/// A joint step of all kills of a table.
fn joint_of(name: String, table: Vec<u8>, answer: u8) -> Workload {
    let moves = places_of(&table, 1).into_iter().flat_map(|a| a_move(0, a, 0)).collect();
    Workload { name, operation: "joint", table, moves, answer }
}

/// Scopes with a kill each spread over so many records, half of which are in them.
fn spread(n: usize, kills: usize) -> Vec<u8> {
    let share = |i: usize| n * (i + 1) / kills - n * i / kills;
    let mut maker = Maker::new(0);
    let mut next = 0;
    balanced(kills, &mut || {
        // a parallel stands above each but the first
        let records = share(next) - (next > 0) as usize;
        let (left, inside) = (records / 2 - 1, records - records / 2 - 3);
        let scope = delimitation(K + next as u16, parallel(kill(K + next as u16), maker.filler(inside)));
        let block = parallel(maker.filler(left), scope);
        next += 1;
        block
    })
}

/// Eight scopes as deep as they may be, their kills at the bottom: chains of protections, with a parallel now and then.
fn deep_scopes() -> Vec<u8> {
    let mut label = K;
    balanced(8, &mut || {
        label += 1;
        let way = (0..LEVELS).fold(kill(label), |t, level| if level % 100 == 99 { parallel(t, nil()) } else { protection(t) });
        delimitation(label, way)
    })
}

/// Seven scopes side by side, the last with two kills.
fn clashing() -> Vec<u8> {
    let mut maker = Maker::new(0);
    let mut label = K;
    balanced(7, &mut || {
        label += 1;
        let rest = maker.filler(280);
        let other = if label == K + 7 { kill(label) } else { nil() };
        delimitation(label, parallel(kill(label), parallel(rest, other)))
    })
}
