// The worst cases: for each operation the tables on which it takes longest, at as many records as fit.
use super::{workload, Workload, K, X};
use crate::bytes::*;

/// The worst cases whose names have the wanted part, at as many records as fit.
pub fn worst(wanted: &str) -> Vec<Workload> {
    let mut all = vec![];
    let mut add = |name: &str, operation, table: Vec<u8>, m: (u8, usize, usize), answer| {
        all.push(workload(format!("worst-{name}"), operation, table, a_move(m.0, m.1, m.2), answer));
    };
    add("check-deep-left", "check", left_nest(nil()), (3, 0, 0), 17);
    add("check-choices", "check", choices(), (3, 0, 0), 17);
    add("check-delimitations", "check", chains(2_040), (3, 0, 0), 17);
    add("check-scattered-atoms", "check", scattered(), (3, 0, 0), 17);
    add("kill-deep-left", "kill", delimitation(K, left_nest(kill(K))), (0, LEVELS + 1, 0), 0);
    add("communicate-receives", "communicate", receives(false), (1, 7, 5), 0);
    add("communicate-kills-next-door", "communicate", next_door(), (1, 3, 2), 0);
    add("timeout-choices", "timeout", choices(), (2, LEVELS, 0), 0);
    add("elapse-waits", "elapse", waits(), (3, 1, 0), 0);
    add("elapse-waits-past", "elapse", uneven_waits(), (3, 32_768, 0), 0);
    add("unfold-delimitations", "unfold", replication(chains(1_020)), (4, 0, 0), 0);
    add("extrude-deep-left", "extrude", left_nest(delimitation(7, nil())), (5, LEVELS, 0), 0);
    add("refusal15-receives", "refusal15", receives(true), (1, 7, 5), 15);
    all.retain(|w| w.name.contains(wanted));
    all
}

/// How deep the nests of the worst cases are; what stands right of each level keeps the depth of 256.
pub const LEVELS: usize = 250;

/// Parallels nested to the left, a small tree right of each.
fn left_nest(bottom: Vec<u8>) -> Vec<u8> {
    (0..LEVELS).fold(bottom, |t, _| parallel(t, balanced(4, &mut nil)))
}

/// A balanced tree of parallels over so many leaves.
pub fn balanced(leaves: usize, leaf: &mut dyn FnMut() -> Vec<u8>) -> Vec<u8> {
    if leaves == 1 {
        return leaf();
    }
    let left = balanced(leaves / 2, leaf);
    parallel(left, balanced(leaves - leaves / 2, leaf))
}

/// Choices nested to the left, a wait of 0 at the bottom, and choices of receives right of each.
fn choices() -> Vec<u8> {
    let right = || choice(receive(1, 2, &[5], nil()), choice(receive(1, 3, &[5], nil()), nil()));
    (0..LEVELS).fold(wait(0, nil()), |t, _| choice(t, right()))
}

/// Chains of delimitations, each of another atom of the three sets, side by side.
fn chains(records: usize) -> Vec<u8> {
    let mut next = 0u16;
    let mut chain = || {
        (0..200).fold(nil(), |t, _| {
            next += 1;
            let low = [1u16, 32_768, 49_152][next as usize % 3];
            delimitation(low + next, t)
        })
    };
    balanced(records / 202, &mut chain)
}

/// Delimitations whose atoms lie as far apart as they can, each used.
fn scattered() -> Vec<u8> {
    let mut next = 0u16;
    balanced(680, &mut || {
        next += 1;
        let atom = 1 + next * 47;
        delimitation(atom, invoke(atom, atom, &[]))
    })
}

/// As many receives on one endpoint as fit, all with tuples of four that the invoke fits; the last of them with fewer variables, if `tighter`.
fn receives(tighter: bool) -> Vec<u8> {
    let mut left = 670;
    let others = balanced(left, &mut || {
        left -= 1;
        let last = if tighter && left == 0 { 5 } else { X + 3 };
        receive(1, 2, &[X, X + 1, X + 2, last], nil())
    });
    let parties = parallel(invoke(1, 2, &[5, 5, 5, 5]), parallel(receive(1, 2, &[X, X + 1, X + 2, X + 3], nil()), others));
    (0..4).fold(parties, |t, i| delimitation(X + i, t))
}

/// Receives and invokes on one endpoint with tuples of so many variables and values: all of them can meet.
pub fn meetings(receives: usize, invokes: usize, variables: usize) -> Vec<u8> {
    let pattern: Vec<u16> = (0..variables as u16).map(|i| X + i).collect();
    let takers = balanced(receives, &mut || receive(1, 2, &pattern, nil()));
    let senders = balanced(invokes, &mut || invoke(1, 2, &vec![5; variables]));
    pattern.iter().fold(parallel(takers, senders), |t, x| delimitation(*x, t))
}

/// Parties beside as many scopes with a ready kill as fit.
fn next_door() -> Vec<u8> {
    let mut label = 50_000;
    let doors = balanced(680, &mut || {
        label += 1;
        delimitation(label, kill(label))
    });
    parallel(parallel(invoke(1, 2, &[5]), receive(1, 2, &[5], nil())), doors)
}

/// As many live waits as fit.
fn waits() -> Vec<u8> {
    balanced(682, &mut || wait(60_000, nil()))
}

/// The same with intervals all over the range, so that some hold less than a time and some more.
fn uneven_waits() -> Vec<u8> {
    let mut interval = 0u16;
    balanced(682, &mut || {
        interval = interval.wrapping_mul(5).wrapping_add(40_503);
        wait(interval, nil())
    })
}
