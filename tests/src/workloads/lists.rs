// Lists that are played, each on a random table: the usual one, of time, extrusions and refusals; those in which every move is accepted and of one kind,
// each any that is open on the table as it then stands; and short ones on small tables.
use super::maker::Maker;
use super::{turn, Turn, Workload, SIZES, TURN};
use crate::bytes::*;
use crate::library;
use crate::reply::Tally;

/// A list's name, the kind of its moves, and a part of its table that can move so, the records that stand side by side in it.
type Make = (&'static str, u8, fn(&mut Maker) -> Vec<Vec<u8>>);

const MAKES: [Make; 5] =
    [("kills", 0, scope), ("meetings", 1, parties), ("bindings", 1, binding), ("expiries", 2, expiring), ("unfoldings", 4, replicated)];

/// The tables of the usual list, which is long: what is learned, is learned in playing it.
const USUAL: usize = 10;

/// The usual list at every size and each kind's at every size that has room for some moves, in turns whose names have the wanted part.
pub fn lists(wanted: &str) -> Vec<Turn> {
    let usual = SIZES.iter().filter_map(|n| turn(wanted, format!("play-usual-{n:04}"), USUAL, |maker, name| usual(maker, name, *n)));
    let kinds = MAKES.iter().flat_map(|make| SIZES[1..].iter().filter_map(|n| turn_of(wanted, make, *n)));
    usual.chain(kinds).collect()
}

fn turn_of(wanted: &str, make: &Make, n: usize) -> Option<Turn> {
    turn(wanted, format!("play-{}-{n:04}", make.0), TURN / 4 / n, |maker, name| of_kind(make, maker, name, n))
}

fn played(name: String, table: Vec<u8>, moves: Vec<u8>) -> Workload {
    Workload { name, operation: "play", table, moves, answer: 0 }
}

/// 1,000 moves in any order: two delimitations that change places, time, and three refused ones.
fn usual(maker: &mut Maker, name: String, n: usize) -> Workload {
    let met = parallel(invoke(1, 2, &[5]), receive(1, 2, &[6], nil()));
    let table = maker.amid(delimitation(7, delimitation(8, met)), n);
    let at = table.chunks(16).position(|r| r[0] == 8 && word(r, 2) == 7).expect("the part");
    let round = [a_move(5, at + 1, 0), a_move(3, 1, 0), a_move(1, at + 4, at + 3), a_move(1, at + 4, at + 3), a_move(2, at, 0)];
    let moves: Vec<u8> = [round[0]].into_iter().chain((1..1_000).map(|_| maker.random.pick(&round))).flatten().collect();
    judged(played(name, table, moves), |kind| kind == 3 || kind == 5)
}

/// As many moves of a kind as the table has: while one is open, or an unfolding leaves at most n records.
fn of_kind(make: &Make, maker: &mut Maker, name: String, n: usize) -> Workload {
    let (_, kind, part) = *make;
    let start = if kind == 4 { n / 2 } else { n };
    let table = maker.full(start, part);
    let (mut now, mut moves) = (table.clone(), vec![]);
    while let Some(m) = any_open(maker, &now, |k| k == kind) {
        let next = after(&now, &m);
        if next.len() / 16 > n {
            break;
        }
        moves.extend(m);
        now = next;
    }
    assert!(moves.len() / 6 >= n / 12, "{name}: {} moves on {n} records", moves.len() / 6);
    judged(played(name, table, moves), |_| true)
}

/// Lists of two, three and four moves of any kind on 10 records, in turns whose names have the wanted part.
pub fn short(wanted: &str) -> Vec<Turn> {
    (2..=4).filter_map(|moves| turn(wanted, format!("play-{moves}-moves"), TURN / 16, |maker, name| short_of(maker, name, moves))).collect()
}

fn short_of(maker: &mut Maker, name: String, count: usize) -> Workload {
    let table = maker.full(10, |maker| {
        let kind = maker.random.below(MAKES.len());
        MAKES[kind].2(maker)
    });
    let (mut now, mut moves) = (table.clone(), vec![]);
    for _ in 0..count {
        let m = any_open(maker, &now, |_| true).unwrap_or(a_move(3, 1, 0));
        now = after(&now, &m);
        moves.extend(m);
    }
    judged(played(name, table, moves), |_| true)
}

/// Any of the open moves of some kinds.
fn any_open(maker: &mut Maker, table: &[u8], wanted: impl Fn(u8) -> bool) -> Option<[u8; 6]> {
    let mut list = vec![0; 60_000];
    let reply = library::open(table, &mut list);
    assert_eq!(reply.answer, 0, "the list of open moves");
    let open: Vec<[u8; 6]> = list[..6 * reply.records].chunks(6).filter(|m| wanted(m[0])).map(|m| m.try_into().expect("six bytes")).collect();
    (!open.is_empty()).then(|| maker.random.pick(&open))
}

/// The table that an accepted move leaves.
fn after(table: &[u8], m: &[u8]) -> Vec<u8> {
    let mut out = vec![0; 32_768];
    let reply = library::step(table, m, &mut out);
    assert_eq!(reply.answer, 0, "the move {m:?}");
    out.truncate(16 * reply.records);
    out
}

/// Play must accept the moves of some kinds and no other, and its tally count them.
fn judged(w: Workload, accepted: fn(u8) -> bool) -> Workload {
    let (mut out, mut replies) = (vec![0; 32_768], vec![0xff; w.moves.len()]);
    let (_, Tally { kills, communications, timeouts, .. }) = library::play(&w.table, &w.moves, &mut out, &mut replies);
    let right = |(m, reply): (&[u8], &[u8])| (word(reply, 0) == 0) == accepted(m[0]);
    assert!(w.moves.chunks(6).zip(replies.chunks(6)).all(right), "{}: a move is not judged as its kind should be", w.name);
    let counted = |kind: u8| w.moves.chunks(6).filter(|m| m[0] == kind && accepted(kind)).count() as u64;
    assert_eq!([kills, communications, timeouts], [0, 1, 2].map(counted), "{}", w.name);
    w
}

/// A scope with a kill and what it halts, or does not.
fn scope(maker: &mut Maker) -> Vec<Vec<u8>> {
    let (k, values) = (49_152 + maker.fresh(), maker.values());
    let halted = match maker.random.below(4) {
        0 => invoke(1, 2, &values),
        1 => receive(1, 2, &values, nil()),
        2 => protection(invoke(1, 2, &values)),
        _ => parallel(invoke(1, 2, &values), wait(40_000, nil())),
    };
    vec![delimitation(k, maker.either(parallel, kill(k), halted))]
}

/// A receive, alone or in a choice, and the invoke that it meets, somewhere else.
fn parties(maker: &mut Maker) -> Vec<Vec<u8>> {
    let (operation, values) = (9 + maker.fresh(), maker.values());
    let then = if maker.random.chance(50) { nil() } else { invoke(2, 1, &values) };
    let takes = receive(1, operation, &values, then);
    let takes = if maker.random.chance(75) { takes } else { maker.either(choice, takes, wait(40_000, nil())) };
    vec![takes, invoke(1, operation, &values)]
}

/// A meeting that binds one variable or two, used behind the receive and at times beside it.
fn binding(maker: &mut Maker) -> Vec<Vec<u8>> {
    let number = maker.fresh();
    let (x, y, operation) = (32_768 + 2 * number, 32_769 + 2 * number, 9 + number);
    let takes = |pattern: &[u16]| receive(1, operation, pattern, invoke(2, 1, pattern));
    if maker.random.chance(75) {
        return vec![delimitation(x, maker.either(parallel, takes(&[x]), invoke(1, operation, &[5])))];
    }
    let part = maker.either(parallel, takes(&[x, y]), invoke(1, operation, &[5, 6]));
    vec![delimitation(x, delimitation(y, maker.either(parallel, part, invoke(2, 2, &[x]))))]
}

/// One wait of 0, or two one behind the other, or one in a choice.
fn expiring(maker: &mut Maker) -> Vec<Vec<u8>> {
    let values = maker.values();
    let waits = match maker.random.below(4) {
        0 => wait(0, nil()),
        1 => wait(0, wait(0, nil())),
        2 => wait(0, invoke(2, 1, &values)),
        _ => maker.either(choice, wait(0, nil()), receive(1, 2, &values, nil())),
    };
    vec![waits]
}

/// A replication with or without atoms of its own.
fn replicated(maker: &mut Maker) -> Vec<Vec<u8>> {
    let (number, values) = (maker.fresh(), maker.values());
    let (v, x) = (9 + number, 32_768 + 2 * number);
    let body = match maker.random.below(3) {
        0 => receive(1, 2, &values, nil()),
        1 => delimitation(v, invoke(1, v, &[v])),
        _ => delimitation(x, receive(1, 2, &[x], invoke(2, 1, &[x]))),
    };
    vec![replication(body)]
}
