// Check and each move at every size: the move's part amid random records, and the part that moves found on the table.
use super::maker::Maker;
use super::{turn, workload, Turn, K, SIZES, TURN, X};
use crate::bytes::*;

/// An operation, the kind of its move, the move's answer, and a table of so many records for it.
type Make = (&'static str, u8, u8, fn(&mut Maker, usize) -> Vec<u8>);

const MAKES: [Make; 10] = [
    ("check", 3, 0, Maker::filler),
    ("kill", 0, 0, scope),
    ("communicate", 1, 0, |m, n| meeting(m, n, receive(1, 2, &[X], invoke(3, 2, &[X])))),
    ("timeout", 2, 0, expiry),
    ("elapse", 3, 0, Maker::filler),
    ("unfold", 4, 0, replicated),
    ("extrude", 5, 0, |m, n| m.amid(protection(delimitation(7, invoke(1, 2, &[7]))), n)),
    ("refusal12", 1, 12, |m, n| meeting(m, n, receive(1, 2, &[6], nil()))),
    ("refusal14", 1, 14, held),
    ("refusal15", 1, 15, |m, n| meeting(m, n, parallel(receive(1, 2, &[X], nil()), receive(1, 2, &[5], nil())))),
];

/// Check and each move at every size, in turns whose names have the wanted part.
pub fn at_sizes(wanted: &str) -> Vec<Turn> {
    MAKES.iter().flat_map(|make| SIZES.iter().filter_map(|n| turn_of(wanted, make, *n))).collect()
}

fn turn_of(wanted: &str, make: &Make, n: usize) -> Option<Turn> {
    let (operation, kind, answer, table) = *make;
    turn(wanted, format!("{operation}-{n:04}"), TURN / n, |maker, name| {
        let table = table(maker, n);
        let m = the_move(&table, kind);
        workload(name, operation, table, m, answer)
    })
}

/// The move of a kind on what such a part brings: of 1·2, of 7, or alone of its kind.
fn the_move(table: &[u8], kind: u8) -> [u8; 6] {
    let found = |fits: fn(&[u8]) -> bool| table.chunks(16).position(fits).expect("a record that moves");
    match kind {
        0 => a_move(0, found(|r| r[0] == 1), 0),
        1 => a_move(1, found(|r| r[0] == 3 && word(r, 2) == 1), found(|r| r[0] == 2 && word(r, 2) == 1)),
        2 => a_move(2, found(|r| r[0] == 4 && word(r, 14) == 0), 0),
        3 => a_move(3, 1, 0),
        4 => a_move(4, found(|r| r[0] == 9), 0),
        _ => a_move(5, found(|r| r[0] == 8 && word(r, 2) == 7), 0),
    }
}

/// An invoke and who takes it, in a variable's scope.
fn meeting(maker: &mut Maker, n: usize, takes: Vec<u8>) -> Vec<u8> {
    let part = delimitation(X, maker.either(parallel, invoke(1, 2, &[5]), takes));
    maker.amid(part, n)
}

/// A meeting in a scope with a ready kill.
fn held(maker: &mut Maker, n: usize) -> Vec<u8> {
    let parties = maker.either(parallel, invoke(1, 2, &[5]), receive(1, 2, &[5], nil()));
    let part = delimitation(K, maker.either(parallel, kill(K), parties));
    maker.amid(part, n)
}

/// A wait of 0 beside a receive.
fn expiry(maker: &mut Maker, n: usize) -> Vec<u8> {
    let part = maker.either(choice, receive(1, 2, &[5], nil()), wait(0, invoke(1, 2, &[5])));
    maker.amid(part, n)
}

/// A kill in the middle, whose scope holds half of the table.
fn scope(maker: &mut Maker, n: usize) -> Vec<u8> {
    let (outside, inside) = (maker.filler(n / 2), maker.filler(n - n / 2 - 4));
    let part = delimitation(K, maker.either(parallel, kill(K), inside));
    maker.either(parallel, outside, part)
}

/// A replication of a quarter of the successor's records; the successor has n.
fn replicated(maker: &mut Maker, n: usize) -> Vec<u8> {
    let (body, others) = (maker.filler(n / 4), maker.filler(n - 2 * (n / 4) - 3));
    maker.either(parallel, others, replication(body))
}
