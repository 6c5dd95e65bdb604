// The twelve nights of document 01 with the replies and last tables it gives, and a few further cases on which misreadings differ.
use crate::bytes::*;

const P: u16 = 1;
const O: u16 = 2;
const Q: u16 = 3;
const N: u16 = 4;
const V: u16 = 5;
const X: u16 = 32_768;
const Y: u16 = 32_769;
const K: u16 = 49_152;
const J: u16 = 49_153;

/// A move (kind, a, b) and its reply as play gives it (answer, place, records now).
pub type Played = ((u8, usize, usize), (u16, u16, u16));

pub struct Paper {
    pub name: &'static str,
    pub table: Vec<u8>,
    pub moves: Vec<Played>,
    /// the last table, where the paper gives it
    pub last: Option<Vec<u8>>,
}

fn paper(name: &'static str, table: Vec<u8>, moves: &[Played], last: Option<Vec<u8>>) -> Paper {
    Paper { name, table, moves: moves.to_vec(), last }
}

fn sent(v: u16) -> Vec<u8> {
    invoke(P, O, &[v])
}

fn taken(x: u16) -> Vec<u8> {
    receive(P, O, &[x], nil())
}

/// N8, which the two programs play.
pub fn n8() -> Vec<u8> {
    parallel(delimitation(X, taken(X)), sent(V))
}

pub fn nights() -> Vec<Paper> {
    let n2 = || delimitation(X, parallel(sent(V), parallel(taken(X), taken(V))));
    let n3 = delimitation(X, parallel(sent(V), parallel(taken(X), replication(taken(V)))));
    let n4 = delimitation(K, parallel(kill(K), parallel(protection(sent(V)), invoke(Q, O, &[V]))));
    let after_n4 = delimitation(K, parallel(nil(), parallel(protection(sent(V)), nil())));
    let n5 = delimitation(K, protection(parallel(kill(K), sent(V))));
    let n6 = parallel(delimitation(K, parallel(kill(K), taken(V))), sent(V));
    let n7 = parallel(delimitation(K, kill(K)), parallel(taken(V), sent(V)));
    let n10 = delimitation(X, parallel(sent(V), parallel(taken(X), delimitation(K, parallel(kill(K), taken(V))))));
    let n11 = |n| delimitation(n, invoke(1, 2, &[n]));
    let n12 = delimitation(X, delimitation(N, parallel(taken(X), sent(N))));
    vec![
        paper("N1", delimitation(X, parallel(sent(V), taken(X))), &[((1, 3, 2), (0, 0, 3))], Some(parallel(nil(), nil()))),
        paper("N2", n2(), &[((1, 4, 2), (15, 6, 8)), ((1, 6, 2), (0, 0, 7))], None),
        paper("N3", n3, &[((1, 4, 2), (15, 7, 9)), ((1, 7, 2), (11, 7, 9))], None),
        paper("N4", n4, &[((0, 2, 0), (0, 0, 7))], Some(after_n4)),
        paper("N5", n5, &[((0, 3, 0), (0, 0, 5))], Some(delimitation(K, protection(parallel(nil(), nil()))))),
        paper("N6", n6, &[((1, 4, 6), (14, 1, 7))], None),
        paper("N7", n7, &[((1, 4, 6), (0, 0, 6))], None),
        paper("N8", n8(), &[((1, 2, 4), (13, 2, 5)), ((5, 1, 0), (0, 0, 5)), ((1, 2, 4), (0, 0, 3))], Some(parallel(nil(), nil()))),
        paper("N9", wait(4, nil()), &n9(), Some(nil())),
        paper("N10", n10, &[((1, 4, 2), (15, 9, 11)), ((1, 9, 2), (14, 6, 11))], None),
        paper("N11", replication(n11(3)), &[((4, 0, 0), (0, 0, 6))], Some(parallel(n11(4), replication(n11(3))))),
        paper("N12", n12, &[((1, 3, 5), (13, 3, 6)), ((5, 1, 0), (0, 0, 6)), ((1, 3, 5), (0, 0, 4))], None),
    ]
}

fn n9() -> [Played; 4] {
    [((2, 0, 0), (16, 0, 2)), ((3, 5, 0), (0, 0, 2)), ((3, 1, 0), (0, 0, 2)), ((2, 0, 0), (0, 0, 1))]
}

/// Small nights on which wrong readings give another answer.
pub fn further() -> Vec<Paper> {
    let outer = parallel(delimitation(X, parallel(sent(V), taken(X))), taken(V));
    let inner = delimitation(X, parallel(sent(V), parallel(taken(X), delimitation(Y, taken(Y)))));
    let beside = delimitation(K, parallel(protection(parallel(kill(K), sent(V))), invoke(Q, O, &[V])));
    let sender = parallel(delimitation(K, parallel(kill(K), sent(V))), taken(V));
    let dormant = parallel(delimitation(K, parallel(replication(kill(K)), taken(V))), sent(V));
    let waits = |a, b, c| parallel(wait(a, nil()), parallel(wait(b, nil()), wait(c, nil())));
    let replicated_wait = |n| parallel(replication(wait(5, nil())), wait(n, nil()));
    let choices = choice(taken(V), choice(wait(0, sent(V)), wait(7, nil())));
    let two_values = delimitation(Y, delimitation(N, delimitation(X, parallel(receive(P, O, &[X, Y], nil()), invoke(P, O, &[N, V])))));
    let two_scopes = delimitation(J, delimitation(K, parallel(kill(K), parallel(taken(V), sent(V)))));
    let held_loose = delimitation(X, delimitation(K, parallel(kill(K), parallel(sent(V), parallel(taken(X), taken(V))))));
    let held_twice = delimitation(J, delimitation(K, parallel(parallel(kill(J), kill(K)), parallel(taken(V), sent(V)))));
    let scope = delimitation(
        X,
        parallel(sent(V), parallel(receive(P, O, &[X], invoke(Q, O, &[X])), parallel(invoke(Q, O, &[X]), replication(protection(taken(X)))))),
    );
    let after_scope = parallel(nil(), parallel(invoke(Q, O, &[V]), parallel(invoke(Q, O, &[V]), replication(protection(taken(V))))));
    let pair = |a, b| delimitation(a, delimitation(b, invoke(1, 2, &[a, b])));
    vec![
        paper("variables of the receive, open or not", outer, &[((1, 4, 3), (15, 6, 8))], None),
        paper("variables of the other receive, open or not", inner, &[((1, 4, 2), (0, 0, 7))], None),
        paper(
            "a protection around the kill",
            beside,
            &[((0, 4, 0), (0, 0, 7))],
            Some(delimitation(K, parallel(protection(parallel(nil(), nil())), nil()))),
        ),
        paper("a kill in the scope of the invoke", sender, &[((1, 5, 4), (14, 1, 7))], None),
        paper("a replicated kill", dormant, &[((1, 5, 7), (14, 1, 8))], None),
        paper("a replicated wait", replicated_wait(5), &[((3, 3, 0), (0, 0, 6))], Some(replicated_wait(2))),
        paper("waits that hold less", waits(9, 4, 1), &[((3, 0, 0), (17, 0, 8)), ((3, 5, 0), (0, 0, 8))], Some(waits(4, 0, 0))),
        paper("choices within choices", choices, &[((2, 4, 0), (0, 0, 1))], Some(sent(V))),
        paper("each variable with its value", two_values, &[((1, 4, 6), (0, 0, 4))], None),
        paper("the scope of the kill's own label", two_scopes, &[((1, 5, 7), (14, 1, 8))], None),
        paper("held back, and a tighter receive", held_loose, &[((1, 7, 5), (14, 1, 11))], None),
        paper("held back by two", held_twice, &[((1, 7, 9), (14, 0, 10))], None),
        paper("everywhere in the delimitation", scope, &[((1, 4, 2), (0, 0, 10))], Some(after_scope)),
        paper("renamed in record order", replication(pair(3, 4)), &[((4, 0, 0), (0, 0, 8))], Some(parallel(pair(5, 6), replication(pair(3, 4))))),
        paper("both parties at fault", parallel(nil(), nil()), &[((1, 2, 1), (11, 2, 3))], None),
        paper("nil alone", nil(), &[((3, 65_535, 0), (0, 0, 1))], Some(nil())),
    ]
}

/// The moves of a paper as a list.
pub fn list(paper: &Paper) -> Vec<u8> {
    paper.moves.iter().flat_map(|((kind, a, b), _)| a_move(*kind, *a, *b)).collect()
}

/// The replies that a paper gives, as play writes them.
pub fn replies(paper: &Paper) -> Vec<u8> {
    let words = paper.moves.iter().flat_map(|(_, (answer, place, records))| [*answer, *place, *records]);
    words.flat_map(u16::to_le_bytes).collect()
}
