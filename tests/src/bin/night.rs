// N8 of document 01 played through the library from Rust: [x]p·o?⟨x⟩.0 | p·o!⟨v⟩, with a communication that is refused until [x] is extruded.
use trial::bytes::{delimitation, invoke, nil, parallel, receive, word};
use trial::library;

const P: u16 = 1;
const O: u16 = 2;
const V: u16 = 5;
const X: u16 = 32_768;

const MOVES: [[u8; 6]; 3] = [
    [1, 0, 2, 0, 4, 0], // communication of 2 and 4
    [5, 0, 1, 0, 0, 0], // extrusion of 1
    [1, 0, 2, 0, 4, 0], // communication of 2 and 4
];

fn main() {
    let table = parallel(delimitation(X, receive(P, O, &[X], nil())), invoke(P, O, &[V]));
    let (mut out, mut replies) = (vec![0; 32_768], [0; 18]);
    let (reply, tally) = library::play(&table, &MOVES.concat(), &mut out, &mut replies);
    for (i, (m, r)) in MOVES.iter().zip(replies.chunks(6)).enumerate() {
        println!("{} {} {} {} {}", i + 1, m[0], word(r, 0), word(r, 2), word(r, 4));
    }
    let left = library::load(&out[..16 * reply.records]).records;
    println!("total {} {} {} {left}", tally.communications, tally.kills, tally.timeouts);
}
