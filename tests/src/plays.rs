// The library's play beside the independent implementation's: reply, both buffers and the bytes around them, tally; refusals 19 and 21.
use crate::bytes::{self, changed};
use crate::compare::{Lent, Reached};
use crate::generate;
use crate::library;
use crate::nights::{self, Fault};
use crate::papers;
use crate::random::Random;
use crate::reference;

/// A table, a list of moves and the bytes of room in both buffers.
pub struct Play {
    pub table: Vec<u8>,
    pub moves: Vec<u8>,
    pub room: usize,
    pub space: usize,
}

/// What differs, if anything does.
pub fn difference(play: &Play, reached: &mut Reached) -> Option<&'static str> {
    let (table, moves) = (play.table.clone(), play.moves.clone());
    let (mut out, mut replies) = (Lent::new(play.room), Lent::new(play.space));
    let (mut last, mut expected) = (Lent::new(play.room), Lent::new(play.space));
    let (ours, tally) = library::play(&table, &moves, out.lend(), replies.lend());
    let (theirs, counts) = reference::play(&play.table, &play.moves, last.lend(), expected.lend());
    reached.play(moves.len() / 6, &ours);
    let tests = [
        (ours != theirs, "play's own reply"),
        (tally != counts, "play's tally"),
        (!out.same(&last), "play's output"),
        (!replies.same(&expected), "play's replies"),
        (table != play.table || moves != play.moves, "what play only reads"),
    ];
    tests.into_iter().find(|(differs, _)| *differs).map(|(_, what)| what)
}

/// A play with buffers that just fit, or are too short, or longer; a list that may have a tail or be too long; a table that may be damaged.
pub fn draw(random: &mut Random) -> Play {
    let records = random.pick(&[4, 10, 20]);
    let damaged = random.chance(10);
    let table = if damaged { generate::damaged(random, records) } else { generate::table(random, records) };
    let count = random.pick(&[0, 1, 2, 5, 20, 60]);
    let mut moves = list(random, &table, count);
    let tail = if random.chance(30) { random.below(6) } else { 0 };
    moves.extend(random.bytes(tail));
    if random.chance(3) {
        moves.resize(random.pick(&[59_999, 60_000, 60_001, 60_005, 60_006, 65_536]), 0);
    }
    let room = random.pick(&[32_768, 32_768, 32_768, 32_768, 32_800, 32_767, 0]);
    let whole = moves.len() / 6 * 6;
    let space = random.pick(&[whole, whole, whole, moves.len() + 7, whole.saturating_sub(1)]);
    Play { table, moves, room, space }
}

/// Moves drawn on the tables that the library leaves.
fn list(random: &mut Random, table: &[u8], count: usize) -> Vec<u8> {
    let mut now = table.to_vec();
    let mut moves = vec![];
    let mut out = vec![0; 32_768];
    for _ in 0..count {
        let m = nights::next_move(random, &now);
        let reply = library::step(&now, &m, &mut out);
        if reply.answer == 0 {
            now = out[..16 * reply.records].to_vec();
        }
        moves.extend(m);
    }
    moves
}

/// A drawn play compared.
pub fn run(random: &mut Random, reached: &mut Reached) -> Result<(), Fault> {
    let play = draw(random);
    compare(&play, reached)
}

pub fn compare(play: &Play, reached: &mut Reached) -> Result<(), Fault> {
    match difference(play, reached) {
        Some(what) => Err(Fault::List { table: play.table.clone(), moves: play.moves.clone(), what }),
        None => Ok(()),
    }
}

/// The same list with full buffers, as nights are compared.
pub fn differs(table: &[u8], moves: &[u8], reached: &mut Reached) -> Option<&'static str> {
    let play = Play { table: table.to_vec(), moves: moves.to_vec(), room: 32_768, space: moves.len() };
    difference(&play, reached)
}

/// The lengths around play's limits: lists of 60,000 bytes and more, and outputs around 32,768.
pub fn limits(reached: &mut Reached) -> Result<(), Fault> {
    for length in (59_994..=60_012).chain(0..=20) {
        let moves = [3, 0, 1, 0, 0, 0].into_iter().cycle().take(length).collect();
        compare(&Play { table: bytes::nil(), moves, room: 32_768, space: 60_000 }, reached)?;
    }
    for room in (32_760..=32_776).chain(0..=40) {
        compare(&Play { table: bytes::nil(), moves: vec![0; 12], room, space: 12 }, reached)?;
    }
    for space in 0..=40 {
        compare(&Play { table: bytes::nil(), moves: vec![0; 29], room: 32_800, space }, reached)?;
    }
    Ok(())
}

/// Lists of 10,000 moves, with and without a tail, and of one more, that were drawn on the tables they leave.
pub fn longest(random: &mut Random, reached: &mut Reached) -> Result<(), Fault> {
    for records in [10, 20, 40] {
        let table = generate::night(random, records);
        let moves = list(random, &table, 10_001);
        for length in [60_000, 59_999, 60_001, 60_006] {
            compare(&Play { table: table.clone(), moves: moves[..length].to_vec(), room: 32_768, space: 60_000 }, reached)?;
        }
    }
    Ok(())
}

/// The papers' lists with a single byte of the list or of the table changed, one change in so many; and lists of any bytes.
pub fn damaged(random: &mut Random, stride: usize, reached: &mut Reached) -> Result<(), Fault> {
    for paper in papers::nights().iter().chain(&papers::further()) {
        let (table, moves) = (&paper.table, papers::list(paper));
        for change in (0..255 * moves.len()).step_by(stride) {
            let play = Play { table: table.clone(), moves: changed(&moves, change), room: 32_768, space: moves.len() };
            compare(&play, reached)?;
        }
        for change in (0..255 * table.len()).step_by(16 * stride) {
            let play = Play { table: changed(table, change), moves: moves.clone(), room: 32_768, space: moves.len() };
            compare(&play, reached)?;
        }
        let length = random.below(600);
        compare(&Play { table: table.clone(), moves: random.bytes(length), room: 32_768, space: 600 }, reached)?;
    }
    Ok(())
}
