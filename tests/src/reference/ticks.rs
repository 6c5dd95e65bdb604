// Ticks from the controller (request 2026-05): a time move from two readings of a clock of 32 bits.
use super::faults::{planted, Fault};
use super::moves::{write_move, Move};
use super::night::{check, step};
use super::Reply;

/// The later reading less the earlier. A clock that shows less than before has rolled over at the top.
fn elapsed(earlier: u32, later: u32) -> u64 {
    let (earlier, later) = (u64::from(earlier), u64::from(later));
    if earlier <= later {
        return later - earlier;
    }
    if planted(Fault::StopsAtZero) {
        return 0;
    }
    later + 4_294_967_296 - earlier
}

/// 23, a clock gone back, and 24, more than a move's time.
fn refusal(elapsed: u64) -> Option<u8> {
    let back = elapsed >= 2_147_483_648 - planted(Fault::BackOneEarly) as u64;
    let long = elapsed > 65_535 - planted(Fault::LongOneEarly) as u64;
    if long && planted(Fault::LongBeforeBack) {
        return Some(24);
    }
    if back {
        return Some(23);
    }
    if long && !planted(Fault::LongByRemainder) {
        return Some(24);
    }
    None
}

/// A time move from two readings: the table's refusals, 23, 24, and then the table as it came or what a step of that time gives.
pub fn ticks(table: &[u8], earlier: u32, later: u32, out: &mut [u8]) -> Reply {
    let elapsed = elapsed(earlier, later);
    let checked = check(table);
    let refused = |answer| Reply { answer, place: 0, records: 0 };
    if checked.answer != 0 && !planted(Fault::TicksBeforeTable) {
        return checked;
    }
    if planted(Fault::RoomBeforeTicks) && out.len() < table.len() {
        return refused(21);
    }
    if let Some(answer) = refusal(elapsed) {
        if answer == 24 && planted(Fault::LongWrites) && table.len() <= out.len() {
            out[..table.len()].copy_from_slice(table);
        }
        return refused(answer);
    }
    if elapsed == 0 && checked.answer == 0 && !planted(Fault::NoTickAsTime) {
        return handed_on(table, checked, out);
    }
    step(table, &write_move(Move::Elapse(elapsed as u16)), out)
}

/// No tick: no move is made.
fn handed_on(table: &[u8], checked: Reply, out: &mut [u8]) -> Reply {
    if out.len() < table.len() {
        return Reply { answer: 21, place: 0, records: 0 };
    }
    if !planted(Fault::NotHandedOn) {
        out[..table.len()].copy_from_slice(table);
    }
    if planted(Fault::ByteBehindTable) && table.len() < out.len() {
        out[table.len()] = 0;
    }
    checked
}
