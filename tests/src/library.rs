// The compiled library, safe to call: slices in, replies out. include/wigandoy.h says what each function does.
use crate::reply::{Reply, Tally};

mod raw {
    extern "C" {
        pub fn wigandoy_check(table: *const u8, bytes: usize) -> u64;
        pub fn wigandoy_step(table: *const u8, bytes: usize, m: *const u8, length: usize, out: *mut u8, room: usize) -> u64;
        pub fn wigandoy_ticks(table: *const u8, bytes: usize, earlier: u32, later: u32, out: *mut u8, room: usize) -> u64;
        pub fn wigandoy_joint(table: *const u8, bytes: usize, stops: *const u16, count: usize, out: *mut u8, room: usize, tally: *mut u32) -> u64;
        pub fn wigandoy_load(table: *const u8, bytes: usize) -> u64;
        pub fn wigandoy_open(table: *const u8, bytes: usize, list: *mut u8, room: usize) -> u64;
        pub fn wigandoy_orc(script: *const u8, bytes: usize, partner: u16, operation: u16, out: *mut u8, room: usize) -> u64;
        pub fn wigandoy_play(
            table: *const u8,
            bytes: usize,
            moves: *const u8,
            length: usize,
            out: *mut u8,
            room: usize,
            replies: *mut u8,
            space: usize,
            tally: *mut u32,
        ) -> u64;
    }
}

/// A reply from its number: the answer in the lowest 8 bits, the place in the 24 above, the records in the highest 32.
fn unpack(packed: u64) -> Reply {
    Reply { answer: packed as u8, place: (packed as u32 >> 8) as usize, records: (packed >> 32) as usize }
}

/// A tally from its four numbers.
fn counted(counts: [u32; 4]) -> Tally {
    let [communications, kills, timeouts, copied] = counts.map(u64::from);
    Tally { communications, kills, timeouts, copied }
}

/// Whether bytes are a well-formed table: its records, or the refusal of 1 to 7.
pub fn check(table: &[u8]) -> Reply {
    // SAFETY: pointer and length are those of a slice, which is only read.
    unpack(unsafe { raw::wigandoy_check(table.as_ptr(), table.len()) })
}

/// One move on a table: the successor in the output and its records, or the refusal of 1 to 21 and an untouched output.
pub fn step(table: &[u8], m: &[u8], out: &mut [u8]) -> Reply {
    // SAFETY: pointers and lengths are those of three slices; the one that is written is borrowed mutably and overlaps no other.
    unpack(unsafe { raw::wigandoy_step(table.as_ptr(), table.len(), m.as_ptr(), m.len(), out.as_mut_ptr(), out.len()) })
}

/// A time move from two readings of a clock: the table that is left in the output and its records, or the refusal of 1 to 7, 21, 23 or 24 and an untouched
/// output.
pub fn ticks(table: &[u8], earlier: u32, later: u32, out: &mut [u8]) -> Reply {
    // SAFETY: pointers and lengths are those of two slices; the one that is written is borrowed mutably and does not overlap the other.
    unpack(unsafe { raw::wigandoy_ticks(table.as_ptr(), table.len(), earlier, later, out.as_mut_ptr(), out.len()) })
}

/// Some kills as one step: the successor in the output and its records, or the refusal of 1 to 7, 11, 21, 25 or 26 and an untouched output; and the tally.
pub fn joint(table: &[u8], stops: &[u16], out: &mut [u8]) -> (Reply, Tally) {
    let mut counts = [u32::MAX; 4];
    let (t, s, o) = (table.as_ptr(), stops.as_ptr(), out.as_mut_ptr());
    // SAFETY: pointers and lengths are those of three slices and an array of four; those that are written are borrowed mutably and overlap no other.
    let packed = unsafe { raw::wigandoy_joint(t, table.len(), s, stops.len(), o, out.len(), counts.as_mut_ptr()) };
    (unpack(packed), counted(counts))
}

/// The load of a table, in place of the records, or the refusal of 1 to 7.
pub fn load(table: &[u8]) -> Reply {
    // SAFETY: pointer and length are those of a slice, which is only read.
    unpack(unsafe { raw::wigandoy_load(table.as_ptr(), table.len()) })
}

/// The open moves of a table, six bytes each, in the list and their number in place of the records; or the refusal of 1 to 7 or 22 and an untouched list.
pub fn open(table: &[u8], list: &mut [u8]) -> Reply {
    // SAFETY: pointers and lengths are those of two slices; the one that is written is borrowed mutably and does not overlap the other.
    unpack(unsafe { raw::wigandoy_open(table.as_ptr(), table.len(), list.as_mut_ptr(), list.len()) })
}

/// The table of an Orc script whose results are sent to an endpoint, in the output, and its records; or the refusal of 20, 21 or 30 to 32 and an untouched
/// output.
pub fn orc(script: &[u8], partner: u16, operation: u16, out: &mut [u8]) -> Reply {
    // SAFETY: pointers and lengths are those of two slices; the one that is written is borrowed mutably and does not overlap the other.
    unpack(unsafe { raw::wigandoy_orc(script.as_ptr(), script.len(), partner, operation, out.as_mut_ptr(), out.len()) })
}

/// A list of moves on a table: play's own reply, the last table in the output, six bytes for each move in the replies, and the tally.
pub fn play(table: &[u8], moves: &[u8], out: &mut [u8], replies: &mut [u8]) -> (Reply, Tally) {
    let mut counts = [u32::MAX; 4];
    let (t, m, o, r) = (table.as_ptr(), moves.as_ptr(), out.as_mut_ptr(), replies.as_mut_ptr());
    // SAFETY: pointers and lengths are those of four slices and an array of four; those that are written are borrowed mutably and overlap no other.
    let packed = unsafe { raw::wigandoy_play(t, table.len(), m, moves.len(), o, out.len(), r, replies.len(), counts.as_mut_ptr()) };
    (unpack(packed), counted(counts))
}
