// What can happen now: the library's list of open moves beside the independent implementation's: reply, every byte of the buffer and those around it.
use crate::bytes;
use crate::compare::{said, Lent, Reached};
use crate::library;
use crate::nights::Fault;
use crate::reference::{self, Found, Refusal};
use crate::reply::Reply;
use crate::workloads;

/// What the independent implementation finds of a table.
type Judged = Result<Found, Refusal>;

/// The bytes that the list needs; some bytes where the table is refused, to see them untouched.
fn needed(found: &Judged) -> usize {
    found.as_ref().map_or(48, |found| 6 * found.open.len())
}

/// Rooms for a list of so many bytes: just enough, a little more, a byte short, up to 7 short, far too short, empty.
fn rooms(table: &[u8], needed: usize) -> Vec<usize> {
    let turn = table.len() / 16;
    let short = |by: usize| needed.saturating_sub(by);
    let mut rooms = vec![needed, needed + 1 + turn % 13, short(1), short(2 + turn % 6), needed / 3, 0];
    rooms.sort();
    rooms.dedup();
    rooms
}

/// The library's reply for one room, and whether all agrees.
fn agreed(table: &[u8], found: &Judged, room: usize) -> (Reply, bool) {
    let lent = table.to_vec();
    let (mut list, mut expected) = (Lent::new(room), Lent::new(room));
    let ours = library::open(&lent, list.lend());
    let theirs = reference::put_list(found, expected.lend());
    // once more into a block of its own, where a memory checker sees any byte outside
    let mut alone = Lent::new(room).bytes().to_vec();
    let again = library::open(&lent, &mut alone);
    (ours, ours == theirs && list.same(&expected) && again == ours && alone == list.bytes() && lent == table)
}

/// The list of a table compared in each of the rooms.
pub fn compare(table: &[u8], reached: &mut Reached) -> Result<(), Fault> {
    let found = reference::open_moves(table);
    reached.listed.table(&found);
    compare_in(table, &found, &rooms(table, needed(&found)), reached)
}

/// The same in rooms of every length up to a little more than enough, one in so many.
pub fn compare_lengths(table: &[u8], stride: usize, reached: &mut Reached) -> Result<(), Fault> {
    let found = reference::open_moves(table);
    let rooms: Vec<usize> = (0..=needed(&found) + 16).step_by(stride).collect();
    compare_in(table, &found, &rooms, reached)
}

fn compare_in(table: &[u8], found: &Judged, rooms: &[usize], reached: &mut Reached) -> Result<(), Fault> {
    for room in rooms {
        let (ours, agrees) = agreed(table, found, *room);
        reached.list(*room, &ours);
        if !agrees {
            return Err(Fault::Open(table.to_vec()));
        }
    }
    Ok(())
}

/// Whether the two differ on the list of a table.
pub fn differ(table: &[u8]) -> bool {
    compare(table, &mut Reached::new()).is_err()
}

/// The longest list that is known: 341 receives and 513 invokes that all can meet, 174,933 moves.
pub fn longest(reached: &mut Reached) -> Result<(), Fault> {
    compare(&workloads::meetings(341, 513, 0), reached)
}

/// A table on which the lists differ, for the reader: the first room that shows it.
pub fn describe(table: &[u8]) -> String {
    let found = reference::open_moves(table);
    let room = rooms(table, needed(&found)).into_iter().find(|room| !agreed(table, &found, *room).1).unwrap_or(0);
    let (mut list, mut expected) = (vec![0xa5; room], vec![0xa5; room]);
    let (ours, theirs) = (library::open(table, &mut list), reference::put_list(&found, &mut expected));
    format!(
        "  table ({} records): {}\n  list in {room} bytes: library {}; independent {}\n  library {}\n  independent {}",
        table.len() / 16,
        bytes::text(table),
        said(&ours),
        said(&theirs),
        moves(&list),
        moves(&expected),
    )
}

/// The first moves of a buffer: kind, a and b of each.
fn moves(list: &[u8]) -> String {
    let text = |m: &[u8]| format!("{}({},{})", m[0], bytes::word(m, 2), bytes::word(m, 4));
    let some: Vec<String> = list.chunks_exact(6).take(20).map(text).collect();
    if some.is_empty() {
        return "nothing".into();
    }
    some.join(" ")
}

/// How often lists had what can stand in them and what can keep a move out of them.
#[derive(Clone, Default)]
pub struct Listed {
    pub tables: u64,
    /// tables with an open move of each kind
    pub of_kind: [u64; 6],
    pub too_large_unfolding: u64,
    pub too_large_floating: u64,
    pub held_back: u64,
    pub looser: u64,
    pub lists: u64,
    pub empty: u64,
    pub many: u64,
    pub many_refused: u64,
}

/// As many moves as 16 bits can count.
const MANY: usize = 65_535;

impl Listed {
    /// What the independent implementation found of a table; of the limits it counts tables where other moves of that kind are open.
    fn table(&mut self, found: &Judged) {
        self.tables += 1;
        let Ok(found) = found else { return };
        let mut open = [false; 6];
        found.open.iter().for_each(|m| open[m.kind()] = true);
        self.of_kind.iter_mut().zip(open).for_each(|(count, has)| *count += has as u64);
        let refused = |answer: u8, kind: usize| found.refused.iter().any(|(m, r)| *r == answer && m.kind() == kind);
        self.too_large_unfolding += (refused(20, 4) && open[4]) as u64;
        self.too_large_floating += (refused(20, 5) && open[5]) as u64;
        self.held_back += refused(14, 1) as u64;
        self.looser += refused(15, 1) as u64;
    }

    /// A list in a buffer of so many bytes, and the library's reply.
    pub fn list(&mut self, room: usize, reply: &Reply) {
        self.lists += 1;
        self.empty += (reply.answer == 0 && room == 0) as u64;
        self.many += (reply.answer == 0 && reply.records > MANY) as u64;
        self.many_refused += (reply.answer == 22 && reply.place > MANY) as u64;
    }

    /// What must be reached, in words, and how often it was.
    pub fn counts(&self) -> Vec<(String, u64)> {
        let kinds = [("a kill", 0), ("a communication", 1), ("a timeout", 2), ("an unfolding", 4), ("an extrusion", 5)];
        let of_kind = kinds.iter().map(|(name, kind)| (format!("lists with {name}"), self.of_kind[*kind]));
        let others = [
            ("lists with an unfolding and without one that would be 20", self.too_large_unfolding),
            ("lists with an extrusion and without one that would be 20", self.too_large_floating),
            ("lists without a communication that is held back", self.held_back),
            ("lists without a communication whose receive is looser", self.looser),
            ("empty lists in an empty buffer", self.empty),
            ("lists of over 65,535 moves", self.many),
            ("lists of over 65,535 moves without room", self.many_refused),
        ];
        of_kind.chain(others.map(|(words, count)| (words.into(), count))).collect()
    }
}
