// The 16 bytes of a record, read and written.
use super::faults::{planted, Fault};
use super::terms::{is_label, is_value, is_variable, set_of, Atom, Ends, Head, Term};

/// The fields of a record as they stand in its bytes.
struct Fields {
    kind: u8,
    count: usize,
    first: Atom,
    second: Atom,
    slots: [Atom; 4],
    interval: u16,
}

fn word(bytes: &[u8], at: usize) -> u16 {
    bytes[at] as u16 + 256 * bytes[at + 1] as u16
}

fn fields(record: &[u8]) -> Fields {
    Fields {
        kind: record[0],
        count: record[1] as usize,
        first: word(record, 2),
        second: word(record, 4),
        slots: [word(record, 6), word(record, 8), word(record, 10), word(record, 12)],
        interval: word(record, 14),
    }
}

/// What a record says, if it keeps the rules for its kind (refusal 2).
pub fn read_head(record: &[u8]) -> Option<Head> {
    let f = fields(record);
    let tuple = read_tuple(&f)?;
    let no_tuple = tuple.is_empty();
    let no_ends = no_tuple && f.first == 0 && f.second == 0;
    let no_interval = f.interval == 0;
    match f.kind {
        0 if no_ends && no_interval => Some(Head::Nil),
        1 if no_tuple && f.second == 0 && no_interval && is_label(f.first) => Some(Head::Kill(f.first)),
        2 if no_interval => read_invoke(&f, tuple),
        3 if no_interval => read_receive(&f, tuple),
        4 if no_ends => Some(Head::Wait(f.interval)),
        5 if no_ends && no_interval => Some(Head::Choice),
        6 if no_ends && no_interval => Some(Head::Parallel),
        7 if no_ends && no_interval => Some(Head::Protection),
        8 if no_tuple && f.second == 0 && no_interval && f.first != 0 => Some(Head::Delimitation(f.first)),
        9 if no_ends && no_interval => Some(Head::Replication),
        _ => None,
    }
}

/// The tuple atoms up to the count; every slot from the count on is zero.
fn read_tuple(f: &Fields) -> Option<Vec<Atom>> {
    let count = if planted(Fault::TupleOfFive) && f.count == 5 { 4 } else { f.count };
    if count > 4 {
        return None;
    }
    let rest_unused = f.slots[count..].iter().all(|slot| *slot == 0);
    if !rest_unused && !planted(Fault::SlotBehindTuple) {
        return None;
    }
    Some(f.slots[..count].to_vec())
}

fn value_or_variable(atom: Atom) -> bool {
    is_value(atom) || is_variable(atom) || (planted(Fault::LabelSent) && set_of(atom).is_some())
}

/// An invoke: values and variables everywhere.
fn read_invoke(f: &Fields, tuple: Vec<Atom>) -> Option<Head> {
    let right = value_or_variable(f.first) && value_or_variable(f.second) && tuple.iter().all(|a| value_or_variable(*a));
    right.then(|| Head::Invoke(Ends { partner: f.first, operation: f.second, tuple }))
}

/// A receive: an endpoint of values; values and variables in the tuple, no variable twice.
fn read_receive(f: &Fields, tuple: Vec<Atom>) -> Option<Head> {
    let name = |atom: Atom| is_value(atom) || (planted(Fault::ReceiveOnVariable) && is_variable(atom));
    let right = name(f.first) && name(f.second) && tuple.iter().all(|a| value_or_variable(*a));
    let distinct = !repeats(&tuple) || planted(Fault::VariableTwice);
    (right && distinct).then(|| Head::Receive(Ends { partner: f.first, operation: f.second, tuple }))
}

/// Whether some variable stands twice in a pattern.
fn repeats(tuple: &[Atom]) -> bool {
    (0..tuple.len()).any(|i| is_variable(tuple[i]) && tuple[..i].contains(&tuple[i]))
}

fn kind_of(head: &Head) -> u8 {
    match head {
        Head::Nil => 0,
        Head::Kill(_) => 1,
        Head::Invoke(_) => 2,
        Head::Receive(_) => 3,
        Head::Wait(_) => 4,
        Head::Choice => 5,
        Head::Parallel => 6,
        Head::Protection => 7,
        Head::Delimitation(_) => 8,
        Head::Replication => 9,
    }
}

fn write_head(head: &Head, out: &mut Vec<u8>) {
    let (mut first, mut second, mut tuple, mut interval) = (0, 0, vec![], 0);
    match head {
        Head::Kill(atom) | Head::Delimitation(atom) => first = *atom,
        Head::Wait(n) => interval = *n,
        Head::Invoke(ends) | Head::Receive(ends) => {
            (first, second, tuple) = (ends.partner, ends.operation, ends.tuple.clone());
        }
        _ => {}
    }
    out.push(kind_of(head));
    out.push(tuple.len() as u8);
    tuple.resize(4, 0);
    for number in [first, second, tuple[0], tuple[1], tuple[2], tuple[3], interval] {
        out.extend(number.to_le_bytes());
    }
}

/// The table of a term.
pub fn encode(term: &Term) -> Vec<u8> {
    let mut out = vec![];
    for head in term.heads() {
        write_head(head, &mut out);
    }
    out
}
