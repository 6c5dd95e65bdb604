// The smallest case on which the two still differ, found by making it smaller as long as they do.
use crate::bytes;
use crate::compare::{check, step, Case};

/// Whether the library and the independent implementation differ on a case.
pub fn differ(case: &Case) -> bool {
    !step(case).agrees() || !check(&case.table).agrees()
}

/// So many smaller cases are tried before a case is taken for the smallest; only a table at the limits has more.
pub const TRIES: usize = 600;

/// Smaller cases are tried until none differs any more.
pub fn shrink(mut case: Case, differ: impl Fn(&Case) -> bool) -> Case {
    loop {
        let Some(next) = smaller(&case).take(TRIES).find(&differ) else { break };
        case = next;
    }
    case
}

/// Cases that are a little smaller.
fn smaller(case: &Case) -> impl Iterator<Item = Case> + '_ {
    let tables = pruned(case).flat_map(|c| with_room(case, c)).chain(simpler(case));
    let rooms = [16 * (case.table.len() / 16 + 1), 32_768].into_iter().filter(|r| *r < case.room);
    tables.chain(rooms.map(|room| Case { room, ..case.clone() }))
}

/// A smaller case with the same room, and with as much less as its table has less.
fn with_room(case: &Case, smaller: Case) -> [Case; 2] {
    let less = case.table.len().saturating_sub(smaller.table.len());
    [smaller.clone(), Case { room: smaller.room.saturating_sub(less), ..smaller }]
}

/// A term in place of which one of its children stands, or nil.
fn pruned(case: &Case) -> impl Iterator<Item = Case> + '_ {
    let records = case.table.len() / 16;
    (0..records).flat_map(move |place| {
        let end = bytes::end(&case.table, place);
        let parts = bytes::parts(&case.table, place).into_iter().filter(move |p| *p < records);
        let by_child = parts.map(move |p| (p, bytes::end(&case.table, p)));
        let by_nil = (end > place + 1).then(|| without(case, place, end, place, place, &bytes::nil()));
        by_child.map(move |(p, q)| without(case, place, end, p, q, &[])).chain(by_nil).chain([dropped(case, place)])
    })
}

/// One record less.
fn dropped(case: &Case, place: usize) -> Case {
    without(case, place, place + 1, place, place, &[])
}

/// The records from `from` to `to` give way to those from `p` to `q` and then to `new`; the places in the move follow.
fn without(case: &Case, from: usize, to: usize, p: usize, q: usize, new: &[u8]) -> Case {
    let mut table = case.table[..16 * from].to_vec();
    table.extend(&case.table[16 * p..16 * q]);
    table.extend(new);
    table.extend(&case.table[16 * to..]);
    let fewer = to - from - (q - p) - new.len() / 16;
    let moved = |place: usize| match place {
        _ if place >= to => place - fewer,
        _ if (p..q).contains(&place) => place - (p - from),
        _ => place,
    };
    Case { table, m: with_places(&case.m, moved), room: case.room }
}

/// The same moves, six bytes each, at the places that the records have come to.
fn with_places(moves: &[u8], moved: impl Fn(usize) -> usize) -> Vec<u8> {
    let mut moves = moves.to_vec();
    for m in moves.chunks_mut(6) {
        let slots: &[usize] = match m[0] {
            1 => &[2, 4],
            3 => &[],
            _ => &[2],
        };
        for slot in slots {
            if slot + 2 <= m.len() {
                let place = moved(bytes::word(m, *slot) as usize) as u16;
                m[*slot..slot + 2].copy_from_slice(&place.to_le_bytes());
            }
        }
    }
    moves
}

/// A record with a shorter tuple, or a wait of 0.
fn simpler(case: &Case) -> impl Iterator<Item = Case> + '_ {
    (0..case.table.len() / 16).filter_map(|place| {
        let at = 16 * place;
        let mut table = case.table.clone();
        let count = table[at + 1] as usize;
        match table[at] {
            2 | 3 if (1..=4).contains(&count) => {
                table[at + 1] -= 1;
                table[at + 4 + 2 * count..at + 6 + 2 * count].fill(0);
            }
            4 if bytes::word(&table, at + 14) > 1 => table[at + 14..at + 16].copy_from_slice(&[1, 0]),
            _ => return None,
        }
        Some(Case { table, ..case.clone() })
    })
}
