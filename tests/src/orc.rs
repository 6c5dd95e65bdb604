// Orc scripts as bytes (request 2026-03): building them record by record, the ends of their expressions, and their text.
// The generator and the comparison use this and not the independent implementation.
use crate::bytes::word;

/// A script and the endpoint that its results are sent to.
#[derive(Clone, Debug)]
pub struct Script {
    pub bytes: Vec<u8>,
    pub result: (u16, u16),
}

/// One record.
pub fn record(kind: u8, atom: u16, site: (u16, u16)) -> Vec<u8> {
    let mut out = vec![kind, 0];
    for number in [atom, site.0, site.1] {
        out.extend(number.to_le_bytes());
    }
    out
}

fn above(mut head: Vec<u8>, left: Vec<u8>, right: Vec<u8>) -> Vec<u8> {
    head.extend(left);
    head.extend(right);
    head
}

pub fn nothing() -> Vec<u8> {
    record(0, 0, (0, 0))
}

/// S(w), the site S by its endpoint.
pub fn call(site: (u16, u16), parameter: u16) -> Vec<u8> {
    record(1, parameter, site)
}

/// f > x > g.
pub fn sequence(f: Vec<u8>, x: u16, g: Vec<u8>) -> Vec<u8> {
    above(record(2, x, (0, 0)), f, g)
}

pub fn parallel(f: Vec<u8>, g: Vec<u8>) -> Vec<u8> {
    above(record(3, 0, (0, 0)), f, g)
}

/// g where x :∈ f.
pub fn where_in(g: Vec<u8>, x: u16, f: Vec<u8>) -> Vec<u8> {
    above(record(4, x, (0, 0)), g, f)
}

/// Sequences, parallels and wheres have two parts.
pub fn children(kind: u8) -> usize {
    if (2..=4).contains(&kind) {
        2
    } else {
        0
    }
}

/// The place behind the expression at a place, or the number of records where they run out.
pub fn end(script: &[u8], place: usize) -> usize {
    let mut open = 1;
    let mut next = place;
    while open > 0 && next < script.len() / 8 {
        open = open + children(script[8 * next]) - 1;
        next += 1;
    }
    next
}

/// The places of a record's parts.
pub fn parts(script: &[u8], place: usize) -> Vec<usize> {
    let mut starts = vec![];
    let mut next = place + 1;
    for _ in 0..children(script[8 * place]) {
        starts.push(next);
        next = end(script, next);
    }
    starts
}

/// A script in Orc's signs, or its records where it is no expression.
pub fn text(script: &[u8]) -> String {
    if script.len() % 8 == 0 && script.chunks(8).all(|r| r[0] < 5) && whole(script) {
        let signs = text_at(script, 0);
        let cut: String = signs.chars().take(400).collect();
        return if cut.len() < signs.len() { cut + " .." } else { signs };
    }
    script.chunks(8).map(|r| r.iter().map(|b| format!("{b:02x}")).collect::<String>()).collect::<Vec<_>>().join(" ")
}

/// Whether the records are one expression.
fn whole(script: &[u8]) -> bool {
    let below: usize = script.chunks(8).map(|r| children(r[0])).sum();
    below + 1 == script.len() / 8 && end(script, 0) == script.len() / 8
}

fn text_at(script: &[u8], place: usize) -> String {
    let r = &script[8 * place..8 * place + 8];
    let atom = word(r, 2);
    let below: Vec<String> = parts(script, place).into_iter().map(|p| text_at(script, p)).collect();
    match r[0] {
        0 => "0".into(),
        1 => format!("{}·{}({atom})", word(r, 4), word(r, 6)),
        2 => format!("({} > {atom} > {})", below[0], below[1]),
        3 => format!("({} | {})", below[0], below[1]),
        _ => format!("({} where {atom} :∈ {})", below[0], below[1]),
    }
}
