// Orc scripts (request 2026-03): an expression read from its records, and refusals 30 to 32.
use super::faults::{planted, Fault};
use super::terms::{is_label, is_value, is_variable, Atom};
use super::Refusal;

/// A partner and an operation.
pub type Endpoint = (Atom, Atom);

/// What a record of a script says.
#[derive(Clone, Copy)]
pub enum Operator {
    Nothing,
    Call(Endpoint, Atom),
    Sequence(Atom),
    Parallel,
    Where(Atom),
}

/// An expression: a record with its place in the script, and its parts, left first.
pub struct Expression {
    pub operator: Operator,
    pub place: usize,
    pub parts: Vec<Expression>,
}

impl Operator {
    fn children(self) -> usize {
        match self {
            Operator::Nothing | Operator::Call(..) => 0,
            _ => 2,
        }
    }

    /// The variable that a sequence or a where binds.
    pub fn binds(self) -> Option<Atom> {
        match self {
            Operator::Sequence(x) | Operator::Where(x) => Some(x),
            _ => None,
        }
    }
}

/// The expression of a script with its records, its results sent to an endpoint: refusals 30 to 32.
pub fn read_script(script: &[u8], result: Endpoint) -> Result<(Expression, Vec<Operator>), Refusal> {
    let records = read_records(script, result)?;
    if planted(Fault::VariablesBeforeShape) {
        first_place(32, (0..records.len()).find(|p| bound_before(&records, *p)))?;
    }
    let expression = read_expression(&records)?;
    check_variables(&expression, &records)?;
    Ok((expression, records))
}

/// Refused at a place, if there is one.
pub fn first_place(answer: u8, place: Option<usize>) -> Result<(), Refusal> {
    place.map_or(Ok(()), |place| Err(Refusal { answer, place }))
}

/// 30: a length that is none of a script's, a result endpoint of other atoms than values, or a malformed record.
fn read_records(script: &[u8], result: Endpoint) -> Result<Vec<Operator>, Refusal> {
    let most = if planted(Fault::LongScript) { 513 } else { 512 };
    if script.is_empty() || script.len() > 8 * most || script.len() % 8 != 0 {
        return Err(Refusal { answer: 30, place: 0 });
    }
    let records: Vec<Option<Operator>> = script.chunks(8).map(read_operator).collect();
    let malformed = records.iter().position(Option::is_none);
    if planted(Fault::RecordBeforeResult) {
        first_place(30, malformed)?;
    }
    let right = is_value(result.0) && (is_value(result.1) || planted(Fault::ResultToVariable) && is_variable(result.1));
    first_place(30, if right { malformed } else { Some(0) })?;
    Ok(records.into_iter().flatten().collect())
}

/// What a record says, if it keeps the rules for its kind.
fn read_operator(record: &[u8]) -> Option<Operator> {
    let word = |at: usize| record[at] as u16 + 256 * record[at + 1] as u16;
    let (atom, site) = (word(2), (word(4), word(6)));
    let parameter = is_value(atom) || is_variable(atom) || planted(Fault::LabelAsParameter) && is_label(atom);
    match record[0] {
        _ if record[1] != 0 => None,
        0 if atom == 0 && site == (0, 0) => Some(Operator::Nothing),
        1 if parameter && is_value(site.0) && is_value(site.1) => Some(Operator::Call(site, atom)),
        2 if is_variable(atom) && site == (0, 0) => Some(Operator::Sequence(atom)),
        3 if atom == 0 && site == (0, 0) => Some(Operator::Parallel),
        4 if is_variable(atom) && site == (0, 0) => Some(Operator::Where(atom)),
        _ => None,
    }
}

/// 31: the expression ends before the records do, the records end first, or one stands deeper than 64; the lowest place of these.
fn read_expression(records: &[Operator]) -> Result<Expression, Refusal> {
    let (mut next, mut deep) = (0, None);
    let whole = read_at(records, &mut next, 1, &mut deep);
    let shape = if whole.is_none() { Some(records.len()) } else { Some(next).filter(|p| *p < records.len()) };
    let lowest = if planted(Fault::ShapeBeforeDepth) { shape.or(deep) } else { shape.into_iter().chain(deep).min() };
    first_place(31, lowest)?;
    Ok(whole.unwrap())
}

/// A record, then its parts; none if the records run out. The first record that is too deep is noted.
fn read_at(records: &[Operator], next: &mut usize, depth: usize, deep: &mut Option<usize>) -> Option<Expression> {
    let place = *next;
    let operator = *records.get(place)?;
    let deepest = if planted(Fault::Depth65) { 65 } else { 64 };
    if depth > deepest && deep.is_none() {
        *deep = Some(place);
    }
    *next += 1;
    let mut parts = vec![];
    for _ in 0..operator.children() {
        parts.push(read_at(records, next, depth + 1, deep)?);
    }
    Some(Expression { operator, place, parts })
}

/// 32: a variable unbound in a call, or bound a second time; the lowest place of both.
fn check_variables(root: &Expression, records: &[Operator]) -> Result<(), Refusal> {
    let mut scopes = vec![];
    collect(root, &[], &mut scopes);
    let unbound = |(f, open): &(&Expression, Vec<Atom>)| matches!(f.operator, Operator::Call(_, w) if is_variable(w) && !open.contains(&w));
    let again = |(f, open): &(&Expression, Vec<Atom>)| match f.operator.binds() {
        Some(x) if planted(Fault::AgainInsideOnly) => open.contains(&x),
        _ => bound_before(records, f.place),
    };
    if planted(Fault::UnboundBeforeAgain) {
        first_place(32, scopes.iter().position(unbound))?;
    }
    first_place(32, scopes.iter().position(|s| unbound(s) || again(s)))
}

/// Whether a record binds a variable that an earlier one binds, wherever that stands.
fn bound_before(records: &[Operator], place: usize) -> bool {
    records[place].binds().is_some_and(|x| records[..place].iter().any(|r| r.binds() == Some(x)))
}

/// Every expression in record order, with the variables in whose scope it stands: the right part of a sequence, the left part of a where.
fn collect<'a>(f: &'a Expression, open: &[Atom], all: &mut Vec<(&'a Expression, Vec<Atom>)>) {
    all.push((f, open.to_vec()));
    let scope = match f.operator {
        Operator::Sequence(_) => 1 - planted(Fault::SequenceBindsLeft) as usize,
        _ => planted(Fault::WhereBindsRight) as usize,
    };
    for (child, part) in f.parts.iter().enumerate() {
        let bound = f.operator.binds().filter(|_| child == scope);
        let inside: Vec<Atom> = open.iter().copied().chain(bound).collect();
        collect(part, &inside, all);
    }
}
