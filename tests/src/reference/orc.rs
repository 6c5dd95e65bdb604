// Orc in COWS (request 2026-03): the clauses of document 002's auxiliary function ⟨⟨·⟩⟩, one by one, with the atoms that they introduce; and the table of
// the term that they give in a lent output, 20 and 21.
use super::faults::{planted, Fault};
use super::format::encode;
use super::scripts::{first_place, read_script, Endpoint, Expression, Operator};
use super::terms::{smallest_of, Atom, Ends, Head, Set, Term};
use super::{Refusal, Reply};

/// The term of a script, its results sent to an endpoint, or the refusal of 30 to 32.
pub fn translate(script: &[u8], result: Endpoint) -> Result<Term, Refusal> {
    let (expression, records) = read_script(script, result)?;
    let mut atoms = Atoms::of(&records, result);
    let term = atoms.clause(&expression, result);
    Ok(if planted(Fault::BoundRenamed) { renamed(term, &records, &mut atoms) } else { term })
}

/// The atoms that are in use, each under its number.
struct Atoms(Vec<bool>);

impl Atoms {
    /// Those of the input and of the result endpoint.
    fn of(records: &[Operator], result: Endpoint) -> Atoms {
        let mut atoms = Atoms(vec![false; 65_536]);
        for record in records {
            match *record {
                Operator::Call(site, parameter) => {
                    atoms.0[parameter as usize] |= !planted(Fault::ParametersNotTaken);
                    atoms.take(site, !planted(Fault::SitesNotTaken));
                }
                Operator::Sequence(x) | Operator::Where(x) => atoms.0[x as usize] = true,
                Operator::Nothing | Operator::Parallel => {}
            }
        }
        atoms.take(result, !planted(Fault::ResultNotTaken));
        atoms
    }

    fn take(&mut self, endpoint: Endpoint, really: bool) {
        self.0[endpoint.0 as usize] |= really;
        self.0[endpoint.1 as usize] |= really;
    }

    /// The smallest atom of a set that is not in use; from now on it is.
    fn fresh(&mut self, set: Set) -> Atom {
        let atom = (smallest_of(set)..).find(|a| !self.0[*a as usize]).unwrap();
        self.0[atom as usize] = true;
        atom
    }

    /// A fresh partner, then a fresh operation.
    fn endpoint(&mut self) -> Endpoint {
        let (first, second) = (self.fresh(Set::Value), self.fresh(Set::Value));
        if planted(Fault::OperationBeforePartner) {
            return (second, first);
        }
        (first, second)
    }

    /// ⟨⟨f⟩⟩r, the fresh atoms taken in the order of its records.
    fn clause(&mut self, f: &Expression, r: Endpoint) -> Term {
        match f.operator {
            Operator::Nothing => Term::nil(),
            Operator::Call(site, w) => call(site, w, r),
            Operator::Parallel => {
                let left = self.clause(&f.parts[0], r);
                parallel(left, self.clause(&f.parts[1], r))
            }
            Operator::Sequence(x) => self.sequence(&f.parts[0], x, &f.parts[1], r),
            Operator::Where(x) => self.where_in(&f.parts[0], x, &f.parts[1], r),
        }
    }

    /// ⟨⟨f > x > g⟩⟩r = [rf](⟨⟨f⟩⟩rf | *[x] rf?⟨x⟩.⟨⟨g⟩⟩r)
    fn sequence(&mut self, f: &Expression, x: Atom, g: &Expression, r: Endpoint) -> Term {
        let rf = self.endpoint();
        let left = self.clause(f, rf);
        let right = self.clause(g, if planted(Fault::ResultsKept) { rf } else { r });
        let taken = delimitation(x, receive(rf, x, right));
        let copied = if planted(Fault::NotReplicated) { taken } else { above(Head::Replication, vec![taken]) };
        delimitation(rf.0, delimitation(rf.1, parallel(left, copied)))
    }

    /// ⟨⟨g where x :∈ f⟩⟩r = [rf, x](⟨⟨g⟩⟩r | [k](⟨⟨f⟩⟩rf | rf?⟨x⟩.kill(k)))
    fn where_in(&mut self, g: &Expression, x: Atom, f: &Expression, r: Endpoint) -> Term {
        let rf = self.endpoint();
        let early = planted(Fault::LabelBeforeLeft).then(|| self.fresh(Set::Label));
        let left = self.clause(g, r);
        let k = early.unwrap_or_else(|| self.fresh(Set::Label));
        let right = self.clause(f, rf);
        let killed = if planted(Fault::KillLeftOut) { Term::nil() } else { above(Head::Kill(k), vec![]) };
        let first = parallel(right, receive(rf, x, killed));
        let both = if planted(Fault::LabelAroundBoth) { delimitation(k, parallel(left, first)) } else { parallel(left, delimitation(k, first)) };
        if planted(Fault::VariableOutermost) {
            return delimitation(x, delimitation(rf.0, delimitation(rf.1, both)));
        }
        delimitation(rf.0, delimitation(rf.1, delimitation(x, both)))
    }
}

/// ⟨⟨S(w)⟩⟩r = S!⟨w, r⟩
fn call(site: Endpoint, w: Atom, r: Endpoint) -> Term {
    let tuple = if planted(Fault::ResultBeforeParameter) { vec![r.0, r.1, w] } else { vec![w, r.0, r.1] };
    above(Head::Invoke(Ends { partner: site.0, operation: site.1, tuple }), vec![])
}

fn above(head: Head, parts: Vec<Term>) -> Term {
    Term { head, parts }
}

fn parallel(left: Term, right: Term) -> Term {
    above(Head::Parallel, vec![left, right])
}

fn delimitation(atom: Atom, of: Term) -> Term {
    above(Head::Delimitation(atom), vec![of])
}

fn receive(from: Endpoint, x: Atom, then: Term) -> Term {
    above(Head::Receive(Ends { partner: from.0, operation: from.1, tuple: vec![x] }), vec![then])
}

/// The term with fresh variables for the bound ones (of use to a planted fault only).
fn renamed(term: Term, records: &[Operator], atoms: &mut Atoms) -> Term {
    records.iter().filter_map(|r| r.binds()).fold(term, |term, x| {
        let y = atoms.fresh(Set::Variable);
        term.map(&|a| if a == x { y } else { a })
    })
}

/// The reply for an output of that length, and the table from its start; 20 and 21.
pub fn put_translation(translated: &Result<Term, Refusal>, out: &mut [u8]) -> Reply {
    let put = translated.as_ref().map_err(|r| *r).and_then(|term| put_term(term, out));
    if put.is_err() && planted(Fault::RefusedScriptWrites) && !out.is_empty() {
        out[0] = 0;
    }
    match put {
        Ok(records) => Reply { answer: 0, place: 0, records },
        Err(r) => Reply { answer: r.answer, place: r.place, records: 0 },
    }
}

fn put_term(term: &Term, out: &mut [u8]) -> Result<usize, Refusal> {
    let bytes = encode(term);
    let no_room = Some(0).filter(|_| out.len() < bytes.len());
    if planted(Fault::RoomBeforeTooLarge) {
        first_place(21, no_room)?;
    }
    let too_long = bytes.len() > 16 * 2_048 && !planted(Fault::LongTranslation);
    let too_deep = term.depth() > 256 && !planted(Fault::DeepTranslation);
    first_place(20, Some(0).filter(|_| too_long || too_deep))?;
    first_place(21, no_room)?;
    out[..bytes.len()].copy_from_slice(&bytes);
    if planted(Fault::ByteBehindTranslation) && bytes.len() < out.len() {
        out[bytes.len()] = 0;
    }
    Ok(bytes.len() / 16)
}

/// The translation of a script in a lent output.
pub fn orc(script: &[u8], partner: Atom, operation: Atom, out: &mut [u8]) -> Reply {
    put_translation(&translate(script, (partner, operation)), out)
}
