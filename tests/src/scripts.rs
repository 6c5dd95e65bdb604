// Orc scripts: the library's translation beside the independent one's: reply, every byte of the output and those around it. An accepted table must pass
// check.
use crate::bytes;
use crate::compare::{said, Lent, Reached};
use crate::differ::{found, Found};
use crate::generate::{self, Shape, PARALLEL};
use crate::library;
use crate::nights::Fault;
use crate::orc::{self, Script};
use crate::random::Random;
use crate::reference::{self, terms::Term, Refusal};
use crate::reply::Reply;
use crate::shrink::TRIES;

/// What the independent implementation makes of a script.
type Translated = Result<Term, Refusal>;

fn translated(script: &Script) -> Translated {
    reference::translate(&script.bytes, script.result)
}

/// The bytes that the table needs; some bytes where the script is refused, to see them untouched.
fn needed(translated: &Translated) -> usize {
    translated.as_ref().map_or(48, |term| 16 * term.size())
}

/// Rooms for a table of so many bytes: just enough, a little more, a byte short, up to a record short, far too short, empty.
fn rooms(script: &Script, needed: usize) -> Vec<usize> {
    let turn = script.bytes.len() / 8;
    let mut rooms = vec![needed, needed + 1 + turn % 40, needed - 1, needed - 2 - turn % 14, needed / 3, 0];
    rooms.dedup();
    rooms
}

/// The library's reply for one room, and whether all agrees.
fn agreed(script: &Script, translated: &Translated, room: usize) -> (Reply, bool) {
    let lent = script.bytes.clone();
    let (partner, operation) = script.result;
    let (mut out, mut expected) = (Lent::new(room), Lent::new(room));
    let ours = library::orc(&lent, partner, operation, out.lend());
    let theirs = reference::put_translation(translated, expected.lend());
    // once more into a block of its own, where a memory checker sees any byte outside
    let mut alone = Lent::new(room).bytes().to_vec();
    let again = library::orc(&lent, partner, operation, &mut alone);
    let same = ours == theirs && out.same(&expected) && again == ours && alone == out.bytes() && lent == script.bytes;
    (ours, same && well_formed(&ours, out.bytes()))
}

/// A table that was accepted passes check.
fn well_formed(reply: &Reply, out: &[u8]) -> bool {
    reply.answer != 0 || library::check(&out[..16 * reply.records]) == *reply
}

/// A script compared in each of the rooms.
pub fn compare(script: &Script, reached: &mut Reached) -> Result<(), Fault> {
    let translated = translated(script);
    let rooms = rooms(script, needed(&translated));
    compare_in(script, &translated, &rooms, reached)
}

fn compare_in(script: &Script, translated: &Translated, rooms: &[usize], reached: &mut Reached) -> Result<(), Fault> {
    for room in rooms {
        let (ours, agrees) = agreed(script, translated, *room);
        reached.translations.script(script, translated.as_ref().ok(), &ours);
        if !agrees {
            return Err(Fault::Script(script.clone()));
        }
    }
    Ok(())
}

/// Generated scripts; the number of a case and the seed give it again.
pub fn generated(seed: u64, cases: u64, reached: &mut Reached) -> Result<(), Found> {
    for case in 1..=cases {
        let mut random = Random::new(seed.wrapping_mul(1_000_033).wrapping_add(case));
        compare(&generate::script(&mut random), reached).map_err(|fault| found(case, fault))?;
    }
    Ok(())
}

/// Small scope: every script of up to so many records over a few atoms, of any shape.
pub fn small(most: usize, reached: &mut Reached) -> Result<(), Fault> {
    let (x, y) = (32_768, 32_769);
    let mut records = vec![orc::nothing(), orc::call((3, 5), 1), orc::call((3, 5), x), orc::call((3, 5), y), orc::record(3, 0, (0, 0))];
    records.extend([(2, x), (2, y), (4, x), (4, y)].map(|(kind, variable)| orc::record(kind, variable, (0, 0))));
    for count in 1..=most as u32 {
        for number in 0..records.len().pow(count) {
            let digits = (0..count).map(|i| number / records.len().pow(i) % records.len());
            let bytes = digits.flat_map(|digit| records[digit].clone()).collect();
            compare(&Script { bytes, result: (2, 4) }, reached)?;
        }
    }
    Ok(())
}

/// S(a) > x > T(x), and T(x) where x :∈ (S(a) | S(b)).
fn two_scripts() -> [Vec<u8>; 2] {
    let (s, t, x) = ((1, 2), (3, 4), 32_768);
    let both = orc::parallel(orc::call(s, 5), orc::call(s, 6));
    [orc::sequence(orc::call(s, 5), x, orc::call(t, x)), orc::where_in(orc::call(t, x), x, both)]
}

/// The endpoint that the results of damaged scripts are sent to.
const RESULT: (u16, u16) = (7, 8);

/// Damage: single bytes changed, random bytes, every length, result endpoints at the ends of the sets, outputs of every length; one change in so many.
pub fn damaged(random: &mut Random, stride: usize, reached: &mut Reached) -> Result<(), Fault> {
    for whole in two_scripts() {
        for change in (0..255 * whole.len()).step_by(stride) {
            compare(&Script { bytes: bytes::changed(&whole, change), result: RESULT }, reached)?;
        }
        for atom in [0, 1, 5, 32_767, 32_768, 49_151, 49_152, 65_535] {
            compare(&Script { bytes: whole.clone(), result: (atom, 8) }, reached)?;
            compare(&Script { bytes: whole.clone(), result: (7, atom) }, reached)?;
        }
        lengths(&whole, stride, reached)?;
        outputs(&Script { bytes: whole, result: RESULT }, stride, reached)?;
    }
    lengths(&[], stride, reached)?;
    let longest = generate::expression(random, Shape::Any, vec![PARALLEL; 255], [1, 2, 3, 4, 5], 0);
    lengths(&longest, stride, reached)?;
    for length in (0..=4_200).step_by(stride) {
        compare(&Script { bytes: random.bytes(length), result: RESULT }, reached)?;
    }
    outputs(&generate::script(random), stride, reached)
}

/// A script cut off, or with zeros behind it, at every length from 0 to 4,200.
fn lengths(whole: &[u8], stride: usize, reached: &mut Reached) -> Result<(), Fault> {
    for length in (0..=4_200).step_by(stride) {
        let mut bytes = whole.to_vec();
        bytes.resize(length, 0);
        compare(&Script { bytes, result: RESULT }, reached)?;
    }
    Ok(())
}

/// Outputs of every length from 0 to the table's and 32 more.
fn outputs(script: &Script, stride: usize, reached: &mut Reached) -> Result<(), Fault> {
    let translated = translated(script);
    let rooms: Vec<usize> = (0..=needed(&translated) + 32).step_by(stride).collect();
    compare_in(script, &translated, &rooms, reached)
}

/// The smallest script on which the two still differ, as far as the tries go.
pub fn smallest(mut script: Script) -> Script {
    loop {
        let Some(next) = smaller(&script).take(TRIES).find(|s| compare(s, &mut Reached::new()).is_err()) else { break };
        script = next;
    }
    script
}

/// Scripts with one of their expressions left out but for one of its parts, or with nothing in its place, or with a record less.
fn smaller(script: &Script) -> impl Iterator<Item = Script> + '_ {
    let bytes = &script.bytes;
    let with = move |from: usize, to: usize, new: &[u8]| {
        let bytes = [&bytes[..8 * from], new, &bytes[8 * to..]].concat();
        Script { bytes, result: script.result }
    };
    (0..bytes.len() / 8).flat_map(move |place| {
        let end = orc::end(bytes, place);
        let parts = orc::parts(bytes, place).into_iter().filter(move |p| *p < end);
        let by_part = parts.map(move |p| with(place, end, &bytes[8 * p..8 * orc::end(bytes, p)]));
        let by_nothing = (end > place + 1).then(|| with(place, end, &orc::nothing()));
        by_part.chain(by_nothing).chain([with(place, place + 1, &[])])
    })
}

/// A script on which the two differ, for the reader: the first room that shows it.
pub fn describe(script: &Script) -> String {
    let translated = translated(script);
    let all = rooms(script, needed(&translated));
    let room = all.into_iter().find(|room| !agreed(script, &translated, *room).1).unwrap_or(0);
    let (mut out, mut expected) = (vec![0xa5; room], vec![0xa5; room]);
    let (partner, operation) = script.result;
    let ours = library::orc(&script.bytes, partner, operation, &mut out);
    let theirs = reference::put_translation(&translated, &mut expected);
    format!(
        "  script ({} records): {}\n  results to {partner}·{operation}, in {room} bytes: library {}; independent {}\n  library {}\n  independent {}",
        script.bytes.len() / 8,
        orc::text(&script.bytes),
        said(&ours),
        said(&theirs),
        bytes::text(&out[..(16 * ours.records).min(room)]),
        bytes::text(&expected[..(16 * theirs.records).min(room)]),
    )
}
