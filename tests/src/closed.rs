// What joint steps must reach: 1 to 8 kills accepted, at the limits too, and every way to be refused, also where a refusal that comes behind would apply.
use crate::bytes;
use crate::closings::{needed, Closing};
use crate::reply::Reply;

/// How often each was reached, in calls of the library.
#[derive(Clone)]
pub struct Closed {
    pub calls: u64,
    /// accepted lists of 1 to 8 kills
    accepted: [u64; 8],
    reached: [u64; WANTED.len()],
}

impl Default for Closed {
    fn default() -> Closed {
        Closed { calls: 0, accepted: [0; 8], reached: [0; WANTED.len()] }
    }
}

/// What a listed position names, read off the bytes alone.
#[derive(Clone, Copy, PartialEq, Eq)]
enum Named {
    Live,
    Replicated,
    Dormant,
    NoKill,
    PastEnd,
}

/// A listed position, what it names, the way to it, and the place of a kill's scope.
struct Stop {
    at: usize,
    named: Named,
    way: Vec<usize>,
    scope: Option<usize>,
}

/// How the scope of a kill clashes with another's.
#[derive(Clone, Copy, PartialEq, Eq)]
enum Clash {
    Twice,
    OneScope,
    Inside,
    Holds,
}

/// A list and the library's reply. Of a list over eight the first nine count.
struct Seen<'a> {
    c: &'a Closing,
    reply: &'a Reply,
    stops: Vec<Stop>,
}

/// Whether a list and its reply are what is wanted.
type Wanted = fn(&Seen) -> bool;

const WANTED: [(&str, Wanted); 37] = [
    ("accepted in another order than the table's", |s| s.answer(0) && s.stops.windows(2).any(|w| w[1].at < w[0].at)),
    ("accepted with protected load in two scopes", |s| s.answer(0) && s.stops.iter().filter(|k| s.shelters(k)).count() > 1),
    ("accepted with a protection around a kill", |s| s.answer(0) && s.stops.iter().any(|k| s.protected(k.scope, Some(k.at), k))),
    ("accepted with fewer records left", |s| s.answer(0) && s.reply.records < s.records()),
    ("accepted with just room enough", |s| s.answer(0) && s.c.room == 16 * s.reply.records),
    ("accepted with 8 kills and 2,048 records", |s| s.answer(0) && s.stops.len() == 8 && s.records() == 2_048),
    ("accepted with 8 kills that are 256 deep", |s| s.answer(0) && s.stops.len() == 8 && s.stops.iter().all(|k| k.way.len() == 255)),
    ("a table's refusal before 25", |s| s.of_table() && !(1..=8).contains(&s.stops.len())),
    ("a table's refusal before 11", |s| s.of_table() && s.stops.len() <= 8 && s.stops.iter().any(|k| k.named == Named::PastEnd)),
    ("a table's refusal before 26", |s| s.of_table() && s.stops.len() <= 8 && s.any_clash()),
    ("a table's refusal before 21", |s| s.of_table() && s.c.room == 0),
    ("refusal 25 of an empty list", |s| s.answer(25) && s.stops.is_empty()),
    ("refusal 25 of nine kills that are apart", |s| s.answer(25) && s.c.stops.len() == 9 && s.all_live() && !s.any_clash()),
    ("refusal 25 of more than nine", |s| s.answer(25) && s.c.stops.len() > 9),
    ("refusal 25 before 11", |s| s.answer(25) && !s.all_live()),
    ("refusal 25 before 26", |s| s.answer(25) && s.all_live() && s.any_clash()),
    ("refusal 25 before 21", |s| s.answer(25) && s.c.room == 0),
    ("refusal 11 just past the end", |s| s.answer(11) && s.reply.place == s.records()),
    ("refusal 11 at 65,535", |s| s.answer(11) && s.reply.place == 65_535),
    ("refusal 11 of what is no kill", |s| s.answer(11) && s.refused().named == Named::NoKill),
    ("refusal 11 of a replicated kill", |s| s.answer(11) && s.refused().named == Named::Replicated),
    ("refusal 11 of a dormant kill", |s| s.answer(11) && s.refused().named == Named::Dormant),
    ("refusal 11 behind live kills", |s| s.answer(11) && s.first() > 0),
    ("refusal 11 at the first listed and not the lowest", |s| s.answer(11) && s.absent().any(|a| a < s.reply.place)),
    ("refusal 11 before 26", |s| s.answer(11) && s.any_clash()),
    ("refusal 11 before 21", |s| s.answer(11) && s.c.room == 0),
    ("refusal 26 of a position listed twice", |s| s.only(Clash::Twice)),
    ("refusal 26 of two kills of one [k]", |s| s.only(Clash::OneScope)),
    ("refusal 26 of a scope inside another's", |s| s.only(Clash::Inside)),
    ("refusal 26 of a scope that holds another's", |s| s.only(Clash::Holds)),
    ("refusal 26 by an earlier record alone", |s| s.answer(26) && s.clashes(s.first()).all(|(other, _)| other.at < s.reply.place)),
    ("refusal 26 by a later record alone", |s| s.answer(26) && s.clashes(s.first()).all(|(other, _)| other.at > s.reply.place)),
    ("refusal 26 of the last two of three", |s| s.answer(26) && s.stops.len() == 3 && s.first() == 1),
    ("refusal 26 across a protection", |s| s.answer(26) && s.clashes(s.first()).any(|(other, _)| s.protected(s.refused().scope, other.scope, other))),
    ("refusal 26 before 21", |s| s.answer(26) && s.c.room == 0),
    ("refusal 21 by a byte", |s| s.answer(21) && needed(&s.c.table, &s.c.stops) == Some(s.c.room + 1)),
    ("refusal 21 of an empty output", |s| s.answer(21) && s.c.room == 0),
];

impl Seen<'_> {
    fn answer(&self, answer: u8) -> bool {
        self.reply.answer == answer
    }

    fn of_table(&self) -> bool {
        (1..=7).contains(&self.reply.answer)
    }

    fn records(&self) -> usize {
        self.c.table.len() / 16
    }

    /// Whether a protection stands on the way to a kill, between two places.
    fn protected(&self, above: Option<usize>, below: Option<usize>, kill: &Stop) -> bool {
        kill.way.iter().any(|p| above < Some(*p) && Some(*p) < below && bytes::kind(&self.c.table, *p) == 7)
    }

    /// Whether a kill's scope has load in a protection that is not on the way to the kill.
    fn shelters(&self, kill: &Stop) -> bool {
        let table = &self.c.table;
        let Some(scope) = kill.scope else { return false };
        let loaded = |p: usize| bytes::load(&table[16 * p..16 * bytes::end(table, p)]) > 0;
        (scope..bytes::end(table, scope)).any(|p| bytes::kind(table, p) == 7 && !kill.way.contains(&p) && loaded(p))
    }

    fn all_live(&self) -> bool {
        self.stops.iter().all(|k| k.named == Named::Live)
    }

    /// The listed positions at which no live kill stands.
    fn absent(&self) -> impl Iterator<Item = usize> + '_ {
        self.stops.iter().filter(|k| k.named != Named::Live).map(|k| k.at)
    }

    /// Where in the list the refused position stands first.
    fn first(&self) -> usize {
        self.stops.iter().position(|k| k.at == self.reply.place).unwrap()
    }

    fn refused(&self) -> &Stop {
        &self.stops[self.first()]
    }

    /// The kills that one of the list clashes with, and how.
    fn clashes(&self, i: usize) -> impl Iterator<Item = (&Stop, Clash)> + '_ {
        let others = (0..self.stops.len()).filter(move |j| *j != i);
        others.filter_map(move |j| Some((&self.stops[j], clash(&self.c.table, &self.stops[i], &self.stops[j])?)))
    }

    fn any_clash(&self) -> bool {
        (0..self.stops.len()).any(|i| self.clashes(i).next().is_some())
    }

    /// Refusal 26 by this cause and no other.
    fn only(&self, cause: Clash) -> bool {
        self.answer(26) && self.clashes(self.first()).all(|(_, clash)| clash == cause)
    }
}

/// What a position names on a table with these live records.
fn stop(table: &[u8], live: &[bool], at: usize) -> Stop {
    if at >= live.len() {
        return Stop { at, named: Named::PastEnd, way: vec![], scope: None };
    }
    let way = bytes::way(table, at);
    let behind = way.iter().any(|p| [3, 4].contains(&bytes::kind(table, *p)));
    let named = match bytes::kind(table, at) {
        1 if live[at] => Named::Live,
        1 if behind => Named::Dormant,
        1 => Named::Replicated,
        _ => Named::NoKill,
    };
    let scope = bytes::scope(table, at, &way);
    Stop { at, named, way, scope }
}

/// How the scope of a live kill clashes with that of another, if it does.
fn clash(table: &[u8], a: &Stop, b: &Stop) -> Option<Clash> {
    if a.named != Named::Live || b.named != Named::Live {
        return None;
    }
    let (s, t) = (a.scope?, b.scope?);
    let inside = |s, t| bytes::within(table, s, t);
    let ways = [(a.at == b.at, Clash::Twice), (s == t, Clash::OneScope), (inside(s, t), Clash::Inside), (inside(t, s), Clash::Holds)];
    ways.into_iter().find(|(applies, _)| *applies).map(|(_, clash)| clash)
}

impl Closed {
    /// A list and the library's reply.
    pub fn closing(&mut self, c: &Closing, reply: &Reply) {
        self.calls += 1;
        if reply.answer == 0 {
            self.accepted[c.stops.len() - 1] += 1;
        }
        let live = bytes::live(&c.table);
        let stops = c.stops.iter().take(9).map(|a| stop(&c.table, &live, *a as usize)).collect();
        let seen = Seen { c, reply, stops };
        for (count, (_, wanted)) in self.reached.iter_mut().zip(WANTED) {
            *count += wanted(&seen) as u64;
        }
    }

    /// What must be reached, in words, and how often it was.
    pub fn counts(&self) -> Vec<(String, u64)> {
        let kills = |i: usize| if i == 0 { "a kill".to_string() } else { format!("{} kills", i + 1) };
        let accepted = self.accepted.iter().enumerate().map(|(i, count)| (format!("accepted with {}", kills(i)), *count));
        let others = WANTED.iter().zip(self.reached).map(|((words, _), count)| (words.to_string(), count));
        accepted.chain(others).collect()
    }
}
