// What the translations of Orc scripts must reach: every operator in an accepted script, the limits, and every way to be refused.
use crate::orc::{self, Script};
use crate::reference::terms::Term;
use crate::reply::Reply;

/// How often each was reached, in calls of the library.
#[derive(Clone, Default)]
pub struct Translations {
    pub calls: u64,
    /// accepted scripts with an operator of each kind
    pub of_kind: [u64; 5],
    pub most_records: u64,
    pub deepest: u64,
    pub bad_length: u64,
    pub bad_result: u64,
    pub malformed: u64,
    pub records_over: u64,
    pub records_out: u64,
    pub too_deep: u64,
    pub unbound: u64,
    pub bound_again: u64,
    pub long_table: u64,
    pub deep_table: u64,
    pub no_room: u64,
}

impl Translations {
    /// A script, the independent implementation's term where it has one, and the library's reply.
    pub fn script(&mut self, script: &Script, term: Option<&Term>, reply: &Reply) {
        self.calls += 1;
        let too_long = term.is_some_and(|t| t.size() > 2_048);
        let count = match reply.answer {
            0 => return self.accepted(script, term, reply),
            20 if too_long => &mut self.long_table,
            20 => &mut self.deep_table,
            21 => &mut self.no_room,
            30 => self.refused_30(script),
            31 if reply.place == script.bytes.len() / 8 => &mut self.records_out,
            31 if reply.place == orc::end(&script.bytes, 0) => &mut self.records_over,
            31 => &mut self.too_deep,
            32 if script.bytes[8 * reply.place] == 1 => &mut self.unbound,
            32 => &mut self.bound_again,
            _ => return,
        };
        *count += 1;
    }

    fn accepted(&mut self, script: &Script, term: Option<&Term>, reply: &Reply) {
        for kind in 0..5 {
            self.of_kind[kind] += script.bytes.chunks(8).any(|r| r[0] as usize == kind) as u64;
        }
        self.most_records += (reply.records == 2_048) as u64;
        self.deepest += term.is_some_and(|t| t.depth() == 256) as u64;
    }

    fn refused_30(&mut self, script: &Script) -> &mut u64 {
        let length = script.bytes.len();
        let value = |atom: u16| (1..=32_767).contains(&atom);
        if length == 0 || length > 4_096 || length % 8 != 0 {
            return &mut self.bad_length;
        }
        if !value(script.result.0) || !value(script.result.1) {
            return &mut self.bad_result;
        }
        &mut self.malformed
    }

    /// What must be reached, in words, and how often it was.
    pub fn counts(&self) -> Vec<(String, u64)> {
        let kinds = ["nothing", "a site call", "a sequence", "a parallel", "a where"];
        let of_kind = kinds.iter().zip(self.of_kind).map(|(name, count)| (format!("accepted with {name}"), count));
        let others = [
            ("accepted with a table of 2,048 records", self.most_records),
            ("accepted with a table of depth 256", self.deepest),
            ("refusal 30 of the length", self.bad_length),
            ("refusal 30 of the result endpoint", self.bad_result),
            ("refusal 30 of a record", self.malformed),
            ("refusal 31 where records are over", self.records_over),
            ("refusal 31 where records run out", self.records_out),
            ("refusal 31 of the depth", self.too_deep),
            ("refusal 32 of a variable unbound", self.unbound),
            ("refusal 32 of a variable bound again", self.bound_again),
            ("refusal 20 of the records", self.long_table),
            ("refusal 20 of the depth", self.deep_table),
            ("refusal 21", self.no_room),
        ];
        of_kind.chain(others.map(|(words, count)| (words.into(), count))).collect()
    }
}
