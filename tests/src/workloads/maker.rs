// Random tables of one make, the same for the same seed: fillers of any size, parts amid them, and parts side by side up to so many records.
use crate::bytes::*;
use crate::generate::beside;
use crate::random::Random;

pub struct Maker {
    pub random: Random,
    atoms: u16,
}

impl Maker {
    pub fn new(seed: u64) -> Maker {
        Maker { random: Random::new(seed), atoms: 0 }
    }

    /// A number from 1 that no other part has, to make its atoms of.
    pub fn fresh(&mut self) -> u16 {
        self.atoms += 1;
        self.atoms
    }

    /// Two parts under a choice or a parallel, either of them left.
    pub fn either(&mut self, above: fn(Vec<u8>, Vec<u8>) -> Vec<u8>, one: Vec<u8>, other: Vec<u8>) -> Vec<u8> {
        if self.random.chance(50) {
            above(one, other)
        } else {
            above(other, one)
        }
    }

    /// One to four values, none of which is delimited anywhere.
    pub fn values(&mut self) -> Vec<u16> {
        (0..self.random.between(1, 4)).map(|_| self.random.between(3, 6) as u16).collect()
    }

    /// A term of exactly so many records: blocks of receives, waits and scopes, as a queue holds them.
    pub fn filler(&mut self, records: usize) -> Vec<u8> {
        match records {
            0..=8 => self.quiet(records),
            9..=18 => self.block(records),
            _ => {
                let third = (records / 3).max(9);
                let left = self.random.between(third, records - 1 - third);
                parallel(self.filler(left), self.filler(records - 1 - left))
            }
        }
    }

    /// A receive that binds, and a choice of a wait and another receive, in any order; protections fill up. Its atoms are its own.
    fn block(&mut self, records: usize) -> Vec<u8> {
        let number = self.fresh();
        let (x, p, values) = (32_768 + number, 100 + number, self.values());
        let binds = delimitation(x, receive(p, 2, &[x], invoke(3, 2, &[x])));
        let interval = self.random.between(40_000, 65_535) as u16;
        let waits = self.either(choice, wait(interval, nil()), receive(p, 2, &values, nil()));
        let above = self.random.below(records - 8);
        let left = self.random.below(records - 8 - above);
        let sides = self.either(parallel, protected(binds, left), protected(waits, records - 9 - above - left));
        protected(sides, above)
    }

    /// So many records that cannot move: nil under protections and parallels.
    pub fn quiet(&mut self, records: usize) -> Vec<u8> {
        if records < 3 || self.random.chance(50) {
            return if records == 1 { nil() } else { protection(self.quiet(records - 1)) };
        }
        let left = self.random.between(1, records - 2);
        parallel(self.quiet(left), self.quiet(records - 1 - left))
    }

    /// A part somewhere in the middle of so many records.
    pub fn amid(&mut self, part: Vec<u8>, records: usize) -> Vec<u8> {
        let rest = records - part.len() / 16 - 2;
        let quarter = rest.div_ceil(4);
        let left = self.random.between(quarter, rest - quarter);
        let parts = vec![self.filler(left), part, self.filler(rest - left)];
        beside(&mut self.random, parts)
    }

    /// As many parts as so many records hold, side by side in any order, and quiet ones for the rest. Parts that are drawn together may stand apart.
    pub fn full(&mut self, records: usize, draw: fn(&mut Maker) -> Vec<Vec<u8>>) -> Vec<u8> {
        let mut parts: Vec<Vec<u8>> = vec![];
        let mut room = records + 1;
        loop {
            let next = draw(self);
            // a parallel for each part but one
            let taken: usize = next.iter().map(|part| part.len() / 16 + 1).sum();
            if taken > room {
                break;
            }
            room -= taken;
            parts.extend(next);
        }
        if room > 1 {
            parts.push(self.quiet(room - 1));
            room = 0;
        }
        self.random.shuffle(&mut parts);
        protected(beside(&mut self.random, parts), room)
    }
}

/// A term under so many protections.
pub fn protected(term: Vec<u8>, times: usize) -> Vec<u8> {
    (0..times).fold(term, |t, _| protection(t))
}
