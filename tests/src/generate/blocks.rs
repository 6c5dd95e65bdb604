// Blocks under scopes of their own, side by side and inside one another, with protected, replicated and dormant parts, also at the limits; and lists of
// positions for a joint step: kills that are apart, in any order, with one more that may clash or be no live kill, none, too many, or any numbers.
use crate::bytes::*;
use crate::random::Random;

/// How often a block is a scope, something around a block (protection, delimitation, replication, receive, choice), or a leaf.
const MIXTURES: [[usize; 7]; 3] = [[1, 0, 0, 0, 0, 0, 0], [12, 1, 1, 1, 1, 1, 2], [12, 4, 2, 2, 2, 1, 4]];

/// Draws blocks, keeping the labels that are open and the number of atoms already delimited.
struct Maker<'a> {
    random: &'a mut Random,
    mixture: [usize; 7],
    open: Vec<u16>,
    atoms: u16,
}

/// A table of 1 to 10 blocks side by side; some in a scope as a whole.
pub fn blocks(random: &mut Random) -> Vec<u8> {
    let mut maker = Maker::new(random);
    if maker.random.chance(10) {
        return maker.scope(3);
    }
    let count = maker.random.pick(&[1, 2, 2, 3, 3, 4, 5, 6, 7, 8, 10, 10]);
    let all = (0..count).map(|_| maker.block(2)).collect();
    beside(maker.random, all)
}

/// Eight scopes or nine with about 2,048 records, or eight whose kills are about 256 deep.
pub fn large_blocks(random: &mut Random) -> Vec<u8> {
    let mut maker = Maker::new(random);
    if maker.random.chance(50) {
        maker.wide()
    } else {
        maker.deep()
    }
}

/// Parts side by side, in their order.
pub fn beside(random: &mut Random, mut parts: Vec<Vec<u8>>) -> Vec<u8> {
    if parts.len() < 2 {
        return parts.pop().unwrap_or_else(nil);
    }
    let right = parts.split_off(random.between(1, parts.len() - 1));
    let left = beside(random, parts);
    parallel(left, beside(random, right))
}

impl Maker<'_> {
    fn new(random: &mut Random) -> Maker<'_> {
        let mixture = random.pick(&MIXTURES);
        Maker { random, mixture, open: vec![], atoms: 0 }
    }

    fn new_atom(&mut self, low: u16) -> u16 {
        self.atoms += 1;
        low + self.atoms
    }

    /// A scope, alone or inside something, or a leaf; scopes stand so many levels inside one another.
    fn block(&mut self, levels: usize) -> Vec<u8> {
        match self.random.weighted(&self.mixture) {
            0 => self.scope(levels),
            1 => protection(self.block(levels)),
            2 => {
                let atom = self.new_atom(300);
                delimitation(atom, self.block(levels))
            }
            3 => replication(self.block(levels)),
            4 => receive(1, 2, &[5], self.block(levels)),
            5 => choice(wait(3, self.block(levels)), receive(1, 2, &[5], nil())),
            _ => self.leaf(),
        }
    }

    /// A scope with kills of its label, mostly one, and other parts in any order.
    fn scope(&mut self, levels: usize) -> Vec<u8> {
        let k = self.new_atom(49_152);
        self.open.push(k);
        let kills = self.random.weighted(&[1, 12, 3]);
        let others = self.random.below(4);
        let mut parts: Vec<Vec<u8>> = (0..kills).map(|_| self.kill(k)).collect();
        parts.extend((0..others).map(|_| self.part(levels)));
        self.open.pop();
        self.random.shuffle(&mut parts);
        delimitation(k, beside(self.random, parts))
    }

    /// A kill, at times protected, replicated or dormant.
    fn kill(&mut self, k: u16) -> Vec<u8> {
        match self.random.below(16) {
            0 => protection(kill(k)),
            1 => protection(parallel(kill(k), self.leaf())),
            2 => replication(kill(k)),
            3 => receive(1, 2, &[5], kill(k)),
            4 => wait(2, parallel(self.leaf(), kill(k))),
            _ => kill(k),
        }
    }

    /// What else is in a scope: blocks, kills of any open label, and leaves.
    fn part(&mut self, levels: usize) -> Vec<u8> {
        match self.random.below(8) {
            0 | 1 if levels > 0 => self.block(levels - 1),
            2 => kill(self.random.pick(&self.open)),
            _ => self.leaf(),
        }
    }

    fn leaf(&mut self) -> Vec<u8> {
        let sent = || invoke(1, 2, &[5]);
        match self.random.below(9) {
            0 => nil(),
            1 => wait(9, sent()),
            2 => receive(1, 2, &[5], parallel(sent(), sent())),
            3 => choice(wait(3, nil()), receive(1, 2, &[5], sent())),
            4 => protection(sent()),
            5 => protection(parallel(sent(), wait(4, nil()))),
            6 => replication(sent()),
            _ => sent(),
        }
    }

    /// Scopes side by side with just so many records in all.
    fn wide(&mut self) -> Vec<u8> {
        let scopes = self.random.pick(&[8, 8, 8, 9]);
        let records = self.random.pick(&[2_047, 2_048, 2_048, 2_048, 2_049]) - (scopes - 1);
        let share = |i: usize| records * (i + 1) / scopes - records * i / scopes;
        let all = (0..scopes).map(|i| self.filled_scope(share(i))).collect();
        beside(self.random, all)
    }

    /// A scope of so many records.
    fn filled_scope(&mut self, records: usize) -> Vec<u8> {
        let k = self.new_atom(49_152);
        delimitation(k, parallel(kill(k), self.filled(records - 3)))
    }

    /// A balanced term of so many records.
    fn filled(&mut self, records: usize) -> Vec<u8> {
        let left = records.saturating_sub(1) / 2;
        match (records, self.random.below(3)) {
            (1, 0) => nil(),
            (1, _) => invoke(1, 2, &[5]),
            (2, 0) => protection(invoke(1, 2, &[5])),
            (2, 1) => replication(invoke(1, 2, &[5])),
            (2, _) => wait(7, nil()),
            _ => parallel(self.filled(left), self.filled(records - 1 - left)),
        }
    }

    /// Kills at the ends of ways of their own, behind one that they share.
    fn deep(&mut self) -> Vec<u8> {
        let shared = self.random.between(100, 130);
        let levels = self.random.pick(&[255, 256, 256, 256, 257]) - shared - 5;
        let mut ways: Vec<Vec<u8>> = (0..8).map(|_| self.sunk_scope(levels)).collect();
        while ways.len() > 1 {
            ways = ways.chunks(2).map(|two| parallel(two[0].clone(), two[1].clone())).collect();
        }
        self.sunk(ways.remove(0), shared)
    }

    fn sunk_scope(&mut self, levels: usize) -> Vec<u8> {
        let k = self.new_atom(49_152);
        delimitation(k, self.sunk(kill(k), levels))
    }

    /// A term under so many records, something beside it at some of them.
    fn sunk(&mut self, mut term: Vec<u8>, levels: usize) -> Vec<u8> {
        for level in 0..levels {
            term = match self.random.below(12) {
                0 => parallel(nil(), term),
                1 => parallel(term, invoke(1, 2, &[5])),
                2 if level > 0 => parallel(term, protection(invoke(1, 2, &[5]))),
                _ => protection(term),
            };
        }
        term
    }
}

/// A list of positions for a joint step on a table; on a large one of as many as may be.
pub fn stops(random: &mut Random, table: &[u8]) -> Vec<u16> {
    let most = random.pick(&[1, 2, 2, 3, 4, 5, 6, 7, 8, 8, 9, 9, 10]);
    let large = table.len() > 16_000;
    let mut list = apart(random, table, if large { 8 } else { most });
    match random.below(16) {
        0 => list.clear(),
        1 => list = (0..random.below(7)).map(|_| random.below(table.len() / 16 + 3)).collect(),
        2 => lengthen(random, table, &mut list),
        3..=8 => {
            for _ in 0..random.between(1, 2) {
                let (at, one) = (random.below(list.len() + 1), one_more(random, table, &list));
                list.insert(at, one);
            }
        }
        _ => {}
    }
    list.into_iter().map(|a| a as u16).collect()
}

/// Up to so many live kills in any order, their scopes apart.
fn apart(random: &mut Random, table: &[u8], most: usize) -> Vec<usize> {
    let mut kills = live_kills(table);
    random.shuffle(&mut kills);
    let mut taken: Vec<(usize, usize)> = vec![];
    for kill in kills {
        let Some(s) = scope(table, kill, &way(table, kill)) else { continue };
        if taken.len() < most && taken.iter().all(|(_, t)| !within(table, s, *t) && !within(table, *t, s)) {
            taken.push((kill, s));
        }
    }
    taken.into_iter().map(|(kill, _)| kill).collect()
}

/// One that is listed already, any live kill, any kill, any record, or a position past the end.
fn one_more(random: &mut Random, table: &[u8], list: &[usize]) -> usize {
    let records = table.len() / 16;
    let from = match random.below(6) {
        0 => list.to_vec(),
        1 | 2 => live_kills(table),
        3 => places_of(table, 1),
        4 => (0..records).collect(),
        _ => vec![records, records + 1, 65_535],
    };
    if from.is_empty() {
        return records;
    }
    random.pick(&from)
}

/// The same positions again and again, up to more than eight of them; any position behind them now and then.
fn lengthen(random: &mut Random, table: &[u8], list: &mut Vec<usize>) {
    let count = random.pick(&[9, 9, 10, 16, 255, 256, 257, 264]);
    if list.is_empty() || random.chance(30) {
        list.push(random.below(table.len() / 16 + 3));
    }
    *list = list.iter().copied().cycle().take(count).collect();
}
