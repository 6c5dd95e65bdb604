// Random Orc expressions: so many sequences, parallels and wheres in a shape, over site calls with few atoms.
use crate::orc::{call, nothing, parallel, sequence, where_in};
use crate::random::Random;

pub const SEQUENCE: u8 = 2;
pub const PARALLEL: u8 = 3;
pub const WHERE: u8 = 4;

/// How often a sequence, a parallel and a where are drawn.
const MIXTURES: [[usize; 3]; 5] = [[1, 1, 1], [6, 1, 1], [1, 6, 1], [1, 1, 6], [3, 0, 3]];

/// Where the operators of an expression stand below one another.
#[derive(Clone, Copy)]
pub enum Shape {
    Any,
    Balanced,
    Left,
    Right,
    Chain,
}

/// Draws an expression, keeping the variables that are bound already and those that are in scope.
struct Maker<'a> {
    random: &'a mut Random,
    shape: Shape,
    operators: Vec<u8>,
    values: [u16; 5],
    bound: Vec<u16>,
    open: Vec<u16>,
    /// how many variables in a hundred are out of scope or bound again
    slips: usize,
}

/// So many operators.
pub fn mixture(random: &mut Random, operators: usize) -> Vec<u8> {
    let weights = random.pick(&MIXTURES);
    (0..operators).map(|_| SEQUENCE + random.weighted(&weights) as u8).collect()
}

/// An expression of these operators; so many variables in a hundred are out of scope or bound again.
pub fn expression(random: &mut Random, shape: Shape, operators: Vec<u8>, values: [u16; 5], slips: usize) -> Vec<u8> {
    let count = operators.len();
    Maker { random, shape, operators, values, bound: vec![], open: vec![], slips }.expression(count)
}

impl Maker<'_> {
    fn expression(&mut self, operators: usize) -> Vec<u8> {
        if operators == 0 {
            return self.leaf();
        }
        let left = self.split(operators);
        let right = operators - 1 - left;
        match self.operators.pop() {
            Some(SEQUENCE) => {
                let x = self.variable();
                let f = self.expression(left);
                sequence(f, x, self.inside(x, right))
            }
            Some(WHERE) => {
                let x = self.variable();
                let g = self.inside(x, left);
                where_in(g, x, self.expression(right))
            }
            _ => {
                let f = self.expression(left);
                parallel(f, self.expression(right))
            }
        }
    }

    /// How many of the other operators stand in the left part.
    fn split(&mut self, operators: usize) -> usize {
        let all = operators - 1;
        match self.shape {
            Shape::Any => self.random.between(0, all),
            Shape::Balanced => all / 2,
            Shape::Left => all,
            Shape::Right => 0,
            Shape::Chain => self.random.pick(&[0, all]),
        }
    }

    fn inside(&mut self, x: u16, operators: usize) -> Vec<u8> {
        self.open.push(x);
        let part = self.expression(operators);
        self.open.pop();
        part
    }

    /// A variable to bind: a new one, or by a slip one that is bound already.
    fn variable(&mut self) -> u16 {
        if !self.bound.is_empty() && self.random.chance(self.slips) {
            return self.random.pick(&self.bound);
        }
        loop {
            let near = self.bound.len() + 4;
            let x = if self.random.chance(5) { 49_151 - self.random.below(near) } else { 32_768 + self.random.below(near) } as u16;
            if !self.bound.contains(&x) {
                self.bound.push(x);
                return x;
            }
        }
    }

    fn leaf(&mut self) -> Vec<u8> {
        if self.random.chance(12) {
            return nothing();
        }
        let site = (self.random.pick(&self.values), self.random.pick(&self.values));
        call(site, self.parameter())
    }

    /// A variable in scope, a value, or by a slip a variable that may be in no scope.
    fn parameter(&mut self) -> u16 {
        if self.random.chance(self.slips) {
            return 32_768 + self.random.below(self.bound.len() + 2) as u16;
        }
        if !self.open.is_empty() && self.random.chance(60) {
            return self.random.pick(&self.open);
        }
        self.random.pick(&self.values)
    }
}
