//! Tables written node by node, whether they are refused or not.

use super::chance::Chance;
use super::random_sums::{HIGHEST, MOST_WEIGHT};
use crate::table::{INTEGER, MOST_NODES, NODE_NUMBERS, POWER, PRODUCT, SUM, VARIABLE};

/// A table written node by node, refused or not.
#[derive(Default)]
pub struct Writer {
    pub numbers: Vec<i64>,
}

impl Writer {
    pub fn node(&mut self, kind: i64, first: i64, second: i64) -> i64 {
        self.numbers.extend([kind, first, second]);
        (self.numbers.len() / NODE_NUMBERS) as i64 - 1
    }

    pub fn integer(&mut self, value: i64) -> i64 {
        self.node(INTEGER, value, 0)
    }

    pub fn letter(&mut self, letter: usize) -> i64 {
        self.node(VARIABLE, letter as i64, 0)
    }

    pub fn sum(&mut self, left: i64, right: i64) -> i64 {
        self.node(SUM, left, right)
    }

    pub fn product(&mut self, left: i64, right: i64) -> i64 {
        self.node(PRODUCT, left, right)
    }

    pub fn power(&mut self, base: i64, exponent: usize) -> i64 {
        self.node(POWER, base, exponent as i64)
    }

    pub fn letter_power(&mut self, letter: usize, exponent: usize) -> i64 {
        let letter = self.letter(letter);
        self.power(letter, exponent)
    }

    /// value x letter^exponent
    pub fn term(&mut self, value: i64, letter: usize, exponent: usize) -> i64 {
        let value = self.integer(value);
        let power = self.letter_power(letter, exponent);
        self.product(value, power)
    }

    /// 1 + sign x letter^exponent
    pub fn one_and(&mut self, sign: i64, letter: usize, exponent: usize) -> i64 {
        let one = self.integer(1);
        let power = if sign == 1 { self.letter_power(letter, exponent) } else { self.term(sign, letter, exponent) };
        self.sum(one, power)
    }

    /// 1 + x + x^2 + .. of so many terms, by doubling: the row of 2m is the row of m times 1 + x^m.
    pub fn row(&mut self, letter: usize, count: usize) -> i64 {
        if count == 1 {
            return self.integer(1);
        }
        let half = self.row(letter, count / 2);
        let double = self.one_and(1, letter, count / 2);
        let even = self.product(half, double);
        if count % 2 == 0 {
            return even;
        }
        let last = self.letter_power(letter, count - 1);
        self.sum(even, last)
    }

    /// Letters added up, with 1 before them if wanted.
    pub fn letters(&mut self, letters: &[usize], with_one: bool) -> i64 {
        let mut sum = if with_one { self.integer(1) } else { self.letter(letters[0]) };
        for &letter in &letters[usize::from(!with_one)..] {
            let right = self.letter(letter);
            sum = self.sum(sum, right);
        }
        sum
    }
}

/// Puts idle nodes before the table, shifts its children, and now and then puts nodes after it.
pub fn shifted(chance: &mut Chance, table: Vec<i64>) -> Vec<i64> {
    let room = MOST_NODES.saturating_sub(table.len() / NODE_NUMBERS);
    let before = if chance.one_in(3) { 0 } else { chance.below(room + 1) } as i64;
    let mut numbers = Vec::new();
    for _ in 0..before {
        numbers.extend([VARIABLE, chance.variable() as i64, 0]);
    }
    for node in table.chunks(NODE_NUMBERS) {
        let [kind, first, second] = [node[0], node[1], node[2]];
        numbers.extend(match kind {
            SUM | PRODUCT => [kind, first + before, second + before],
            POWER => [kind, first + before, second],
            _ => [kind, first, second],
        });
    }
    if numbers.len() / NODE_NUMBERS < MOST_NODES && chance.one_in(5) {
        // A fault that is reached only if the table before it is accepted.
        let (heavy, high) = ([INTEGER, MOST_WEIGHT as i64, 0], [POWER, 0, HIGHEST as i64]);
        numbers.extend(chance.pick(&[heavy, high, [9, 0, 0], [SUM, 0, 0], [PRODUCT, -1, 0]]));
    }
    numbers
}
