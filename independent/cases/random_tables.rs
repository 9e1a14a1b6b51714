//! Random formula tables, with shared and unused nodes. The maker knows the refusals, so that it can avoid them.

use super::chance::Chance;
use super::random_sums::HIGHEST;
use crate::sums::Sum;
use crate::table::{next_node, Node, INTEGER, MOST_NODES, NODE_NUMBERS, POWER, PRODUCT, SUM, VARIABLE};

/// A table being made, with what each node is so far.
#[derive(Default)]
pub struct TableMaker {
    pub numbers: Vec<i64>,
    nodes: Vec<Node>,
    sums: Vec<Sum>,
}

impl TableMaker {
    pub fn count(&self) -> usize {
        self.numbers.len() / NODE_NUMBERS
    }

    /// Adds a node if it is not refused.
    pub fn try_node(&mut self, kind: i64, first: i64, second: i64) -> Option<i64> {
        let numbers = [kind, first, second];
        let (node, sum) = next_node(&numbers, &self.nodes, &|index| self.sums[index].clone()).ok()?;
        self.numbers.extend(numbers);
        self.nodes.push(node);
        self.sums.push(sum);
        Some(self.count() as i64 - 1)
    }

    fn leaf(&mut self, chance: &mut Chance, letters: usize) {
        let small = chance.between(0, 9) as i64;
        let added = if chance.one_in(4) {
            let value = chance.signed(small);
            self.try_node(INTEGER, value, 0)
        } else {
            self.try_node(VARIABLE, chance.below(letters) as i64, 0)
        };
        added.expect("a leaf is never refused");
    }

    /// An earlier node, the late ones more often.
    fn child(&self, chance: &mut Chance) -> i64 {
        let count = self.count();
        let back = if chance.one_in(2) { chance.below(count.min(3)) } else { chance.below(count) };
        (count - 1 - back) as i64
    }

    fn grown(&mut self, chance: &mut Chance) -> Option<i64> {
        let (first, second) = (self.child(chance), self.child(chance));
        match chance.below(7) {
            0..=2 => self.try_node(SUM, first, second),
            3..=5 => self.try_node(PRODUCT, first, second),
            _ => {
                let exponent = if chance.one_in(10) { chance.between(0, HIGHEST) } else { chance.below(4) };
                self.try_node(POWER, first, exponent as i64)
            }
        }
    }
}

/// A table that is not refused.
pub fn good_table(chance: &mut Chance) -> Vec<i64> {
    let count = match chance.below(20) {
        0..=3 => chance.between(1, 5),
        4..=15 => chance.between(5, 12),
        16..=18 => chance.between(10, 25),
        _ => chance.between(20, MOST_NODES),
    };
    good_table_of(chance, count)
}

pub fn good_table_of(chance: &mut Chance, count: usize) -> Vec<i64> {
    let letters = chance.some_variables();
    let mut maker = TableMaker::default();
    // Often two letters added up to begin with, so that sums of many terms grow from them.
    if count > 4 && chance.percent(70) {
        let turn = chance.letters();
        for letter in &turn[..2] {
            maker.try_node(VARIABLE, *letter as i64, 0).expect("a leaf is never refused");
        }
        maker.try_node(SUM, 0, 1).expect("two letters are never too many");
    }
    while maker.count() < count {
        let left = count - maker.count();
        // Leaves first, then mostly sums, products and powers; the last node is one whenever it can be.
        let grows = maker.count() > 1 && (left == 1 || chance.percent(65));
        if !grows || (0..3).all(|_| maker.grown(chance).is_none()) {
            maker.leaf(chance, letters);
        }
    }
    maker.numbers
}
