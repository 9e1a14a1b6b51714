//! Random texts by 01's grammar.

use super::chance::Chance;
use super::random_sums::{HIGHEST, MOST_WEIGHT};
use crate::sums::FIRST_LETTER;
use crate::text::DEEPEST_BRACKETS;

/// How much may still be written: factors, and brackets inside brackets.
pub struct TextMaker {
    pub factors: usize,
    pub depth: usize,
    pub letters: usize,
    /// The largest exponent to write often; others are rare.
    pub exponent: usize,
}

impl TextMaker {
    pub fn usual(chance: &mut Chance) -> TextMaker {
        let factors = match chance.below(20) {
            0..=13 => chance.between(1, 8),
            14..=18 => chance.between(6, 18),
            _ => chance.between(15, 40),
        };
        let depth = if chance.one_in(12) { DEEPEST_BRACKETS } else { chance.between(0, 4) };
        TextMaker { factors, depth, letters: chance.some_variables(), exponent: chance.between(1, 4) }
    }

    pub fn sum(&mut self, chance: &mut Chance) -> String {
        let mut text = String::new();
        if chance.one_in(6) {
            text.push('-');
        }
        text.push_str(&self.term(chance));
        while self.factors > 0 && !chance.one_in(3) {
            text.push(chance.pick(&['+', '-']));
            text.push_str(&self.term(chance));
        }
        text
    }

    fn term(&mut self, chance: &mut Chance) -> String {
        let mut text = self.factor(chance);
        while self.factors > 0 && chance.one_in(3) {
            text.push('*');
            text.push_str(&self.factor(chance));
        }
        text
    }

    fn factor(&mut self, chance: &mut Chance) -> String {
        self.factors = self.factors.saturating_sub(1);
        let mut text = self.atom(chance);
        if chance.one_in(4) {
            let exponent = if chance.one_in(20) { chance.between(0, HIGHEST) } else { chance.between(0, self.exponent) };
            text.push_str(&format!("^{exponent}"));
        }
        text
    }

    fn atom(&mut self, chance: &mut Chance) -> String {
        if self.depth > 0 && self.factors > 0 && chance.one_in(4) {
            self.depth -= 1;
            let text = format!("({})", self.sum(chance));
            self.depth += 1;
            return text;
        }
        if chance.one_in(3) {
            return number(chance).to_string();
        }
        char::from(FIRST_LETTER + chance.below(self.letters) as u8).to_string()
    }
}

fn number(chance: &mut Chance) -> u64 {
    match chance.below(30) {
        0 => MOST_WEIGHT,
        1 => chance.up_to(MOST_WEIGHT),
        2 => chance.sized(1, 61),
        3 => 0,
        _ => chance.between(0, 12) as u64,
    }
}

pub fn any_text(chance: &mut Chance) -> String {
    TextMaker::usual(chance).sum(chance)
}
