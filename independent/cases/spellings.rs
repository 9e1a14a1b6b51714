//! Packed sums for cases of write: what is written differently, often, and texts at the limits of the text reader.

use super::chance::Chance;
use super::packed_sums::{damaged_packed, full_sum, some_packed};
use super::random_sums::{in_order, HIGHEST, MOST_WEIGHT};
use crate::packed::packed;
use crate::spelling::spelled;
use crate::sums::{Pattern, Sum, Term, MOST_TERMS, VARIABLES};
use crate::table::MOST_NODES;
use crate::text::LONGEST_TEXT;
use crate::typed::node_count;
use std::collections::BTreeSet;

pub fn some_sum(chance: &mut Chance) -> Vec<u8> {
    match chance.below(100) {
        0..=39 => {
            let count = some_count(chance);
            packed(&some_terms(chance, count))
        }
        40..=47 => one_term(chance),
        48..=57 => some_packed(chance),
        58..=62 => packed(&full_sum(chance)),
        63..=70 => packed(&node_edge(chance)),
        71..=76 => packed(&length_edge(chance)),
        _ => damaged_packed(chance),
    }
}

fn some_count(chance: &mut Chance) -> usize {
    match chance.below(40) {
        0 => 0,
        1..=28 => chance.between(1, 6),
        29..=36 => chance.between(7, 20),
        37..=38 => chance.between(21, MOST_TERMS - 1),
        _ => MOST_TERMS,
    }
}

/// Up to so many terms. With one letter there may not be that many patterns; it then has fewer.
fn some_terms(chance: &mut Chance, count: usize) -> Sum {
    let letters = chance.some_variables();
    let mut patterns = BTreeSet::new();
    for _ in 0..4 * count {
        if patterns.len() < count {
            patterns.insert(some_pattern(chance, letters));
        }
    }
    let term = |pattern| Term { coefficient: some_coefficient(chance), pattern };
    in_order(patterns.into_iter().map(term).collect())
}

/// 0, 1 and 2, and both sides of the step to two digits, as far as the degree allows.
fn some_pattern(chance: &mut Chance, letters: usize) -> Pattern {
    let turn = chance.letters();
    let mut pattern = Pattern::empty();
    for letter in turn.into_iter().filter(|&letter| letter < letters) {
        let left = HIGHEST - pattern.degree() as usize;
        let exponent = match chance.below(12) {
            0..=3 => 0,
            4..=6 => 1,
            7 => 2,
            8 => 9,
            9 => 10,
            10 => left,
            _ => chance.between(0, left),
        };
        pattern = pattern.with(letter, exponent.min(left) as u8);
    }
    pattern
}

/// Small enough that as many terms as there may be are at most 2^62 together. Both sides of every further digit.
fn some_coefficient(chance: &mut Chance) -> i64 {
    let size = match chance.below(12) {
        0..=4 => 1,
        5 => 2,
        6..=7 => chance.between(1, 12) as i64,
        8..=9 => 10i64.pow(chance.between(1, 16) as u32) - chance.below(3) as i64,
        _ => chance.sized(1, 54) as i64 + 1,
    };
    chance.signed(size)
}

/// A term alone, with any coefficient: 2^62 and what is near, and numbers of up to 19 digits.
fn one_term(chance: &mut Chance) -> Vec<u8> {
    let size = match chance.below(6) {
        0 => MOST_WEIGHT - chance.below(3) as u64,
        1 => 10u64.pow(chance.between(1, 18) as u32) - chance.below(2) as u64,
        2..=3 => chance.sized(1, 61) + 1,
        _ => 1,
    };
    let letters = chance.below(VARIABLES + 1);
    let pattern = some_pattern(chance, letters);
    packed(&Sum::one_term(chance.signed(size as i64), pattern))
}

/// About as many nodes as a text may have.
fn node_edge(chance: &mut Chance) -> Sum {
    let aim = chance.between(MOST_NODES - 1, MOST_NODES + 4);
    let mut sum = some_terms(chance, 60);
    while node_count(&spelled(&sum)) > aim {
        sum.terms.pop();
    }
    sum
}

/// As many bytes as a text may have, or one or two more or less: a constant at the end makes up the length.
fn length_edge(chance: &mut Chance) -> Sum {
    let aim = chance.between(LONGEST_TEXT - 1, LONGEST_TEXT + 2);
    let mut sum = some_terms(chance, MOST_TERMS);
    sum.terms.retain(|term| term.pattern.degree() > 0);
    // A sign and a digit at least are still to come.
    while spelled(&sum).len() + 2 > aim {
        sum.terms.pop();
    }
    let digits = (aim - spelled(&sum).len() - 1).min(18);
    let size = 10i64.pow(digits as u32) - 1 - chance.below(9) as i64;
    sum.terms.push(Term { coefficient: chance.signed(size), pattern: Pattern::empty() });
    sum
}
