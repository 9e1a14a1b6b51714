//! Random ordered sums, few and many terms, small and large coefficients.

use super::chance::Chance;
use crate::sums::{Pattern, Sum, Term, LARGEST_DEGREE, LARGEST_WEIGHT, MOST_TERMS};
use std::collections::BTreeSet;

/// The limits in the types that cases are drawn in.
pub const MOST_WEIGHT: u64 = LARGEST_WEIGHT as u64;
pub const HIGHEST: usize = LARGEST_DEGREE as usize;

/// What kind of sum is wanted.
#[derive(Clone, Copy)]
pub struct Plan {
    pub terms: usize,
    pub degree: usize,
    /// Only the first so many letters occur.
    pub letters: usize,
}

pub fn any_plan(chance: &mut Chance) -> Plan {
    let terms = match chance.below(100) {
        0..=2 => 0,
        3..=17 => 1,
        18..=77 => chance.between(2, 6),
        78..=94 => chance.between(7, 20),
        95..=97 => chance.between(21, MOST_TERMS - 1),
        _ => MOST_TERMS,
    };
    let degree = match chance.below(10) {
        0..=4 => chance.between(1, 6),
        5..=7 => chance.between(3, 20),
        _ => HIGHEST,
    };
    Plan { terms, degree, letters: chance.some_variables() }
}

/// A plan for sums that stay small through products.
pub fn small_plan(chance: &mut Chance) -> Plan {
    Plan { terms: chance.between(0, 5), degree: chance.between(1, 4), letters: chance.some_variables() }
}

/// A pattern of this degree over the first `letters` letters.
pub fn pattern_of_degree(chance: &mut Chance, degree: usize, letters: usize) -> Pattern {
    let mut pattern = Pattern::empty();
    let mut left = degree;
    while left > 0 {
        let letter = chance.below(letters);
        let more = chance.between(1, left);
        pattern = pattern.with(letter, pattern.exponent(letter) + more as u8);
        left -= more;
    }
    pattern
}

/// Up to `plan.terms` different patterns in term order. A narrow plan may not have that many; it then gives fewer.
pub fn patterns(chance: &mut Chance, plan: Plan) -> Vec<Pattern> {
    let mut found = BTreeSet::new();
    for _ in 0..4 * plan.terms {
        if found.len() == plan.terms {
            break;
        }
        let degree = chance.between(0, plan.degree);
        found.insert(pattern_of_degree(chance, degree, plan.letters));
    }
    found.into_iter().rev().collect()
}

/// Nonzero coefficients with absolute values of at most 2^62 together.
pub fn coefficients(chance: &mut Chance, count: usize) -> Vec<i64> {
    let style = chance.below(20);
    let mut left = MOST_WEIGHT;
    let mut found = Vec::new();
    for index in 0..count {
        let after = (count - index - 1) as u64;
        let most = left - after;
        let size = match style {
            0..=11 => chance.between(1, 9) as u64,
            12..=15 => chance.sized(1, 40) + 1,
            16..=18 => (chance.up_to(most - 1) >> chance.below(8)) + 1,
            // All of the weight that there is: exactly 2^62 together.
            _ if after == 0 => most,
            _ => chance.up_to(most / 2) + 1,
        };
        let size = size.min(most);
        left -= size;
        found.push(chance.signed(size as i64));
    }
    // The last takes all the rest in one style; anywhere in the sum is wanted.
    let turn = chance.below(found.len().max(1));
    found.rotate_left(turn);
    found
}

pub fn sum_from(chance: &mut Chance, plan: Plan) -> Sum {
    let patterns = patterns(chance, plan);
    let coefficients = coefficients(chance, patterns.len());
    let terms = patterns.into_iter().zip(coefficients);
    Sum { terms: terms.map(|(pattern, coefficient)| Term { coefficient, pattern }).collect() }
}

/// A sum with coefficients of one digit.
pub fn small_sum(chance: &mut Chance, plan: Plan) -> Sum {
    let patterns = patterns(chance, plan);
    let terms = patterns.into_iter().map(|pattern| {
        let size = chance.between(1, 9) as i64;
        Term { coefficient: chance.signed(size), pattern }
    });
    Sum { terms: terms.collect() }
}

/// Sorts given terms into 01's order.
pub fn in_order(mut terms: Vec<Term>) -> Sum {
    terms.sort_by_key(|term| std::cmp::Reverse(term.pattern));
    Sum { terms }
}
