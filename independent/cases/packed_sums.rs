//! Packed sums, whole and damaged, for every operation that reads one.

use super::chance::Chance;
use super::damage::{damaged, items_of_sum};
use super::random_sums::{any_plan, patterns, sum_from, Plan, HIGHEST, MOST_WEIGHT};
use crate::packed::packed;
use crate::sums::{Sum, Term, VARIABLES};

pub fn some_packed(chance: &mut Chance) -> Vec<u8> {
    let plan = any_plan(chance);
    packed(&sum_from(chance, plan))
}

pub fn damaged_packed(chance: &mut Chance) -> Vec<u8> {
    let mut plan = any_plan(chance);
    // Long ones are as good cut as whole, but they make long lines: keep them rare.
    if plan.terms > 20 && !chance.one_in(3) {
        plan.terms %= 6;
    }
    let sum = sum_from(chance, plan);
    damaged(chance, &items_of_sum(&sum))
}

/// A sum whose absolute coefficients are exactly 2^62 together.
pub fn full_sum(chance: &mut Chance) -> Sum {
    let plan = Plan { terms: chance.between(1, 6), degree: chance.between(2, HIGHEST), letters: VARIABLES };
    let mut terms = Vec::new();
    let mut left = MOST_WEIGHT;
    let patterns = patterns(chance, plan);
    let count = patterns.len();
    for (index, pattern) in patterns.into_iter().enumerate() {
        let after = (count - index - 1) as u64;
        let size = if after == 0 { left } else { chance.up_to((left - after) / 2) + 1 };
        left -= size;
        terms.push(Term { coefficient: chance.signed(size as i64), pattern });
    }
    Sum { terms }
}
