//! Packed sums for cases of unpack.

use super::chance::Chance;
use super::packed_sums::{damaged_packed, full_sum, some_packed};
use super::random_sums::{in_order, pattern_of_degree, sum_from, Plan, HIGHEST};
use crate::packed::packed;
use crate::sums::{Term, MOST_TERMS, VARIABLES};
use std::collections::BTreeSet;

pub fn some_sum(chance: &mut Chance) -> Vec<u8> {
    match chance.below(100) {
        0..=39 => some_packed(chance),
        40..=44 => packed(&full_sum(chance)),
        45..=49 => over_full(chance),
        50..=52 => degree_edge(chance),
        53 => many_terms(chance),
        _ => damaged_packed(chance),
    }
}

/// The total passes 2^62 by one, or by a little, at any of its terms.
fn over_full(chance: &mut Chance) -> Vec<u8> {
    let mut sum = full_sum(chance);
    let count = sum.terms.len();
    if count > 0 {
        let term = &mut sum.terms[chance.below(count)];
        let more = if chance.one_in(2) { 1 } else { chance.between(1, 1000) as i64 };
        term.coefficient += if term.coefficient < 0 { -more } else { more };
    }
    packed(&sum)
}

/// Patterns of the largest degree and, by one more power, above it.
fn degree_edge(chance: &mut Chance) -> Vec<u8> {
    let count = chance.between(1, 4);
    let patterns: BTreeSet<_> = (0..count).map(|_| pattern_of_degree(chance, HIGHEST, VARIABLES)).collect();
    let mut sum = in_order(patterns.into_iter().map(|pattern| Term { coefficient: 1, pattern }).collect());
    if chance.one_in(2) {
        let letter = chance.variable();
        let index = chance.below(sum.terms.len());
        let pattern = sum.terms[index].pattern;
        sum.terms[index].pattern = pattern.with(letter, pattern.exponent(letter) + 1);
    }
    packed(&sum)
}

/// As many terms in order as there may be, one less, or one or two more.
fn many_terms(chance: &mut Chance) -> Vec<u8> {
    let terms = chance.between(MOST_TERMS - 1, MOST_TERMS + 2);
    let plan = Plan { terms, degree: chance.pick(&[10, HIGHEST]), letters: VARIABLES };
    packed(&sum_from(chance, plan))
}
