//! Packed sums and variables for cases of slope.

use super::chance::Chance;
use super::packed_sums::{damaged_packed, full_sum, some_packed};
use super::random_sums::{in_order, sum_from, Plan, HIGHEST, MOST_WEIGHT};
use crate::packed::packed;
use crate::sums::{Pattern, Term, MOST_TERMS, VARIABLES};

pub fn some_slope(chance: &mut Chance) -> (Vec<u8>, u64) {
    let mut variable = chance.variable() as u64;
    let sum = match chance.below(100) {
        0..=49 => some_packed(chance),
        50..=64 => damaged_packed(chance),
        65..=79 => weight_edge(chance, variable as usize),
        80..=82 => packed(&full_sum(chance)),
        83..=84 => many_terms(chance, variable as usize),
        _ => {
            variable = no_variable(chance);
            if chance.one_in(4) {
                damaged_packed(chance)
            } else {
                some_packed(chance)
            }
        }
    };
    (sum, variable)
}

/// A number that no variable has; some would have one if they were cut to fewer bits.
fn no_variable(chance: &mut Chance) -> u64 {
    let next = VARIABLES as u64;
    chance.pick(&[next, next, next + 1, 255, 256, 255 + next, 1 << 32, 1 << 63, u64::MAX])
}

/// Coefficient times power adds up to 2^62 or a little above or below it, over one or more terms.
fn weight_edge(chance: &mut Chance, variable: usize) -> Vec<u8> {
    let aim = MOST_WEIGHT + chance.below(3) as u64 - 1;
    let power = chance.between(1, HIGHEST) as u64;
    let first = aim / power;
    let mut terms = vec![Term { coefficient: chance.signed(first as i64), pattern: pure(variable, power) }];
    // The rest is smaller than the power: one more term with that coefficient and power 1 makes up the aim exactly.
    let rest = aim % power;
    if rest > 0 && power > 1 {
        let coefficient = chance.signed(rest as i64);
        terms.push(Term { coefficient, pattern: pure(variable, 1) });
    } else if rest > 0 {
        terms[0].coefficient = chance.signed(aim.min(MOST_WEIGHT) as i64);
    }
    // A term without the variable weighs nothing in the slope.
    if chance.one_in(2) && power > 1 {
        terms.push(Term { coefficient: chance.signed(5), pattern: Pattern::letter((variable + 1) % VARIABLES) });
    }
    packed(&in_order(terms))
}

/// Many terms that all have the variable, so that the slope has as many.
fn many_terms(chance: &mut Chance, variable: usize) -> Vec<u8> {
    let (terms, degree) = (chance.between(100, MOST_TERMS), chance.between(10, HIGHEST - 1));
    let plan = Plan { terms, degree, letters: VARIABLES };
    let mut sum = sum_from(chance, plan);
    for term in &mut sum.terms {
        term.pattern = term.pattern.product(&Pattern::letter(variable));
    }
    packed(&sum)
}

fn pure(variable: usize, power: u64) -> Pattern {
    Pattern::empty().with(variable, power as u8)
}
