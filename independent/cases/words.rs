//! Words of patterns and coefficients for cases of pack.

use super::chance::Chance;
use super::packed_sums::full_sum;
use super::random_sums::{any_plan, sum_from, Plan, HIGHEST, MOST_WEIGHT};
use crate::sums::{Pattern, Sum, MOST_TERMS, VARIABLES};

/// The two input areas and the count.
pub struct Words {
    pub count: u64,
    pub patterns: Vec<u64>,
    pub coefficients: Vec<i64>,
}

fn words_of(sum: &Sum) -> Words {
    Words {
        count: sum.terms.len() as u64,
        patterns: sum.terms.iter().map(|term| term.pattern.word()).collect(),
        coefficients: sum.terms.iter().map(|term| term.coefficient).collect(),
    }
}

pub fn some_words(chance: &mut Chance) -> Words {
    let plan = any_plan(chance);
    let mut words = match chance.below(100) {
        0..=7 => words_of(&full_sum(chance)),
        8..=9 => most_terms(chance),
        _ => words_of(&sum_from(chance, plan)),
    };
    match chance.below(100) {
        0..=39 => {}
        40..=47 => add_places(chance, &mut words),
        48..=62 => change_coefficient(chance, &mut words),
        63..=76 => change_pattern(chance, &mut words),
        77..=87 => change_order(chance, &mut words),
        _ => change_count(chance, &mut words),
    }
    words
}

/// As many terms as there may be, one less or one more: the count, not a term, is at fault then.
fn most_terms(chance: &mut Chance) -> Words {
    let plan = Plan { terms: chance.between(MOST_TERMS - 1, MOST_TERMS + 1), degree: 30, letters: VARIABLES };
    words_of(&sum_from(chance, plan))
}

/// Areas longer than the count: what stands there is not looked at.
fn add_places(chance: &mut Chance, words: &mut Words) {
    for _ in 0..chance.between(1, 5) {
        words.patterns.push(chance.word());
    }
    for _ in 0..chance.below(5) {
        words.coefficients.push(chance.pick(&[0, 1, i64::MIN, i64::MAX]));
    }
}

fn some_term(chance: &mut Chance, words: &Words) -> Option<usize> {
    let count = words.patterns.len();
    (count > 0).then(|| chance.below(count))
}

fn change_coefficient(chance: &mut Chance, words: &mut Words) {
    let Some(index) = some_term(chance, words) else { return };
    let most = MOST_WEIGHT as i64;
    let here = words.coefficients[index];
    let others: i128 = words.coefficients.iter().map(|&number| i128::from(number.unsigned_abs())).sum();
    // What is left of 2^62 beside the other terms: exactly full, and one over.
    let left = i128::from(most) - (others - i128::from(here.unsigned_abs()));
    let left = i64::try_from(left).expect("at most 2^62");
    let large = [most, -most, most + 1, -most - 1, i64::MIN, i64::MIN + 1, i64::MAX];
    words.coefficients[index] = match chance.below(6) {
        0 | 1 => 0,
        2 | 3 => {
            let size = left + chance.below(2) as i64;
            chance.signed(size)
        }
        _ => chance.pick(&large),
    };
}

fn change_pattern(chance: &mut Chance, words: &mut Words) {
    let Some(index) = some_term(chance, words) else { return };
    let letter = chance.variable();
    let pattern = Pattern::from_word(words.patterns[index]);
    let highest = HIGHEST as u32;
    let others = pattern.with(letter, 0).degree().min(highest) as u8;
    let exponent = match chance.below(6) {
        0 => highest as u8 - others,
        1 | 2 => highest as u8 + 1 - others,
        3 => 255,
        // The exponents add up to 256 and more: a sum of bytes would wrap.
        4 => 0u8.wrapping_sub(others),
        _ => chance.word() as u8,
    };
    words.patterns[index] = pattern.with(letter, exponent).word();
    if chance.one_in(6) {
        words.patterns[index] = {
            let small = small_pattern(chance).word();
            chance.pick(&[small, u64::MAX, 0])
        };
    }
}

fn change_order(chance: &mut Chance, words: &mut Words) {
    if words.patterns.len() < 2 {
        return change_pattern(chance, words);
    }
    let second = chance.between(1, words.patterns.len() - 1);
    match chance.below(3) {
        0 => words.patterns[second] = words.patterns[second - 1],
        1 => words.patterns.swap(second - 1, second),
        _ => {
            let other = chance.below(words.patterns.len());
            words.patterns.swap(other, second);
        }
    }
}

fn change_count(chance: &mut Chance, words: &mut Words) {
    let most = MOST_TERMS as u64;
    let large = [most, most + 1, most + 2, 256, 1 << 32, (1 << 32) + 1, 1 << 63, u64::MAX, u64::MAX - 1];
    match chance.below(6) {
        0 | 1 => words.count += 1,
        2 => words.count = words.count.saturating_sub(1),
        3 => words.count = chance.pick(&large),
        4 => {
            words.patterns.pop();
        }
        _ => {
            words.coefficients.pop();
        }
    }
}

/// Small exponents, so that the degree is now and then allowed.
fn small_pattern(chance: &mut Chance) -> Pattern {
    Pattern::new(std::array::from_fn(|_| chance.below(16) as u8))
}
