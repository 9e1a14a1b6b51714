//! Packed sums, readings and tolerances for cases of estimate.

use super::chance::Chance;
use super::packed_sums::{damaged_packed, some_packed};
use super::random_sums::{in_order, pattern_of_degree, sum_from, Plan, HIGHEST};
use crate::estimate::READING_BYTES;
use crate::packed::packed;
use crate::sums::{Pattern, Sum, Term, MOST_TERMS, VARIABLES};
use std::collections::BTreeSet;

struct Numbers {
    readings: [i16; VARIABLES],
    tolerances: [i16; VARIABLES],
}

fn bytes_of(numbers: &[i16]) -> Vec<u8> {
    numbers.iter().flat_map(|number| number.to_le_bytes()).collect()
}

/// The packed sum, and the bytes of readings and tolerances.
type Fields = (Vec<u8>, Vec<u8>, Vec<u8>);

pub fn some_estimate(chance: &mut Chance) -> Fields {
    let (sum, numbers) = match chance.below(100) {
        0..=29 => (low_sum(chance), any_numbers(chance)),
        30..=44 => (some_packed(chance), low_numbers(chance)),
        45..=54 => (damaged_packed(chance), any_numbers(chance)),
        55..=69 => range_edge(chance),
        70..=81 => zero_factor(chance),
        82..=83 => (some_packed(chance), any_numbers(chance)),
        84..=86 => long_sum(chance),
        _ => return reading_fault(chance),
    };
    (sum, bytes_of(&numbers.readings), bytes_of(&numbers.tolerances))
}

/// Low degree, so that large readings stay in range.
fn low_sum(chance: &mut Chance) -> Vec<u8> {
    let plan = Plan { terms: chance.between(0, 8), degree: chance.between(0, 4), letters: chance.some_variables() };
    packed(&sum_from(chance, plan))
}

fn any_numbers(chance: &mut Chance) -> Numbers {
    let mut numbers = low_numbers(chance);
    let size = chance.between(1, 15);
    for index in 0..VARIABLES {
        numbers.readings[index] = match chance.below(12) {
            0 => 0,
            1 => i16::MIN,
            2 => i16::MAX,
            _ => (chance.word() as i16) >> (15 - size),
        };
        numbers.tolerances[index] = match chance.below(8) {
            0..=2 => 0,
            3 => i16::MAX,
            _ => ((chance.word() as i16) >> (15 - size)) & i16::MAX,
        };
    }
    numbers
}

/// So small that high powers stay in range.
fn low_numbers(chance: &mut Chance) -> Numbers {
    let most = chance.between(0, 3);
    Numbers {
        readings: std::array::from_fn(|_| chance.between(0, 2 * most) as i16 - most as i16),
        tolerances: std::array::from_fn(|_| chance.below(most + 1) as i16),
    }
}

/// More than sixteen terms with high powers: one letter with a raised reading of 2 and more, the others with 0 or 1. The
/// largest power keeps the total in range, mostly.
fn long_sum(chance: &mut Chance) -> (Vec<u8>, Numbers) {
    let letter = chance.variable();
    let mut numbers = low_numbers(chance);
    for index in 0..VARIABLES {
        (numbers.readings[index], numbers.tolerances[index]) = chance.pick(&[(1, 0), (-1, 0), (-1, 0), (0, 1), (0, 0)]);
    }
    let (raised, most) = chance.pick(&[(2, 50), (2, HIGHEST), (3, 32), (3, 33), (6, 20), (12, 14), (300, 6)]);
    let tolerance = if chance.one_in(2) { 0 } else { chance.below(raised + 1) };
    numbers.readings[letter] = chance.signed((raised - tolerance) as i64) as i16;
    numbers.tolerances[letter] = tolerance as i16;
    let count = if chance.one_in(4) { chance.between(16, 18) } else { chance.between(17, MOST_TERMS) };
    let mut patterns = BTreeSet::new();
    while patterns.len() < count {
        let power = chance.between(0, most);
        let others = chance.between(0, HIGHEST - power);
        patterns.insert(pattern_of_degree(chance, others, VARIABLES).with(letter, power as u8));
    }
    let terms = patterns.into_iter().map(|pattern| {
        let size = chance.between(1, 9) as i64;
        Term { coefficient: chance.signed(size), pattern }
    });
    (packed(&in_order(terms.collect())), numbers)
}

/// Raised readings that are powers of two, and one term that makes 2^62 exactly; a second one makes it 2^62 + 1.
fn range_edge(chance: &mut Chance) -> (Vec<u8>, Numbers) {
    let letters = chance.letters();
    let mut numbers = low_numbers(chance);
    let mut left = 62u32;
    let mut pattern = Pattern::empty();
    for &letter in &letters[..chance.between(1, 3)] {
        let bits = chance.between(0, 15) as u32;
        let raised = 1i32 << bits;
        let tolerance = chance.pick(&[0, 1.min(raised), raised / 2, chance_part(raised)]);
        // |reading| may be 32,768 only as a negative reading.
        let negative = chance.one_in(2) || raised - tolerance > 32_767;
        let tolerance = tolerance.min(32_767);
        let reading = raised - tolerance;
        numbers.readings[letter] = if negative { -reading } else { reading } as i16;
        numbers.tolerances[letter] = tolerance as i16;
        let most = (left / bits.max(1)).min(15);
        let power = chance.between(0, most as usize) as u32;
        left -= power * bits;
        pattern = pattern.with(letter, power as u8);
    }
    (packed(&edge_sum(chance, pattern, left)), numbers)
}

/// A sum that is 2^62 or 2^62 + 1 where the pattern is worth 2^(62 - left). The constant is worth itself.
fn edge_sum(chance: &mut Chance, pattern: Pattern, left: u32) -> Sum {
    let over = chance.below(2) as i64;
    let alone = pattern.degree() == 0 || left == 62;
    let (first, constant) = match chance.below(2) {
        _ if alone => (1 << left, 0),
        0 if left > 0 => ((1 << left) - 1, (1i64 << (62 - left)) + over),
        _ => (1i64 << left, over),
    };
    let mut terms = vec![Term { coefficient: chance.signed(first), pattern }];
    if constant > 0 {
        terms.push(Term { coefficient: chance.signed(constant), pattern: Pattern::empty() });
    }
    in_order(terms)
}

/// Some part of a raised reading, for its tolerance.
fn chance_part(raised: i32) -> i32 {
    raised * 3 / 4
}

/// A raised reading of 0 beside factors that are far out of range on their own.
fn zero_factor(chance: &mut Chance) -> (Vec<u8>, Numbers) {
    let letters = chance.letters();
    let mut numbers = any_numbers(chance);
    let zero = letters[0];
    numbers.readings[zero] = 0;
    numbers.tolerances[zero] = 0;
    let mut terms = Vec::new();
    for _ in 0..chance.between(1, 4) {
        let degree = chance.between(1, HIGHEST - 1);
        let power = chance.between(1, HIGHEST - degree) as u8;
        let pattern = pattern_of_degree(chance, degree, VARIABLES).with(zero, power);
        let size = 1 << chance.below(58);
        terms.push(Term { coefficient: chance.signed(size), pattern });
    }
    // A term that counts, so that the answer is not always 0.
    terms.push(Term { coefficient: chance.signed(7), pattern: Pattern::letter(letters[1]) });
    if chance.one_in(6) {
        // The zero only looks like one: a tolerance of 1, or the term does not hold the letter.
        numbers.tolerances[zero] = chance.between(0, 1) as i16;
        let other = pattern_of_degree(chance, 20, VARIABLES).with(zero, 0);
        terms.push(Term { coefficient: 1, pattern: other });
    }
    let mut sum: Sum = in_order(terms);
    sum.terms.dedup_by_key(|term| term.pattern);
    (packed(&sum), numbers)
}

fn reading_fault(chance: &mut Chance) -> Fields {
    let sum = if chance.one_in(8) { damaged_packed(chance) } else { low_sum(chance) };
    let mut numbers = any_numbers(chance);
    if chance.percent(70) {
        let index = chance.variable();
        numbers.tolerances[index] = chance.pick(&[-1, -1, i16::MIN, -256, -32_767]);
        // Later ones do not matter.
        if chance.one_in(2) {
            numbers.tolerances[chance.between(index, VARIABLES - 1)] = -1;
        }
    }
    let mut readings = bytes_of(&numbers.readings);
    let mut tolerances = bytes_of(&numbers.tolerances);
    let right = READING_BYTES;
    let lengths = [0, 1, right - 2, right - 1, right - 1, right + 1, right + 1, right + 2, 2 * right];
    match chance.below(6) {
        0 => readings.resize(chance.pick(&lengths), 0),
        1 => tolerances.resize(chance.pick(&lengths), 0xff),
        2 => {
            readings.resize(chance.pick(&lengths), 1);
            tolerances.resize(chance.pick(&lengths), 1);
        }
        _ => {}
    }
    (sum, readings, tolerances)
}
