//! Tables on both sides of the largest degree and weight. The last node written decides; idle nodes before it move its
//! index.

use super::chance::Chance;
use super::random_sums::{HIGHEST, MOST_WEIGHT};
use super::table_writer::{shifted, Writer};
use crate::sums::VARIABLES;

const MOST: i64 = MOST_WEIGHT as i64;

pub fn degree_edge(chance: &mut Chance) -> Vec<i64> {
    let letters = chance.letters();
    let aim = HIGHEST + chance.pick(&[0, 1, 1, 2, 2, 3]) - 1;
    let mut writer = Writer::default();
    match chance.below(5) {
        0 => {
            let first = chance.between(aim + 1 - HIGHEST, HIGHEST - 1);
            let left = writer.letter_power(letters[0], first);
            let right = writer.letter_power(letters[1], aim - first);
            writer.product(left, right);
        }
        1 => {
            let (inner, outer) = chance.pick(&[
                (30, 2), (2, 30), (12, 5), (31, 2), (2, 31), (8, 8), (7, 9), (HIGHEST, 1), (HIGHEST, 2), (HIGHEST, HIGHEST),
            ]);
            let base = writer.letter_power(letters[0], inner);
            writer.power(base, outer);
        }
        2 => degree_of_zero(&mut writer, &letters, aim),
        3 => {
            let base = writer.one_and(1, letters[0], 2);
            let left = writer.power(base, chance.between(29, 31));
            let right = writer.letter_power(letters[1], chance.between(0, 2));
            writer.product(left, right);
        }
        _ => {
            // Integers have degree 0, so their powers and products never add to it.
            let base = writer.integer(chance.pick(&[0, 1, -1]));
            let left = writer.power(base, HIGHEST);
            let right = writer.letter_power(letters[0], HIGHEST);
            writer.product(left, right);
        }
    }
    shifted(chance, writer.numbers)
}

/// Formal, not actual: a - a has degree 1 though it is zero.
fn degree_of_zero(writer: &mut Writer, letters: &[usize; VARIABLES], aim: usize) {
    let plus = writer.letter(letters[0]);
    let minus = writer.term(-1, letters[0], 1);
    let zero = writer.sum(plus, minus);
    let high = writer.letter_power(letters[1], aim - 1);
    writer.product(zero, high);
}

pub fn weight_edge(chance: &mut Chance) -> Vec<i64> {
    let mut writer = Writer::default();
    match chance.below(6) {
        0 => {
            writer.integer(chance.pick(&[MOST, -MOST, MOST + 1, -MOST - 1, i64::MIN, i64::MIN + 1, i64::MAX, MOST - 1]));
        }
        1 => weight_of_sum(chance, &mut writer),
        2 => weight_of_product(chance, &mut writer),
        3 | 4 => weight_of_power(chance, &mut writer),
        _ => weight_of_zero(chance, &mut writer),
    }
    shifted(chance, writer.numbers)
}

/// Two integers, with and without letters, that add up to 2^62 or 2^62 + 1.
fn weight_of_sum(chance: &mut Chance, writer: &mut Writer) {
    let first = chance.pick(&[1, 1 << 61, MOST, 1 + chance_size(MOST)]);
    let second = MOST - first + chance.below(2) as i64;
    let (first, second) = (chance.signed(first), chance.signed(second));
    let letter = chance.variable();
    let left = if chance.one_in(2) { writer.integer(first) } else { writer.term(first, letter, 1) };
    let right = if chance.one_in(2) { writer.integer(second) } else { writer.term(second, letter, 2) };
    writer.sum(left, right);
}

/// An uneven part of a number.
fn chance_size(number: i64) -> i64 {
    number / 7 * 3
}

/// 2^62 + 1 is (2^31 + 2^16 + 1)(2^31 - 2^16 + 1).
fn weight_of_product(chance: &mut Chance, writer: &mut Writer) {
    let bits = chance.below(63);
    let (first, second) = chance.pick(&[
        (1i64 << bits, MOST >> bits),
        (1 << bits, (MOST >> bits) + 1),
        ((1 << 31) + (1 << 16) + 1, (1 << 31) - (1 << 16) + 1),
        ((1 << 31) + (1 << 16), (1 << 31) - (1 << 16) + 1),
        (MOST, MOST),
        (3, MOST / 3),
        (3, MOST / 3 + 1),
    ]);
    let (first, second) = (chance.signed(first), chance.signed(second));
    let letter = chance.variable();
    let left = if chance.one_in(2) { writer.integer(first) } else { writer.term(first, letter, 1) };
    let right = if chance.one_in(2) { writer.integer(second) } else { writer.term(second, letter, 2) };
    if chance.one_in(2) {
        writer.product(left, right);
    } else {
        writer.product(right, left);
    }
}

/// 4^31 and (2^31)^2 are 2^62; 3^39 is below it and 3^40 above; large bases would pass 128 bits.
fn weight_of_power(chance: &mut Chance, writer: &mut Writer) {
    let (base, exponent) = chance.pick(&[
        (4, 31), (4, 32), (4, HIGHEST), (2, HIGHEST), (1 << 31, 2), ((1 << 31) + 1, 2), (3, 39), (3, 40), (MOST, 0),
        (MOST, 1), (MOST, 2), (MOST, HIGHEST), (1, HIGHEST), (0, HIGHEST), (0, 0), (1 << 15, 4), (1 << 16, 4), (1 << 20, 3),
        (1 << 21, 3), (1_664_510, 3), (1_664_511, 3),
    ]);
    let base = chance.signed(base);
    let letters = chance.letters();
    let node = match chance.below(3) {
        0 => writer.term(base, letters[0], 1),
        // Two or four letters weigh 2 or 4: the weight comes before the spread.
        1 if base.abs() == 4 => writer.letters(&letters[..4], false),
        2 if base.abs() == 2 => writer.letters(&letters[..2], false),
        _ => writer.integer(base),
    };
    writer.power(node, exponent);
}

/// What cancels keeps its weight, and what is multiplied by 0 loses it; 0^0 weighs 1.
fn weight_of_zero(chance: &mut Chance, writer: &mut Writer) {
    let size = chance.pick(&[1 << 60, 1 << 61, (1 << 61) + 1, MOST]);
    match chance.below(4) {
        3 => {
            let zero = writer.integer(0);
            let one = writer.power(zero, 0);
            let large = writer.integer(MOST - chance.below(2) as i64);
            let product = writer.product(one, large);
            let more = if chance.one_in(2) { one } else { zero };
            writer.sum(product, more);
        }
        0 => {
            let zero = writer.integer(0);
            let large = writer.integer(MOST);
            writer.product(zero, large);
        }
        1 => {
            let plus = writer.integer(size);
            let minus = writer.integer(-size);
            let zero = writer.sum(plus, minus);
            let factor = writer.integer(chance.between(0, 3) as i64);
            writer.product(zero, factor);
        }
        _ => {
            let plus = writer.integer(size);
            let one = writer.integer(1);
            let sum = writer.sum(plus, one);
            let minus = writer.integer(-1);
            writer.sum(sum, minus);
        }
    }
}

/// Nodes at which two or three of DEGREE, WEIGHT and SPREAD are due: the first of them in this order is given.
pub fn several_refusals(chance: &mut Chance) -> Vec<i64> {
    let letters = chance.letters();
    let mut writer = Writer::default();
    let high = chance.pick(&[1, 1, 15, 16, 20]);
    let heavy = chance.pick(&[1, 1, 1 << 13, 1 << 17, 1 << 40, MOST - 8]);
    let wide = chance.pick(&[1, 2, VARIABLES - 1, VARIABLES - 1]);
    let mut base = writer.term(chance.signed(heavy), letters[0], high);
    for &letter in &letters[1..=wide] {
        let right = writer.letter(letter);
        base = writer.sum(base, right);
    }
    match chance.below(3) {
        0 => {
            let square = writer.product(base, base);
            writer.product(square, square);
        }
        1 => {
            writer.power(base, 4);
        }
        _ => {
            let cube = writer.power(base, 3);
            writer.product(base, cube);
        }
    }
    shifted(chance, writer.numbers)
}
