//! Tables on both sides of the largest spread: sums, products and steps of powers, also where patterns cancel.

use super::chance::Chance;
use super::spreads::LOSING;
use super::table_writer::{shifted, Writer};

pub fn spread_edge(chance: &mut Chance) -> Vec<i64> {
    let mut writer = Writer::default();
    match chance.below(8) {
        7 => lost_in_step(chance, &mut writer),
        0 => two_rows(chance, &mut writer),
        1 => seven_factors(chance, &mut writer),
        2 => cancelling_product(chance, &mut writer),
        3 => letters_raised(chance, &mut writer),
        4 => cancelling_sum(chance, &mut writer),
        5 => one_square(chance, &mut writer),
        _ => lost_in_power(chance, &mut writer),
    }
    shifted(chance, writer.numbers)
}

/// (1 + a)^i x (1 + b)^j has (i + 1)(j + 1) patterns.
fn two_rows(chance: &mut Chance, writer: &mut Writer) {
    let letters = chance.letters();
    let rows = [(32, 4), (43, 3), (42, 3), (16, 8), (13, 10), (26, 5), (25, 5), (2, 61), (11, 12), (18, 7), (21, 6)];
    let (first, second) = chance.pick(&rows);
    let left = writer.one_and(chance.pick(&[1, -1]), letters[0], 1);
    let left = writer.power(left, first - 1);
    let right = writer.one_and(1, letters[1], 1);
    let right = writer.power(right, second - 1);
    let mut product = writer.product(left, right);
    for _ in 0..chance.below(4) {
        // New patterns one by one, or one that is there already.
        let more = writer.letter_power(letters[chance.between(0, 3)], chance.between(1, 3));
        product = writer.sum(product, more);
    }
}

/// Seven factors 1 + x have 128 patterns; one more pattern, or one more factor, is too many.
fn seven_factors(chance: &mut Chance, writer: &mut Writer) {
    let letters = chance.letters();
    let mut product = writer.one_and(1, letters[0], 1);
    for &letter in &letters[1..7] {
        let factor = writer.one_and(1, letter, chance.between(1, 2));
        product = writer.product(product, factor);
    }
    match chance.below(4) {
        0 => {
            let more = writer.letter(letters[7]);
            writer.sum(more, product);
        }
        1 => {
            let factor = writer.one_and(1, letters[7], 1);
            writer.product(product, factor);
        }
        2 => {
            let factor = writer.term(3, letters[7], 2);
            writer.product(factor, product);
        }
        _ => {
            writer.sum(product, product);
        }
    }
}

/// (1 + b)^i (1 - a) times 1 + a + .. : nearly all patterns cancel, but they were met.
fn cancelling_product(chance: &mut Chance, writer: &mut Writer) {
    let letters = chance.letters();
    let (across, along) = chance.pick(&[(4, 32), (4, 33), (3, 43), (3, 42), (2, 60), (8, 16), (8, 17), (5, 26), (5, 25)]);
    let one = writer.one_and(1, letters[1], 1);
    let sides = writer.power(one, across - 1);
    let minus = writer.one_and(-1, letters[0], 1);
    let left = writer.product(sides, minus);
    // One pattern more than the row has terms.
    let right = writer.row(letters[0], along - 1);
    if chance.one_in(2) {
        writer.product(left, right);
    } else {
        writer.product(right, left);
    }
}

/// The square of (1 + a)^3 (1 + b)^5 + c + d has 128 patterns, that of (1 + a)^19 + b + c + d + e has 129.
fn one_square(chance: &mut Chance, writer: &mut Writer) {
    let letters = chance.letters();
    let first = writer.one_and(1, letters[0], 1);
    let mut base;
    let more;
    if chance.one_in(2) {
        let first = writer.power(first, 3);
        let second = writer.one_and(chance.pick(&[1, -1]), letters[1], 1);
        let second = writer.power(second, chance.pick(&[5, 5, 6]));
        base = writer.product(first, second);
        more = chance.pick(&[2, 2, 3]);
    } else {
        base = writer.power(first, chance.pick(&[19, 19, 18]));
        more = 4;
    }
    for &letter in &letters[2..2 + more] {
        let right = writer.letter(letter);
        base = writer.sum(base, right);
    }
    writer.power(base, 2);
}

/// n letters to the power k: 8 cubed 120, 9 terms cubed 165, 6 to the fourth 126, 3 to the fourteenth 120, and so on.
fn letters_raised(chance: &mut Chance, writer: &mut Writer) {
    let letters = chance.letters();
    let (count, exponent) = chance.pick(&[
        (8, 3), (8, 4), (7, 3), (7, 4), (6, 4), (6, 5), (5, 5), (5, 6), (4, 7), (4, 8), (3, 14), (3, 15), (2, 60), (3, 20),
        (8, 2),
    ]);
    let with_one = chance.one_in(3);
    let base = writer.letters(&letters[..count], with_one);
    let power = writer.power(base, exponent);
    if chance.one_in(3) {
        let more = writer.letters(&letters, false);
        writer.sum(power, more);
    }
}

/// 128 patterns and their negatives, plus a new one: the sum has one term, its spread is 129.
fn cancelling_sum(chance: &mut Chance, writer: &mut Writer) {
    let letters = chance.letters();
    let (first, second) = chance.pick(&[(32, 4), (16, 8), (42, 3), (8, 16)]);
    let left = writer.one_and(1, letters[0], 1);
    let left = writer.power(left, first - 1);
    let right = writer.one_and(1, letters[1], 1);
    let right = writer.power(right, second - 1);
    let all = writer.product(left, right);
    let minus_one = writer.integer(-1);
    let mut minus = writer.product(minus_one, all);
    let mut plus = all;
    if chance.one_in(2) {
        // Take one pattern out of one of the two, and put another in.
        let taken = writer.term(1, letters[0], 0);
        minus = writer.sum(minus, taken);
        let put = writer.letter(letters[2]);
        minus = writer.sum(minus, put);
    }
    if chance.one_in(4) {
        plus = writer.sum(plus, plus);
    }
    writer.sum(plus, minus);
}

/// The fourth power of one of `LOSING`: 128 patterns, or 129 if lost ones counted.
fn lost_in_step(chance: &mut Chance, writer: &mut Writer) {
    let letters = chance.letters();
    let losing = chance.pick(&LOSING);
    let mut base = writer.integer(losing[0].0);
    for &(coefficient, first, second) in &losing[1..] {
        let mut term = writer.term(coefficient, letters[0], first);
        if second > 0 {
            let factor = writer.letter_power(letters[1], second);
            term = writer.product(term, factor);
        }
        base = writer.sum(base, term);
    }
    let power = writer.power(base, chance.pick(&[3, 4, 4, 4, 5]));
    if chance.one_in(6) {
        let more = writer.letter(letters[2]);
        writer.sum(power, more);
    }
}

/// (1 + 2a - 2a^2)^2 loses a^2: what is lost in one step is no operand of the next. Other rows make up the size.
fn lost_in_power(chance: &mut Chance, writer: &mut Writer) {
    let letters = chance.letters();
    let one = writer.integer(1);
    let two = writer.term(2, letters[0], 1);
    let minus = writer.term(-2, letters[0], 2);
    let left = writer.sum(one, two);
    let base = writer.sum(left, minus);
    let square = writer.power(base, 2);
    let (across, more) = chance.pick(&[(32, 0), (31, 1), (33, 0), (25, 1), (26, 0)]);
    let row = writer.one_and(1, letters[1], 1);
    let row = writer.power(row, across - 1);
    let product = writer.product(square, row);
    if more > 0 {
        let cube = writer.power(base, 3);
        writer.sum(product, cube);
    }
}
