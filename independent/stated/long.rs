//! Long sums: the largest spread and one more, slopes of as many terms as there may be, and estimates of more than 16
//! terms with high powers. They are written in 01's order term by term, since a typed formula has no room for them.

use super::written::as_written;
use super::Statements;
use crate::lines::run_case;
use crate::operations::{estimate, own, simplify, slope, substitute};
use crate::packed::MOST_TERM_BYTES;
use crate::refusals::{RANGE, SPREAD, WEIGHT};
use crate::sums::{FIRST_LETTER, LAST_LETTER, MOST_TERMS, VARIABLES};
use crate::table::{MOST_NODES, NODE_NUMBERS};
use crate::typed::{list_of, node_count, table_of, typed_list};

pub fn state(all: &mut Statements) {
    cancelled_in_pairs(all);
    full_pairs(all);
    full_nodes(all);
    cancelled_in_squares(all);
    slopes(all);
    heaviest(all);
    long_rows(all);
    long_grids(all);
    high_powers(all);
    long_ranges(all);
    long_zeros(all);
}

/// Terms for the powers last, last - step, .. down to first.
fn row(powers: impl DoubleEndedIterator<Item = usize>, term: impl Fn(usize) -> String) -> String {
    powers.rev().map(term).collect::<Vec<String>>().join("+")
}

/// Terms for i below `first` and j below `second`, by larger i + j, then by larger i: 01's order for a^i b^j.
pub fn grid(first: usize, second: usize, term: impl Fn(usize, usize) -> String) -> String {
    let mut terms = Vec::new();
    for degree in (0..first + second - 1).rev() {
        for i in (0..first.min(degree + 1)).rev() {
            if degree - i < second {
                terms.push(term(i, degree - i));
            }
        }
    }
    terms.join("+")
}

/// Such terms, as many as there may be.
fn full_grid(term: impl Fn(usize, usize) -> String) -> String {
    grid(16, MOST_TERMS / 16, term)
}

/// The sum over k below `count` of (a - b) c^k, and a few letters. With b + d + e for a, each k gives three patterns, and
/// of these b c^k cancels.
fn cancelled_in_pairs(all: &mut Statements) {
    let put = typed_list(&[('a', "b+d+e")]);
    let before = |count: usize, more: &str| as_written(&(row(0..count, |k| format!("a*c^{k}+-b*c^{k}")) + more));
    let after = |count: usize, more: &str| row(0..count, |k| format!("c^{k}*d+c^{k}*e")) + more;
    let why = "what cancels between the terms of a pair counts: 43 x 3 patterns";
    all.refused(why, &substitute::case(&before(43, ""), &put), SPREAD, 0);
    let later = typed_list(&[('h', "1"), ('a', "b+d+e")]);
    all.refused(why, &substitute::case(&before(43, ""), &later), SPREAD, 1);
    let why = "what cancels between the terms of a pair counts: 42 x 3 patterns, and two and three more";
    all.substitute(why, &before(42, ""), &put, &after(42, ""));
    all.substitute(why, &before(42, "+g+h"), &put, &after(42, "+g+h"));
    all.refused(why, &substitute::case(&before(42, "+f+g+h"), &put), SPREAD, 0);
}

/// As many terms as there may be put in for a letter that stands alone, beside another term, and nowhere.
fn full_pairs(all: &mut Statements) {
    let why = "as many terms as there may be put in";
    let inside = full_grid(|i, j| format!("b^{i}*c^{j}"));
    let put = list_of(&[(0, &as_written(&inside))]);
    all.substitute(why, &as_written("a"), &put, &inside);
    all.substitute(why, &as_written("-a+b"), &put, &full_grid(|i, j| match (i, j) {
        (1, 0) => String::new(),
        _ => format!("-b^{i}*c^{j}"),
    }));
    all.refused(why, &substitute::case(&as_written("a+h"), &put), SPREAD, 0);
    all.refused(why, &substitute::case(&as_written("a^2"), &put), SPREAD, 0);
    all.substitute(why, &as_written("b+h"), &put, "b+h");
    let why = "a letter that does not occur: what is put in does not count";
    let high = typed_list(&[('a', "4611686018427387904*c^60")]);
    all.substitute(why, &as_written("b^60+b"), &high, "b^60+b");
}

/// Seven factors 1 + x have as many terms as there may be. In a sum of two nodes what cancels counts too.
fn full_nodes(all: &mut Statements) {
    let why = "as many terms as there may be, and what may be done with them";
    let wide = "(1+a)*(1+b)*(1+c)*(1+d)*(1+e)*(1+f)*(1+g)";
    all.formula(why, &format!("({wide})^0"), "1");
    all.accepted(why, &simplify::case(&table_of(&format!("({wide})^1"))));
    all.accepted(why, &simplify::case(&table_of(&format!("{wide}*h"))));
    all.formula_refused(why, &format!("({wide})^2"), SPREAD, 27);
    all.formula_refused(why, &format!("({wide})^3"), SPREAD, 27);
    all.refused(why, &substitute::case(&as_written("h^3"), &typed_list(&[('h', wide)])), SPREAD, 0);
    all.formula_refused(why, &format!("{wide}+h"), SPREAD, 28);
    all.formula_refused(why, &format!("{wide}*(1+h)"), SPREAD, 30);
    all.formula(why, &format!("{wide}+(1-{wide})"), "1");
    all.formula_refused(why, &format!("{wide}+(1-{wide}+h)"), SPREAD, 60);
    // The same terms at the last node, in the last part of the work areas.
    let why = "as many terms as there may be in the last part of the work areas";
    let table = table_of(wide);
    let before = MOST_NODES - node_count(wide);
    let mut shifted = [1, 7, 0].repeat(before);
    for node in table.chunks(NODE_NUMBERS) {
        let more = if node[0] < 2 { 0 } else { before as i64 };
        shifted.extend([node[0], node[1] + more, node[2] + more]);
    }
    let same = run_case(&simplify::case(&table), own);
    all.case(why, &simplify::case(&shifted), &same);
}

/// (1 + 2a - 2a^2 + ..)^2 loses a^2. A row of 20 terms and four letters have one pattern too many in the square,
/// though one of them is lost; 4 x 6 terms and two letters have as many as there may be, and lose eleven.
fn cancelled_in_squares(all: &mut Statements) {
    let why = "what cancels in a step of a power counts: one pattern too many";
    let over = "1+2*a-2*a^2+a^3*(1+a)^16+b+c+d+e";
    let nodes = node_count(over);
    all.formula_refused(why, &format!("({over})^2"), SPREAD, nodes);
    all.formula_refused(why, &format!("({over})^3"), SPREAD, nodes);
    all.refused(why, &substitute::case(&as_written("h^2"), &typed_list(&[('h', over)])), SPREAD, 0);
    let why = "what cancels in a step of a power counts: as many as there may be";
    let full = "(1+2*a-2*a^2+a^3)*(1+b)^5+c+d";
    all.accepted(why, &simplify::case(&table_of(&format!("({full})^2"))));
    all.accepted(why, &substitute::case(&as_written("h^2"), &typed_list(&[('h', full)])));
    // The terms' products are those of the square as it is left, so one pattern more is not too many.
    all.accepted(why, &substitute::case(&as_written("h^2+g"), &typed_list(&[('h', full)])));
}

fn slopes(all: &mut Statements) {
    let why = "a slope of as many terms as there may be";
    let sum = as_written(&full_grid(|i, j| format!("a^{}*b^{j}", i + 1)));
    assert_eq!(sum[..2], [0x80, 1], "as many terms as there may be");
    all.slope(why, &sum, 'a', &full_grid(|i, j| format!("{}*a^{i}*b^{j}", i + 1)));
    let without = |i: usize, j: usize| if j == 0 { String::new() } else { format!("{j}*a^{}*b^{}", i + 1, j - 1) };
    all.slope(why, &sum, 'b', &full_grid(without));
    all.slope(why, &sum, 'c', "0");
    // The power of h is 1 everywhere, so the slope by h has the same coefficients.
    let sum = as_written(&full_grid(|i, j| format!("-3*a^{i}*b^{j}*h")));
    all.slope(why, &sum, 'h', &full_grid(|i, j| format!("-3*a^{i}*b^{j}")));
}

/// So many coefficients of 2^55 are 2^62 together, and make the longest packed sum that there is.
fn heaviest(all: &mut Statements) {
    let why = "as many terms as there may be, of weight 2^62";
    let size = 1u64 << 55;
    let with_last = |last: &str| {
        as_written(&full_grid(|i, j| match (i, j) {
            (0, 0) => last.to_string(),
            _ => format!("{size}*a^{i}*b^{j}*h"),
        }))
    };
    let plain = full_grid(|i, j| format!("{size}*a^{i}*b^{j}"));
    let bytes = all.slope(why, &with_last(&format!("{size}*h")), 'h', &plain);
    assert_eq!(bytes.len(), (MOST_TERM_BYTES - 1) * MOST_TERMS + 2, "one group less in each coefficient");
    all.unpacked_and_packed(why, &bytes);
    let ordered = plain.replace(&format!("+{size}*a^0*b^0"), &format!("+{size}*h"));
    all.slope(why, &with_last(&format!("{}*h^2", size / 2)), 'h', &ordered);
    all.refused(why, &slope::case(&with_last(&format!("{}*h^2", size / 2 + 1)), 7), WEIGHT, 0);
    all.refused(why, &slope::case(&with_last(&format!("{size}*h^2")), 7), WEIGHT, 0);
    all.estimate(why, &bytes, &[1, -1], &[0, 0], (0, 0));
    all.estimate(why, &bytes, &[-1, 1], &[0, 0], (0, 0));
    all.estimate(why, &bytes, &[1, 1], &[0, 0], (1 << 62, 0));
    all.estimate(why, &bytes, &[1, 0], &[0, 0], (1 << 59, 0));
    all.estimate(why, &bytes, &[1, 0], &[0, 1], (1 << 59, (1 << 62) - (1 << 59)));
    all.refused(why, &estimate::case(&bytes, &[1, 1], &[1, 0]), RANGE, 0);
}

/// 1 + x + .. of so many terms.
fn added(base: i64, count: u32) -> i64 {
    (0..count).map(|power| base.pow(power)).sum()
}

/// One letter, 16, 17 and more terms.
fn long_rows(all: &mut Statements) {
    let why = "more than 16 terms with powers of 8 and more";
    let sum = as_written(&row(0..21, |k| format!("a^{k}")));
    let margin = added(3, 21) - added(2, 21);
    all.estimate(why, &sum, &[2], &[1], (added(2, 21), margin));
    all.estimate(why, &sum, &[-2], &[1], (added(-2, 21), margin));
    all.estimate(why, &sum, &[0], &[3], (1, added(3, 21) - 1));
    all.estimate(why, &sum, &[0], &[0], (1, 0));
    let minus = as_written(&row(0..21, |k| format!("-a^{k}")));
    all.estimate(why, &minus, &[2], &[1], (-added(2, 21), margin));
    // Odd powers only, at a negative reading: every term is negative.
    let odd = as_written(&row((1..40).step_by(2), |k| format!("a^{k}")));
    assert_eq!(odd[0], 20, "twenty terms");
    all.estimate(why, &odd, &[-2], &[1], (-2 * added(4, 20), 3 * added(9, 20) - 2 * added(4, 20)));
    let why = "16 terms and 17";
    for count in [16, 17] {
        let sum = as_written(&row(0..count, |k| format!("a^{k}")));
        all.estimate(why, &sum, &[-3], &[0], (added(-3, count as u32), 0));
        all.estimate(why, &sum, &[3], &[2], (added(3, count as u32), added(5, count as u32) - added(3, count as u32)));
        let sum = as_written(&row(0..count, |k| format!("-a^{k}*h^{}", 20 - k)));
        let value = |a: i64, h: i64| (0..count as u32).map(|k| a.pow(k) * h.pow(20 - k)).sum::<i64>();
        let readings = [2, 0, 0, 0, 0, 0, 0, -1];
        all.estimate(why, &sum, &readings, &[1], (-value(2, -1), value(3, 1) - value(2, 1)));
    }
}

/// The letters of all variables.
fn all_letters() -> impl DoubleEndedIterator<Item = char> {
    (FIRST_LETTER..=LAST_LETTER).map(char::from)
}

/// Two letters with readings of both signs, and all letters.
fn long_grids(all: &mut Statements) {
    let why = "more than 16 terms, readings of both signs";
    let sum = as_written(&grid(10, 10, |i, j| format!("a^{i}*b^{j}")));
    assert_eq!(sum[0], 100, "a hundred terms");
    let (plain, raised) = (added(2, 10) * added(2, 10), added(3, 10) * added(3, 10));
    all.estimate(why, &sum, &[2, -2], &[1, 1], (added(2, 10) * added(-2, 10), raised - plain));
    all.estimate(why, &sum, &[-2, -2], &[1, 1], (added(-2, 10) * added(-2, 10), raised - plain));
    let (plain, raised) = (added(2, 10) * added(3, 10), added(2, 10) * added(5, 10));
    all.estimate(why, &sum, &[-2, 3], &[0, 2], (added(-2, 10) * added(3, 10), raised - plain));
    // x^9 + x^8 - x of each letter.
    let letters = |sign: &str, power: usize| {
        let term = |letter: char| format!("{sign}{letter}^{power}");
        all_letters().map(term).collect::<Vec<String>>().join("+")
    };
    let sum = as_written(&[letters("", 9), letters("", 8), letters("-", 1)].join("+"));
    let readings = [1, -1, 2, -2, 3, -3, 90, -90];
    let tolerances = [0, 1, 0, 1, 0, 1, 0, 1];
    let value = readings.iter().map(|&x| i64::from(x)).map(|x| x.pow(9) + x.pow(8) - x).sum();
    let size = |x: i64| x.pow(9) + x.pow(8) + x;
    let plain: i64 = readings.iter().map(|&x| size(i64::from(x).abs())).sum();
    let raised: i64 = readings.iter().zip(tolerances).map(|(&x, more)| size(i64::from(x).abs() + i64::from(more))).sum();
    all.estimate(why, &sum, &readings, &tolerances, (value, raised - plain));
    // x^3 + x^2 + x at the largest readings.
    let sum = as_written(&[letters("", 3), letters("", 2), letters("", 1)].join("+"));
    let size = |x: i64| x.pow(3) + x.pow(2) + x;
    let count = VARIABLES as i64;
    let margin = count * (size(65_535) - size(32_768));
    all.estimate(why, &sum, &[-32_768; VARIABLES], &[32_767; VARIABLES], (count * size(-32_768), margin));
}

/// Powers up to the largest, where higher powers that no term has are far out of range.
fn high_powers(all: &mut Statements) {
    let why = "powers up to the largest in range, higher ones not";
    let low = row(0..15, |k| format!("a^{k}"));
    // 31 and 32 have no bit in common: together they are 63.
    let sum = as_written(&format!("a^32+a^31+{low}"));
    assert_eq!(sum[0], 17, "seventeen terms");
    let value = |base: i64| base.pow(32) + base.pow(31) + added(base, 15);
    all.estimate(why, &sum, &[3], &[0], (value(3), 0));
    all.estimate(why, &sum, &[-3], &[0], (value(-3), 0));
    all.estimate(why, &sum, &[-1], &[2], (value(-1), value(3) - value(1)));
    all.refused(why, &estimate::case(&sum, &[3], &[1]), RANGE, 0);
    let sum = as_written(&row(0..61, |k| format!("a^{k}")));
    all.estimate(why, &sum, &[2], &[0], ((1 << 61) - 1, 0));
    all.estimate(why, &sum, &[-1], &[1], (1, (1 << 61) - 1 - 61));
    all.refused(why, &estimate::case(&sum, &[2], &[1]), RANGE, 0);
    // Each letter's 7 beside its 8: rows of 8 powers and of more.
    let of = |power: usize| all_letters().map(|letter| format!("{letter}^{power}")).collect::<Vec<String>>().join("+");
    for power in [7, 8] {
        let sum = as_written(&[of(power), of(2), of(1)].join("+"));
        let value = |x: i64| VARIABLES as i64 * (x.pow(power as u32) + x * x + x);
        all.estimate(why, &sum, &[-17; VARIABLES], &[4; VARIABLES], (value(-17), value(21) - value(17)));
    }
}

/// RANGE with more than 16 terms: exactly 2^62, and one more.
fn long_ranges(all: &mut Statements) {
    let why = "more than 16 terms, RANGE at 2^62 and 2^62 + 1";
    let sum = |sign: &str, last: u64| as_written(&(row(1..61, |k| format!("{sign}2*a^{k}")) + &format!("+{sign}{last}")));
    all.estimate(why, &sum("", 4), &[2], &[0], (1 << 62, 0));
    all.estimate(why, &sum("-", 4), &[2], &[0], (-(1 << 62), 0));
    all.estimate(why, &sum("", 4), &[1], &[1], (124, (1 << 62) - 124));
    all.estimate(why, &sum("-", 4), &[0], &[2], (-4, (1 << 62) - 4));
    all.refused(why, &estimate::case(&sum("", 5), &[2], &[0]), RANGE, 0);
    all.refused(why, &estimate::case(&sum("-", 5), &[-1], &[1]), RANGE, 0);
    all.refused(why, &estimate::case(&sum("", 5), &[0], &[2]), RANGE, 0);
}

/// Raised readings of 0 beside factors that are far out of range, among more than 16 terms.
fn long_zeros(all: &mut Statements) {
    let why = "more than 16 terms, a zero factor";
    let low = row(0..17, |k| format!("a^{k}"));
    let sum = as_written(&format!("b^59*c+-b^30*h^30+{low}"));
    let mut readings = [2, -32_768, 0, 0, 0, 0, 0, 0];
    let mut tolerances = [1, 32_767, 0, 0, 0, 0, 0, 0];
    all.estimate(why, &sum, &readings, &tolerances, (added(2, 17), added(3, 17) - added(2, 17)));
    for letter in [2, 7] {
        tolerances[letter] = 1;
        all.refused(why, &estimate::case(&sum, &readings, &tolerances), RANGE, 0);
        tolerances[letter] = 0;
        readings[letter] = -1;
        all.refused(why, &estimate::case(&sum, &readings, &tolerances), RANGE, 0);
        readings[letter] = 0;
    }
    let all_zero = as_written(&row(0..20, |k| format!("a^{k}*b^40*h")));
    all.estimate(why, &all_zero, &[32_767, -32_768], &[32_767, 1], (0, 0));
    // The estimate is 0 where a reading is, and the margin is not.
    let sum = as_written(&row(0..20, |k| format!("-a^{k}*h")));
    all.estimate(why, &sum, &[-2], &[0, 0, 0, 0, 0, 0, 0, 3], (0, 3 * added(2, 20)));
}
