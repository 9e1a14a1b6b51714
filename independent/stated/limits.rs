//! Tables, slopes, substitutions and estimates: 01, and what docs/DECISIONS.md says of its open points.

use super::Statements;
use crate::change::MOST_PAIRS;
use crate::estimate::READING_BYTES;
use crate::operations::{estimate, simplify, slope, substitute};
use crate::refusals::{DEGREE, LIST, NODE, RANGE, READING, SHAPE, SPREAD, SUM, VARIABLE, WEIGHT};
use crate::sums::{LARGEST_DEGREE, VARIABLES};
use crate::table::MOST_NODES;
use crate::typed::{list_of, packed_of, table_of, typed_list};

pub fn state(all: &mut Statements) {
    tables(all);
    formal(all);
    slopes(all);
    substitutions(all);
    lists(all);
    spreads(all);
    estimates(all);
    readings(all);
}

fn tables(all: &mut Statements) {
    let why = "SHAPE, work areas zero";
    all.refused(why, &simplify::case(&[]), SHAPE, 0);
    all.refused(why, &simplify::case(&[1, 0]), SHAPE, 0);
    all.refused(why, &simplify::case(&[1, 0, 0, 1]), SHAPE, 0);
    all.refused(why, &simplify::case(&[1, 0, 0].repeat(MOST_NODES + 1)), SHAPE, 0);
    all.table_is("as many nodes as there may be", &[1, 0, 0].repeat(MOST_NODES), "a");
    let why = "node by node";
    let high = [1, 0, 0, 4, 0, 60, 3, 0, 1];
    all.refused(why, &simplify::case(&[&high[..], &[9, 9, 9]].concat()), DEGREE, 2);
    all.refused(why, &simplify::case(&[&[9, 0, 0][..], &high].concat()), NODE, 0);
    let why = "exponent and variable of a table";
    all.refused(why, &simplify::case(&[1, 0, 0, 4, 0, i64::from(LARGEST_DEGREE) + 1]), NODE, 1);
    all.refused(why, &simplify::case(&[1, 0, 0, 4, 0, -1]), NODE, 1);
    all.refused(why, &simplify::case(&[1, VARIABLES as i64, 0]), NODE, 0);
    all.refused(why, &simplify::case(&[1, -1, 0]), NODE, 0);
    all.refused(why, &simplify::case(&[1, 7, 1]), NODE, 0);
    all.refused(why, &simplify::case(&[0, 7, 1]), NODE, 0);
    all.refused(why, &simplify::case(&[2, 0, 0]), NODE, 0);
    all.refused(why, &simplify::case(&[1, 0, 0, 3, 0, 1]), NODE, 1);
    let why = "integer nodes";
    for value in [i64::MIN, i64::MAX, (1 << 62) + 1, -(1 << 62) - 1] {
        all.refused(why, &simplify::case(&[1, 0, 0, 0, value, 0]), WEIGHT, 1);
    }
    let why = "a node twice, unused nodes";
    all.table_is(why, &[1, 0, 0, 1, 1, 0, 2, 0, 1, 3, 2, 2], "a^2+2*a*b+b^2");
    all.table_is(why, &[1, 2, 0, 2, 0, 0], "2*c");
    all.refused(why, &simplify::case(&[0, i64::MIN, 0, 1, 0, 0]), WEIGHT, 0);
}

fn formal(all: &mut Statements) {
    let why = "formal, not actual";
    all.formula_refused(why, "(a-a)*a^60", DEGREE, 7);
    all.formula_refused(why, "(2305843009213693952-2305843009213693952)*2", WEIGHT, 6);
    all.formula(why, "(2305843009213693952-2305843009213693952)*1", "0");
    let why = "a step of a power loses a pattern";
    all.formula(why, "(1+2*a-2*a^2)^2", "4*a^4-8*a^3+4*a+1");
    all.formula(why, "(1+2*a-2*a^2)^3", "-8*a^6+24*a^5-12*a^4-16*a^3+6*a^2+6*a+1");
    let losing = "(2+2*a-2*a^3-a^6-2*a*b-2*a^8*b-a*b^2)^4";
    let why = "128 patterns in the last step, 129 if lost ones counted";
    all.accepted(why, &simplify::case(&table_of(losing)));
    let why = "exponents 0 and 1";
    all.formula(why, "0^1", "0");
    all.formula(why, "0^60", "0");
    all.formula(why, "4611686018427387904^0", "1");
    all.formula(why, "4611686018427387904^1", "4611686018427387904");
    let why = "weights raised to a power";
    all.formula(why, "4^31", "4611686018427387904");
    all.formula_refused(why, "4^32", WEIGHT, 1);
    all.formula_refused(why, "4611686018427387904^60", WEIGHT, 1);
    all.formula(why, "2147483648^2", "4611686018427387904");
    // 2^62 + 1 as a product: 2147549185 x 2147418113.
    all.formula_refused(why, "2147549185*2147418113", WEIGHT, 2);
}

fn slopes(all: &mut Statements) {
    let why = "slope: VARIABLE, WEIGHT, and their order";
    let sum = packed_of("a^60+3*h^2");
    all.slope(why, &sum, 'a', "60*a^59");
    all.slope(why, &sum, 'h', "6*h");
    all.refused(why, &slope::case(&sum, VARIABLES as u64), VARIABLE, 0);
    all.refused(why, &slope::case(&sum, u64::MAX), VARIABLE, 0);
    all.refused(why, &slope::case(&[1], VARIABLES as u64), SUM, 1);
    let half = packed_of("2305843009213693952*a^2");
    all.slope(why, &half, 'a', "4611686018427387904*a");
    all.slope(why, &half, 'b', "0");
    all.refused(why, &slope::case(&packed_of("2305843009213693952*a^2+a*b"), 0), WEIGHT, 0);
    all.refused(why, &slope::case(&packed_of("4611686018427387904*a^60"), 0), WEIGHT, 0);
    all.slope(why, &[0], 'h', "0");
}

fn substitutions(all: &mut Statements) {
    let why = "pairs from 0, a variable twice";
    let ab = packed_of("a*b");
    all.substitute(why, &ab, &typed_list(&[('a', "a+b"), ('a', "2*a")]), "2*a*b+b^2");
    let high = packed_of("a^2");
    all.refused(why, &substitute::case(&high, &typed_list(&[('b', "1"), ('a', "c^31")])), DEGREE, 1);
    all.substitute(why, &high, &typed_list(&[('b', "1"), ('a', "c^30")]), "c^60");
    all.refused(why, &substitute::case(&high, &typed_list(&[('a', "2147483649*c")])), WEIGHT, 0);
    all.substitute(why, &high, &typed_list(&[('a', "2147483648*c")]), "4611686018427387904*c^2");
    all.refused(why, &substitute::case(&packed_of("a^2+1"), &typed_list(&[('a', "2147483648*c")])), WEIGHT, 0);
    let why = "the degree of a pair: the other exponents and k times the degree of S";
    let product = packed_of("a^2*b^30+h");
    all.substitute(why, &product, &typed_list(&[('a', "c^15-1")]), "b^30*c^30-2*b^30*c^15+b^30+h");
    all.refused(why, &substitute::case(&product, &typed_list(&[('a', "c^16")])), DEGREE, 0);
    all.substitute(why, &product, &typed_list(&[('h', "c^60")]), "c^60+a^2*b^30");
    let why = "no pairs";
    all.substitute(why, &ab, &[0], "a*b");
    all.refused(why, &substitute::case(&ab, &[]), LIST, 0);
    let why = "zero put in";
    all.substitute(why, &packed_of("a^60+4611686018427387903*b"), &typed_list(&[('a', "0")]), "4611686018427387903*b");
    all.substitute(why, &[0], &typed_list(&[('a', "b"), ('b', "c")]), "0");
    let difference = packed_of("a-b");
    all.substitute("what is left is zero", &difference, &typed_list(&[('a', "b")]), "0");
    let later = typed_list(&[('a', "b"), ('b', "4611686018427387904*c^60")]);
    all.substitute("what is left is zero", &difference, &later, "0");
    let why = "the whole list before pair 0 is applied";
    let bad = [typed_list(&[('a', "c^31")]), vec![0]].concat();
    all.refused(why, &substitute::case(&high, &bad), LIST, bad.len() - 1);
}

fn lists(all: &mut Statements) {
    let ab = packed_of("a*b");
    let one = packed_of("1");
    let why = "the list's own faults";
    let (variables, pairs) = (VARIABLES as u8, MOST_PAIRS as u8);
    all.refused(why, &substitute::case(&ab, &[pairs + 1]), LIST, 0);
    all.refused(why, &substitute::case(&ab, &list_of(&[(0, &one[..]); MOST_PAIRS + 1])), LIST, 0);
    all.substitute(why, &ab, &list_of(&[(0, &one[..]); MOST_PAIRS]), "b");
    all.refused(why, &substitute::case(&ab, &[1, variables]), VARIABLE, 1);
    all.refused(why, &substitute::case(&ab, &[2, 0, 0, variables]), VARIABLE, 3);
    all.refused(why, &substitute::case(&ab, &[1, 0x88, 0]), LIST, 1);
    all.refused(why, &substitute::case(&ab, &[1, 0x87]), LIST, 2);
    all.refused(why, &substitute::case(&ab, &[1, 7]), LIST, 2);
    all.refused(why, &substitute::case(&ab, &[1, 7, 0, 0]), LIST, 3);
    all.refused(why, &substitute::case(&ab, &[0, 0]), LIST, 1);
    all.refused(why, &substitute::case(&ab, &[0x80, 0]), LIST, 0);
    all.refused(why, &substitute::case(&ab, &[1, 0, 0x81, 1]), LIST, 2);
    all.refused(why, &substitute::case(&ab, &[2, 0, 1, 2, 0, 0]), LIST, 6);
    all.refused("SUM comes before the list", &substitute::case(&[1], &[pairs + 1]), SUM, 1);
    let cut = list_of(&[(3, &one)]);
    for length in 0..cut.len() {
        all.refused("bytes end: the list's length", &substitute::case(&ab, &cut[..length]), LIST, length);
    }
}

/// So many patterns in b and c, times a power of a.
fn rests(count: usize, power: usize) -> Vec<u8> {
    let mut terms = Vec::new();
    for index in 0..count {
        terms.push(format!("a^{power}*b^{}*c^{}", index % 8, index / 8));
    }
    let patterns = |term: &String| crate::packed::read_sum(&packed_of(term)).expect("one term").terms[0];
    let sum = crate::cases::random_sums::in_order(terms.iter().map(patterns).collect());
    crate::packed::packed(&sum)
}

fn spreads(all: &mut Statements) {
    let why = "what cancels inside S^k does not count";
    let lost = typed_list(&[('a', "1+2*d-2*d^2")]);
    all.accepted(why, &substitute::case(&rests(32, 2), &lost));
    all.refused(why, &substitute::case(&rests(33, 2), &lost), SPREAD, 0);
    let why = "every step of S^k";
    let wide = "1+b+c+d+e+f+g+h+b^2+c^3+d^4+e^5+f^6+g^7+h^8+b^9*c^9";
    all.refused(why, &substitute::case(&packed_of("a^2"), &typed_list(&[('a', wide)])), SPREAD, 0);
    all.refused(why, &substitute::case(&packed_of("a^3"), &typed_list(&[('a', "a+b+c+d+e+f+g+h+1")])), SPREAD, 0);
    let after = typed_list(&[('b', "c"), ('a', "a+b+c+d+e+f+g+h+1")]);
    all.refused(why, &substitute::case(&packed_of("a^3+b"), &after), SPREAD, 1);
}

fn estimates(all: &mut Statements) {
    let why = "the margin of demand 3";
    all.estimate(why, &packed_of("a^2-2*a"), &[1], &[1], (-1, 5));
    let why = "raised readings up to 65,535";
    let a = packed_of("a");
    all.estimate(why, &a, &[-32_768], &[32_767], (-32_768, 32_767));
    all.estimate(why, &packed_of("a^2"), &[-32_768], &[32_767], (1 << 30, 65_535 * 65_535 - (1 << 30)));
    all.estimate(why, &a, &[0], &[0], (0, 0));
    all.estimate(why, &a, &[0], &[3], (0, 3));
    all.estimate(why, &[0], &[-32_768, 5], &[32_767, 1], (0, 0));
    all.estimate(why, &packed_of("a^60-1"), &[1], &[0], (0, 0));
    let why = "RANGE at 2^62 and 2^62 + 1";
    let full = packed_of("4611686018427387904");
    all.estimate(why, &full, &[], &[], (1 << 62, 0));
    all.estimate(why, &packed_of("-2*a^60"), &[-2], &[0], (-(1 << 61), 0));
    all.refused(why, &estimate::case(&packed_of("a^60"), &[2], &[1]), RANGE, 0);
    all.estimate("a zero factor first", &packed_of("2*a*b^59+1"), &[0, 32_767], &[0, 9], (1, 0));
}

fn readings(all: &mut Statements) {
    let why = "READING: a length first, then the first negative tolerance";
    let a = packed_of("a");
    for index in 0..VARIABLES {
        let mut tolerances = [0i16; VARIABLES];
        tolerances[index] = -1;
        all.refused(why, &estimate::case(&a, &[], &tolerances), READING, index);
        tolerances[VARIABLES - 1] = -32_768;
        all.refused(why, &estimate::case(&a, &[], &tolerances), READING, index);
    }
    let right = READING_BYTES;
    for (first, second) in [
        (right - 1, right), (right, right - 1), (right + 1, right), (right, right + 1), (0, right), (right, 0), (0, 0),
        (right + 2, right + 2), (2 * right, 2 * right),
    ] {
        // No negative tolerance; then all of them; then the fourth, whose place would be 3.
        let mut fourth = vec![0; 2 * right];
        fourth[7] = 0x80;
        fourth.truncate(second);
        for tolerances in [vec![0; second], vec![0xff; second], fourth] {
            let case = estimate::case_of_bytes(&a, &vec![1; first], &tolerances);
            all.refused(why, &case, READING, 0);
        }
    }
    let case = estimate::case_of_bytes(&[0x81, 1], &[], &[0xff; READING_BYTES]);
    all.refused("SUM before READING", &case, SUM, 0);
}
