//! Packed bytes and pack: 01, and what docs/DECISIONS.md says of its open points.

use super::Statements;
use crate::fields::show_words;
use crate::operations::{pack, unpack};
use crate::packed::{packed, MOST_GROUPS};
use crate::refusals::{SHAPE, SUM};
use crate::sums::{unit_of, Pattern, Sum, Term, LARGEST_DEGREE, MOST_TERMS, VARIABLES};
use crate::typed::packed_of;

/// All groups of the longest number but its last.
const LONG: [u8; MOST_GROUPS - 1] = [0xff; MOST_GROUPS - 1];

pub fn state(all: &mut Statements) {
    last_group(all);
    order_of_faults(all);
    cuts(all);
    totals(all);
    counts(all);
    pack_terms(all);
    pack_shapes(all);
}

fn last_group(all: &mut Statements) {
    let why = "the last group";
    let long = LONG;
    for last in [0, 2, 3, 127, 128, 255] {
        all.refused(why, &unpack::case(&[&long[..], &[last]].concat()), SUM, 0);
        all.refused(why, &unpack::case(&[&[1][..], &long, &[last]].concat()), SUM, 1);
        all.refused(why, &unpack::case(&[&[1, 2, 0][..], &long, &[last, 0, 0]].concat()), SUM, 3);
    }
    all.refused("2^64 - 1 as a count", &unpack::case(&[&long[..], &[1]].concat()), SUM, 0);
    let exponents = [&[1, 2, 1][..], &long, &[1, 1, 0]].concat();
    all.refused("2^64 - 1 as an exponent, after a 1", &unpack::case(&exponents), SUM, 3);
    let why = "the groups before the last and then the end";
    all.refused(why, &unpack::case(&long), SUM, long.len());
    all.refused(why, &unpack::case(&[&[1][..], &[0x80; LONG.len()]].concat()), SUM, 1 + LONG.len());
    all.refused("not shortest", &unpack::case(&[0x80, 0]), SUM, 0);
    all.refused("not shortest", &unpack::case(&[0x81, 0]), SUM, 0);
    all.refused("not shortest", &unpack::case(&[1, 0x82, 0x80, 0]), SUM, 1);
    all.refused("not shortest", &unpack::case(&[1, 2, 0x81, 0]), SUM, 2);
    all.refused("not shortest", &unpack::case(&[&[0x80; LONG.len()][..], &[0]].concat()), SUM, 0);
}

fn order_of_faults(all: &mut Statements) {
    let why = "a coefficient is judged at once";
    all.refused(why, &unpack::case(&[1, 0]), SUM, 1);
    all.refused(why, &unpack::case(&[&[1][..], &LONG, &[1]].concat()), SUM, 1);
    let why = "the order is judged last";
    // The sum 1, and a second term: coefficient 1, so many exponents 0, and what follows them.
    let one = packed_of("1");
    let mut twice = |zeros: usize, tail: &[u8], place: usize| {
        let bytes = [&[2][..], &one[1..], &[2], &vec![0; zeros], tail].concat();
        all.refused(why, &unpack::case(&bytes), SUM, place);
    };
    let (second, last) = (one.len(), one.len() + VARIABLES);
    twice(VARIABLES, &[], second);
    twice(0, &[&[1][..], &[0; VARIABLES - 1]].concat(), second);
    twice(VARIABLES - 1, &[], last);
    twice(VARIABLES - 1, &[LARGEST_DEGREE as u8 + 1], last);
    twice(VARIABLES - 1, &[0x80, 0], last);
    twice(VARIABLES - 1, &[0x80], last + 1);
    let why = "bytes left over";
    all.refused(why, &unpack::case(&[0, 0]), SUM, 1);
    all.refused(why, &unpack::case(&[&one[..], &[7]].concat()), SUM, one.len());
    all.refused("exponents above 60", &unpack::case(&[1, 2, 30, 31, 0, 0, 0, 0, 0, 0]), SUM, 3);
    all.refused("exponents above 60", &unpack::case(&[1, 2, 60, 0, 0, 0, 0, 0, 0, 1]), SUM, 9);
    let edge = packed_of("a^30*h^30");
    let shown = [show_words(&[30 * A + 30 * H]), show_words(&[1])].join(" ");
    all.done("exponents of exactly 60", &unpack::case(&edge), 1, &shown);
}

/// Every cut of a short sum and of one with a number of as many groups as there may be.
fn cuts(all: &mut Statements) {
    for text in ["a^2+2*a*b", "4611686018427387904*a"] {
        let bytes = packed_of(text);
        for length in 0..bytes.len() {
            all.refused("bytes end: the input's length", &unpack::case(&bytes[..length]), SUM, length);
        }
    }
}

fn totals(all: &mut Statements) {
    let why = "absolute coefficients above 2^62 together";
    let term = |coefficient: i64, letter: usize| Term { coefficient, pattern: Pattern::letter(letter) };
    let half = 1i64 << 61;
    let full = Sum { terms: vec![term(half, 0), term(-half, 1)] };
    let bytes = packed(&full);
    let shown = [show_words(&[A, B]), "2000000000000000e000000000000000".to_string()].join(" ");
    all.done("exactly 2^62", &unpack::case(&bytes), 2, &shown);
    let over = Sum { terms: vec![term(half, 0), term(-half, 1), term(1, 2)] };
    all.refused(why, &unpack::case(&packed(&over)), SUM, bytes.len());
    let over = Sum { terms: vec![term(half, 0), term(-half - 1, 1)] };
    all.refused(why, &unpack::case(&packed(&over)), SUM, packed(&Sum { terms: vec![term(half, 0)] }).len());
    let over = Sum { terms: vec![term(-(1 << 62) - 1, 0)] };
    all.refused(why, &unpack::case(&packed(&over)), SUM, 1);
    let over = Sum { terms: vec![term((1 << 62) + 1, 0)] };
    all.refused(why, &unpack::case(&packed(&over)), SUM, 1);
}

/// As many terms as there may be, and one more.
fn counts(all: &mut Statements) {
    let why = "the count is judged at once";
    all.refused(why, &unpack::case(&[0x81, 1]), SUM, 0);
    all.refused(why, &unpack::case(&[0x80, 1]), SUM, 2);
    let many = many_terms(MOST_TERMS);
    let shown = [show_words(&words_of(&many)), show_words(&[1; MOST_TERMS])].join(" ");
    all.done(why, &unpack::case(&packed(&many)), MOST_TERMS, &shown);
    all.refused(why, &unpack::case(&packed(&many_terms(MOST_TERMS + 1))), SUM, 0);
}

fn many_terms(count: usize) -> Sum {
    let pattern = |index: usize| Pattern::empty().with(0, (index / 12) as u8).with(1, (index % 12) as u8);
    crate::cases::random_sums::in_order((0..count).map(|index| Term { coefficient: 1, pattern: pattern(index) }).collect())
}

fn words_of(sum: &Sum) -> Vec<u64> {
    sum.terms.iter().map(|term| term.pattern.word()).collect()
}

/// The words of letters.
const A: u64 = unit_of(0);
const B: u64 = unit_of(1);
const H: u64 = unit_of(7);

fn pack_terms(all: &mut Statements) {
    let why = "pack, a bad term";
    let most = 1i64 << 62;
    let mut refused = |patterns: &[u64], coefficients: &[i64], place: usize| {
        all.refused(why, &pack::case(patterns.len(), patterns, coefficients), SUM, place);
    };
    refused(&[A], &[0], 0);
    refused(&[A, B], &[1, 0], 1);
    refused(&[A, B], &[most, 1], 1);
    refused(&[A, B], &[most, -1], 1);
    refused(&[A], &[most + 1], 0);
    refused(&[A], &[i64::MIN], 0);
    refused(&[A, B], &[1, i64::MIN], 1);
    refused(&[61 * A], &[1], 0);
    refused(&[60 * A + B], &[1], 0);
    refused(&[255 * A + B], &[1], 0);
    refused(&[u64::MAX], &[1], 0);
    refused(&[B, A], &[1, 1], 1);
    refused(&[A, A], &[1, 1], 1);
    refused(&[A, 2 * B, B], &[1, 1, 1], 1);
    refused(&[0, A], &[1, 1], 1);
    all.done_bytes(why, &pack::case(2, &[A, B], &[most / 2, -most / 2]), &full_pair());
    all.done_bytes(why, &pack::case(1, &[60 * A], &[1]), &[&[1, 2, 60][..], &[0; VARIABLES - 1]].concat());
}

/// 2^61 a - 2^61 b: the codes 2^62 and 2^62 - 1.
fn full_pair() -> Vec<u8> {
    let plus = [&[0x80; 8][..], &[0x40]].concat();
    let minus = [&[0xff; 8][..], &[0x3f]].concat();
    [&[2][..], &plus, &[1], &[0; VARIABLES - 1], &minus, &[0, 1], &[0; VARIABLES - 2]].concat()
}

fn pack_shapes(all: &mut Statements) {
    let why = "pack: count and areas";
    all.done_bytes(why, &pack::case(0, &[], &[]), &[0]);
    all.done_bytes(why, &pack::case(0, &[u64::MAX], &[0]), &[0]);
    let minus_a = [&[1, 1, 1][..], &[0; VARIABLES - 1]].concat();
    all.done_bytes(why, &pack::case(1, &[A, u64::MAX], &[-1, i64::MIN, 0]), &minus_a);
    let mut refused = |count: usize, patterns: &[u64], coefficients: &[i64]| {
        all.refused(why, &pack::case(count, patterns, coefficients), SHAPE, 0);
    };
    refused(1, &[], &[1]);
    refused(1, &[A], &[]);
    refused(2, &[A, B], &[1]);
    refused(2, &[u64::MAX], &[0, 0]);
    refused(usize::MAX, &[A], &[1]);
    refused(1 << 32, &[A], &[1]);
    let over = MOST_TERMS + 1;
    refused(over, &vec![0; over], &vec![0; over]);
    refused(over, &[0; MOST_TERMS], &[0; MOST_TERMS]);
    let many = many_terms(MOST_TERMS);
    all.done_bytes(why, &pack::case(MOST_TERMS, &words_of(&many), &[1; MOST_TERMS]), &packed(&many));
}
