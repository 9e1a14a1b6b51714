//! Every fault of packed bytes, in every operation that reads them: SUM at the fault's place, and LIST where the bytes
//! are those of a list's pair. And which refusal comes first where two are due.

use super::written::as_written;
use super::Statements;
use crate::change::MOST_PAIRS;
use crate::estimate::READING_BYTES;
use crate::operations::{estimate, pack, simplify, slope, substitute, text, ALL};
use crate::packed::MOST_GROUPS;
use crate::refusals::{DEGREE, LIST, NODE, NODES, READING, SHAPE, SPREAD, SUM, TEXT, VARIABLE, WEIGHT};
use crate::sums::{unit_of, FIRST_LETTER, LARGEST_DEGREE, MOST_TERMS, VARIABLES};
use crate::table::{MOST_NODES, NODE_NUMBERS};
use crate::typed::{list_of, packed_of, typed_list};

pub fn state(all: &mut Statements) {
    for (why, bytes, place) in short_faults() {
        in_every_reader(all, why, &bytes, place);
    }
    for (why, bytes, place) in long_faults() {
        in_every_reader(all, why, &bytes, place);
    }
    later_pairs(all);
    nodes(all);
    two_due(all);
    pack_words(all);
    texts(all);
}

type Fault = (&'static str, Vec<u8>, usize);

fn in_every_reader(all: &mut Statements, why: &str, bytes: &[u8], place: usize) {
    for read in ALL.iter().flat_map(|operation| operation.sums) {
        all.refused(why, &(read.case)(bytes), read.refusal, read.before + place);
    }
}

/// All groups of the longest number but its last.
const LONG: [u8; MOST_GROUPS - 1] = [0xff; MOST_GROUPS - 1];

/// Each item at fault in each way: the count, a coefficient, an exponent.
fn short_faults() -> Vec<Fault> {
    // What stands before the count, a coefficient, the first exponent and the last one.
    let before_last = [&[1, 2][..], &[0; VARIABLES - 1]].concat();
    let heads: [&[u8]; 4] = [&[], &[1], &[1, 2], &before_last];
    let mut faults: Vec<Fault> = Vec::new();
    for head in heads {
        let place = head.len();
        let with = |tail: &[u8]| [head, tail].concat();
        faults.push(("bytes end before an item", with(&[]), place));
        faults.push(("bytes end inside an item", with(&[0x80]), place + 1));
        faults.push(("bytes end inside an item", with(&LONG), place + LONG.len()));
        faults.push(("a number not shortest", with(&[0x81, 0x80, 0, 0]), place));
        faults.push(("a last group above 1, the last byte", with(&[&[0x80; LONG.len()][..], &[2]].concat()), place));
        faults.push(("too many groups", with(&[0x80; MOST_GROUPS + 2]), place));
        // As a coefficient's code this is -2^63.
        faults.push(("2^64 - 1", with(&[&LONG[..], &[1], &[0; 1 + VARIABLES]].concat()), place));
    }
    faults.extend(judged_items());
    faults
}

/// Numbers in good form that are too large, 0, or in the wrong order.
fn judged_items() -> Vec<Fault> {
    // A second term after a sum of one, and its place.
    let two = |text: &str, more: &str| {
        let first = packed_of(text);
        ([&[2], &first[1..], &as_written(more)[1..]].concat(), first.len())
    };
    let (total, after_heavy) = two("4611686018427387904*a", "b");
    let (same, second) = two("a*b", "a*b");
    let (order, _) = two("b^2", "a*h");
    let (degrees, _) = two("a", "b^2");
    let zeros = [0; VARIABLES];
    vec![
        ("a count of one too many", [&[0x81, 1, 2][..], &zeros].concat(), 0),
        ("coefficient 0", [&[1, 0, 1][..], &zeros[1..]].concat(), 1),
        ("a coefficient of 2^62 + 1", as_written("4611686018427387905*a"), 1),
        ("a coefficient of -2^62 - 1", as_written("-4611686018427387905*a"), 1),
        ("absolute coefficients above 2^62 together", total, after_heavy),
        ("an exponent of 61", as_written("h^61"), 9),
        ("exponents of 61 together", as_written("a^60*b"), 3),
        ("exponents that 64 bits would add up to 0", [&[1, 2, 1][..], &LONG, &[1], &zeros[2..]].concat(), 3),
        ("the same pattern again", same, second),
        ("a larger power of a at the same degree", order, second),
        ("a larger degree", degrees, second),
        ("bytes left over", [packed_of("a"), vec![0]].concat(), second),
        ("bytes left over after zero", vec![0, 0x80], 1),
    ]
}

/// As many terms as there may be, and the fault in the last of them or after it.
fn long_faults() -> Vec<Fault> {
    // All of degree 37: first by a, then by c.
    let term = |index: usize| {
        let (first, second) = (index / 8, index % 8);
        format!("a^{}*b^{}*c^{}*d^{second}", 15 - first, 15 + first, 7 - second)
    };
    let good = as_written(&(0..MOST_TERMS).map(term).collect::<Vec<String>>().join("+"));
    assert!(crate::packed::read_sum(&good).is_ok_and(|sum| sum.terms.len() == MOST_TERMS), "so many terms in order");
    let last = good.len() - 1 - VARIABLES;
    let with = |place: usize, byte: u8| {
        let mut bytes = good.clone();
        bytes[place] = byte;
        bytes
    };
    vec![
        ("all terms, cut", good[..good.len() - 1].to_vec(), good.len() - 1),
        ("all terms, the last coefficient 0", with(last, 0), last),
        ("all terms, the last exponent too large", with(good.len() - 1, 31), good.len() - 1),
        // b^30 c^8 d^7 has a larger degree than the terms before it.
        ("all terms, the last one out of order", with(last + 3, 8), last),
        ("all terms and a byte", [good.clone(), vec![0]].concat(), good.len()),
    ]
}

/// A fault in the second of two pairs, and in the last of as many as there may be.
fn later_pairs(all: &mut Statements) {
    let (sum, one) = (packed_of("a*h"), packed_of("1"));
    let bad = [1, 0];
    let last_variable = VARIABLES as u64 - 1;
    for count in [2, MOST_PAIRS] {
        let mut pairs: Vec<(u64, &[u8])> = vec![(last_variable, &one); count - 1];
        pairs.push((last_variable, &bad));
        let list = list_of(&pairs);
        all.refused("a fault in the last pair", &substitute::case(&sum, &list), LIST, list.len() - 1);
        pairs[count - 1] = (last_variable + 1, &bad);
        let list = list_of(&pairs);
        all.refused("a fault in the last pair", &substitute::case(&sum, &list), VARIABLE, list.len() - 3);
    }
    let list = [&[1][..], &LONG, &[1, 0]].concat();
    all.refused("2^64 - 1 as a variable", &substitute::case(&sum, &list), VARIABLE, 1);
    let list = [&LONG[..], &[1, 0]].concat();
    all.refused("2^64 - 1 as a list's count", &substitute::case(&sum, &list), LIST, 0);
}

/// Each number of a node out of range, near and far; some would fit again if they were cut to fewer bits.
fn nodes(all: &mut Statements) {
    let why = "NODE: each of a node's numbers";
    let far = [i64::MIN, i64::MAX, 1 << 32, 256, -1];
    let mut refused = |numbers: [i64; NODE_NUMBERS]| {
        let table = [&[1, 0, 0, 1, 1, 0], &numbers[..]].concat();
        all.refused(why, &simplify::case(&table), NODE, 2);
    };
    for bad in [far.as_slice(), &[5]].concat() {
        refused([bad, 0, 0]);
    }
    for bad in [far.as_slice(), &[VARIABLES as i64]].concat() {
        refused([1, bad, 0]);
    }
    for bad in [far.as_slice(), &[1]].concat() {
        refused([0, 0, bad]);
        refused([1, 0, bad]);
    }
    // Itself and the node after it are no earlier nodes.
    for bad in [far.as_slice(), &[2, 3]].concat() {
        for kind in [2, 3] {
            refused([kind, bad, 0]);
            refused([kind, 0, bad]);
        }
        refused([4, bad, 0]);
    }
    for bad in [far.as_slice(), &[i64::from(LARGEST_DEGREE) + 1]].concat() {
        refused([4, 0, bad]);
    }
}

/// Two refusals are due, and 01's order decides.
fn two_due(all: &mut Statements) {
    let letters = "a+b+c+d+e+f+g+h";
    let why = "DEGREE, WEIGHT, SPREAD at one node";
    all.formula_refused(why, &format!("({letters})^20"), SPREAD, 15);
    all.formula_refused(why, &format!("({letters})^21"), WEIGHT, 15);
    all.formula_refused(why, &format!("({letters}^4)^21"), DEGREE, 16);
    let why = "DEGREE, WEIGHT, SPREAD at one pair";
    all.refused(why, &substitute::case(&packed_of("a^20"), &typed_list(&[('a', letters)])), SPREAD, 0);
    all.refused(why, &substitute::case(&packed_of("a^21"), &typed_list(&[('a', letters)])), WEIGHT, 0);
    all.refused(why, &substitute::case(&packed_of("a^21"), &typed_list(&[('a', "a+b+c+d+e+f+g+h^4")])), DEGREE, 0);
    let why = "an earlier pair first";
    let list = typed_list(&[('b', letters), ('a', "a^60")]);
    all.refused(why, &substitute::case(&packed_of("a^2*b^20"), &list), SPREAD, 0);
    let why = "SHAPE before NODE";
    all.refused(why, &simplify::case(&[9, 9, 9, 9]), SHAPE, 0);
    all.refused(why, &simplify::case(&[9, 9, 9].repeat(MOST_NODES + 1)), SHAPE, 0);
    all.refused(why, &simplify::case(&[9; NODE_NUMBERS * MOST_NODES + 1]), SHAPE, 0);
    let why = "READING before RANGE";
    let large = packed_of("a^60");
    all.refused(why, &estimate::case(&large, &[9], &[0, -1]), READING, 1);
    let case = estimate::case_of_bytes(&large, &[9; READING_BYTES], &[0; READING_BYTES - 2]);
    all.refused(why, &case, READING, 0);
    let why = "SUM before VARIABLE, a list's variable before its sum";
    all.refused(why, &slope::case(&[0, 0], VARIABLES as u64), SUM, 1);
    all.refused(why, &substitute::case(&[0], &[1, VARIABLES as u8 + 1, 0x81, 1]), VARIABLE, 1);
}

/// Words whose degree is far too large, though some of their bits or bytes look small; and the largest in each letter.
fn pack_words(all: &mut Statements) {
    let why = "pack, the degree of a word";
    let case = |word: u64| pack::case(1, &[word], &[1]);
    let highest = u64::from(LARGEST_DEGREE);
    for variable in (0..VARIABLES).rev() {
        let term = format!("{}^{highest}", char::from(FIRST_LETTER + variable as u8));
        all.done_bytes(why, &case(highest * unit_of(variable)), &as_written(&term));
        for over in [highest + 1, 64, 128, 255] {
            all.refused(why, &case(over * unit_of(variable)), SUM, 0);
        }
    }
    let far = [0x8080_8080_8080_8080, 0x4040_4040_0000_0000, 0xff00_0000_0000_0001, 0x7f80_0000_0000_0000];
    for word in far.into_iter().chain([0x0808_0808_0808_0805]) {
        all.refused(why, &case(word), SUM, 0);
    }
    all.done_bytes(why, &case(0x0808_0808_0808_0804), &as_written("a^8*b^8*c^8*d^8*e^8*f^8*g^8*h^4"));
}

/// NODES through each kind of node, one below the limit and one above, and TEXT before it.
fn texts(all: &mut Statements) {
    let why = "as many nodes as there may be, and one more";
    let letters = |count: usize| "a+".repeat(count - 1) + "a";
    // Letters and sums of them have a node for each but one less.
    let many = letters(MOST_NODES / 2 - 1);
    all.nodes(why, &format!("{many}*a^1"), MOST_NODES);
    all.refused(why, &text::case(&format!("{many}-a")), NODES, 0);
    all.refused(why, &text::case(&format!("{many}*a*a")), NODES, 0);
    all.nodes(why, &format!("{many}*(a)"), MOST_NODES - 1);
    all.refused(why, &text::case(&format!("{many}^1^1")), TEXT, many.len() + 2);
    all.nodes(why, &format!("-{many}"), MOST_NODES - 1);
    all.nodes(why, &format!("-{many}^0"), MOST_NODES);
    all.refused(why, &text::case(&format!("-{}", letters(MOST_NODES / 2))), NODES, 0);
}
