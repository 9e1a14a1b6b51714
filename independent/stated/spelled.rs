//! Sums written as text: 02, request One, and what docs/DECISIONS.md says of it. Most sums are given as the text that
//! has to come back.

use super::long::grid;
use super::scope::cube_of_letters;
use super::written::as_written;
use super::Statements;
use crate::lines::Case;
use crate::operations::{text, write};
use crate::refusals::{NODES, ROOM, SUM, TEXT};
use crate::spelling::letter_of;
use crate::sums::{LARGEST_DEGREE, MOST_TERMS, VARIABLES};
use crate::table::MOST_NODES;
use crate::text::LONGEST_TEXT;
use crate::typed::{packed_of, table_of};

pub fn state(all: &mut Statements) {
    all.spelled("02, One: the example of 01", &packed_of("(a+b)^2-b^2"), "a^2+2*a*b");
    signs(all);
    numbers(all);
    exponents(all);
    areas(all);
    many_terms(all);
    longest(all);
    reader_lengths(all);
    reader_nodes(all);
}

/// The sum with these terms, in this order, is written just so.
fn same(all: &mut Statements, why: &str, text: &str) {
    all.spelled(why, &as_written(text), text);
}

fn signs(all: &mut Statements) {
    let why = "02, One: zero, 1 and -1, a minus first and between two";
    for text in [
        "0", "1", "-1", "a", "-a", "h", "-h", "2", "-2", "2*a", "-2*a", "a+1", "a-1", "-a+1", "-a-1", "-2*a+b", "a-2*b",
        "a-2*b+c", "-a+2*b-c", "a*b-1", "a^2-a-1", "-a^2-2*a*b-b^2",
    ] {
        same(all, why, text);
    }
}

fn numbers(all: &mut Statements) {
    let why = "02, One: coefficients of 1 to 19 digits";
    for text in [
        "9", "10", "-11", "10*a", "99*a*b", "-100*a-101*b", "4611686018427387904", "-4611686018427387904",
        "4611686018427387904*a", "-4611686018427387904*h", "4611686018427387904*a^60", "4611686018427387903*a-1",
        "1000000000000000000", "-999999999999999999*g", "1234567890123456789*a-3210987654321098765*b",
        "2305843009213693952*a-2305843009213693952",
    ] {
        same(all, why, text);
    }
    // Every number of digits, the least and the largest numbers of so many.
    let terms = |less: u64| -> Vec<String> {
        (1..19).rev().map(|power| format!("{}*a^{}", 10u64.pow(power) - less, power + 1)).collect()
    };
    same(all, why, &terms(0).join("+"));
    same(all, why, &format!("-{}", terms(1).join("-")));
}

fn exponents(all: &mut Statements) {
    let why = "02, One: exponents, and letters in order";
    for exponent in [2, 9, 10, 59, LARGEST_DEGREE] {
        same(all, why, &format!("a^{exponent}"));
        same(all, why, &format!("-7*h^{exponent}"));
    }
    let letters: Vec<String> = (0..VARIABLES).map(|variable| letter_of(variable).to_string()).collect();
    for joint in ["*", "+", "-", "^2*", "+2*", "-10*"] {
        same(all, why, &letters.join(joint));
    }
    same(all, why, &format!("-{}", letters.join("*")));
    same(all, why, &format!("-{}", letters.join("-")));
    for text in [
        "a^59*h", "a*h^59", "a^30*h^30", "-b*g^2", "3*a*c^2*e^9*g^10", "-3*b*d^10*f*h^9", "a^11*b*c^11*d*e^11*f*g^11*h",
        "a^20-a^19*b+a^10*b^10-a*b^19+b^20", "a*b*c-a*b*d-a*c*d-b*c*d",
    ] {
        same(all, why, text);
    }
}

/// Lent an area of this length.
fn lent(sum: &[u8], length: usize) -> Case {
    Case { lengths: vec![length], ..write::case(sum) }
}

/// The lengths are 02's, as it writes them.
fn areas(all: &mut Statements) {
    let sum = packed_of("a-2");
    let room = format!("refused {ROOM} 0 stay");
    let why = "02, One: ROOM whatever the sum, and before SUM";
    for sum in [&[0][..], &sum, &as_written(&longest_text()), &[0, 0], &[1, 0]] {
        all.case(why, &lent(sum, 8_191), &room);
    }
    let why = "02, One: room enough, and other places stay";
    for length in [8_192, 9_000] {
        all.case(why, &lent(&sum, length), "done 3 612d32 stay");
        all.case(why, &lent(&[0], length), "done 1 30 stay");
        all.case(why, &lent(&[1, 0], length), &format!("refused {SUM} 1 stay"));
    }
}

fn many_terms(all: &mut Statements) {
    let why = "02, One: as many terms as there may be, and some less";
    let full = grid(16, MOST_TERMS / 16, |i, j| format!("a^{}*b^{}", i + 2, j + 2));
    let less = full.rsplit_once('+').expect("more than one term").0;
    for text in [&full, less] {
        same(all, why, text);
        same(all, why, &format!("-{}", text.replace('+', "-")));
    }
    all.spelled(why, &packed_of("(a+b+c+d+e+f+g+h)^3"), &cube_of_letters());
}

/// All ways to share a number out among so many letters, the larger first share first, then the larger second, ..
fn shares(number: u32, letters: usize) -> Vec<Vec<u32>> {
    if letters == 1 {
        return vec![vec![number]];
    }
    let mut found = Vec::new();
    for first in (0..=number).rev() {
        found.extend(shares(number - first, letters - 1).into_iter().map(|rest| [vec![first], rest].concat()));
    }
    found
}

/// No text is longer. A degree of 60 has room for five exponents of two digits beside three of one, and nothing takes
/// more bytes. A weight of 2^62 has room for 17 digits in every coefficient, and for one more in 37 of them.
fn longest_text() -> String {
    let least = [10, 10, 10, 10, 10, 2, 2, 2];
    let share = shares(LARGEST_DEGREE - least.iter().sum::<u32>(), VARIABLES);
    let mut sizes: Vec<u64> = (0..MOST_TERMS as u64).map(|index| 98_765_432_123 * index).collect();
    for (index, size) in sizes.iter_mut().enumerate() {
        *size += 10u64.pow(if index < 37 { 17 } else { 16 });
    }
    sizes[0] += (1 << 62) - sizes.iter().sum::<u64>();
    let mut text = String::new();
    for (size, more) in sizes.iter().zip(share) {
        text += &format!("-{size}");
        for variable in 0..VARIABLES {
            text += &format!("*{}^{}", letter_of(variable), least[variable] + more[variable]);
        }
    }
    text
}

fn longest(all: &mut Statements) {
    let why = "02, One: the longest text that there is";
    let text = longest_text();
    assert_eq!(text.len(), MOST_TERMS * (1 + 17 + 5 * "*a^10".len() + 3 * "*h^2".len()) + 37);
    same(all, why, &text);
    same(all, why, &text[1..].replace('-', "+"));
}

/// So many bytes: 101 terms of two letters, and a number that makes up the length. A written text that is as long as
/// the reader takes has too many nodes for it: 64 nodes are at most 32 numbers and letters, which are far fewer bytes.
fn of_length(length: usize) -> String {
    let terms = grid(11, 11, |i, j| format!("a^{}*b^{}", i + 10, j + 10));
    let text = terms.split('+').take(101).collect::<Vec<&str>>().join("-");
    let digits = length - text.len() - 1;
    format!("{text}+{}", &"135792468024680"[..digits])
}

/// Both sides of the text reader's limits are written, and the reader is given what was written.
fn reader_lengths(all: &mut Statements) {
    let why = "02, One: a text of as many bytes as the reader takes, and of one more";
    for (length, refusal, place) in [(LONGEST_TEXT, NODES, 0), (LONGEST_TEXT + 1, TEXT, LONGEST_TEXT)] {
        let written = of_length(length);
        assert_eq!(written.len(), length);
        same(all, why, &written);
        all.refused(why, &text::case(&written), refusal, place);
    }
}

/// So many powers of a, down to a^2: two nodes each, and one for each plus.
fn powers(count: usize) -> String {
    (2..count + 2).rev().map(|power| format!("a^{power}")).collect::<Vec<String>>().join("+")
}

fn reader_nodes(all: &mut Statements) {
    let why = "02, One: a text of as many nodes as the reader takes";
    // 62 nodes, and two more in six ways.
    let (first, others) = (powers(21), powers(20));
    for text in [
        format!("{first}+a"),
        format!("{first}+1"),
        format!("-{first}"),
        format!("2*{first}"),
        format!("a^22*b+{others}"),
        format!("a^22-{others}"),
    ] {
        same(all, why, &text);
        all.nodes(why, &text, MOST_NODES);
        all.table_is("02, One: the same packed bytes", &table_of(&text), &text);
    }
    let why = "02, One: a text of one node more than the reader takes";
    for written in [powers(22), format!("{others}-3*a"), format!("-2*a^21*b+{}", powers(19))] {
        same(all, why, &written);
        assert_eq!(table_of(&written).len(), table_of("a").len() * (MOST_NODES + 1));
        all.refused(why, &text::case(&written), NODES, 0);
    }
}
