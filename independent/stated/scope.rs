//! 01, "Both sides of each limit" and "Slips we have seen".

use super::Statements;
use crate::operations::{estimate, simplify, text, unpack};
use crate::packed::{MOST_GROUPS, UNPACK_ROOM};
use crate::refusals::{DEGREE, RANGE, SPREAD, SUM, TEXT, WEIGHT};
use crate::sums::VARIABLES;
use crate::typed::{node_count, packed_of, typed_list};

const WHY: &str = "01, both sides of each limit";
const SLIP: &str = "01, slips";

pub fn state(all: &mut Statements) {
    all.formula(WHY, "0^0", "1");
    all.formula(WHY, "(a-a)^0", "1");
    all.formula(WHY, "a-a", "0");
    all.line(WHY, &format!("unpack 00 {UNPACK_ROOM} {UNPACK_ROOM}"), "done 0 - - stay stay");
    square(all);
    weights_and_degrees(all);
    groups(all);
    run_only(all);
    slips(all);
}

/// The one example that goes through every operation.
fn square(all: &mut Statements) {
    let sum = all.formula(WHY, "(a+b)^2-b^2", "a^2+2*a*b");
    let given = [2, 2, 2, 0, 0, 0, 0, 0, 0, 0, 4, 1, 1, 0, 0, 0, 0, 0, 0];
    assert_eq!(sum, given, "the bytes that 01 prints");
    all.slope(WHY, &sum, 'a', "2*a+2*b");
    all.slope(WHY, &sum, 'c', "0");
    let with_zero = all.substitute(WHY, &sum, &typed_list(&[('b', "0")]), "a^2");
    all.slope(WHY, &with_zero, 'b', "0");
    let slope = all.slope(WHY, &sum, 'b', "2*a");
    all.substitute(WHY, &slope, &typed_list(&[('b', "0")]), "2*a");
    all.estimate(WHY, &sum, &[10, 3], &[1, 2], (160, 71));
    // The margin is reached at 11 and 5: 231 is 160 + 71.
    all.estimate(WHY, &sum, &[11, 5], &[0, 0], (231, 0));
    let alone = all.formula(WHY, "a^2", "a^2");
    all.estimate(WHY, &alone, &[-3], &[1], (9, 7));
}

fn weights_and_degrees(all: &mut Statements) {
    all.formula_refused(WHY, "4611686018427387904+1-1", WEIGHT, 2);
    all.formula(WHY, "0*4611686018427387904", "0");
    all.formula(WHY, "a^60", "a^60");
    all.formula_refused(WHY, "a^60*a", DEGREE, 3);
    all.refused(WHY, &text::case("a^61"), TEXT, 3);
}

/// 2^62 packs in ten groups, -2^62 in nine.
fn groups(all: &mut Statements) {
    let plus = all.formula(WHY, "4611686018427387904", "4611686018427387904");
    let minus = all.formula(WHY, "-4611686018427387904", "-4611686018427387904");
    assert_eq!(plus.len(), 1 + MOST_GROUPS + VARIABLES, "ten groups");
    assert_eq!(minus.len(), 1 + MOST_GROUPS - 1 + VARIABLES, "nine groups");
    assert_eq!(&plus[1..11], &[0x80, 0x80, 0x80, 0x80, 0x80, 0x80, 0x80, 0x80, 0x80, 1]);
    assert_eq!(&minus[1..10], &[0xff, 0xff, 0xff, 0xff, 0xff, 0xff, 0xff, 0xff, 0x7f]);
}

fn run_only(all: &mut Statements) {
    let cube = all.formula(WHY, "(a+b+c+d+e+f+g+h)^3", &cube_of_letters());
    assert_eq!(cube[0], 120, "the cube has 120 terms");
    all.formula_refused(WHY, "(a+b+c+d+e+f+g+h)^4", SPREAD, 15);
    let edge = all.formula(WHY, "4294967296*a^2", "4294967296*a^2");
    let value = 4_294_967_296 * 32_767 * 32_767;
    all.estimate(WHY, &edge, &[32_767], &[1], (value, (1 << 62) - value));
    let over = all.formula(WHY, "4294967296*a^2+1", "4294967296*a^2+1");
    all.refused(WHY, &estimate::case(&over, &[32_767], &[1]), RANGE, 0);
    let test = "(a*b*c*d-e*f)^4+4*a*b*c*d*e*f*(e^2*f^2+a^2*b^2*c^2*d^2)";
    all.formula(WHY, test, "a^4*b^4*c^4*d^4+6*a^2*b^2*c^2*d^2*e^2*f^2+e^4*f^4");
}

/// All products of three letters in 01's order, with how often each comes up: 1, 3 or 6.
pub fn cube_of_letters() -> String {
    let letters = b"abcdefgh";
    let mut terms = Vec::new();
    for first in 0..letters.len() {
        for second in first..letters.len() {
            for third in second..letters.len() {
                let times = match (first == second, second == third) {
                    (true, true) => "",
                    (false, false) => "6*",
                    _ => "3*",
                };
                let [x, y, z] = [first, second, third].map(|index| char::from(letters[index]));
                let pattern = match (first == second, second == third) {
                    (true, true) => format!("{x}^3"),
                    (true, false) => format!("{x}^2*{z}"),
                    (false, true) => format!("{x}*{y}^2"),
                    (false, false) => format!("{x}*{y}*{z}"),
                };
                terms.push(format!("{times}{pattern}"));
            }
        }
    }
    terms.join("+")
}

fn slips(all: &mut Statements) {
    // -2^63 before its absolute value is taken: as an integer node and as a coefficient's code of 2^64 - 1.
    all.refused(SLIP, &simplify::case(&[0, i64::MIN, 0]), WEIGHT, 0);
    let code = [&[1][..], &[0xff; MOST_GROUPS - 1], &[1], &[0; VARIABLES]].concat();
    all.refused(SLIP, &unpack::case(&code), SUM, 1);
    // A large reading raised before another factor is seen to be 0.
    let far = packed_of("a^30*b^30+c");
    all.estimate(SLIP, &far, &[32_767, 0, 5], &[32_767, 0, 1], (5, 1));
    all.estimate(SLIP, &packed_of("a^30*b^30+c"), &[0, -32_768, 5], &[0, 0, 0], (5, 0));
    // The margin of the typed text would be 103.
    all.estimate(SLIP, &packed_of("(a+b)^2-b^2"), &[10, 3], &[1, 2], (160, 71));
    // A pattern that cancels during a product still counts: 3 x 43 patterns, six terms left.
    all.formula_refused(SLIP, &cancelling(41), SPREAD, cancelling_node(41));
    all.formula(SLIP, &cancelling(40), "-a^41*b^2-2*a^41*b-a^41+b^2+2*b+1");
}

/// (1 - a)(1 + b)^2 times 1 + a + .. + a^last, the row put together from shorter ones; last is 40 or 41.
fn cancelling(last: usize) -> String {
    let to_31 = "(1+a)*(1+a^2)*(1+a^4)*(1+a^8)*(1+a^16)";
    let to_39 = "a^32*(1+a)*(1+a^2)*(1+a^4)";
    let rest = if last == 41 { "a^40+a^41" } else { "a^40" };
    format!("(1-a)*(1+b)^2*({to_31}+{to_39}+{rest})")
}

/// The product is the last node.
fn cancelling_node(last: usize) -> usize {
    node_count(&cancelling(last)) - 1
}
