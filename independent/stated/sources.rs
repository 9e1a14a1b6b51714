//! Formulas that the source documents 000, 001 and 002 work out.

use super::Statements;
use crate::operations::text;
use crate::refusals::NODES;
use crate::typed::{list_of, packed_of, typed_list};

pub fn state(all: &mut Statements) {
    chapter_two(all);
    short_rows(all);
    slopes_in_turn(all);
    substitutions(all);
}

const FIRST: &str = "(c*a*d*b+(-1)*f*e)^4+f*e*d*c*b*a*4*(f^2*e^2+d^2*c^2*a^2*b^2)";
const SECOND: &str = "(-1)*(a^2*b^2*c^2*d^2+e^2*f^2)^2";
const FIRST_ORDERED: &str = "a^4*b^4*c^4*d^4+6*a^2*b^2*c^2*d^2*e^2*f^2+e^4*f^4";

fn chapter_two(all: &mut Statements) {
    let why = "001 ch. 2";
    all.nodes(why, FIRST, 48);
    all.formula(why, FIRST, FIRST_ORDERED);
    all.nodes(why, SECOND, 22);
    all.formula(why, SECOND, "-a^4*b^4*c^4*d^4-2*a^2*b^2*c^2*d^2*e^2*f^2-e^4*f^4");
    all.refused(why, &text::case(&format!("{FIRST}+{SECOND}")), NODES, 0);
    let sum = "a^4*b^4*c^4*d^4+6*a^2*b^2*c^2*d^2*e^2*f^2+e^4*f^4-(a^2*b^2*c^2*d^2+e^2*f^2)^2";
    all.nodes(why, sum, 58);
    all.formula(why, sum, "4*a^2*b^2*c^2*d^2*e^2*f^2");
    let why = "001 ch. 3";
    let test = "(c*a*d*b+f*e)^4-(c*e*a+d*b*f)^4";
    all.nodes(why, test, 27);
    let first = "a^4*b^4*c^4*d^4+4*a^3*b^3*c^3*d^3*e*f-a^4*c^4*e^4-4*a^3*b*c^3*d*e^3*f";
    let second = "-4*a*b^3*c*d^3*e*f^3-b^4*d^4*f^4+4*a*b*c*d*e^3*f^3+e^4*f^4";
    all.formula(why, test, &format!("{first}{second}"));
}

fn short_rows(all: &mut Statements) {
    let why = "001 pp. 11, 13";
    all.formula(why, "a*(b+c)", "a*b+a*c");
    all.formula(why, "(a*b)^3", "a^3*b^3");
    all.formula(why, "a^3*a*a^2", "a^6");
    let sixth = "a^6+6*a^5*b+15*a^4*b^2+20*a^3*b^3+15*a^2*b^4+6*a*b^5+b^6";
    all.formula(why, "((a+b)^3)^2", sixth);
    all.formula(why, "(a+b)^6", sixth);
    let why = "000 ch. 1, slope";
    let square = all.formula(why, "(a+b)*(a+b)", "a^2+2*a*b+b^2");
    let slope = all.slope(why, &square, 'a', "2*a+2*b");
    all.slope(why, &slope, 'b', "2");
    let why = "000 ex. 6";
    let ordered = "a^5-5*a^3*b+5*a^2*c+5*a*b^2-5*a*d-5*b*c+5*e";
    all.formula(why, ordered, ordered);
}

/// P(k+1) = slope(P) (1 - a^2) + (2k - 1) a P: the slope's line, then both put in for b and c.
fn slopes_in_turn(all: &mut Statements) {
    let why = "002, slopes in turn";
    let sums = [
        "1",
        "a",
        "2*a^2+1",
        "6*a^3+9*a",
        "24*a^4+72*a^2+9",
        "120*a^5+600*a^3+225*a",
        "720*a^6+5400*a^4+4050*a^2+225",
    ];
    let slopes = ["0", "1", "4*a", "18*a^2+9", "96*a^3+144*a", "600*a^4+1800*a^2+225"];
    let mut sum = all.formula(why, "1", "1");
    for step in 1..sums.len() {
        let slope = all.slope(why, &sum, 'a', slopes[step - 1]);
        let rule = packed_of(&format!("b*(1-a^2)+{}*a*c", 2 * step - 1));
        let list = list_of(&[(1, &slope), (2, &sum)]);
        sum = all.substitute(why, &rule, &list, sums[step]);
    }
}

fn substitutions(all: &mut Statements) {
    let why = "000 3.2.2.8, substitution";
    let sum = all.formula(why, "a+b+c", "a+b+c");
    all.substitute(why, &sum, &typed_list(&[('a', "b+c"), ('b', "d"), ('c', "e")]), "2*d+2*e");
    all.substitute(why, &sum, &typed_list(&[('b', "d"), ('c', "e"), ('a', "b+c")]), "b+c+d+e");
}
