//! Typed texts: 01, and what docs/DECISIONS.md says of its open points.

use super::Statements;
use crate::operations::text;
use crate::refusals::{NODES, TEXT};
use crate::sums::LAST_LETTER;
use crate::table::{MOST_NODES, NODE_NUMBERS};
use crate::text::{DEEPEST_BRACKETS, LONGEST_TEXT};
use crate::typed::node_count;

pub fn state(all: &mut Statements) {
    lengths(all);
    numbers(all);
    signs(all);
    brackets(all);
    node_limits(all);
}

fn lengths(all: &mut Statements) {
    all.table("REPLAY, the example", "a-a", &MINUS);
    let why = "as many bytes as there may be, and more";
    let long = LONGEST_TEXT;
    all.refused(why, &text::case(&"x".repeat(long + 1)), TEXT, long);
    all.refused(why, &text::case(&"a".repeat(long + 1)), TEXT, long);
    all.refused(why, &text::case(&"x".repeat(long)), TEXT, 0);
    all.refused(why, &text::case(&"(".repeat(long)), TEXT, DEEPEST_BRACKETS);
    all.refused(why, &text::case(&[&"a+".repeat(long / 2), "a"].concat()), TEXT, long);
    all.refused(why, &text::case(&"a+".repeat(long / 2)), TEXT, long);
    all.refused(why, &text::case(&["ab", &"+a".repeat(long / 2 - 1)].concat()), TEXT, 1);
    all.refused(why, &text::case(&["11", &"+a".repeat(long / 2 - 1)].concat()), NODES, 0);
    all.nodes(why, &long_text(long), 59);
    all.refused(why, &text::case(&long_text(long + 1)), TEXT, long);
    let why = "a text that could still go on";
    all.refused(why, &text::case(""), TEXT, 0);
    for text in ["-", "a+", "a*", "a^", "(", "(a", "((a)", "a-(b*", "-(a)^"] {
        all.refused(why, &text::case(text), TEXT, text.len());
    }
}

/// The nodes of a - a.
const MINUS: [[i64; NODE_NUMBERS]; 5] = [[1, 0, 0], [1, 0, 0], [0, -1, 0], [3, 2, 1], [2, 0, 3]];

/// In as many brackets as there may be.
fn in_brackets(text: &str) -> String {
    format!("{}{text}{}", "(".repeat(DEEPEST_BRACKETS), ")".repeat(DEEPEST_BRACKETS))
}

/// Letters in brackets, and last a number in brackets that makes up the length: few nodes, many bytes.
fn long_text(length: usize) -> String {
    let text = (in_brackets("a") + "+").repeat(29);
    let digits = length - text.len() - in_brackets("").len();
    text + &in_brackets(&"7".repeat(digits))
}

fn numbers(all: &mut Statements) {
    let why = "numbers";
    all.refused(why, &text::case("46116860184273879050"), TEXT, 18);
    all.refused(why, &text::case("4611686018427387905"), TEXT, 18);
    all.refused(why, &text::case("46116860184273879040"), TEXT, 19);
    all.refused(why, &text::case("18446744073709551617"), TEXT, 19);
    all.refused(why, &text::case("5000000000000000000"), TEXT, 18);
    all.refused(why, &text::case("99999999999999999999"), TEXT, 18);
    all.refused(why, &text::case("a^61"), TEXT, 3);
    all.refused(why, &text::case("a^600"), TEXT, 4);
    all.refused(why, &text::case("01"), TEXT, 1);
    all.refused(why, &text::case("00"), TEXT, 1);
    all.refused(why, &text::case("a^00"), TEXT, 3);
    all.refused(why, &text::case("a^70"), TEXT, 3);
    all.refused(why, &text::case("a+b*07"), TEXT, 5);
    all.formula(why, "a^0", "1");
    all.formula(why, "4611686018427387903+1", "4611686018427387904");
    let why = "no blanks, no other letters";
    let next = char::from(LAST_LETTER + 1).to_string();
    for text in [" a", &next, "A", "a b", "a+ b", "a\n", "a)", "ab", "2a", "a2", "(a)(b)", "a/b", "()", "(+a)", "+a", "a**b"] {
        let fault = text.bytes().position(|byte| byte == LAST_LETTER + 1 || b" A\n/".contains(&byte));
        let stated = match text {
            "a)" | "ab" | "2a" | "a2" | "()" | "(+a)" => 1,
            "+a" => 0,
            "(a)(b)" => 3,
            "a**b" => 2,
            _ => fault.expect("one of the bytes that are never allowed"),
        };
        all.refused(why, &text::case(text), TEXT, stated);
    }
}

fn signs(all: &mut Statements) {
    let why = "minus and ^";
    all.refused(why, &text::case("a*-b"), TEXT, 2);
    all.refused(why, &text::case("a+-b"), TEXT, 2);
    all.refused(why, &text::case("--a"), TEXT, 1);
    all.refused(why, &text::case("a^-1"), TEXT, 2);
    all.refused(why, &text::case("a^2^3"), TEXT, 3);
    all.formula(why, "-a*b", "-a*b");
    all.formula(why, "-a^2", "-a^2");
    all.formula(why, "(-a)^2", "a^2");
    all.formula(why, "a*(-b)", "-a*b");
    all.formula(why, "-a-(-b-c)", "-a+b+c");
    let why = "nodes of a minus";
    all.table(why, "-a*b", &[[1, 0, 0], [1, 1, 0], [3, 0, 1], [0, -1, 0], [3, 3, 2]]);
    all.table(why, "-a^2", &[[1, 0, 0], [4, 0, 2], [0, -1, 0], [3, 2, 1]]);
    all.table(why, "a-b", &[[1, 0, 0], [1, 1, 0], [0, -1, 0], [3, 2, 1], [2, 0, 3]]);
    all.table(why, "a^60*a", &[[1, 0, 0], [4, 0, 60], [1, 0, 0], [3, 1, 2]]);
    all.table(why, "((a))+a+b", &[[1, 0, 0], [1, 0, 0], [2, 0, 1], [1, 1, 0], [2, 2, 3]]);
    all.table(why, "a*b*c", &[[1, 0, 0], [1, 1, 0], [3, 0, 1], [1, 2, 0], [3, 2, 3]]);
}

fn brackets(all: &mut Statements) {
    let why = "one bracket more than there may be";
    let most = DEEPEST_BRACKETS;
    let nested = |depth: usize| format!("{}a{}", "(".repeat(depth), ")".repeat(depth));
    all.formula(why, &nested(most), "a");
    all.refused(why, &text::case(&nested(most + 1)), TEXT, most);
    all.refused(why, &text::case(&"(".repeat(most + 1)), TEXT, most);
    all.refused(why, &text::case(&"(".repeat(most)), TEXT, most);
    all.formula(why, &format!("{}+{}", nested(most), nested(most)), "2*a");
    let first = nested(most) + "+";
    all.refused(why, &text::case(&format!("{first}{}", nested(most + 1))), TEXT, first.len() + most);
    all.refused(why, &text::case(&format!("{}(a)", "(b+".repeat(most))), TEXT, "(b+".len() * most);
}

fn node_limits(all: &mut Statements) {
    let why = "as many nodes as there may be and one more, and TEXT before NODES";
    let letters = |count: usize| "a+".repeat(count - 1) + "a";
    let half = MOST_NODES / 2;
    let exactly = format!("{}^1", letters(half));
    assert_eq!(node_count(&exactly), MOST_NODES);
    all.formula(why, &exactly, &format!("{half}*a"));
    all.refused(why, &text::case(&letters(half + 1)), NODES, 0);
    all.nodes(why, &letters(half), MOST_NODES - 1);
    let over = format!("{}-a^2", letters(half + 1));
    assert_eq!(node_count(&over), MOST_NODES + 6);
    all.refused(why, &text::case(&over), NODES, 0);
    all.refused(why, &text::case(&format!("{over}+")), TEXT, over.len() + 1);
    all.refused(why, &text::case(&format!("{over})")), TEXT, over.len());
}
