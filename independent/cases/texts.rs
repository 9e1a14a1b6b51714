//! Texts for cases of text: allowed ones, damaged ones, and both sides of each limit.

use super::chance::Chance;
use super::random_sums::MOST_WEIGHT;
use super::random_texts::any_text;
use crate::sums::{FIRST_LETTER, LAST_LETTER};
use crate::table::MOST_NODES;
use crate::text::{DEEPEST_BRACKETS, LONGEST_TEXT};
use crate::typed::node_count;

/// Every number of so many digits is below 2^62.
const DIGITS: usize = 18;

/// A byte that an allowed text may have.
fn some_byte(chance: &mut Chance) -> u8 {
    let letters: Vec<u8> = (FIRST_LETTER..=LAST_LETTER).collect();
    chance.pick(&[b"a", &letters[..], b"0123456789++--**^^(())("].concat())
}

pub fn some_text(chance: &mut Chance) -> Vec<u8> {
    match chance.below(200) {
        0..=75 => any_text(chance).into_bytes(),
        76..=109 => damaged(chance),
        110..=119 => (0..chance.below(9)).map(|_| some_byte(chance)).collect(),
        120..=124 => {
            let mut text = any_text(chance).into_bytes();
            text.truncate(chance.below(text.len() + 1));
            text
        }
        125..=142 => of_nodes(chance),
        143..=156 => brackets(chance),
        157..=172 => large_number(chance).into_bytes(),
        173..=184 => exponent(chance).into_bytes(),
        185..=188 => exact_length(chance),
        189..=190 => too_long(chance),
        _ => minus_and_caret(chance).into_bytes(),
    }
}

/// One byte changed, put in or taken out.
fn damaged(chance: &mut Chance) -> Vec<u8> {
    let mut text = any_text(chance).into_bytes();
    let place = chance.below(text.len());
    // The letter after the last variable's is no more allowed than any other byte.
    let bytes = [&[LAST_LETTER, LAST_LETTER + 1], &b"a09+-*^() A/:`\n\xff"[..]].concat();
    let byte = if chance.one_in(4) { chance.word() as u8 } else { chance.pick(&bytes) };
    match chance.below(4) {
        0 => text[place] = byte,
        1 => text.insert(place, byte),
        2 => {
            text.remove(place);
        }
        _ => {
            // Most places are in the middle; the ends are wanted as well.
            text.push(some_byte(chance));
        }
    }
    text
}

/// About as many nodes as there may be, or a few more; now and then with a fault at the end, which comes before NODES.
fn of_nodes(chance: &mut Chance) -> Vec<u8> {
    let aim = if chance.percent(80) {
        chance.between(MOST_NODES - 2, MOST_NODES + 2)
    } else {
        chance.between(MOST_NODES + 3, 200)
    };
    let mut text = any_text(chance);
    if node_count(&text) + 6 > aim {
        text = "b".to_string();
    }
    let mut count = node_count(&text);
    while count + 1 < aim {
        let left = aim - count;
        let (more, nodes) = match chance.below(4) {
            0 if left >= 4 => ("-h", 4),
            1 if left >= 3 => ("*3^2", 3),
            _ => ("+a", 2),
        };
        text.push_str(more);
        count += nodes;
    }
    if count < aim {
        // One node more: brackets around all of it, then a power.
        text = format!("({text})^1");
    }
    if chance.one_in(8) {
        text.push(chance.pick(&['+', ')', '(', '^', '0']));
    }
    text.into_bytes()
}

/// About as many open brackets as there may be, closed as often, once too often or too seldom.
fn brackets(chance: &mut Chance) -> Vec<u8> {
    let depth = chance.between(DEEPEST_BRACKETS - 2, DEEPEST_BRACKETS + 2);
    let mut text = String::new();
    for _ in 0..depth {
        text.push_str(chance.pick(&["(", "(", "(", "(-", "(a+", "(2*"]));
    }
    // A closed pair first does not count against the depth.
    if chance.one_in(3) {
        text = format!("((b))+{text}");
    }
    text.push_str(chance.pick(&["a", "a", "7", "h-1", "(a)", "a)*(b"]));
    let closed = match chance.below(8) {
        0 => depth - 1,
        1 => depth + 1,
        _ => depth,
    };
    text.push_str(&")".repeat(closed));
    text.into_bytes()
}

/// Decimal numbers around 2^62 and around what 64 bits would wrap to, with zeros before and digits after.
fn large_number(chance: &mut Chance) -> String {
    let limit = u128::from(MOST_WEIGHT);
    let mut number = match chance.below(8) {
        0..=2 => (limit + chance.below(4) as u128 - 2).to_string(),
        3 => (limit + chance.below(20) as u128 - 10).to_string(),
        4 => ((1u128 << 64) + chance.below(100) as u128).to_string(),
        5 => ((1u128 << chance.between(58, 70)) + chance.below(9) as u128).to_string(),
        6 => "0".repeat(chance.between(1, 3)) + chance.pick(&["", "1", "9", "a"]),
        _ => "9".repeat(chance.between(17, 21)),
    };
    if chance.one_in(4) {
        number.push(chance.pick(&['0', '5', '9']));
    }
    let before = chance.pick(&["", "", "-", "a+", "(", "0*", "a*", "b-"]);
    let after = chance.pick(&["", "", "", "+1-1", "*a", ")", "^2", "a", "(", "-"]);
    format!("{before}{number}{after}")
}

/// Exponents of 0 to 61 and more, with zeros before and digits after.
fn exponent(chance: &mut Chance) -> String {
    let base = chance.pick(&["a", "h", "2", "0", "(a+b)", "(a-a)", "-c", "b*a", "1-a"]);
    let exponents = [
        "0", "1", "59", "60", "61", "62", "69", "7", "70", "600", "6", "00", "01", "060", "", "-1", "+1", "a", "(2)",
    ];
    let after = chance.pick(&["", "", "", "*a", "0", "1", "^2", "+b", ")", "("]);
    format!("{base}^{}{after}", chance.pick(&exponents))
}

/// Signs and carets where they may and may not stand.
fn minus_and_caret(chance: &mut Chance) -> String {
    let texts = [
        "a*-b", "a+-b", "--a", "a^-1", "a^2^3", "-a*b", "-a^2", "(-a)^2", "a*(-b)", "-(-a)", "-(a)", "(-)", "()", "-", "",
        "a--b", "a-+b", "+a", "(+a)", "a**b", "a^", "a^^2", "^2", "*a", "ab", "2a", "a2", "a(b)", "(a)b", "(a)(b)", "(a)2",
        "(a", "a)", ")", "(", "i", "A", " a", "a ", "a +b", "a\n", "-0", "0-0", "-4611686018427387904", "h", "g^0",
    ];
    let mut text = chance.pick(&texts).to_string();
    if chance.one_in(3) {
        text.push_str(chance.pick(&["+a", "*b", ")", "^2", "-1"]));
    }
    text
}

/// About as many bytes as there may be, with few nodes: letters in many brackets, joined by +, and one number to fill up.
fn exact_length(chance: &mut Chance) -> Vec<u8> {
    let aim = chance.between(LONGEST_TEXT - 2, LONGEST_TEXT + 2);
    let depths = if chance.one_in(4) { 10 } else { DEEPEST_BRACKETS };
    let mut text = String::new();
    loop {
        let depth = if chance.one_in(8) { chance.below(depths) } else { depths };
        let atom = format!("{}{}{}", "(".repeat(depth), chance.pick(&["a", "b", "-h"]), ")".repeat(depth));
        if text.len() + atom.len() + 20 > aim {
            break;
        }
        text.push_str(&atom);
        text.push('+');
    }
    let mut left = aim - text.len();
    // So many digits never pass 2^62.
    while left > DIGITS {
        text.push_str("1+");
        left -= 2;
    }
    text.push_str(&"7".repeat(left));
    if chance.one_in(6) {
        let mut bytes = text.into_bytes();
        let place = chance.below(bytes.len());
        bytes[place] = b'*';
        return bytes;
    }
    text.into_bytes()
}

/// Too many bytes: the place is the number of those allowed, whatever stands there.
fn too_long(chance: &mut Chance) -> Vec<u8> {
    let length = LONGEST_TEXT + chance.pick(&[1, 1, 2, 76, 976]);
    let byte = chance.pick(b"a(1+\0");
    vec![byte; length]
}
