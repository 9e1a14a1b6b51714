//! The longest prefix by trying all ways through the grammar: every rule gives the set of all places where it can end,
//! and notes when it ran into the end of the text while it could still go on. No way is ruled out by looking ahead.

use super::Report;
use crate::cases::chance::Chance;
use crate::fields::Input;
use crate::operations::other_fields;
use crate::sums::{FIRST_LETTER, LARGEST_DEGREE, LARGEST_WEIGHT, LAST_LETTER};
use crate::text::{nodes_of, DEEPEST_BRACKETS};
use std::collections::BTreeSet;

/// Sets of places grow too large on long texts.
const LONGEST: usize = 60;

struct Matcher<'a> {
    text: &'a [u8],
    /// Some way reached the end of the text: it is the beginning of an allowed one.
    reached_end: bool,
}

type Ends = BTreeSet<usize>;

impl Matcher<'_> {
    fn at(&mut self, place: usize) -> Option<u8> {
        self.reached_end |= place == self.text.len();
        self.text.get(place).copied()
    }

    fn sum(&mut self, start: usize, depth: usize) -> Ends {
        let mut ends = self.term(start, depth);
        if self.at(start) == Some(b'-') {
            ends.extend(self.term(start + 1, depth));
        }
        self.again(ends, b"+-", &|matcher, place| matcher.term(place, depth))
    }

    fn term(&mut self, start: usize, depth: usize) -> Ends {
        let ends = self.factor(start, depth);
        self.again(ends, b"*", &|matcher, place| matcher.factor(place, depth))
    }

    /// Any number of repetitions: one of the joining bytes, then the part again.
    fn again(&mut self, first: Ends, joining: &[u8], part: &dyn Fn(&mut Self, usize) -> Ends) -> Ends {
        let mut all = first.clone();
        let mut fresh: Vec<usize> = first.into_iter().collect();
        while let Some(place) = fresh.pop() {
            if self.at(place).is_some_and(|byte| joining.contains(&byte)) {
                for end in part(self, place + 1) {
                    if all.insert(end) {
                        fresh.push(end);
                    }
                }
            }
        }
        all
    }

    fn factor(&mut self, start: usize, depth: usize) -> Ends {
        let atoms = self.atom(start, depth);
        let mut ends = atoms.clone();
        for place in atoms {
            if self.at(place) == Some(b'^') {
                ends.extend(self.number(place + 1, u128::from(LARGEST_DEGREE)));
            }
        }
        ends
    }

    fn atom(&mut self, start: usize, depth: usize) -> Ends {
        let mut ends = self.number(start, LARGEST_WEIGHT);
        match self.at(start) {
            Some(FIRST_LETTER..=LAST_LETTER) => {
                ends.insert(start + 1);
            }
            Some(b'(') if depth < DEEPEST_BRACKETS => {
                for place in self.sum(start + 1, depth + 1) {
                    if self.at(place) == Some(b')') {
                        ends.insert(place + 1);
                    }
                }
            }
            _ => {}
        }
        ends
    }

    /// Every length that spells a number without a leading zero, up to the limit.
    fn number(&mut self, start: usize, limit: u128) -> Ends {
        let mut ends = Ends::new();
        self.at(start);
        for end in start + 1..=self.text.len().min(start + 25) {
            let digits = String::from_utf8_lossy(&self.text[start..end]).into_owned();
            let spelt = digits.bytes().all(|byte| byte.is_ascii_digit());
            let shortest = digits.len() == 1 || !digits.starts_with('0');
            if spelt && shortest && digits.parse::<u128>().is_ok_and(|value| value <= limit) {
                self.at(end);
                ends.insert(end);
            }
        }
        ends
    }
}

/// Is it allowed, and is it the beginning of an allowed text?
fn judged(text: &[u8]) -> (bool, bool) {
    let mut matcher = Matcher { text, reached_end: false };
    let allowed = matcher.sum(0, 0).contains(&text.len());
    (allowed, matcher.reached_end)
}

/// The place of a fault, whether the text is refused for it or for its length.
pub fn check_case(inputs: &[Input], _own: &str, report: &mut Report) {
    let [Input::Bytes(text)] = inputs else { other_fields() };
    check(text, report);
}

fn check(text: &[u8], report: &mut Report) {
    if text.len() > LONGEST {
        return;
    }
    let (allowed, _) = judged(text);
    let longest = (0..=text.len()).rev().find(|&length| judged(&text[..length]).1).expect("no bytes begin any text");
    let own = nodes_of(text);
    let holds = match &own {
        Ok(_) => allowed,
        Err(place) => !allowed && *place == longest,
    };
    report.expect("longest prefix, all ways through the grammar", holds, || {
        format!("{:?}: allowed {allowed}, longest {longest}, own {own:?}", String::from_utf8_lossy(text))
    });
}

/// Short random strings over the bytes of the grammar.
pub fn check_short(chance: &mut Chance, report: &mut Report) {
    let bytes = [&[FIRST_LETTER, LAST_LETTER], &b"0169+-*^()("[..]].concat();
    let text: Vec<u8> = (0..chance.below(10)).map(|_| chance.pick(&bytes)).collect();
    check(&text, report);
}
