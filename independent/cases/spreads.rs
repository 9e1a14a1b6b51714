//! Substitutions that meet the largest spread or one more, in a step of a power or in all terms' products together.

use super::chance::Chance;
use super::lists::Substitution;
use super::random_sums::in_order;
use crate::change::Pair;
use crate::sums::{Pattern, Sum, Term, MOST_TERMS, VARIABLES};

/// Sums (coefficient, power of one letter, power of another) whose fourth power meets exactly 128 patterns in its last
/// step, because a pattern that cancelled in an earlier step is no operand any more; with that one it would be 129.
pub const LOSING: [[(i64, usize, usize); 7]; 6] = [
    [(2, 0, 0), (2, 1, 0), (-2, 3, 0), (-1, 6, 0), (-2, 1, 1), (-2, 8, 1), (-1, 1, 2)],
    [(2, 0, 0), (-2, 1, 0), (2, 3, 0), (-1, 6, 0), (2, 1, 1), (-1, 8, 1), (1, 1, 2)],
    [(2, 0, 0), (-2, 1, 0), (2, 3, 0), (-1, 6, 0), (2, 3, 1), (-2, 10, 1), (1, 5, 2)],
    [(2, 0, 0), (-2, 1, 0), (2, 3, 0), (-1, 6, 0), (-2, 2, 1), (-1, 9, 1), (1, 3, 2)],
    [(2, 0, 0), (2, 3, 0), (-2, 5, 0), (-1, 6, 0), (-1, 1, 1), (-2, 8, 1), (1, 11, 2)],
    [(1, 0, 0), (2, 3, 0), (-2, 5, 0), (-2, 6, 0), (-2, 0, 1), (2, 7, 1), (1, 9, 2)],
];

pub fn spread_edge(chance: &mut Chance) -> Substitution {
    match chance.below(7) {
        6 => lost_in_step(chance),
        0 => steps(chance),
        5 => one_square(chance),
        1 => together(chance),
        2 => cancelling(chance),
        3 => lost_in_square(chance),
        _ => letters_put_in(chance),
    }
}

fn pure(letter: usize, power: usize) -> Pattern {
    Pattern::empty().with(letter, power as u8)
}

fn term(coefficient: i64, pattern: Pattern) -> Term {
    Term { coefficient, pattern }
}

/// 1 + x + .. of so many terms.
fn row(letter: usize, count: usize) -> Sum {
    in_order((0..count).map(|power| term(1, pure(letter, power))).collect())
}

/// Fifteen or sixteen terms without relations between them: 120 or 136 patterns in the square.
fn steps(chance: &mut Chance) -> Substitution {
    let letters = chance.letters();
    let count = chance.between(13, 17);
    let sparse = [0, 1, 2, 4, 8, 13];
    let mut patterns = Vec::new();
    for first in sparse {
        for second in [0, 1, 3] {
            patterns.push(pure(letters[1], first).product(&pure(letters[2], second)));
        }
    }
    patterns.truncate(count);
    let sum = in_order(patterns.into_iter().map(|pattern| term(chance.signed(1), pattern)).collect());
    let power = chance.between(1, 3);
    let mut outer = vec![term(1, pure(letters[0], power))];
    if chance.one_in(2) {
        outer.push(term(5, Pattern::empty()));
    }
    Substitution { sum: in_order(outer), pairs: vec![Pair { variable: letters[0], sum }] }
}

/// Put into a square: 4 x 6 patterns and two letters make 128, a row of twenty and four letters make 129.
fn one_square(chance: &mut Chance) -> Substitution {
    let letters = chance.letters();
    let (along, across, more) = chance.pick(&[(4, 6, 2), (20, 1, 4), (4, 6, 3), (19, 1, 4), (5, 6, 1)]);
    let mut inside = Vec::new();
    for first in 0..along {
        for second in 0..across {
            inside.push(term(chance.signed(1), pure(letters[1], first).product(&pure(letters[2], second))));
        }
    }
    for &letter in &letters[3..3 + more] {
        inside.push(term(chance.signed(2), Pattern::letter(letter)));
    }
    let outer = Sum { terms: vec![term(chance.signed(1), pure(letters[0], 2))] };
    Substitution { sum: outer, pairs: vec![Pair { variable: letters[0], sum: in_order(inside) }] }
}

/// Rows of rest patterns times a row put in: rests x terms, 126 to 130 of them, plus a few untouched terms.
fn together(chance: &mut Chance) -> Substitution {
    let letters = chance.letters();
    let (rests, inside) = chance.pick(&[(64, 2), (43, 3), (42, 3), (32, 4), (26, 5), (25, 5), (21, 6), (18, 7), (16, 8)]);
    let mut terms = Vec::new();
    for index in 0..rests {
        terms.push(term(chance.signed(2), rest(&letters, index).with(letters[0], 1)));
    }
    for index in 0..chance.below(4) {
        terms.push(term(3, pure(letters[4], index + 1)));
    }
    let sum = row(letters[3], inside);
    Substitution { sum: in_order(terms), pairs: vec![Pair { variable: letters[0], sum }] }
}

/// Different patterns in two letters that nothing else uses.
fn rest(letters: &[usize; VARIABLES], index: usize) -> Pattern {
    pure(letters[1], index % 8).product(&pure(letters[2], index / 8))
}

/// What is put in cancels against terms that stand there already; the cancelled patterns still count.
fn cancelling(chance: &mut Chance) -> Substitution {
    let letters = chance.letters();
    let (rests, inside) = chance.pick(&[(64, 2), (43, 3), (42, 3), (32, 4)]);
    let mut terms = Vec::new();
    for index in 0..rests {
        terms.push(term(1, rest(&letters, index).with(letters[0], 1)));
        terms.push(term(-1, rest(&letters, index).with(letters[3], 1)));
    }
    // b + c, so that b cancels.
    let mut sum: Vec<Term> = (1..inside).map(|power| term(1, pure(letters[4], power))).collect();
    sum.push(term(1, Pattern::letter(letters[3])));
    if chance.one_in(4) {
        // One more pattern makes one too many.
        terms.truncate(MOST_TERMS - 1);
        terms.push(term(7, pure(letters[5], 1)));
    }
    Substitution { sum: in_order(terms), pairs: vec![Pair { variable: letters[0], sum: in_order(sum) }] }
}

/// (1 + 2x - 2x^2)^2 loses x^2, which does not count any more in the terms' products: four patterns, not five.
fn lost_in_square(chance: &mut Chance) -> Substitution {
    let letters = chance.letters();
    let rests = chance.between(31, 33);
    let terms = (0..rests).map(|index| term(1, rest(&letters, index).with(letters[0], 2))).collect();
    let inside = vec![term(-2, pure(letters[3], 2)), term(2, pure(letters[3], 1)), term(1, Pattern::empty())];
    Substitution { sum: in_order(terms), pairs: vec![Pair { variable: letters[0], sum: in_order(inside) }] }
}

/// A sum of `LOSING` put into a third, fourth or fifth power, now and then with one more term.
fn lost_in_step(chance: &mut Chance) -> Substitution {
    let letters = chance.letters();
    let losing = chance.pick(&LOSING);
    let pattern = |first: usize, second: usize| pure(letters[1], first).product(&pure(letters[2], second));
    let mut inside: Vec<Term> =
        losing.iter().map(|&(coefficient, first, second)| term(coefficient, pattern(first, second))).collect();
    if chance.one_in(6) {
        inside.push(term(1, Pattern::letter(letters[3])));
    }
    let outer = Sum::one_term(1, pure(letters[0], chance.pick(&[3, 4, 4, 4, 5])));
    Substitution { sum: outer, pairs: vec![Pair { variable: letters[0], sum: in_order(inside) }] }
}

/// A sum of letters put into a power: 8 letters cubed are 120 patterns, 9 terms cubed 165, and so on.
fn letters_put_in(chance: &mut Chance) -> Substitution {
    let letters = chance.letters();
    let count = chance.between(2, VARIABLES);
    let mut inside: Vec<Term> = letters[..count].iter().map(|&letter| term(1, Pattern::letter(letter))).collect();
    if chance.one_in(3) {
        inside.push(term(-1, Pattern::empty()));
    }
    let power = chance.between(2, 16 - count);
    let mut terms = vec![term(2, pure(letters[0], power))];
    if chance.one_in(2) {
        terms.push(term(1, pure(letters[0], 1).product(&pure(letters[1], 1))));
    }
    let mut sum = in_order(terms);
    sum.terms.dedup_by_key(|term| term.pattern);
    Substitution { sum, pairs: vec![Pair { variable: letters[0], sum: in_order(inside) }] }
}
