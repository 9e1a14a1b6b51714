//! Packed sums and lists of pairs for cases of substitute.

use super::chance::Chance;
use super::damage::{bytes_of, damaged, items_of_list, Kind};
use super::packed_sums::{damaged_packed, full_sum, some_packed};
use super::random_sums::{in_order, pattern_of_degree, small_plan, small_sum, sum_from, Plan, HIGHEST, MOST_WEIGHT};
use super::spreads;
use crate::change::{Pair, MOST_PAIRS};
use crate::packed::packed;
use crate::sums::{Pattern, Sum, Term, VARIABLES};

/// A sum and what is put into it.
pub struct Substitution {
    pub sum: Sum,
    pub pairs: Vec<Pair>,
}

pub fn some_substitution(chance: &mut Chance) -> (Vec<u8>, Vec<u8>) {
    match chance.below(100) {
        0..=33 => in_bytes(&plain(chance)),
        34..=38 => in_bytes(&turned(chance)),
        39..=43 => in_bytes(&of_any_size(chance)),
        44..=51 => (damaged_packed(chance), some_list(chance)),
        52..=69 => (packed_small(chance), damaged_list(chance)),
        70..=74 => in_bytes(&after_others(chance, degree_edge)),
        75..=77 => in_bytes(&after_others(chance, several_refusals)),
        78..=86 => in_bytes(&after_others(chance, weight_edge)),
        87..=95 => in_bytes(&after_others(chance, spreads::spread_edge)),
        96..=97 => (packed_small(chance), vec![0]),
        98 => (packed(&full_sum(chance)), vec![0]),
        _ => (some_packed(chance), some_list(chance)),
    }
}

fn in_bytes(substitution: &Substitution) -> (Vec<u8>, Vec<u8>) {
    (packed(&substitution.sum), bytes_of(&items_of_list(&substitution.pairs)))
}

fn packed_small(chance: &mut Chance) -> Vec<u8> {
    let plan = small_plan(chance);
    packed(&small_sum(chance, plan))
}

fn some_pairs(chance: &mut Chance) -> Vec<Pair> {
    let count = match chance.below(10) {
        0 => 0,
        1..=7 => chance.between(1, 3),
        8 => chance.between(4, MOST_PAIRS - 1),
        _ => MOST_PAIRS,
    };
    (0..count).map(|_| some_pair(chance)).collect()
}

fn some_pair(chance: &mut Chance) -> Pair {
    let plan = Plan { terms: chance.between(0, 3), degree: chance.between(0, 2), letters: chance.some_variables() };
    Pair { variable: chance.variable(), sum: small_sum(chance, plan) }
}

fn some_list(chance: &mut Chance) -> Vec<u8> {
    bytes_of(&items_of_list(&some_pairs(chance)))
}

fn damaged_list(chance: &mut Chance) -> Vec<u8> {
    let mut pairs = some_pairs(chance);
    // One or two whole pairs too many: only the count is at fault.
    if chance.one_in(20) {
        let count = chance.between(MOST_PAIRS + 1, MOST_PAIRS + 2);
        pairs = (0..count).map(|_| some_pair(chance)).collect();
        return bytes_of(&items_of_list(&pairs));
    }
    // A number that no variable has in one of the pairs.
    if !pairs.is_empty() && chance.one_in(8) {
        let mut items = items_of_list(&pairs);
        let variables: Vec<usize> = (0..items.len()).filter(|&index| items[index].kind == Kind::Variable).collect();
        let next = VARIABLES as u64;
        let numbers = [next, next, next + 1, 127, 128, 255, 256, 1 << 32, 1 << 63, u64::MAX];
        items[chance.pick(&variables)].value = chance.pick(&numbers);
        return bytes_of(&items);
    }
    damaged(chance, &items_of_list(&pairs))
}

fn plain(chance: &mut Chance) -> Substitution {
    let plan = small_plan(chance);
    Substitution { sum: small_sum(chance, plan), pairs: some_pairs(chance) }
}

/// Large sums and sums of high degree put in: met refusals of every sort.
fn of_any_size(chance: &mut Chance) -> Substitution {
    let plan = Plan { terms: chance.between(1, 12), degree: chance.between(1, 12), letters: VARIABLES };
    let sum = sum_from(chance, plan);
    let mut pairs = Vec::new();
    for _ in 0..chance.between(1, 4) {
        let plan = Plan { terms: chance.between(0, 12), degree: chance.between(0, 8), letters: chance.some_variables() };
        pairs.push(Pair { variable: chance.variable(), sum: sum_from(chance, plan) });
    }
    Substitution { sum, pairs }
}

/// The same variable again and again, put in with itself in it: a := a + b, then a := a - b, and the like.
fn turned(chance: &mut Chance) -> Substitution {
    let plan = small_plan(chance);
    let sum = small_sum(chance, plan);
    let variable = chance.variable();
    let mut pairs = Vec::new();
    for _ in 0..chance.between(2, 5) {
        let mut terms = vec![Term { coefficient: chance.signed(1), pattern: Pattern::letter(variable) }];
        let other = chance.variable();
        if other != variable {
            terms.push(Term { coefficient: chance.signed(1), pattern: Pattern::letter(other) });
        }
        pairs.push(Pair { variable, sum: in_order(terms) });
    }
    Substitution { sum, pairs }
}

/// Puts harmless pairs before the one that matters, so that it can be at any index, and now and then one after it.
fn after_others(chance: &mut Chance, maker: fn(&mut Chance) -> Substitution) -> Substitution {
    let mut made = maker(chance);
    let room = MOST_PAIRS.saturating_sub(made.pairs.len());
    let before = if chance.one_in(2) { 0 } else { chance.between(0, room) };
    let mut pairs: Vec<Pair> = (0..before).map(|_| itself(chance)).collect();
    pairs.append(&mut made.pairs);
    if pairs.len() < MOST_PAIRS && chance.one_in(3) {
        pairs.push(some_pair(chance));
    }
    made.pairs = pairs;
    made
}

/// A letter put in for itself changes nothing.
fn itself(chance: &mut Chance) -> Pair {
    let variable = chance.variable();
    Pair { variable, sum: Sum::one_term(1, Pattern::letter(variable)) }
}

/// The other exponents and k times the degree of what is put in add up to the largest degree or one more in one term.
fn degree_edge(chance: &mut Chance) -> Substitution {
    let letters = chance.letters();
    let aim = HIGHEST + chance.below(2);
    let power = chance.between(1, 10);
    let put_in = chance.between(0, aim / power);
    let others = (aim - power * put_in).min(HIGHEST - power);
    let pattern = Pattern::empty().with(letters[0], power as u8).with(letters[1], others as u8);
    let small = Pattern::letter(letters[2]);
    let mut terms = vec![Term { coefficient: chance.signed(2), pattern }];
    if small != pattern {
        terms.push(Term { coefficient: 3, pattern: small });
    }
    let high = pattern_of_degree(chance, put_in, VARIABLES);
    let mut inside = vec![Term { coefficient: chance.signed(1), pattern: high }];
    if put_in > 0 && chance.one_in(2) {
        inside.push(Term { coefficient: 1, pattern: Pattern::empty() });
    }
    // Zero put in has degree 0, whatever the power.
    let sum = if chance.one_in(8) { Sum::zero() } else { in_order(inside) };
    Substitution { sum: in_order(terms), pairs: vec![Pair { variable: letters[0], sum }] }
}

/// |coefficient| x (weight of S)^k adds up to 2^62, 2^62 + 1, or is far above it.
fn weight_edge(chance: &mut Chance) -> Substitution {
    let letters = chance.letters();
    let power = chance.between(1, 12);
    let bits = chance.between(0, 62 / power);
    let coefficient = MOST_WEIGHT >> (bits * power);
    let pattern = Pattern::empty().with(letters[0], power as u8);
    let mut terms = vec![Term { coefficient: chance.signed(coefficient as i64), pattern }];
    if chance.one_in(2) && coefficient < MOST_WEIGHT {
        let constant = chance.pick(&[Pattern::empty(), Pattern::letter(letters[1])]);
        terms.push(Term { coefficient: chance.signed(1), pattern: constant });
    }
    let mut sum = of_weight(chance, 1 << bits, letters[2]);
    match chance.below(10) {
        0 => sum = Sum::zero(),
        1 => {
            let weight = MOST_WEIGHT >> chance.below(3);
            sum = of_weight(chance, weight, letters[2]);
        }
        2 => sum = of_weight(chance, (1 << bits) + 1, letters[2]),
        _ => {}
    }
    Substitution { sum: in_order(terms), pairs: vec![Pair { variable: letters[0], sum }] }
}

/// Two or three of DEGREE, WEIGHT and SPREAD are due: the first of them in this order is given.
fn several_refusals(chance: &mut Chance) -> Substitution {
    let letters = chance.letters();
    let high = chance.pick(&[2, 2, 15, 16, 20]);
    let heavy = chance.pick(&[1, 1, 1 << 13, 1 << 17, 1 << 40, MOST_WEIGHT as i64 - 8]);
    let wide = chance.pick(&[1, 2, VARIABLES - 1, VARIABLES - 1]);
    let highest = Pattern::empty().with(letters[0], high);
    let mut inside = vec![Term { coefficient: chance.signed(heavy), pattern: highest }];
    for &letter in &letters[1..=wide] {
        inside.push(Term { coefficient: 1, pattern: Pattern::letter(letter) });
    }
    let sum = Sum::one_term(chance.signed(1), Pattern::empty().with(letters[1], 4));
    Substitution { sum, pairs: vec![Pair { variable: letters[1], sum: in_order(inside) }] }
}

/// One or two terms with this weight together.
fn of_weight(chance: &mut Chance, weight: u64, letter: usize) -> Sum {
    if weight < 2 || chance.one_in(2) {
        let pattern = chance.pick(&[Pattern::empty(), Pattern::letter(letter)]);
        let size = chance.signed(weight.min(MOST_WEIGHT) as i64);
        return Sum::one_term(size, pattern);
    }
    let first = chance.up_to(weight.min(MOST_WEIGHT) - 2) + 1;
    let second = weight.min(MOST_WEIGHT) - first;
    in_order(vec![
        Term { coefficient: chance.signed(first as i64), pattern: Pattern::letter(letter) },
        Term { coefficient: chance.signed(second as i64), pattern: Pattern::empty() },
    ])
}
