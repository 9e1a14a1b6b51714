//! Packed sums and lists as items, so that each kind of fault can be put at each item.

use super::chance::Chance;
use super::random_sums::{HIGHEST, MOST_WEIGHT};
use crate::change::{Pair, MOST_PAIRS};
use crate::packed::{code_of, write_number, MOST_GROUPS};
use crate::sums::{Sum, MOST_TERMS, VARIABLES};

/// A coefficient and its exponents.
const TERM_ITEMS: usize = 1 + VARIABLES;

#[derive(Clone, Copy, PartialEq, Eq)]
pub enum Kind {
    ListCount,
    Variable,
    Count,
    Coefficient,
    Exponent,
}

#[derive(Clone, Copy)]
pub struct Item {
    pub kind: Kind,
    pub value: u64,
}

fn add_sum(items: &mut Vec<Item>, sum: &Sum) {
    items.push(Item { kind: Kind::Count, value: sum.terms.len() as u64 });
    for term in &sum.terms {
        items.push(Item { kind: Kind::Coefficient, value: code_of(i128::from(term.coefficient)) });
        for letter in 0..VARIABLES {
            items.push(Item { kind: Kind::Exponent, value: u64::from(term.pattern.exponent(letter)) });
        }
    }
}

pub fn items_of_sum(sum: &Sum) -> Vec<Item> {
    let mut items = Vec::new();
    add_sum(&mut items, sum);
    items
}

pub fn items_of_list(pairs: &[Pair]) -> Vec<Item> {
    let mut items = vec![Item { kind: Kind::ListCount, value: pairs.len() as u64 }];
    for pair in pairs {
        items.push(Item { kind: Kind::Variable, value: pair.variable as u64 });
        add_sum(&mut items, &pair.sum);
    }
    items
}

pub fn bytes_of(items: &[Item]) -> Vec<u8> {
    let mut bytes = Vec::new();
    for item in items {
        write_number(&mut bytes, item.value);
    }
    bytes
}

/// One fault, or what looks like one: some of these leave the bytes allowed, which is wanted too.
pub fn damaged(chance: &mut Chance, items: &[Item]) -> Vec<u8> {
    match chance.below(20) {
        0..=6 => with_other_value(chance, items),
        7..=10 => with_other_groups(chance, items),
        11..=12 => cut_at_item(chance, items),
        13..=15 => with_other_order(chance, items),
        16 => with_random_byte(chance, bytes_of(items)),
        17 => {
            let mut bytes = bytes_of(items);
            bytes.truncate(chance.below(bytes.len() + 1));
            bytes
        }
        18 => with_bytes_added(chance, bytes_of(items)),
        _ => (0..chance.below(40)).map(|_| chance.word() as u8).collect(),
    }
}

/// A value at or over a limit of its kind, in shortest form.
fn other_value(chance: &mut Chance, items: &[Item], index: usize) -> u64 {
    let here = items[index].value;
    let largest = [u64::MAX, u64::MAX - 1, 1 << 63, (1 << 63) - 1, 256, 128];
    if chance.one_in(6) {
        return chance.pick(&largest);
    }
    let [pairs, variables, terms, highest] = [MOST_PAIRS, VARIABLES, MOST_TERMS, HIGHEST].map(|limit| limit as u64);
    let near = [here.wrapping_sub(1), here.wrapping_add(1)];
    let limits: Vec<u64> = match items[index].kind {
        Kind::ListCount => vec![0, pairs, pairs + 1, pairs + 1, pairs + 2],
        Kind::Variable => {
            let near = [variables - 1, variables, variables, variables + 1];
            [&near[..], &[100, 255, 256 + here, (1 << 32) + here]].concat()
        }
        Kind::Count => vec![0, terms - 1, terms, terms + 1, terms + 1, 256 + here, (1 << 32) + here],
        Kind::Coefficient => {
            let sizes = [MOST_WEIGHT as i128, MOST_WEIGHT as i128 + 1];
            let mut codes: Vec<u64> = sizes.iter().flat_map(|&size| [code_of(size), code_of(-size)]).collect();
            codes.extend([0, 0, 0, 1, u64::MAX, u64::MAX - 1]);
            codes
        }
        Kind::Exponent => {
            let before = exponents_before(items, index);
            // Up to the limit, one over it, and what a 64-bit addition would take for nothing at all.
            let left = highest - before.min(highest);
            vec![left, left + 1, highest + 1, highest + 2, 255, 256, u64::MAX - before, (!before).wrapping_add(1)]
        }
    };
    if chance.one_in(4) {
        chance.pick(&near)
    } else {
        chance.pick(&limits)
    }
}

fn exponents_before(items: &[Item], index: usize) -> u64 {
    let same_term = items[..index].iter().rev().take_while(|item| item.kind == Kind::Exponent);
    same_term.map(|item| item.value).sum()
}

/// The head of a sum or list is as likely as all the rest, so that its faults are met in long ones too.
fn some_item(chance: &mut Chance, items: &[Item]) -> usize {
    let heads: Vec<usize> = (0..items.len()).filter(|&index| items[index].kind != Kind::Exponent).collect();
    match chance.below(4) {
        0 => chance.pick(&heads),
        1 => items.len() - 1 - chance.below(items.len().min(TERM_ITEMS)),
        _ => chance.below(items.len()),
    }
}

fn with_other_value(chance: &mut Chance, items: &[Item]) -> Vec<u8> {
    let mut items = items.to_vec();
    let index = some_item(chance, &items);
    items[index].value = other_value(chance, &items, index);
    bytes_of(&items)
}

/// The number of one item in groups that are not allowed, or only just.
fn other_groups(chance: &mut Chance, value: u64) -> Vec<u8> {
    let mut bytes = Vec::new();
    write_number(&mut bytes, value);
    let last = bytes.len() - 1;
    match chance.below(5) {
        // Not shortest: more groups of 0.
        0 | 1 => {
            bytes[last] |= 0x80;
            let most = MOST_GROUPS.saturating_sub(bytes.len()).max(1);
            let more = if chance.one_in(2) { 1 } else { chance.between(1, most) };
            bytes.extend(vec![0x80; more - 1]);
            bytes.push(0);
        }
        // As many groups as may ask for more, then a last byte of every sort.
        2 | 3 => {
            bytes = (1..MOST_GROUPS).map(|_| 0x80 | chance.word() as u8).collect();
            bytes.push(chance.pick(&[0, 1, 2, 3, 0x7f, 0x80, 0x81, 0xff]));
            if chance.one_in(4) {
                bytes.push(chance.pick(&[0, 1, 0x80]));
            }
        }
        _ => bytes = vec![0x80; chance.between(MOST_GROUPS - 2, MOST_GROUPS + 1)],
    }
    bytes
}

fn with_other_groups(chance: &mut Chance, items: &[Item]) -> Vec<u8> {
    let index = some_item(chance, items);
    let mut bytes = bytes_of(&items[..index]);
    bytes.extend(other_groups(chance, items[index].value));
    // The bytes may end at once: a last group above 1 is a fault even as the last byte there is.
    if !chance.one_in(3) {
        bytes.extend(bytes_of(&items[index + 1..]));
    }
    bytes
}

/// The bytes end before an item or inside it.
fn cut_at_item(chance: &mut Chance, items: &[Item]) -> Vec<u8> {
    let index = some_item(chance, items);
    let mut bytes = bytes_of(&items[..index]);
    if chance.one_in(2) {
        let mut number = bytes_of(&items[index..=index]);
        number[0] |= 0x80;
        let kept = chance.between(1, number.len());
        bytes.extend(&number[..kept]);
        let last = bytes.len() - 1;
        bytes[last] |= 0x80;
    }
    bytes
}

/// A term that is not strictly after the one before: the same pattern again, or two terms changed about.
fn with_other_order(chance: &mut Chance, items: &[Item]) -> Vec<u8> {
    let is_term = |index: usize| items[index].kind == Kind::Coefficient;
    let is_second = |index: &usize| is_term(*index) && is_term(index - TERM_ITEMS);
    let seconds: Vec<usize> = (TERM_ITEMS..items.len()).filter(is_second).collect();
    if seconds.is_empty() {
        return with_other_value(chance, items);
    }
    let mut items = items.to_vec();
    let second = chance.pick(&seconds);
    if chance.one_in(2) {
        items.copy_within(second - VARIABLES..second, second + 1);
    } else {
        for offset in 0..TERM_ITEMS {
            items.swap(second - TERM_ITEMS + offset, second + offset);
        }
    }
    // Now and then another fault inside the same term: the reader has to meet it first.
    if chance.one_in(4) {
        let index = second + chance.below(TERM_ITEMS);
        items[index].value = other_value(chance, &items, index);
    }
    bytes_of(&items)
}

pub fn with_random_byte(chance: &mut Chance, mut bytes: Vec<u8>) -> Vec<u8> {
    let place = chance.below(bytes.len());
    bytes[place] = chance.word() as u8;
    bytes
}

fn with_bytes_added(chance: &mut Chance, mut bytes: Vec<u8>) -> Vec<u8> {
    for _ in 0..chance.between(1, 4) {
        bytes.push(chance.pick(&[0, 1, 2, 0x80, 0xff]));
    }
    bytes
}
