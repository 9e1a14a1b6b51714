//! Tables for cases of simplify: random ones, some with one number changed, and some at a limit.

use super::chance::Chance;
use super::random_sums::{HIGHEST, MOST_WEIGHT};
use super::random_tables::{good_table, good_table_of};
use super::random_texts::any_text;
use super::table_limits::{degree_edge, several_refusals, weight_edge};
use super::table_spreads::spread_edge;
use crate::sums::VARIABLES;
use crate::table::{INTEGER, MOST_NODES, NODE_NUMBERS, POWER, PRODUCT, SUM, VARIABLE};
use crate::typed::table_of;

pub fn some_table(chance: &mut Chance) -> Vec<i64> {
    match chance.below(100) {
        0..=29 => good_table(chance),
        30..=39 => typed_table(chance),
        40..=49 => one_number_changed(chance),
        50..=63 => broken_node(chance),
        64..=67 => wrong_length(chance),
        68..=70 => several_refusals(chance),
        71..=77 => degree_edge(chance),
        78..=88 => weight_edge(chance),
        89..=97 => spread_edge(chance),
        _ => random_numbers(chance),
    }
}

/// The largest numbers that a node may have.
const LAST_VARIABLE: i64 = VARIABLES as i64 - 1;
const LARGEST_EXPONENT: i64 = HIGHEST as i64;
const LARGEST_INTEGER: i64 = MOST_WEIGHT as i64;

fn typed_table(chance: &mut Chance) -> Vec<i64> {
    table_of(&any_text(chance))
}

/// Any of the three numbers of any node.
fn one_number_changed(chance: &mut Chance) -> Vec<i64> {
    let mut table = good_table(chance);
    let place = chance.below(table.len());
    let node = (place / NODE_NUMBERS) as i64;
    let near = chance.pick(&[-1, 1]);
    table[place] = match chance.below(4) {
        0 => table[place].wrapping_add(near),
        1 => {
            let limits = [LAST_VARIABLE, LAST_VARIABLE + 1, LARGEST_EXPONENT, LARGEST_EXPONENT + 1];
            let all = [&[node - 1, node, node + 1, 0], &limits[..]].concat();
            chance.pick(&all)
        }
        2 => chance.pick(&[i64::MIN, i64::MAX, -1, 1 << 32, LARGEST_INTEGER, LARGEST_INTEGER + 1, 256, -256]),
        _ => chance.below(10) as i64,
    };
    table
}

/// A node that breaks the table in one way, at any index, with good nodes before and after it.
fn broken_node(chance: &mut Chance) -> Vec<i64> {
    let count = if chance.one_in(4) { chance.between(1, MOST_NODES) } else { chance.between(1, 9) };
    let mut table = good_table_of(chance, count);
    let node = if chance.one_in(2) { count - 1 } else { chance.below(count) };
    let numbers = bad_numbers(chance, node as i64);
    table[NODE_NUMBERS * node..][..NODE_NUMBERS].copy_from_slice(&numbers);
    table
}

/// A number outside what is allowed, far or near; some would fit again after being cut to fewer bits.
fn outside(chance: &mut Chance, least: i64, most: i64) -> i64 {
    let near = [least - 1, most + 1];
    let far = [i64::MIN, i64::MAX, -(1 << 32), 1 << 32, (1 << 32) + least, 256 + least, most + 256];
    if chance.percent(60) {
        chance.pick(&near)
    } else {
        chance.pick(&far)
    }
}

fn bad_numbers(chance: &mut Chance, node: i64) -> [i64; NODE_NUMBERS] {
    // With no earlier node every child is a fault; -1 is the largest allowed one.
    let child = if node > 0 { chance.below(node as usize) as i64 } else { 0 };
    let no_child = outside(chance, 0, node - 1);
    let not_zero = chance.pick(&[1, -1, i64::MIN, 1 << 32]);
    let binary = chance.pick(&[SUM, PRODUCT]);
    match chance.below(8) {
        0 => [outside(chance, INTEGER, POWER), child, child],
        1 => [INTEGER, 3, not_zero],
        2 => [VARIABLE, 3, not_zero],
        3 => [VARIABLE, outside(chance, 0, LAST_VARIABLE), 0],
        4 => [binary, no_child, child],
        5 => [binary, child, no_child],
        6 => [POWER, no_child, 2],
        _ => [POWER, child, outside(chance, 0, LARGEST_EXPONENT)],
    }
}

/// Lengths that are not three numbers for each of 1 to `MOST_NODES` nodes, and as many nodes as are allowed.
fn wrong_length(chance: &mut Chance) -> Vec<i64> {
    let count = chance.pick(&[1, 2, 5, MOST_NODES - 1, MOST_NODES]);
    let mut table = good_table_of(chance, count);
    match chance.below(6) {
        0 => table.clear(),
        1 => table.push(0),
        2 => {
            table.pop();
        }
        3 => table.extend([VARIABLE, 0, 0]),
        4 if count >= MOST_NODES - 1 => table.extend([VARIABLE, 0, 0, VARIABLE, 1, 0]),
        4 => table.truncate(2),
        _ => {}
    }
    table
}

fn random_numbers(chance: &mut Chance) -> Vec<i64> {
    let count = NODE_NUMBERS * chance.between(1, 6);
    (0..count).map(|_| if chance.one_in(9) { chance.word() as i64 } else { chance.between(0, 6) as i64 - 1 }).collect()
}
