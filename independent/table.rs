//! The formula table of 01 and simplify: table to packed sum, with the checks NODE, DEGREE, WEIGHT, SPREAD node by node.

use crate::packed::{write_result, MOST_PACKED};
use crate::refusals::{refuse, Answer, Refused, DEGREE, NODE, ROOM, SHAPE, SPREAD, WEIGHT};
use crate::sums::{power_of, product_of, raised_weight, sum_of, Pattern, Sum, Term};
use crate::sums::{LARGEST_DEGREE, LARGEST_WEIGHT, MOST_TERMS, VARIABLES};

pub const MOST_NODES: usize = 64;
/// Kind, first and second.
pub const NODE_NUMBERS: usize = 3;
/// Each node has a part of the work areas for its terms.
pub const PART: usize = MOST_TERMS;
pub const WORK_ROOM: usize = PART * MOST_NODES;

pub const INTEGER: i64 = 0;
pub const VARIABLE: i64 = 1;
pub const SUM: i64 = 2;
pub const PRODUCT: i64 = 3;
pub const POWER: i64 = 4;

/// A node whose three numbers obey the table: its kind with its own data.
#[derive(Clone, Copy)]
pub enum Kind {
    Integer(i64),
    Variable(usize),
    Sum(usize, usize),
    Product(usize, usize),
    Power(usize, u32),
}

/// Formal degree and formal weight; `terms` is the number of terms that the node keeps in its part.
#[derive(Clone, Copy)]
pub struct Node {
    pub degree: u32,
    pub weight: u128,
    pub terms: usize,
}

/// The kind of a node, or None where kind, child, variable, exponent or fixed 0 breaks the table.
pub fn kind_of(numbers: &[i64], index: usize) -> Option<Kind> {
    let [kind, first, second] = [numbers[0], numbers[1], numbers[2]];
    let earlier = |number: i64| usize::try_from(number).ok().filter(|&child| child < index);
    match kind {
        INTEGER if second == 0 => Some(Kind::Integer(first)),
        VARIABLE if second == 0 && (0..VARIABLES as i64).contains(&first) => Some(Kind::Variable(first as usize)),
        SUM => Some(Kind::Sum(earlier(first)?, earlier(second)?)),
        PRODUCT => Some(Kind::Product(earlier(first)?, earlier(second)?)),
        POWER if (0..=i64::from(LARGEST_DEGREE)).contains(&second) => {
            Some(Kind::Power(earlier(first)?, second as u32))
        }
        _ => None,
    }
}

fn formal_degree(kind: Kind, nodes: &[Node]) -> u32 {
    match kind {
        Kind::Integer(_) => 0,
        Kind::Variable(_) => 1,
        Kind::Sum(left, right) => nodes[left].degree.max(nodes[right].degree),
        Kind::Product(left, right) => nodes[left].degree + nodes[right].degree,
        Kind::Power(base, exponent) => nodes[base].degree * exponent,
    }
}

/// None above 2^62. The children's weights are at most 2^62 each, so 128 bits hold their sum and their product.
fn formal_weight(kind: Kind, nodes: &[Node]) -> Option<u128> {
    let weight = match kind {
        Kind::Integer(value) => u128::from(value.unsigned_abs()),
        Kind::Variable(_) => 1,
        Kind::Sum(left, right) => nodes[left].weight + nodes[right].weight,
        Kind::Product(left, right) => nodes[left].weight * nodes[right].weight,
        Kind::Power(base, exponent) => raised_weight(nodes[base].weight, exponent)?,
    };
    (weight <= LARGEST_WEIGHT).then_some(weight)
}

/// The node's ordered sum from the ordered sums of its children; None if a spread is too large.
fn ordered_sum(kind: Kind, sum_at: &dyn Fn(usize) -> Sum) -> Option<Sum> {
    match kind {
        Kind::Integer(value) => Some(Sum::one_term(value, Pattern::empty())),
        Kind::Variable(variable) => Some(Sum::one_term(1, Pattern::letter(variable))),
        Kind::Sum(left, right) => sum_of(&sum_at(left), &sum_at(right)),
        Kind::Product(left, right) => product_of(&sum_at(left), &sum_at(right)),
        Kind::Power(base, exponent) => power_of(&sum_at(base), exponent),
    }
}

/// One node after the earlier ones: NODE, DEGREE, WEIGHT, SPREAD in this order, each at the node's index.
pub fn next_node(numbers: &[i64], nodes: &[Node], sum_at: &dyn Fn(usize) -> Sum) -> Result<(Node, Sum), Refused> {
    let index = nodes.len();
    let Some(kind) = kind_of(numbers, index) else { return refuse(NODE, index) };
    let degree = formal_degree(kind, nodes);
    if degree > LARGEST_DEGREE {
        return refuse(DEGREE, index);
    }
    let Some(weight) = formal_weight(kind, nodes) else { return refuse(WEIGHT, index) };
    let Some(sum) = ordered_sum(kind, sum_at) else { return refuse(SPREAD, index) };
    Ok((Node { degree, weight, terms: sum.terms.len() }, sum))
}

/// The terms that a node keeps in its part of the work areas.
fn kept_sum(index: usize, count: usize, patterns: &[u64], coefficients: &[i64]) -> Sum {
    let start = PART * index;
    let terms = (start..start + count)
        .map(|place| Term { coefficient: coefficients[place], pattern: Pattern::from_word(patterns[place]) })
        .collect();
    Sum { terms }
}

fn keep_sum(index: usize, sum: &Sum, patterns: &mut [u64], coefficients: &mut [i64]) {
    for (offset, term) in sum.terms.iter().enumerate() {
        patterns[PART * index + offset] = term.pattern.word();
        coefficients[PART * index + offset] = term.coefficient;
    }
}

/// The last node's ordered sum. Every node is checked, used or not.
fn sum_of_table(table: &[i64], patterns: &mut [u64], coefficients: &mut [i64]) -> Result<Sum, Refused> {
    let count = table.len() / NODE_NUMBERS;
    if table.len() % NODE_NUMBERS != 0 || count < 1 || count > MOST_NODES {
        return refuse(SHAPE, 0);
    }
    let mut nodes: Vec<Node> = Vec::new();
    for numbers in table.chunks(NODE_NUMBERS) {
        let sum_at = |index: usize| kept_sum(index, nodes[index].terms, patterns, coefficients);
        let (node, sum) = next_node(numbers, &nodes, &sum_at)?;
        keep_sum(nodes.len(), &sum, patterns, coefficients);
        nodes.push(node);
    }
    let last = nodes.len() - 1;
    Ok(kept_sum(last, nodes[last].terms, patterns, coefficients))
}

/// ROOM is judged before the work areas are touched; after any other answer the places that they need are zero.
pub fn simplify(table: &[i64], result: &mut [u8], patterns: &mut [u64], coefficients: &mut [i64]) -> Answer {
    if result.len() < MOST_PACKED || patterns.len() < WORK_ROOM || coefficients.len() < WORK_ROOM {
        return refuse(ROOM, 0);
    }
    let answer = sum_of_table(table, patterns, coefficients);
    patterns[..WORK_ROOM].fill(0);
    coefficients[..WORK_ROOM].fill(0);
    write_result(&answer?, result)
}
