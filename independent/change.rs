//! Slope and substitute of 01.

use crate::packed::{read_sum, write_result, Reader, MOST_PACKED};
use crate::refusals::{refuse, Answer, Refused, DEGREE, LIST, ROOM, SPREAD, VARIABLE, WEIGHT};
use crate::sums::{product_of, raised_weight, Gathered, Pattern, Sum, Term};
use crate::sums::{LARGEST_DEGREE, LARGEST_WEIGHT, VARIABLES};
use crate::table::WORK_ROOM;

/// 01 gives this number beside that of the variables, and does not say that the one follows from the other.
pub const MOST_PAIRS: usize = 8;

pub fn slope(bytes: &[u8], variable: u64, result: &mut [u8]) -> Answer {
    if result.len() < MOST_PACKED {
        return refuse(ROOM, 0);
    }
    let sum = read_sum(bytes)?;
    if variable >= VARIABLES as u64 {
        return refuse(VARIABLE, 0);
    }
    let variable = variable as usize;
    let mut weight = 0u128;
    let mut gathered = Gathered::default();
    for term in &sum.terms {
        let power = term.pattern.exponent(variable);
        if power > 0 {
            let coefficient = i128::from(term.coefficient) * i128::from(power);
            weight += coefficient.unsigned_abs();
            gathered.add(term.pattern.with(variable, power - 1), coefficient);
        }
    }
    if weight > LARGEST_WEIGHT {
        return refuse(WEIGHT, 0);
    }
    // 01 names this check; a slope has no more terms than the sum, so it is never met.
    if gathered.too_wide() {
        return refuse(SPREAD, 0);
    }
    write_result(&gathered.ordered(), result)
}

/// A variable and the sum put in for it.
pub struct Pair {
    pub variable: usize,
    pub sum: Sum,
}

/// The whole list, left-over bytes included, before any pair is applied.
pub fn read_list(bytes: &[u8]) -> Result<Vec<Pair>, Refused> {
    let fault = |place: usize| Refused { number: LIST, place: place as u64 };
    let mut reader = Reader::new(bytes);
    let count = reader.number().map_err(fault)?;
    if count > MOST_PAIRS as u64 {
        return refuse(LIST, 0);
    }
    let mut pairs = Vec::new();
    for _ in 0..count {
        let first = reader.place;
        let variable = reader.number().map_err(fault)?;
        if variable >= VARIABLES as u64 {
            return refuse(VARIABLE, first);
        }
        let sum = reader.sum().map_err(fault)?;
        pairs.push(Pair { variable: variable as usize, sum });
    }
    reader.end().map_err(fault)?;
    Ok(pairs)
}

/// The power of the pair's variable in a term.
fn power_in(term: &Term, pair: &Pair) -> u32 {
    u32::from(term.pattern.exponent(pair.variable))
}

/// The largest, over terms, of the other exponents added plus k x degree of S.
fn degree_after(sum: &Sum, pair: &Pair) -> u32 {
    let degree_of = |term: &Term| {
        let power = power_in(term, pair);
        term.pattern.degree() - power + power * pair.sum.degree()
    };
    sum.terms.iter().map(degree_of).max().unwrap_or(0)
}

/// The sum over terms of |coefficient| x (weight of S)^k; None above 2^62. No coefficient is 0, so a power of the
/// weight above 2^62 already decides.
fn weight_after(sum: &Sum, pair: &Pair) -> Option<u128> {
    let mut weight = 0u128;
    for term in &sum.terms {
        let raised = raised_weight(pair.sum.weight(), power_in(term, pair))?;
        weight += u128::from(term.coefficient.unsigned_abs()) * raised;
        if weight > LARGEST_WEIGHT {
            return None;
        }
    }
    Some(weight)
}

/// S^0 = 1, S^1 = S, then each step up to the largest k; None if a step's spread is too large.
fn powers_of(pair: &Pair, largest: u32) -> Option<Vec<Sum>> {
    let mut powers = vec![Sum::one_term(1, Pattern::empty()), pair.sum.clone()];
    for _ in 2..=largest {
        let next = product_of(powers.last().expect("never empty"), &pair.sum)?;
        powers.push(next);
    }
    Some(powers)
}

/// All terms' products together; None if a spread is too large.
fn put_in(sum: &Sum, pair: &Pair) -> Option<Sum> {
    let largest = sum.terms.iter().map(|term| power_in(term, pair)).max().unwrap_or(0);
    let powers = powers_of(pair, largest)?;
    let mut gathered = Gathered::default();
    for term in &sum.terms {
        let others = term.pattern.with(pair.variable, 0);
        for factor in &powers[power_in(term, pair) as usize].terms {
            let coefficient = i128::from(term.coefficient) * i128::from(factor.coefficient);
            gathered.add(others.product(&factor.pattern), coefficient);
        }
        // The spread never falls, so the rest need not be looked at.
        if gathered.too_wide() {
            return None;
        }
    }
    Some(gathered.ordered())
}

fn apply_list(bytes: &[u8], list: &[u8]) -> Result<Sum, Refused> {
    let mut sum = read_sum(bytes)?;
    for (index, pair) in read_list(list)?.iter().enumerate() {
        if degree_after(&sum, pair) > LARGEST_DEGREE {
            return refuse(DEGREE, index);
        }
        if weight_after(&sum, pair).is_none() {
            return refuse(WEIGHT, index);
        }
        let Some(next) = put_in(&sum, pair) else { return refuse(SPREAD, index) };
        sum = next;
    }
    Ok(sum)
}

/// 01 does not say what substitute keeps in its work areas, only how it leaves them; here they are not needed.
pub fn substitute(
    bytes: &[u8],
    list: &[u8],
    result: &mut [u8],
    patterns: &mut [u64],
    coefficients: &mut [i64],
) -> Answer {
    if result.len() < MOST_PACKED || patterns.len() < WORK_ROOM || coefficients.len() < WORK_ROOM {
        return refuse(ROOM, 0);
    }
    patterns[..WORK_ROOM].fill(0);
    coefficients[..WORK_ROOM].fill(0);
    write_result(&apply_list(bytes, list)?, result)
}
