//! A second simplify, substitute, slope and estimate: one number for all exponents of a pattern, hashed sets for the
//! spread, and saturating arithmetic for weights and raised values.

use super::{reader, Report};
use crate::change::read_list;
use crate::estimate::{ANSWER_ROOM, READING_BYTES};
use crate::fields::{show_bytes, Input};
use crate::operations::other_fields;
use crate::packed::{code_of, read_sum, write_number};
use crate::sums::{Sum, Term, LARGEST_DEGREE, LARGEST_SPREAD, LARGEST_WEIGHT, VARIABLES};
use crate::table::{MOST_NODES, NODE_NUMBERS};
use std::collections::{HashMap, HashSet};

/// A pattern as one number, a byte for each exponent; how words hold patterns does not matter here.
type Key = u128;

/// Keys with coefficients, in no order.
type Terms = HashMap<Key, i128>;

/// What one more power of a variable adds to a key: the first variable has the highest byte.
fn unit(variable: usize) -> Key {
    1 << (8 * (VARIABLES - 1 - variable))
}

fn power_in(key: Key, variable: usize) -> u32 {
    (key / unit(variable) % 256) as u32
}

fn degree_of(key: Key) -> u32 {
    (0..VARIABLES).map(|variable| power_in(key, variable)).sum()
}

/// All pairs: adding keys adds exponents, since none passes the largest degree. None if there are too many patterns.
fn product(left: &Terms, right: &Terms) -> Option<Terms> {
    let pairs = || left.iter().flat_map(|mine| right.iter().map(move |theirs| (mine, theirs)));
    let met: HashSet<Key> = pairs().map(|((mine, _), (theirs, _))| mine + theirs).collect();
    if met.len() > LARGEST_SPREAD {
        return None;
    }
    let mut result = Terms::new();
    for ((mine, coefficient), (theirs, factor)) in pairs() {
        *result.entry(mine + theirs).or_insert(0) += coefficient * factor;
    }
    Some(without_zeros(result))
}

fn without_zeros(mut words: Terms) -> Terms {
    words.retain(|_, coefficient| *coefficient != 0);
    words
}

fn sum(left: &Terms, right: &Terms) -> Option<Terms> {
    let met: HashSet<&Key> = left.keys().chain(right.keys()).collect();
    if met.len() > LARGEST_SPREAD {
        return None;
    }
    let mut result = left.clone();
    for (word, coefficient) in right {
        *result.entry(*word).or_insert(0) += coefficient;
    }
    Some(without_zeros(result))
}

fn power(base: &Terms, exponent: usize) -> Option<Terms> {
    let one = Terms::from([(0, 1)]);
    // Starting from 1: the first step is the base itself, which is never too wide.
    (0..exponent).try_fold(one, |power, _| product(&power, base))
}

fn packed(sum: &Terms) -> Vec<u8> {
    let mut terms: Vec<(Key, i128)> = sum.iter().map(|(&key, &coefficient)| (key, coefficient)).collect();
    // At equal degree the larger key stands first.
    terms.sort_by(|left, right| (degree_of(right.0), right.0).cmp(&(degree_of(left.0), left.0)));
    let mut bytes = Vec::new();
    write_number(&mut bytes, terms.len() as u64);
    for (key, coefficient) in terms {
        write_number(&mut bytes, code_of(coefficient));
        for variable in 0..VARIABLES {
            write_number(&mut bytes, u64::from(power_in(key, variable)));
        }
    }
    bytes
}

struct Done {
    degree: u64,
    weight: u128,
    terms: Terms,
}

/// One node, or the refusal's number.
fn node(numbers: &[i64], earlier: &[Done]) -> Result<Done, u64> {
    let [kind, first, second] = [numbers[0], numbers[1], numbers[2]];
    let count = earlier.len() as i64;
    let child = |number: i64| if number >= 0 && number < count { Ok(&earlier[number as usize]) } else { Err(3u64) };
    let allowed = |holds: bool| if holds { Ok(()) } else { Err(3u64) };
    let (degree, weight) = match kind {
        0 => allowed(second == 0).map(|()| (0, u128::from(first.unsigned_abs())))?,
        1 => allowed(second == 0 && first >= 0 && first < VARIABLES as i64).map(|()| (1, 1))?,
        2 => (child(first)?.degree.max(child(second)?.degree), child(first)?.weight + child(second)?.weight),
        3 => (child(first)?.degree + child(second)?.degree, child(first)?.weight.saturating_mul(child(second)?.weight)),
        4 => {
            allowed((0..=i64::from(LARGEST_DEGREE)).contains(&second))?;
            (child(first)?.degree * second as u64, child(first)?.weight.saturating_pow(second as u32))
        }
        _ => return Err(3),
    };
    if degree > u64::from(LARGEST_DEGREE) {
        return Err(4);
    }
    if weight > LARGEST_WEIGHT {
        return Err(5);
    }
    let terms = match kind {
        0 => Some(without_zeros(Terms::from([(0, i128::from(first))]))),
        1 => Some(Terms::from([(unit(first as usize), 1)])),
        2 => sum(&child(first)?.terms, &child(second)?.terms),
        3 => product(&child(first)?.terms, &child(second)?.terms),
        _ => power(&child(first)?.terms, second as usize),
    };
    Ok(Done { degree, weight, terms: terms.ok_or(6u64)? })
}

fn table_answer(table: &[i64]) -> String {
    if table.is_empty() || table.len() % NODE_NUMBERS != 0 || table.len() > NODE_NUMBERS * MOST_NODES {
        return "refused 2 0 stay zero zero".to_string();
    }
    let mut nodes: Vec<Done> = Vec::new();
    for numbers in table.chunks(NODE_NUMBERS) {
        match node(numbers, &nodes) {
            Ok(done) => nodes.push(done),
            Err(number) => return format!("refused {number} {} stay zero zero", nodes.len()),
        }
    }
    done_answer(&nodes.last().expect("at least one").terms)
}

fn done_answer(terms: &Terms) -> String {
    let bytes = packed(terms);
    format!("done {} {} stay zero zero", bytes.len(), show_bytes(&bytes))
}

pub fn check_table(inputs: &[Input], own: &str, report: &mut Report) {
    let [Input::Signed(table)] = inputs else { other_fields() };
    if own.starts_with("refused 1 ") {
        return;
    }
    let expected = table_answer(table);
    report.expect("simplify, a second way", own == expected, || format!("{table:?}: {own}, second {expected}"));
}

fn terms_of(sum: &Sum) -> Terms {
    let power = |term: &Term, variable: usize| Key::from(term.pattern.exponent(variable)) * unit(variable);
    let key = |term: &Term| (0..VARIABLES).map(|variable| power(term, variable)).sum();
    sum.terms.iter().map(|term| (key(term), i128::from(term.coefficient))).collect()
}

/// One pair, or the refusal's number.
fn put_in(terms: &Terms, variable: usize, inside: &Terms) -> Result<Terms, u64> {
    let power_in = |key: Key| power_in(key, variable);
    let inside_degree = inside.keys().map(|&key| degree_of(key)).max().unwrap_or(0);
    let inside_weight: u128 = inside.values().map(|coefficient| coefficient.unsigned_abs()).sum();
    let degree_after = |key: Key| degree_of(key) - power_in(key) + power_in(key) * inside_degree;
    if terms.keys().any(|&key| degree_after(key) > LARGEST_DEGREE) {
        return Err(4);
    }
    let weigh = |(&key, coefficient): (&Key, &i128)| {
        coefficient.unsigned_abs().saturating_mul(inside_weight.saturating_pow(power_in(key)))
    };
    if terms.iter().map(weigh).fold(0u128, u128::saturating_add) > LARGEST_WEIGHT {
        return Err(5);
    }
    let mut met = HashSet::new();
    let mut result = Terms::new();
    for (&key, &coefficient) in terms {
        let others = key - Key::from(power_in(key)) * unit(variable);
        for (factor, times) in power(inside, power_in(key) as usize).ok_or(6u64)? {
            met.insert(others + factor);
            *result.entry(others + factor).or_insert(0) += coefficient * times;
        }
    }
    if met.len() > LARGEST_SPREAD {
        return Err(6);
    }
    Ok(without_zeros(result))
}

/// Its reading by a second reader, and its result by a second way.
pub fn check_substitute(inputs: &[Input], own: &str, report: &mut Report) {
    let [Input::Bytes(sum), Input::Bytes(list)] = inputs else { other_fields() };
    reader::check_list(sum, list, own, report);
    check_substitution(sum, list, own, report);
}

fn check_substitution(sum: &[u8], list: &[u8], own: &str, report: &mut Report) {
    let (Ok(sum), Ok(pairs)) = (read_sum(sum), read_list(list)) else { return };
    if own.starts_with("refused 1 ") {
        return;
    }
    let mut terms = terms_of(&sum);
    let mut refused = None;
    for (index, pair) in pairs.iter().enumerate() {
        match put_in(&terms, pair.variable, &terms_of(&pair.sum)) {
            Ok(next) => terms = next,
            Err(number) => {
                refused = Some(format!("refused {number} {index} stay zero zero"));
                break;
            }
        }
    }
    let expected = refused.unwrap_or_else(|| done_answer(&terms));
    report.expect("substitute, a second way", own == expected, || format!("{sum:?}: {own}, second {expected}"));
}

/// The slope's keys lose one power of the variable.
pub fn check_slope(inputs: &[Input], own: &str, report: &mut Report) {
    let [Input::Bytes(bytes), Input::Number(variable)] = inputs else { other_fields() };
    let Ok(sum) = read_sum(bytes) else { return };
    if own.starts_with("refused 1 ") {
        return;
    }
    let expected = if *variable >= VARIABLES as u64 {
        "refused 9 0 stay".to_string()
    } else {
        let terms = slope(&terms_of(&sum), *variable as usize);
        let weight: u128 = terms.values().map(|coefficient| coefficient.unsigned_abs()).sum();
        if weight > LARGEST_WEIGHT {
            "refused 5 0 stay".to_string()
        } else {
            done_answer(&terms).replace(" zero zero", "")
        }
    };
    report.expect("slope, a second way", own == expected, || format!("{sum:?}: {own}, second {expected}"));
}

fn slope(terms: &Terms, variable: usize) -> Terms {
    terms
        .iter()
        .filter(|(&key, _)| power_in(key, variable) > 0)
        .map(|(&key, &coefficient)| (key - unit(variable), coefficient * i128::from(power_in(key, variable))))
        .collect()
}

/// Saturating products keep a factor 0 exact in any order: the largest number times 0 is 0.
pub fn check_estimate(inputs: &[Input], own: &str, report: &mut Report) {
    let [Input::Bytes(sum), Input::Bytes(readings), Input::Bytes(tolerances)] = inputs else { other_fields() };
    let Ok(sum) = read_sum(sum) else { return };
    let numbers = |bytes: &[u8]| -> Vec<i128> {
        bytes.chunks(2).map(|pair| i128::from(i16::from_le_bytes([pair[0], *pair.get(1).unwrap_or(&0)]))).collect()
    };
    let (read, allowed) = (numbers(readings), numbers(tolerances));
    let wrong_length = readings.len() != READING_BYTES || tolerances.len() != READING_BYTES;
    if wrong_length || allowed.iter().any(|&tolerance| tolerance < 0) || own.starts_with("refused 1 ") {
        return;
    }
    let plain: Vec<u128> = read.iter().map(|reading| reading.unsigned_abs()).collect();
    let raised: Vec<u128> = (0..VARIABLES).map(|index| plain[index] + allowed[index].unsigned_abs()).collect();
    let total = |values: &[u128]| {
        let term = |term: &Term| {
            let start = u128::from(term.coefficient.unsigned_abs());
            (0..VARIABLES).fold(start, |product, letter| {
                product.saturating_mul(values[letter].saturating_pow(u32::from(term.pattern.exponent(letter))))
            })
        };
        sum.terms.iter().map(term).fold(0u128, u128::saturating_add)
    };
    let expected = if total(&raised) > LARGEST_WEIGHT {
        "refused 11 0 stay".to_string()
    } else {
        let margin = (total(&raised) - total(&plain)) as i64;
        let bytes = [(value(&sum, &read) as i64).to_le_bytes(), margin.to_le_bytes()].concat();
        format!("done {ANSWER_ROOM} {} stay", show_bytes(&bytes))
    };
    report.expect("estimate, a second way", own == expected, || format!("{sum:?}: {own}, second {expected}"));
}

/// The exact value in wrapping arithmetic: it is right at the end, since the true value is within 2^62.
fn value(sum: &Sum, readings: &[i128]) -> i128 {
    let term = |term: &Term| {
        (0..VARIABLES).fold(i128::from(term.coefficient), |product, letter| {
            product.wrapping_mul(readings[letter].wrapping_pow(u32::from(term.pattern.exponent(letter))))
        })
    };
    sum.terms.iter().map(term).fold(0, i128::wrapping_add)
}
