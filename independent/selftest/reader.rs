//! A second reader of packed sums and lists. It values numbers without regard to their form and then asks whether writing
//! the value gives the same bytes again; it keeps patterns as lists of numbers and compares them by 01's words.

use super::Report;
use crate::change::MOST_PAIRS;
use crate::fields::{show_words, Input};
use crate::operations::other_fields;
use crate::packed::{write_number, MOST_GROUPS};
use crate::sums::{EXPONENT_BITS, LARGEST_DEGREE, MOST_TERMS, VARIABLES};

/// A fault's place, and whether it is a variable number.
type Fault = (usize, bool);

fn number_at(bytes: &[u8], place: usize) -> Result<(u64, usize), usize> {
    let rest = &bytes[place.min(bytes.len())..];
    let length = rest.iter().take(MOST_GROUPS).position(|&byte| byte < 128).map(|last| last + 1);
    let Some(length) = length else {
        // As many bytes as there may be that all ask for more are a fault; fewer are an end.
        return Err(if rest.len() >= MOST_GROUPS { place } else { bytes.len() });
    };
    let value = rest[..length].iter().rev().fold(0u128, |value, &byte| value * 128 + u128::from(byte % 128));
    let Ok(value) = u64::try_from(value) else { return Err(place) };
    let mut again = Vec::new();
    write_number(&mut again, value);
    if again != rest[..length] {
        return Err(place);
    }
    Ok((value, place + length))
}

/// Is the second pattern strictly after the first: by larger total degree, then by the larger power of a, of b, ..?
fn after(first: &[u64], second: &[u64]) -> bool {
    let degrees = [first, second].map(|pattern| pattern.iter().sum::<u64>());
    if degrees[0] != degrees[1] {
        return degrees[0] > degrees[1];
    }
    for letter in 0..VARIABLES {
        if first[letter] != second[letter] {
            return first[letter] > second[letter];
        }
    }
    false
}

/// Coefficients and patterns, and the place after them.
pub type Terms = Vec<(i128, Vec<u64>)>;

fn sum_at(bytes: &[u8], place: usize) -> Result<(Terms, usize), usize> {
    let (count, mut next) = number_at(bytes, place)?;
    if count > MOST_TERMS as u64 {
        return Err(place);
    }
    let mut terms: Terms = Vec::new();
    for _ in 0..count {
        let start = next;
        let (code, after_code) = number_at(bytes, start)?;
        let half = i128::from(code / 2);
        let coefficient = if code % 2 == 1 { -1 - half } else { half };
        let total: i128 = terms.iter().map(|term| term.0.abs()).sum::<i128>() + coefficient.abs();
        if coefficient == 0 || total > 1 << 62 {
            return Err(start);
        }
        next = after_code;
        let mut pattern: Vec<u64> = Vec::new();
        while pattern.len() < VARIABLES {
            let (exponent, after_exponent) = number_at(bytes, next)?;
            if exponent > u64::from(LARGEST_DEGREE) - pattern.iter().sum::<u64>() {
                return Err(next);
            }
            pattern.push(exponent);
            next = after_exponent;
        }
        if terms.last().is_some_and(|(_, before)| !after(before, &pattern)) {
            return Err(start);
        }
        terms.push((coefficient, pattern));
    }
    Ok((terms, next))
}

pub fn whole_sum(bytes: &[u8]) -> Result<Terms, usize> {
    let (terms, next) = sum_at(bytes, 0)?;
    if next < bytes.len() {
        return Err(next);
    }
    Ok(terms)
}

fn whole_list(bytes: &[u8]) -> Result<(), Fault> {
    let plain = |place: usize| (place, false);
    let (count, mut next) = number_at(bytes, 0).map_err(plain)?;
    if count > MOST_PAIRS as u64 {
        return Err((0, false));
    }
    for _ in 0..count {
        let (variable, after_variable) = number_at(bytes, next).map_err(plain)?;
        if variable >= VARIABLES as u64 {
            return Err((next, true));
        }
        next = sum_at(bytes, after_variable).map_err(plain)?.1;
    }
    if next < bytes.len() {
        return Err((next, false));
    }
    Ok(())
}

pub fn check_sum(inputs: &[Input], own: &str, report: &mut Report) {
    let [Input::Bytes(bytes)] = inputs else { other_fields() };
    if own.starts_with("refused 1 ") {
        return;
    }
    let expected = match whole_sum(bytes) {
        Err(place) => format!("refused 7 {place} stay stay"),
        Ok(terms) => {
            let word = |pattern: &Vec<u64>| pattern.iter().fold(0, |word, exponent| word << EXPONENT_BITS | exponent);
            let patterns: Vec<u64> = terms.iter().map(|(_, pattern)| word(pattern)).collect();
            let coefficients: Vec<u64> = terms.iter().map(|(coefficient, _)| *coefficient as u64).collect();
            format!("done {} {} {} stay stay", terms.len(), show_words(&patterns), show_words(&coefficients))
        }
    };
    report.expect("unpack, a second reader", own == expected, || format!("{bytes:?}: {own}, second {expected}"));
}

/// The reading part of substitute: SUM, LIST and VARIABLE with their places, or none of them.
pub fn check_list(sum: &[u8], list: &[u8], own: &str, report: &mut Report) {
    if own.starts_with("refused 1 ") {
        return;
    }
    let expected = match (whole_sum(sum), whole_list(list)) {
        (Err(place), _) => format!("refused 7 {place} stay zero zero"),
        (Ok(_), Err((place, true))) => format!("refused 9 {place} stay zero zero"),
        (Ok(_), Err((place, false))) => format!("refused 8 {place} stay zero zero"),
        (Ok(_), Ok(())) => String::new(),
    };
    let reading = ["refused 7 ", "refused 8 ", "refused 9 "].iter().any(|start| own.starts_with(start));
    let holds = if expected.is_empty() { !reading } else { own == expected };
    report.expect("list, a second reader", holds, || format!("{list:?}: {own}, second {expected}"));
}
