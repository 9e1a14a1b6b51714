//! The estimate of 01 with its margin. The margin is what docs/DECISIONS.md takes: all signs dropped, the value at the
//! raised readings less the value at the plain ones. A raised reading is |reading| + tolerance.

use crate::packed::read_sum;
use crate::refusals::{refuse, Answer, Refused, RANGE, READING, ROOM};
use crate::sums::{Pattern, Sum, LARGEST_WEIGHT, VARIABLES};

/// Estimate and margin.
pub const ANSWER_ROOM: usize = 2 * NUMBER_BYTES;
const NUMBER_BYTES: usize = 8;
/// Readings, and tolerances as well: two bytes for each variable.
pub const READING_BYTES: usize = 2 * VARIABLES;

/// Two-byte two's complement numbers, low byte first.
fn numbers_of(bytes: &[u8]) -> [i64; VARIABLES] {
    std::array::from_fn(|index| i64::from(i16::from_le_bytes([bytes[2 * index], bytes[2 * index + 1]])))
}

/// A wrong length of either is place 0, whatever the tolerances hold; else the first negative tolerance.
fn read_numbers(readings: &[u8], tolerances: &[u8]) -> Result<([i64; VARIABLES], [i64; VARIABLES]), Refused> {
    if readings.len() != READING_BYTES || tolerances.len() != READING_BYTES {
        return refuse(READING, 0);
    }
    let tolerances = numbers_of(tolerances);
    if let Some(index) = tolerances.iter().position(|&tolerance| tolerance < 0) {
        return refuse(READING, index);
    }
    Ok((numbers_of(readings), tolerances))
}

/// The factor that a pattern is at these values, or None above 2^62. A factor 0 decides before any other is raised.
fn raised_pattern(pattern: &Pattern, raised: &[u128; VARIABLES]) -> Option<u128> {
    let letters = || (0..VARIABLES).filter(|&letter| pattern.exponent(letter) > 0);
    if letters().any(|letter| raised[letter] == 0) {
        return Some(0);
    }
    let mut product = 1u128;
    for letter in letters() {
        for _ in 0..pattern.exponent(letter) {
            product *= raised[letter];
            if product > LARGEST_WEIGHT {
                return None;
            }
        }
    }
    Some(product)
}

/// The value with all signs dropped, or None above 2^62. No coefficient is 0, so a pattern above 2^62 decides.
fn unsigned_value(sum: &Sum, raised: &[u128; VARIABLES]) -> Option<u128> {
    let mut total = 0u128;
    for term in &sum.terms {
        total += u128::from(term.coefficient.unsigned_abs()) * raised_pattern(&term.pattern, raised)?;
        if total > LARGEST_WEIGHT {
            return None;
        }
    }
    Some(total)
}

/// The exact value. Called after RANGE: no term's product is above 2^62 then, but a zero factor still has to be seen
/// first, since the other factors of such a term were not bounded.
fn value(sum: &Sum, readings: &[i64; VARIABLES]) -> i128 {
    let mut total = 0i128;
    for term in &sum.terms {
        let letters = || (0..VARIABLES).filter(|&letter| term.pattern.exponent(letter) > 0);
        if letters().all(|letter| readings[letter] != 0) {
            let mut product = i128::from(term.coefficient);
            for letter in letters() {
                for _ in 0..term.pattern.exponent(letter) {
                    product *= i128::from(readings[letter]);
                }
            }
            total += product;
        }
    }
    total
}

pub fn estimate(bytes: &[u8], readings: &[u8], tolerances: &[u8], answer: &mut [u8]) -> Answer {
    if answer.len() < ANSWER_ROOM {
        return refuse(ROOM, 0);
    }
    let sum = read_sum(bytes)?;
    let (readings, tolerances) = read_numbers(readings, tolerances)?;
    let plain: [u128; VARIABLES] = std::array::from_fn(|index| u128::from(readings[index].unsigned_abs()));
    let raised = std::array::from_fn(|index| plain[index] + u128::from(tolerances[index].unsigned_abs()));
    let Some(highest) = unsigned_value(&sum, &raised) else { return refuse(RANGE, 0) };
    let lowest = unsigned_value(&sum, &plain).expect("no more than the raised value");
    let estimate = i64::try_from(value(&sum, &readings)).expect("no more than the raised value");
    let margin = i64::try_from(highest - lowest).expect("no more than the raised value");
    answer[..NUMBER_BYTES].copy_from_slice(&estimate.to_le_bytes());
    answer[NUMBER_BYTES..ANSWER_ROOM].copy_from_slice(&margin.to_le_bytes());
    Ok(ANSWER_ROOM as u64)
}
