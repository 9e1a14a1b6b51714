//! Packed bytes of 01: numbers in groups of seven bits, packed sums, and the places of their faults; unpack and pack.

use crate::refusals::{refuse, Answer, Refused, ROOM, SHAPE, SUM};
use crate::sums::{Pattern, Sum, Term, LARGEST_DEGREE, LARGEST_WEIGHT, MOST_TERMS, VARIABLES};

/// Groups of seven bits that a number below 2^64 takes at most. All but the last hold 63 bits.
pub const MOST_GROUPS: usize = 10;
/// A term has its coefficient and a byte for each exponent, since none is above 127.
pub const MOST_TERM_BYTES: usize = MOST_GROUPS + VARIABLES;
/// The count takes two bytes where it is largest.
const MOST_COUNT_BYTES: usize = 2;
/// What 01 gives a packed result, and so the room that it needs.
pub const MOST_PACKED: usize = MOST_TERM_BYTES * MOST_TERMS + MOST_COUNT_BYTES;
pub const UNPACK_ROOM: usize = MOST_TERMS;

/// The caller's bytes and the place in them. Every reading function answers with the place of the first fault met.
pub struct Reader<'a> {
    bytes: &'a [u8],
    pub place: usize,
}

impl<'a> Reader<'a> {
    pub fn new(bytes: &'a [u8]) -> Reader<'a> {
        Reader { bytes, place: 0 }
    }

    /// One number: low group first, shortest form only, at most 2^64 - 1.
    pub fn number(&mut self) -> Result<u64, usize> {
        let first = self.place;
        let mut value = 0u64;
        for group in 0..MOST_GROUPS {
            let Some(&byte) = self.bytes.get(first + group) else { return Err(self.bytes.len()) };
            // The last group has one bit left. Above 1, it would pass 2^64 - 1 or ask for a group more.
            if group == MOST_GROUPS - 1 && byte > 1 {
                return Err(first);
            }
            value |= u64::from(byte & 0x7f) << (7 * group);
            if byte < 0x80 {
                if byte == 0 && group > 0 {
                    return Err(first);
                }
                self.place = first + group + 1;
                return Ok(value);
            }
        }
        unreachable!("the last group always ends the number or is a fault")
    }

    /// One packed sum. What follows it is not looked at: left-over bytes are `end`'s affair.
    pub fn sum(&mut self) -> Result<Sum, usize> {
        let first = self.place;
        let count = self.number()?;
        if count > MOST_TERMS as u64 {
            return Err(first);
        }
        let mut sum = Sum::zero();
        let mut total = 0u128;
        for _ in 0..count {
            let before = sum.terms.last().map(|term| term.pattern);
            let term = self.term(&mut total, before)?;
            sum.terms.push(term);
        }
        Ok(sum)
    }

    fn term(&mut self, total: &mut u128, before: Option<Pattern>) -> Result<Term, usize> {
        let first = self.place;
        let coefficient = coefficient_of(self.number()?);
        *total += coefficient.unsigned_abs();
        if coefficient == 0 || *total > LARGEST_WEIGHT {
            return Err(first);
        }
        let pattern = self.pattern()?;
        // Strictly after: the term before has the greater pattern.
        if before.is_some_and(|before| before <= pattern) {
            return Err(first);
        }
        let coefficient = i64::try_from(coefficient).expect("at most 2^62");
        Ok(Term { coefficient, pattern })
    }

    fn pattern(&mut self) -> Result<Pattern, usize> {
        let mut exponents = [0u8; VARIABLES];
        let mut degree = 0u128;
        for exponent in &mut exponents {
            let first = self.place;
            let number = self.number()?;
            degree += u128::from(number);
            if degree > u128::from(LARGEST_DEGREE) {
                return Err(first);
            }
            *exponent = number as u8;
        }
        Ok(Pattern::new(exponents))
    }

    /// Bytes left over are a fault at the first of them.
    pub fn end(&self) -> Result<(), usize> {
        if self.place < self.bytes.len() {
            return Err(self.place);
        }
        Ok(())
    }
}

/// A packed sum and nothing after it; a fault is SUM at its place.
pub fn read_sum(bytes: &[u8]) -> Result<Sum, Refused> {
    let mut reader = Reader::new(bytes);
    let read = reader.sum().and_then(|sum| reader.end().map(|()| sum));
    read.or_else(|place| refuse(SUM, place))
}

/// 2n if n >= 0 and -2n - 1 otherwise. In 128 bits, so that -2^63 is nothing special.
pub fn code_of(coefficient: i128) -> u64 {
    let code = if coefficient >= 0 { 2 * coefficient } else { -2 * coefficient - 1 };
    u64::try_from(code).expect("a 64-bit coefficient")
}

pub fn coefficient_of(code: u64) -> i128 {
    let code = i128::from(code);
    if code % 2 == 0 {
        code / 2
    } else {
        -(code + 1) / 2
    }
}

pub fn write_number(bytes: &mut Vec<u8>, mut number: u64) {
    while number > 0x7f {
        bytes.push(0x80 | (number & 0x7f) as u8);
        number >>= 7;
    }
    bytes.push(number as u8);
}

pub fn packed(sum: &Sum) -> Vec<u8> {
    let mut bytes = Vec::new();
    write_number(&mut bytes, sum.terms.len() as u64);
    for term in &sum.terms {
        write_number(&mut bytes, code_of(i128::from(term.coefficient)));
        for variable in 0..VARIABLES {
            write_number(&mut bytes, u64::from(term.pattern.exponent(variable)));
        }
    }
    bytes
}

/// Writes the packed sum to the front of a result area and answers with its length; the rest stays.
pub fn write_result(sum: &Sum, result: &mut [u8]) -> Answer {
    let bytes = packed(sum);
    result[..bytes.len()].copy_from_slice(&bytes);
    Ok(bytes.len() as u64)
}

pub fn unpack(bytes: &[u8], patterns: &mut [u64], coefficients: &mut [i64]) -> Answer {
    if patterns.len() < UNPACK_ROOM || coefficients.len() < UNPACK_ROOM {
        return refuse(ROOM, 0);
    }
    let sum = read_sum(bytes)?;
    for (place, term) in sum.terms.iter().enumerate() {
        patterns[place] = term.pattern.word();
        coefficients[place] = term.coefficient;
    }
    Ok(sum.terms.len() as u64)
}

pub fn pack(count: u64, patterns: &[u64], coefficients: &[i64], result: &mut [u8]) -> Answer {
    if result.len() < MOST_PACKED {
        return refuse(ROOM, 0);
    }
    let room = patterns.len().min(coefficients.len()).min(MOST_TERMS);
    if count > room as u64 {
        return refuse(SHAPE, 0);
    }
    let mut sum = Sum::zero();
    let mut total = 0u128;
    for index in 0..count as usize {
        let term = Term { coefficient: coefficients[index], pattern: Pattern::from_word(patterns[index]) };
        total += u128::from(term.coefficient.unsigned_abs());
        let in_order = sum.terms.last().is_none_or(|before| before.pattern > term.pattern);
        let bad = term.coefficient == 0 || total > LARGEST_WEIGHT || term.pattern.degree() > LARGEST_DEGREE;
        if bad || !in_order {
            return refuse(SUM, index);
        }
        sum.terms.push(term);
    }
    write_result(&sum, result)
}
