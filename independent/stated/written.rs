//! Packed bytes of an ordered sum as it is written in a paper. The terms are packed in the order written and nothing is
//! collected or sorted, so an expected sum does not pass through the code that it checks.

use crate::packed::{code_of, write_number};
use crate::sums::{FIRST_LETTER, LAST_LETTER, VARIABLES};

/// Terms such as `6*a^2*b`, `-a`, `4`; `0` alone is the zero sum.
pub fn as_written(text: &str) -> Vec<u8> {
    if text == "0" {
        return vec![0];
    }
    let marked = text.replace('-', "+-");
    let terms: Vec<&str> = marked.split('+').filter(|term| !term.is_empty()).collect();
    let mut bytes = Vec::new();
    write_number(&mut bytes, terms.len() as u64);
    for term in terms {
        write_term(&mut bytes, term);
    }
    bytes
}

fn write_term(bytes: &mut Vec<u8>, term: &str) {
    let (sign, factors) = match term.strip_prefix('-') {
        Some(rest) => (-1, rest),
        None => (1, term),
    };
    let mut coefficient: i128 = sign;
    let mut exponents = [0u64; VARIABLES];
    for factor in factors.split('*') {
        let (base, exponent) = factor.split_once('^').unwrap_or((factor, "1"));
        match base.as_bytes() {
            [letter @ FIRST_LETTER..=LAST_LETTER] => {
                exponents[usize::from(letter - FIRST_LETTER)] = exponent.parse().expect("an exponent");
            }
            _ => coefficient *= base.parse::<i128>().expect("a coefficient"),
        }
    }
    write_number(bytes, code_of(coefficient));
    for exponent in exponents {
        write_number(bytes, exponent);
    }
}
