//! The text writer of 02, request One: a packed sum as a text of 01's grammar.

use crate::packed::read_sum;
use crate::refusals::{refuse, Answer, ROOM};
use crate::sums::{Sum, Term, FIRST_LETTER, VARIABLES};

/// What 02 asks of the area, however short the text is.
pub const SPELLING_ROOM: usize = 8_192;

pub fn letter_of(variable: usize) -> char {
    char::from(FIRST_LETTER + variable as u8)
}

/// A term without its sign: its factors, the number first, with a * from each to the next.
fn unsigned(term: &Term) -> String {
    let mut factors = Vec::new();
    let size = term.coefficient.unsigned_abs();
    // A coefficient of 1 is written only where nothing else would be.
    if size != 1 || term.pattern.degree() == 0 {
        factors.push(size.to_string());
    }
    for variable in 0..VARIABLES {
        let letter = letter_of(variable);
        match term.pattern.exponent(variable) {
            0 => {}
            1 => factors.push(letter.to_string()),
            exponent => factors.push(format!("{letter}^{exponent}")),
        }
    }
    factors.join("*")
}

/// Terms in their order. A minus stands before every negative one; a plus only joins, since no text may begin with it.
pub fn spelled(sum: &Sum) -> String {
    if sum.terms.is_empty() {
        return "0".to_string();
    }
    let mut text = String::new();
    for term in &sum.terms {
        if term.coefficient < 0 {
            text.push('-');
        } else if !text.is_empty() {
            text.push('+');
        }
        text.push_str(&unsigned(term));
    }
    text
}

/// The reader's limits of length and nodes are none of the writer's: a text beyond them is written too.
pub fn write(bytes: &[u8], area: &mut [u8]) -> Answer {
    if area.len() < SPELLING_ROOM {
        return refuse(ROOM, 0);
    }
    let text = spelled(&read_sum(bytes)?);
    area[..text.len()].copy_from_slice(text.as_bytes());
    Ok(text.len() as u64)
}
