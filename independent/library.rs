//! The library under comparison, linked as C functions. Only in the build with `--cfg linked`. Each operation's file
//! declares its function: a slice is a pointer and then its length in elements, and every area is lent by the caller, so
//! the pointers hold for their lengths through the call.

use crate::cases::Fresh;
use crate::compare::Tally;
use crate::lines::answer;
use crate::operations::{linked, own};
use crate::refusals::{Answer, Refused};

/// How refusals are counted: by the first, and by 01's for the router's estimate.
const UNIT: u64 = 1 << 32;
const ESTIMATE_UNIT: u64 = 1 << 16;

/// The number done, or refusal x unit + place.
fn taken_apart(number: u64, unit: u64) -> Answer {
    if number < unit {
        Ok(number)
    } else {
        Err(Refused { number: number / unit, place: number % unit })
    }
}

pub fn usual(number: u64) -> Answer {
    taken_apart(number, UNIT)
}

pub fn of_estimate(number: u64) -> Answer {
    taken_apart(number, ESTIMATE_UNIT)
}

/// The command `library`. A line that has no answer never reaches the library; both sides then answer `unknown`.
pub fn compare(seed: u64, count: u64) -> bool {
    let mut tally = Tally::new();
    let mut fresh = Fresh::new(seed);
    for _ in 0..count {
        let line = fresh.line();
        tally.add(&line, &answer(&line, own), answer(&line, linked).as_bytes(), "library");
    }
    tally.finish("library")
}
