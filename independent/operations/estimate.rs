//! The row of estimate.

use super::{other_fields, Operation, SumRead};
use crate::areas::{Area, Lent, Places, Use};
use crate::cases::chance::Chance;
use crate::cases::readings;
use crate::estimate::{self, ANSWER_ROOM, READING_BYTES};
use crate::fields::{Given, Input};
use crate::lines::Case;
use crate::refusals::{Answer, RANGE, READING, ROOM, SUM};
use crate::selftest::second;
use crate::sums::VARIABLES;
use crate::typed::packed_of;

pub static ESTIMATE: Operation = Operation {
    name: "estimate",
    given: &[Given::Bytes, Given::Bytes, Given::Bytes],
    lent: &[Lent { places: Places::Bytes, need: ANSWER_ROOM, serves: Use::Result { each: 1 } }],
    refusals: &[ROOM, SUM, READING, RANGE],
    own,
    #[cfg(linked)]
    linked,
    example: || inputs(packed_of("a-1"), vec![1; READING_BYTES], vec![0; READING_BYTES]),
    sums: &[SumRead { case: |bytes| case(bytes, &[1], &[0]), refusal: SUM, before: 0 }],
    random,
    share: 13,
    second: second::check_estimate,
};

fn inputs(sum: Vec<u8>, readings: Vec<u8>, tolerances: Vec<u8>) -> Vec<Input> {
    vec![Input::Bytes(sum), Input::Bytes(readings), Input::Bytes(tolerances)]
}

/// Readings and tolerances in bytes, of any length.
pub fn case_of_bytes(sum: &[u8], readings: &[u8], tolerances: &[u8]) -> Case {
    Case::exact(&ESTIMATE, inputs(sum.to_vec(), readings.to_vec(), tolerances.to_vec()))
}

/// Readings and tolerances of the first variables; the others are 0.
pub fn case(sum: &[u8], readings: &[i16], tolerances: &[i16]) -> Case {
    let bytes = |numbers: &[i16]| -> Vec<u8> {
        let mut all = numbers.to_vec();
        all.resize(VARIABLES, 0);
        all.iter().flat_map(|number| number.to_le_bytes()).collect()
    };
    case_of_bytes(sum, &bytes(readings), &bytes(tolerances))
}

fn random(chance: &mut Chance) -> Vec<Input> {
    let (sum, readings, tolerances) = readings::some_estimate(chance);
    inputs(sum, readings, tolerances)
}

fn own(inputs: &[Input], areas: &mut [Area]) -> Answer {
    let ([Input::Bytes(sum), Input::Bytes(readings), Input::Bytes(tolerances)], [Area::Bytes(answer)]) =
        (inputs, areas)
    else {
        other_fields()
    };
    estimate::estimate(sum, readings, tolerances, answer)
}

#[cfg(linked)]
extern "C" {
    fn reeveboom_estimate(
        sum: *const u8,
        sum_length: usize,
        readings: *const u8,
        readings_length: usize,
        tolerances: *const u8,
        tolerances_length: usize,
        answer: *mut u8,
        answer_length: usize,
    ) -> u64;
}

#[cfg(linked)]
fn linked(inputs: &[Input], areas: &mut [Area]) -> Answer {
    let ([Input::Bytes(sum), Input::Bytes(readings), Input::Bytes(tolerances)], [Area::Bytes(answer)]) =
        (inputs, areas)
    else {
        other_fields()
    };
    crate::library::of_estimate(unsafe {
        reeveboom_estimate(
            sum.as_ptr(),
            sum.len(),
            readings.as_ptr(),
            readings.len(),
            tolerances.as_ptr(),
            tolerances.len(),
            answer.as_mut_ptr(),
            answer.len(),
        )
    })
}
