//! The row of substitute.

use super::{other_fields, Operation, SumRead, RESULT, WORK_COEFFICIENTS, WORK_PATTERNS};
use crate::areas::Area;
use crate::cases::chance::Chance;
use crate::cases::lists;
use crate::change;
use crate::fields::{Given, Input};
use crate::lines::Case;
use crate::refusals::{Answer, DEGREE, LIST, ROOM, SPREAD, SUM, VARIABLE, WEIGHT};
use crate::selftest::second;
use crate::sums::VARIABLES;
use crate::typed::{packed_of, typed_list};

pub static SUBSTITUTE: Operation = Operation {
    name: "substitute",
    given: &[Given::Bytes, Given::Bytes],
    lent: &[RESULT, WORK_PATTERNS, WORK_COEFFICIENTS],
    refusals: &[ROOM, SUM, LIST, VARIABLE, DEGREE, WEIGHT, SPREAD],
    own,
    #[cfg(linked)]
    linked,
    example: || inputs(packed_of("a^2"), typed_list(&[('a', "b-1")])),
    sums: &[
        SumRead { case: |bytes| case(bytes, &typed_list(&[('a', "b")])), refusal: SUM, before: 0 },
        SumRead { case: in_list, refusal: LIST, before: BEFORE_SUM.len() },
    ],
    random,
    share: 16,
    second: second::check_substitute,
};

fn inputs(sum: Vec<u8>, list: Vec<u8>) -> Vec<Input> {
    vec![Input::Bytes(sum), Input::Bytes(list)]
}

pub fn case(sum: &[u8], list: &[u8]) -> Case {
    Case::exact(&SUBSTITUTE, inputs(sum.to_vec(), list.to_vec()))
}

/// The list's count and the last variable.
const BEFORE_SUM: [u8; 2] = [1, VARIABLES as u8 - 1];

/// The bytes as the sum of a list's only pair. What is left over after the sum is left over after the list.
fn in_list(bytes: &[u8]) -> Case {
    case(&packed_of("a*h"), &[&BEFORE_SUM, bytes].concat())
}

fn random(chance: &mut Chance) -> Vec<Input> {
    let (sum, list) = lists::some_substitution(chance);
    inputs(sum, list)
}

fn own(inputs: &[Input], areas: &mut [Area]) -> Answer {
    let (
        [Input::Bytes(sum), Input::Bytes(list)],
        [Area::Bytes(result), Area::Words(patterns), Area::Signed(coefficients)],
    ) = (inputs, areas)
    else {
        other_fields()
    };
    change::substitute(sum, list, result, patterns, coefficients)
}

#[cfg(linked)]
extern "C" {
    fn reeveboom_substitute(
        sum: *const u8,
        sum_length: usize,
        list: *const u8,
        list_length: usize,
        result: *mut u8,
        result_length: usize,
        patterns: *mut u64,
        patterns_length: usize,
        coefficients: *mut i64,
        coefficients_length: usize,
    ) -> u64;
}

#[cfg(linked)]
fn linked(inputs: &[Input], areas: &mut [Area]) -> Answer {
    let (
        [Input::Bytes(sum), Input::Bytes(list)],
        [Area::Bytes(result), Area::Words(patterns), Area::Signed(coefficients)],
    ) = (inputs, areas)
    else {
        other_fields()
    };
    crate::library::usual(unsafe {
        reeveboom_substitute(
            sum.as_ptr(),
            sum.len(),
            list.as_ptr(),
            list.len(),
            result.as_mut_ptr(),
            result.len(),
            patterns.as_mut_ptr(),
            patterns.len(),
            coefficients.as_mut_ptr(),
            coefficients.len(),
        )
    })
}
