//! The row of pack.

use super::{other_fields, Operation, RESULT};
use crate::areas::Area;
use crate::cases::chance::Chance;
use crate::cases::words::{self, Words};
use crate::fields::{Given, Input};
use crate::lines::Case;
use crate::packed;
use crate::refusals::{Answer, ROOM, SHAPE, SUM};
use crate::selftest::values;

pub static PACK: Operation = Operation {
    name: "pack",
    given: &[Given::Number, Given::Words, Given::Signed],
    lent: &[RESULT],
    refusals: &[ROOM, SHAPE, SUM],
    own,
    #[cfg(linked)]
    linked,
    example: || inputs(1, vec![1], vec![-5]),
    sums: &[],
    random,
    share: 12,
    second: values::check_pack,
};

fn inputs(count: u64, patterns: Vec<u64>, coefficients: Vec<i64>) -> Vec<Input> {
    vec![Input::Number(count), Input::Words(patterns), Input::Signed(coefficients)]
}

pub fn case(count: usize, patterns: &[u64], coefficients: &[i64]) -> Case {
    Case::exact(&PACK, inputs(count as u64, patterns.to_vec(), coefficients.to_vec()))
}

fn random(chance: &mut Chance) -> Vec<Input> {
    let Words { count, patterns, coefficients } = words::some_words(chance);
    inputs(count, patterns, coefficients)
}

fn own(inputs: &[Input], areas: &mut [Area]) -> Answer {
    let ([Input::Number(count), Input::Words(patterns), Input::Signed(coefficients)], [Area::Bytes(result)]) =
        (inputs, areas)
    else {
        other_fields()
    };
    packed::pack(*count, patterns, coefficients, result)
}

#[cfg(linked)]
extern "C" {
    fn reeveboom_pack(
        count: u64,
        patterns: *const u64,
        patterns_length: usize,
        coefficients: *const i64,
        coefficients_length: usize,
        result: *mut u8,
        result_length: usize,
    ) -> u64;
}

#[cfg(linked)]
fn linked(inputs: &[Input], areas: &mut [Area]) -> Answer {
    let ([Input::Number(count), Input::Words(patterns), Input::Signed(coefficients)], [Area::Bytes(result)]) =
        (inputs, areas)
    else {
        other_fields()
    };
    crate::library::usual(unsafe {
        reeveboom_pack(
            *count,
            patterns.as_ptr(),
            patterns.len(),
            coefficients.as_ptr(),
            coefficients.len(),
            result.as_mut_ptr(),
            result.len(),
        )
    })
}
