//! The row of slope.

use super::{other_fields, Operation, SumRead, RESULT};
use crate::areas::Area;
use crate::cases::chance::Chance;
use crate::cases::slopes;
use crate::change;
use crate::fields::{Given, Input};
use crate::lines::Case;
use crate::refusals::{Answer, ROOM, SUM, VARIABLE, WEIGHT};
use crate::selftest::second;
use crate::typed::packed_of;

/// 01 names SPREAD for it, but a slope has no more terms than the sum, so that cannot be met.
pub static SLOPE: Operation = Operation {
    name: "slope",
    given: &[Given::Bytes, Given::Number],
    lent: &[RESULT],
    refusals: &[ROOM, SUM, VARIABLE, WEIGHT],
    own,
    #[cfg(linked)]
    linked,
    example: || inputs(packed_of("a^3"), 0),
    sums: &[SumRead { case: |bytes| case(bytes, 0), refusal: SUM, before: 0 }],
    random,
    share: 10,
    second: second::check_slope,
};

fn inputs(sum: Vec<u8>, variable: u64) -> Vec<Input> {
    vec![Input::Bytes(sum), Input::Number(variable)]
}

pub fn case(sum: &[u8], variable: u64) -> Case {
    Case::exact(&SLOPE, inputs(sum.to_vec(), variable))
}

fn random(chance: &mut Chance) -> Vec<Input> {
    let (sum, variable) = slopes::some_slope(chance);
    inputs(sum, variable)
}

fn own(inputs: &[Input], areas: &mut [Area]) -> Answer {
    let ([Input::Bytes(sum), Input::Number(variable)], [Area::Bytes(result)]) = (inputs, areas) else { other_fields() };
    change::slope(sum, *variable, result)
}

#[cfg(linked)]
extern "C" {
    fn reeveboom_slope(sum: *const u8, sum_length: usize, variable: u64, result: *mut u8, result_length: usize) -> u64;
}

#[cfg(linked)]
fn linked(inputs: &[Input], areas: &mut [Area]) -> Answer {
    let ([Input::Bytes(sum), Input::Number(variable)], [Area::Bytes(result)]) = (inputs, areas) else { other_fields() };
    crate::library::usual(unsafe {
        reeveboom_slope(sum.as_ptr(), sum.len(), *variable, result.as_mut_ptr(), result.len())
    })
}
