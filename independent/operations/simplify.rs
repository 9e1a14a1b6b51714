//! The row of simplify.

use super::{other_fields, Operation, RESULT, WORK_COEFFICIENTS, WORK_PATTERNS};
use crate::areas::Area;
use crate::cases::tables;
use crate::fields::{Given, Input};
use crate::lines::Case;
use crate::refusals::{Answer, DEGREE, NODE, ROOM, SHAPE, SPREAD, WEIGHT};
use crate::selftest::second;
use crate::table;
use crate::typed::table_of;

pub static SIMPLIFY: Operation = Operation {
    name: "simplify",
    given: &[Given::Signed],
    lent: &[RESULT, WORK_PATTERNS, WORK_COEFFICIENTS],
    refusals: &[ROOM, SHAPE, NODE, DEGREE, WEIGHT, SPREAD],
    own,
    #[cfg(linked)]
    linked,
    example: || inputs(table_of("(a+b)^2-b^2")),
    sums: &[],
    random: |chance| inputs(tables::some_table(chance)),
    share: 21,
    second: second::check_table,
};

fn inputs(table: Vec<i64>) -> Vec<Input> {
    vec![Input::Signed(table)]
}

pub fn case(table: &[i64]) -> Case {
    Case::exact(&SIMPLIFY, inputs(table.to_vec()))
}

fn own(inputs: &[Input], areas: &mut [Area]) -> Answer {
    let ([Input::Signed(table)], [Area::Bytes(result), Area::Words(patterns), Area::Signed(coefficients)]) =
        (inputs, areas)
    else {
        other_fields()
    };
    table::simplify(table, result, patterns, coefficients)
}

#[cfg(linked)]
extern "C" {
    fn reeveboom_simplify(
        table: *const i64,
        table_length: usize,
        result: *mut u8,
        result_length: usize,
        patterns: *mut u64,
        patterns_length: usize,
        coefficients: *mut i64,
        coefficients_length: usize,
    ) -> u64;
}

#[cfg(linked)]
fn linked(inputs: &[Input], areas: &mut [Area]) -> Answer {
    let ([Input::Signed(table)], [Area::Bytes(result), Area::Words(patterns), Area::Signed(coefficients)]) =
        (inputs, areas)
    else {
        other_fields()
    };
    crate::library::usual(unsafe {
        reeveboom_simplify(
            table.as_ptr(),
            table.len(),
            result.as_mut_ptr(),
            result.len(),
            patterns.as_mut_ptr(),
            patterns.len(),
            coefficients.as_mut_ptr(),
            coefficients.len(),
        )
    })
}
