//! The row of unpack.

use super::{other_fields, Operation, SumRead};
use crate::areas::{Area, Lent, Places, Use};
use crate::cases::unpacks;
use crate::fields::{Given, Input};
use crate::lines::Case;
use crate::packed::{self, UNPACK_ROOM};
use crate::refusals::{Answer, ROOM, SUM};
use crate::selftest::reader;
use crate::typed::packed_of;

pub static UNPACK: Operation = Operation {
    name: "unpack",
    given: &[Given::Bytes],
    lent: &[
        Lent { places: Places::Words, need: UNPACK_ROOM, serves: Use::Result { each: 1 } },
        Lent { places: Places::Signed, need: UNPACK_ROOM, serves: Use::Result { each: 1 } },
    ],
    refusals: &[ROOM, SUM],
    own,
    #[cfg(linked)]
    linked,
    example: || inputs(packed_of("a-2*b")),
    sums: &[SumRead { case, refusal: SUM, before: 0 }],
    random: |chance| inputs(unpacks::some_sum(chance)),
    share: 12,
    second: reader::check_sum,
};

fn inputs(sum: Vec<u8>) -> Vec<Input> {
    vec![Input::Bytes(sum)]
}

pub fn case(sum: &[u8]) -> Case {
    Case::exact(&UNPACK, inputs(sum.to_vec()))
}

fn own(inputs: &[Input], areas: &mut [Area]) -> Answer {
    let ([Input::Bytes(sum)], [Area::Words(patterns), Area::Signed(coefficients)]) = (inputs, areas) else {
        other_fields()
    };
    packed::unpack(sum, patterns, coefficients)
}

#[cfg(linked)]
extern "C" {
    fn reeveboom_unpack(
        sum: *const u8,
        sum_length: usize,
        patterns: *mut u64,
        patterns_length: usize,
        coefficients: *mut i64,
        coefficients_length: usize,
    ) -> u64;
}

#[cfg(linked)]
fn linked(inputs: &[Input], areas: &mut [Area]) -> Answer {
    let ([Input::Bytes(sum)], [Area::Words(patterns), Area::Signed(coefficients)]) = (inputs, areas) else {
        other_fields()
    };
    crate::library::usual(unsafe {
        reeveboom_unpack(
            sum.as_ptr(),
            sum.len(),
            patterns.as_mut_ptr(),
            patterns.len(),
            coefficients.as_mut_ptr(),
            coefficients.len(),
        )
    })
}
