//! The row of write.

use super::{other_fields, Operation, SumRead};
use crate::areas::{Area, Lent, Places, Use};
use crate::cases::spellings;
use crate::fields::{Given, Input};
use crate::lines::Case;
use crate::refusals::{Answer, ROOM, SUM};
use crate::selftest::again;
use crate::spelling::{self, SPELLING_ROOM};
use crate::typed::packed_of;

pub static WRITE: Operation = Operation {
    name: "write",
    given: &[Given::Bytes],
    lent: &[Lent { places: Places::Bytes, need: SPELLING_ROOM, serves: Use::Result { each: 1 } }],
    refusals: &[ROOM, SUM],
    own,
    #[cfg(linked)]
    linked,
    example: || inputs(packed_of("a^2-2*b")),
    sums: &[SumRead { case, refusal: SUM, before: 0 }],
    random: |chance| inputs(spellings::some_sum(chance)),
    share: 4,
    second: again::check_case,
};

fn inputs(sum: Vec<u8>) -> Vec<Input> {
    vec![Input::Bytes(sum)]
}

pub fn case(sum: &[u8]) -> Case {
    Case::exact(&WRITE, inputs(sum.to_vec()))
}

fn own(inputs: &[Input], areas: &mut [Area]) -> Answer {
    let ([Input::Bytes(sum)], [Area::Bytes(text)]) = (inputs, areas) else { other_fields() };
    spelling::write(sum, text)
}

#[cfg(linked)]
extern "C" {
    fn reeveboom_write(sum: *const u8, sum_length: usize, text: *mut u8, text_length: usize) -> u64;
}

#[cfg(linked)]
fn linked(inputs: &[Input], areas: &mut [Area]) -> Answer {
    let ([Input::Bytes(sum)], [Area::Bytes(text)]) = (inputs, areas) else { other_fields() };
    crate::library::usual(unsafe { reeveboom_write(sum.as_ptr(), sum.len(), text.as_mut_ptr(), text.len()) })
}
