//! The row of text.

use super::{other_fields, Operation};
use crate::areas::{Area, Lent, Places, Use};
use crate::cases::texts;
use crate::fields::{Given, Input};
use crate::lines::Case;
use crate::refusals::{Answer, NODES, ROOM, TEXT as TEXT_FAULT};
use crate::selftest::prefixes;
use crate::table::NODE_NUMBERS;
use crate::text::{read_text, TABLE_ROOM};

pub static TEXT: Operation = Operation {
    name: "text",
    given: &[Given::Bytes],
    lent: &[Lent { places: Places::Signed, need: TABLE_ROOM, serves: Use::Result { each: NODE_NUMBERS } }],
    refusals: &[ROOM, TEXT_FAULT, NODES],
    own,
    #[cfg(linked)]
    linked,
    example: || inputs("a-2"),
    sums: &[],
    random: |chance| inputs(texts::some_text(chance)),
    share: 16,
    second: prefixes::check_case,
};

fn inputs(text: impl Into<Vec<u8>>) -> Vec<Input> {
    vec![Input::Bytes(text.into())]
}

pub fn case(text: &str) -> Case {
    Case::exact(&TEXT, inputs(text))
}

fn own(inputs: &[Input], areas: &mut [Area]) -> Answer {
    let ([Input::Bytes(text)], [Area::Signed(table)]) = (inputs, areas) else { other_fields() };
    read_text(text, table)
}

#[cfg(linked)]
extern "C" {
    fn reeveboom_text(text: *const u8, text_length: usize, table: *mut i64, table_length: usize) -> u64;
}

#[cfg(linked)]
fn linked(inputs: &[Input], areas: &mut [Area]) -> Answer {
    let ([Input::Bytes(text)], [Area::Signed(table)]) = (inputs, areas) else { other_fields() };
    crate::library::usual(unsafe { reeveboom_text(text.as_ptr(), text.len(), table.as_mut_ptr(), table.len()) })
}
