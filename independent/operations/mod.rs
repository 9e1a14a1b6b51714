//! The operations, one row each. A row says all that differs from one operation to the next: its line, its refusals,
//! how it is run, and how cases of it are made and looked at. A further operation is a file here, beside what it
//! computes and draws, and a row in `ALL`.

pub mod estimate;
pub mod pack;
pub mod simplify;
pub mod slope;
pub mod substitute;
pub mod text;
pub mod unpack;
pub mod write;

use crate::areas::{Area, Lent, Places, Use};
use crate::cases::chance::Chance;
use crate::fields::{Given, Input};
use crate::lines::Case;
use crate::packed::MOST_PACKED;
use crate::refusals::Answer;
use crate::selftest::Report;
use crate::table::WORK_ROOM;

/// All of them, in the order of docs/REPLAY.md. The stored cases of each stand together, in this order.
pub static ALL: &[&Operation] = &[
    &text::TEXT,
    &simplify::SIMPLIFY,
    &unpack::UNPACK,
    &pack::PACK,
    &slope::SLOPE,
    &substitute::SUBSTITUTE,
    &estimate::ESTIMATE,
    &write::WRITE,
];

/// Runs an operation on the inputs of a case and the areas lent to it.
pub type Run = fn(&[Input], &mut [Area]) -> Answer;

pub struct Operation {
    /// The name also seeds the operation's stream of random cases.
    pub name: &'static str,
    /// The fields of its line: what is given, then the areas that are lent.
    pub given: &'static [Given],
    pub lent: &'static [Lent],
    /// Those that can be met; only these are looked for in the table of what was met.
    pub refusals: &'static [u64],
    pub own: Run,
    #[cfg(linked)]
    pub linked: Run,
    /// Inputs that are accepted, for cases in which only the lent areas differ.
    pub example: fn() -> Vec<Input>,
    /// Where it reads packed sums: every fault of packed bytes is put at each of these places.
    pub sums: &'static [SumRead],
    /// Inputs of a random case.
    pub random: fn(&mut Chance) -> Vec<Input>,
    /// How many random cases it gets beside those of the others.
    pub share: usize,
    /// Compares its answer line with one found in a second way.
    pub second: fn(&[Input], &str, &mut Report),
}

/// A place where an operation reads a packed sum.
pub struct SumRead {
    /// A case with these bytes there, and nothing else at fault.
    pub case: fn(&[u8]) -> Case,
    pub refusal: u64,
    /// How many bytes of the same field stand before the sum.
    pub before: usize,
}

/// Whose answer is wanted.
pub type Side = fn(&Operation) -> Run;

pub fn own(operation: &Operation) -> Run {
    operation.own
}

#[cfg(linked)]
pub fn linked(operation: &Operation) -> Run {
    operation.linked
}

pub fn named(name: &[u8]) -> Option<&'static Operation> {
    ALL.iter().copied().find(|operation| operation.name.as_bytes() == name)
}

/// A row's functions are only called with what its fields describe.
pub fn other_fields() -> ! {
    unreachable!("fields of another operation")
}

/// Areas that more than one operation is lent.
pub const RESULT: Lent = Lent { places: Places::Bytes, need: MOST_PACKED, serves: Use::Result { each: 1 } };
pub const WORK_PATTERNS: Lent = Lent { places: Places::Words, need: WORK_ROOM, serves: Use::Work };
pub const WORK_COEFFICIENTS: Lent = Lent { places: Places::Signed, need: WORK_ROOM, serves: Use::Work };
