//! Numbers and names of the refusals: the table in 01, "Operations and the order of their checks".

pub const ROOM: u64 = 1;
pub const SHAPE: u64 = 2;
pub const NODE: u64 = 3;
pub const DEGREE: u64 = 4;
pub const WEIGHT: u64 = 5;
pub const SPREAD: u64 = 6;
pub const SUM: u64 = 7;
pub const LIST: u64 = 8;
pub const VARIABLE: u64 = 9;
pub const READING: u64 = 10;
pub const RANGE: u64 = 11;
pub const TEXT: u64 = 12;
pub const NODES: u64 = 13;

/// The name at a refusal's number; number 0 stands for an operation that was done.
pub const NAMES: [&str; 14] = [
    "done", "ROOM", "SHAPE", "NODE", "DEGREE", "WEIGHT", "SPREAD", "SUM", "LIST", "VARIABLE",
    "READING", "RANGE", "TEXT", "NODES",
];

/// A refusal is held as its number, not as an enum, because the library under comparison may return any number.
#[derive(Debug, Clone, Copy, PartialEq, Eq)]
pub struct Refused {
    pub number: u64,
    pub place: u64,
}

/// What an operation returns: a length, a number of nodes or terms, or that of the bytes of an answer; else a refusal.
pub type Answer = Result<u64, Refused>;

pub fn refuse<T>(number: u64, place: usize) -> Result<T, Refused> {
    Err(Refused { number, place: place as u64 })
}
