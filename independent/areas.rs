//! Lent areas as REPLAY.md fills and judges them.

use crate::fields::{show_bytes, show_signed, show_words};
use crate::table::WORK_ROOM;

pub const LONGEST_BYTE_AREA: usize = 40_000;
pub const LONGEST_WORD_AREA: usize = 9_000;

#[derive(Clone, Copy, PartialEq, Eq)]
pub enum Places {
    Bytes,
    Words,
    Signed,
}

impl Places {
    /// The longest area that a line may ask for.
    pub fn longest(self) -> usize {
        match self {
            Places::Bytes => LONGEST_BYTE_AREA,
            Places::Words | Places::Signed => LONGEST_WORD_AREA,
        }
    }
}

/// What an area is lent for.
#[derive(Clone, Copy, PartialEq, Eq)]
pub enum Use {
    /// It takes a result: so many places for each one that the answer counts.
    Result { each: usize },
    /// Work, which is never shown.
    Work,
}

/// An area that an operation is lent: a field LEN of its line.
pub struct Lent {
    pub places: Places,
    pub need: usize,
    pub serves: Use,
}

/// An area as it is lent for one case.
pub enum Area {
    Bytes(Vec<u8>),
    Words(Vec<u64>),
    Signed(Vec<i64>),
}

pub fn byte_filling(place: usize) -> u8 {
    ((37 * place + 11) % 256) as u8
}

pub fn word_filling(place: usize) -> u64 {
    2_654_435_761 * place as u64 + 97
}

fn stay_or_spoilt(stays: bool) -> &'static str {
    if stays {
        "stay"
    } else {
        "spoilt"
    }
}

impl Area {
    pub fn filled(places: Places, length: usize) -> Area {
        match places {
            Places::Bytes => Area::Bytes((0..length).map(byte_filling).collect()),
            Places::Words => Area::Words((0..length).map(word_filling).collect()),
            Places::Signed => Area::Signed((0..length).map(|place| word_filling(place) as i64).collect()),
        }
    }

    pub fn length(&self) -> usize {
        match self {
            Area::Bytes(bytes) => bytes.len(),
            Area::Words(words) => words.len(),
            Area::Signed(words) => words.len(),
        }
    }

    /// What stands in the first places.
    pub fn shown(&self, count: usize) -> String {
        match self {
            Area::Bytes(bytes) => show_bytes(&bytes[..count]),
            Area::Words(words) => show_words(&words[..count]),
            Area::Signed(words) => show_signed(&words[..count]),
        }
    }

    fn filled_from(&self, first: usize) -> bool {
        let mut places = first..self.length();
        match self {
            Area::Bytes(bytes) => places.all(|place| bytes[place] == byte_filling(place)),
            Area::Words(words) => places.all(|place| words[place] == word_filling(place)),
            Area::Signed(words) => places.all(|place| words[place] as u64 == word_filling(place)),
        }
    }

    fn zero_up_to(&self, count: usize) -> bool {
        match self {
            Area::Bytes(bytes) => bytes[..count].iter().all(|&byte| byte == 0),
            Area::Words(words) => words[..count].iter().all(|&word| word == 0),
            Area::Signed(words) => words[..count].iter().all(|&word| word == 0),
        }
    }

    /// Of an area that takes a result: only the first `written` places may differ from the filling.
    pub fn result_fate(&self, written: usize) -> &'static str {
        stay_or_spoilt(self.filled_from(written))
    }

    pub fn work_fate(&self) -> &'static str {
        if self.filled_from(0) {
            return "stay";
        }
        if self.length() >= WORK_ROOM && self.zero_up_to(WORK_ROOM) && self.filled_from(WORK_ROOM) {
            return "zero";
        }
        "spoilt"
    }
}
