//! The fields of a line in REPLAY.md: bytes, words and numbers. None where a field is not exactly as written there.

use crate::areas::Places;

const WORD_BYTES: usize = 8;

/// What a field gives to an operation.
#[derive(Clone, Copy, PartialEq, Eq)]
pub enum Given {
    Bytes,
    Words,
    Signed,
    Number,
}

/// Such a field as it was read.
#[derive(Clone)]
pub enum Input {
    Bytes(Vec<u8>),
    Words(Vec<u64>),
    Signed(Vec<i64>),
    Number(u64),
}

impl Given {
    pub fn read(self, field: &[u8]) -> Option<Input> {
        match self {
            Given::Bytes => bytes(field).map(Input::Bytes),
            Given::Words => words(field).map(Input::Words),
            Given::Signed => signed_words(field).map(Input::Signed),
            Given::Number => number(field).map(Input::Number),
        }
    }
}

impl Input {
    pub fn shown(&self) -> String {
        match self {
            Input::Bytes(bytes) => show_bytes(bytes),
            Input::Words(words) => show_words(words),
            Input::Signed(words) => show_signed(words),
            Input::Number(number) => number.to_string(),
        }
    }
}

fn digit(byte: u8) -> Option<u8> {
    match byte {
        b'0'..=b'9' => Some(byte - b'0'),
        b'a'..=b'f' => Some(byte - b'a' + 10),
        _ => None,
    }
}

pub fn bytes(field: &[u8]) -> Option<Vec<u8>> {
    if field == b"-" {
        return Some(Vec::new());
    }
    if field.is_empty() || field.len() % 2 != 0 {
        return None;
    }
    field.chunks(2).map(|pair| Some(16 * digit(pair[0])? + digit(pair[1])?)).collect()
}

/// Two digits for each byte of a word, most significant first.
fn words(field: &[u8]) -> Option<Vec<u64>> {
    let bytes = bytes(field)?;
    if bytes.len() % WORD_BYTES != 0 {
        return None;
    }
    Some(bytes.chunks(WORD_BYTES).map(|word| word.iter().fold(0, |value, &byte| value << 8 | u64::from(byte))).collect())
}

fn signed_words(field: &[u8]) -> Option<Vec<i64>> {
    Some(words(field)?.into_iter().map(|word| word as i64).collect())
}

/// Decimal, no sign, no leading zero, at most 2^64 - 1.
fn number(field: &[u8]) -> Option<u64> {
    if field.is_empty() || (field[0] == b'0' && field.len() > 1) {
        return None;
    }
    let mut value = 0u64;
    for &byte in field {
        if !byte.is_ascii_digit() {
            return None;
        }
        value = value.checked_mul(10)?.checked_add(u64::from(byte - b'0'))?;
    }
    Some(value)
}

/// How long a lent area is.
pub fn length(field: &[u8], places: Places) -> Option<usize> {
    let length = number(field)?;
    (length <= places.longest() as u64).then_some(length as usize)
}

pub fn show_bytes(bytes: &[u8]) -> String {
    if bytes.is_empty() {
        return "-".to_string();
    }
    let mut shown = String::with_capacity(2 * bytes.len());
    for &byte in bytes {
        for half in [byte >> 4, byte & 15] {
            shown.push(char::from_digit(u32::from(half), 16).expect("below 16"));
        }
    }
    shown
}

pub fn show_words(words: &[u64]) -> String {
    let bytes: Vec<u8> = words.iter().flat_map(|word| word.to_be_bytes()).collect();
    show_bytes(&bytes)
}

pub fn show_signed(words: &[i64]) -> String {
    let words: Vec<u64> = words.iter().map(|&word| word as u64).collect();
    show_words(&words)
}
