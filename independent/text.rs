//! Typed formulas of 01: text to table. The readers stop at the first byte that no allowed text has there, so the place
//! where they stop is the length of the longest prefix that some allowed text begins with.

use crate::refusals::{refuse, Answer, NODES, ROOM, TEXT};
use crate::sums::{FIRST_LETTER, LARGEST_DEGREE, LARGEST_WEIGHT, LAST_LETTER};
use crate::table::{INTEGER, MOST_NODES, NODE_NUMBERS, POWER, PRODUCT, SUM, VARIABLE};

pub const TABLE_ROOM: usize = NODE_NUMBERS * MOST_NODES;
pub const LONGEST_TEXT: usize = 1024;
pub const DEEPEST_BRACKETS: usize = 16;

/// Where the text stops being the beginning of an allowed one.
type Fault = usize;

struct TextReader<'a> {
    text: &'a [u8],
    place: usize,
    brackets: usize,
    nodes: Vec<[i64; NODE_NUMBERS]>,
}

impl TextReader<'_> {
    fn next(&self) -> Option<u8> {
        self.text.get(self.place).copied()
    }

    /// Takes the next byte if it is this one.
    fn take(&mut self, byte: u8) -> bool {
        let there = self.next() == Some(byte);
        self.place += usize::from(there);
        there
    }

    fn node(&mut self, kind: i64, first: i64, second: i64) -> i64 {
        self.nodes.push([kind, first, second]);
        self.nodes.len() as i64 - 1
    }

    /// A subtracted term is followed by integer -1 and the product (-1's node, the term's node).
    fn minus(&mut self, term: i64) -> i64 {
        let minus_one = self.node(INTEGER, -1, 0);
        self.node(PRODUCT, minus_one, term)
    }

    /// An optional minus, a term, then any number of + or - with a term.
    fn sum(&mut self) -> Result<i64, Fault> {
        let negative = self.take(b'-');
        let mut left = self.term()?;
        if negative {
            left = self.minus(left);
        }
        loop {
            let negative = self.take(b'-');
            if !negative && !self.take(b'+') {
                return Ok(left);
            }
            let mut right = self.term()?;
            if negative {
                right = self.minus(right);
            }
            left = self.node(SUM, left, right);
        }
    }

    /// Factors joined by *.
    fn term(&mut self) -> Result<i64, Fault> {
        let mut left = self.factor()?;
        while self.take(b'*') {
            let right = self.factor()?;
            left = self.node(PRODUCT, left, right);
        }
        Ok(left)
    }

    /// An atom, and ^ with an exponent if wanted.
    fn factor(&mut self) -> Result<i64, Fault> {
        let atom = self.atom()?;
        if !self.take(b'^') {
            return Ok(atom);
        }
        let exponent = self.number(u128::from(LARGEST_DEGREE))?;
        Ok(self.node(POWER, atom, exponent))
    }

    /// A number, the letter of a variable, or a sum in brackets.
    fn atom(&mut self) -> Result<i64, Fault> {
        match self.next() {
            Some(b'0'..=b'9') => {
                let value = self.number(LARGEST_WEIGHT)?;
                Ok(self.node(INTEGER, value, 0))
            }
            Some(letter @ FIRST_LETTER..=LAST_LETTER) => {
                self.place += 1;
                Ok(self.node(VARIABLE, i64::from(letter - FIRST_LETTER), 0))
            }
            Some(b'(') if self.brackets < DEEPEST_BRACKETS => self.in_brackets(),
            _ => Err(self.place),
        }
    }

    fn in_brackets(&mut self) -> Result<i64, Fault> {
        self.place += 1;
        self.brackets += 1;
        let inside = self.sum()?;
        if !self.take(b')') {
            return Err(self.place);
        }
        self.brackets -= 1;
        Ok(inside)
    }

    /// Takes digits while some allowed number begins so. A digit too many is left standing, and nothing that may follow
    /// a number is a digit, so the caller meets the fault at that digit.
    fn number(&mut self, most: u128) -> Result<i64, Fault> {
        let first = self.place;
        let mut value = 0u128;
        while let Some(digit @ b'0'..=b'9') = self.next() {
            let longer = value * 10 + u128::from(digit - b'0');
            let after_leading_zero = self.place > first && value == 0;
            if longer > most || after_leading_zero {
                break;
            }
            value = longer;
            self.place += 1;
        }
        if self.place == first {
            return Err(first);
        }
        Ok(i64::try_from(value).expect("at most 2^62"))
    }
}

/// The nodes of an allowed text, or the place of the fault. Length and node limits are not judged here.
pub fn nodes_of(text: &[u8]) -> Result<Vec<[i64; NODE_NUMBERS]>, Fault> {
    let mut reader = TextReader { text, place: 0, brackets: 0, nodes: Vec::new() };
    reader.sum()?;
    if reader.place < text.len() {
        return Err(reader.place);
    }
    Ok(reader.nodes)
}

pub fn read_text(text: &[u8], table: &mut [i64]) -> Answer {
    if table.len() < TABLE_ROOM {
        return refuse(ROOM, 0);
    }
    if text.len() > LONGEST_TEXT {
        return refuse(TEXT, LONGEST_TEXT);
    }
    let nodes = nodes_of(text).or_else(|place| refuse(TEXT, place))?;
    if nodes.len() > MOST_NODES {
        return refuse(NODES, 0);
    }
    for (index, node) in nodes.iter().enumerate() {
        table[NODE_NUMBERS * index..][..NODE_NUMBERS].copy_from_slice(node);
    }
    Ok(nodes.len() as u64)
}
