//! Outcomes that 01 or 02 states, or docs/DECISIONS.md where they can be read in two ways, or a source document, as
//! case lines with the answer they must get. The same lines begin each operation's part of the stored set. Packed sums
//! come from typed texts by this program's own readers; the expected bytes come from the ordered sums as they are
//! written in the papers (see `written`).

mod bytes;
mod faults;
mod limits;
mod long;
mod room;
mod scope;
mod sources;
mod spelled;
mod texts;
mod written;

use crate::areas::Use;
use crate::fields::{show_bytes, show_signed, show_words};
use crate::lines::{answer, case_line, run_case, Case};
use crate::operations::{estimate, own, pack, simplify, slope, substitute, text, unpack, write, Operation};
use crate::packed::read_sum;
use crate::table::NODE_NUMBERS;
use crate::typed::{node_count, number_of, table_of};
use written::as_written;

pub struct Stated {
    pub line: String,
    pub expected: String,
    pub why: String,
}

/// All of them.
pub fn all() -> Vec<Stated> {
    let mut statements = Statements::default();
    scope::state(&mut statements);
    limits::state(&mut statements);
    texts::state(&mut statements);
    bytes::state(&mut statements);
    faults::state(&mut statements);
    long::state(&mut statements);
    room::state(&mut statements);
    sources::state(&mut statements);
    spelled::state(&mut statements);
    statements.list
}

/// Those that do not hold, one line of explanation each.
pub fn broken(list: &[Stated]) -> Vec<String> {
    let mut found = Vec::new();
    for stated in list {
        let got = answer(stated.line.as_bytes(), own);
        if got != stated.expected {
            found.push(format!("{}\n  {}\n  stated {}\n  got    {got}", stated.why, stated.line, stated.expected));
        }
    }
    found
}

/// The command `check`.
pub fn check() -> bool {
    let list = all();
    let broken = broken(&list);
    for explanation in &broken {
        println!("{explanation}");
    }
    if broken.is_empty() {
        println!("{} stated outcomes hold", list.len());
    } else {
        println!("{} of {} stated outcomes do not hold", broken.len(), list.len());
    }
    broken.is_empty()
}

#[derive(Default)]
pub struct Statements {
    list: Vec<Stated>,
}

/// What becomes of the lent areas after every answer but ROOM: results stay where they are not written, work is zero.
fn usual_fates(operation: &Operation) -> String {
    let fates = operation.lent.iter().map(|lent| if lent.serves == Use::Work { "zero" } else { "stay" });
    fates.collect::<Vec<&str>>().join(" ")
}

/// These are for every operation.
impl Statements {
    /// The general form: this line has this answer.
    pub fn line(&mut self, why: &str, line: &str, expected: &str) {
        self.list.push(Stated { line: line.to_string(), expected: expected.to_string(), why: why.to_string() });
    }

    pub fn case(&mut self, why: &str, case: &Case, expected: &str) {
        self.line(why, &case_line(case), expected);
    }

    /// The case is done, with this number, and this is written.
    pub fn done(&mut self, why: &str, case: &Case, number: usize, written: &str) {
        self.case(why, case, &format!("done {number} {written} {}", usual_fates(case.operation)));
    }

    /// The same where the number is that of the bytes written.
    pub fn done_bytes(&mut self, why: &str, case: &Case, bytes: &[u8]) {
        self.done(why, case, bytes.len(), &show_bytes(bytes));
    }

    /// The case is refused, and not for ROOM.
    pub fn refused(&mut self, why: &str, case: &Case, number: u64, place: usize) {
        self.case(why, case, &format!("refused {number} {place} {}", usual_fates(case.operation)));
    }

    /// Only that it is done is stated; what comes out is this program's own.
    pub fn accepted(&mut self, why: &str, case: &Case) {
        let ours = run_case(case, own);
        assert!(ours.starts_with("done"), "{why}: {ours}");
        self.case(why, case, &ours);
    }
}

/// What papers say of formulas, in their own writing.
impl Statements {
    /// A typed formula is this ordered sum: its text line, its table's line, and the sum's way through unpack and pack.
    pub fn formula(&mut self, why: &str, text: &str, ordered: &str) -> Vec<u8> {
        self.allowed(why, text);
        let bytes = as_written(ordered);
        self.done_bytes(why, &simplify::case(&table_of(text)), &bytes);
        self.unpacked_and_packed(why, &bytes);
        bytes
    }

    /// An allowed text whose table is refused.
    pub fn formula_refused(&mut self, why: &str, text: &str, number: u64, place: usize) {
        self.allowed(why, text);
        self.refused(why, &simplify::case(&table_of(text)), number, place);
    }

    /// The text is allowed; its nodes are checked one by one only where a paper states them.
    fn allowed(&mut self, why: &str, text: &str) {
        self.done(why, &text::case(text), node_count(text), &show_signed(&table_of(text)));
    }

    /// A text with the number of nodes that a paper gives.
    pub fn nodes(&mut self, why: &str, text: &str, nodes: usize) {
        assert_eq!(node_count(text), nodes, "{why}: nodes of {text}");
        self.allowed(why, text);
    }

    /// A text with all the numbers of its table.
    pub fn table(&mut self, why: &str, text: &str, table: &[[i64; NODE_NUMBERS]]) {
        self.done(why, &text::case(text), table.len(), &show_signed(&table.concat()));
    }

    /// A table is this ordered sum.
    pub fn table_is(&mut self, why: &str, table: &[i64], ordered: &str) {
        self.done_bytes(why, &simplify::case(table), &as_written(ordered));
    }

    fn unpacked_and_packed(&mut self, why: &str, bytes: &[u8]) {
        let sum = read_sum(bytes).expect("a packed sum");
        let patterns: Vec<u64> = sum.terms.iter().map(|term| term.pattern.word()).collect();
        let coefficients: Vec<i64> = sum.terms.iter().map(|term| term.coefficient).collect();
        let shown = [show_words(&patterns), show_signed(&coefficients)].join(" ");
        self.done(why, &unpack::case(bytes), patterns.len(), &shown);
        self.done_bytes(why, &pack::case(patterns.len(), &patterns, &coefficients), bytes);
    }

    pub fn slope(&mut self, why: &str, sum: &[u8], letter: char, ordered: &str) -> Vec<u8> {
        let bytes = as_written(ordered);
        self.done_bytes(why, &slope::case(sum, number_of(letter)), &bytes);
        bytes
    }

    pub fn substitute(&mut self, why: &str, sum: &[u8], list: &[u8], ordered: &str) -> Vec<u8> {
        let bytes = as_written(ordered);
        self.done_bytes(why, &substitute::case(sum, list), &bytes);
        bytes
    }

    /// Readings and tolerances of the first letters; the others are 0.
    pub fn estimate(&mut self, why: &str, sum: &[u8], readings: &[i16], tolerances: &[i16], answer: (i64, i64)) {
        let bytes = [answer.0.to_le_bytes(), answer.1.to_le_bytes()].concat();
        self.done_bytes(why, &estimate::case(sum, readings, tolerances), &bytes);
    }

    /// A sum is written as this text.
    pub fn spelled(&mut self, why: &str, sum: &[u8], text: &str) {
        self.done_bytes(why, &write::case(sum), text.as_bytes());
    }
}
