//! Checks of this program against second, differently written ways to the same answers.

pub mod again;
pub mod prefixes;
pub mod reader;
pub mod second;
pub mod values;

use crate::cases::chance::Chance;
use crate::cases::{odd, Fresh};
use crate::lines::{case_line, read_case, run_case, Case};
use crate::operations::own;
use std::collections::BTreeMap;

/// What was looked at, by name, and the first few that failed.
#[derive(Default)]
pub struct Report {
    counts: BTreeMap<&'static str, u64>,
    failed: u64,
}

impl Report {
    pub fn expect(&mut self, name: &'static str, holds: bool, explain: impl Fn() -> String) {
        *self.counts.entry(name).or_insert(0) += 1;
        if !holds {
            self.failed += 1;
            if self.failed <= 10 {
                println!("{name}: {}", explain());
            }
        }
    }
}

/// The command `selftest`: COUNT rounds, each with a case of any operation and a text, table and sum of its own.
pub fn run(seed: u64, count: u64) -> bool {
    let mut fresh = Fresh::new(seed);
    let mut chance = Chance::named(seed, "selftest");
    let mut report = Report::default();
    for _ in 0..count {
        let case = fresh.case();
        (case.operation.second)(&case.inputs, &run_case(&case, own), &mut report);
        check_line(&mut chance, &case, &mut report);
        prefixes::check_short(&mut chance, &mut report);
        values::check(&mut chance, &mut report);
    }
    for (name, times) in &report.counts {
        println!("{times:>9} {name}");
    }
    println!("selftest: {count} rounds, {} failed", report.failed);
    report.failed == 0
}

/// A line is read as the case it was made from, and an odd line never makes the program stop.
fn check_line(chance: &mut Chance, case: &Case, report: &mut Report) {
    let line = case_line(case).into_bytes();
    let again = read_case(&line).map(|read| case_line(&read).into_bytes());
    report.expect("a line read and written again", again.as_ref() == Some(&line), || {
        String::from_utf8_lossy(&line).into_owned()
    });
    let odd = odd::odd_line(chance, case);
    // An odd line is either unknown or is itself the line of a case.
    let fits = read_case(&odd).is_none_or(|read| case_line(&read).into_bytes() == odd);
    report.expect("an odd line", fits, || String::from_utf8_lossy(&odd).into_owned());
}
