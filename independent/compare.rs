//! Comparison of this program's answers with another's, and the table of what was met.

use crate::lines::{answer, name_of, UNKNOWN};
use crate::next_line;
use crate::operations::{own, Operation, ALL};
use crate::refusals::NAMES;
use std::io::{self, BufRead};

/// Longer lines are shown cut.
const SHOWN: usize = 400;
const FIRST_SHOWN: u64 = 5;

pub struct Tally {
    pub cases: u64,
    pub differ: u64,
    unknown: u64,
    /// For each operation: done, then the refusals by number.
    counts: Vec<[u64; NAMES.len()]>,
    /// The same answers where no cell is meant for them.
    strange: u64,
}

fn shown(line: &[u8]) -> String {
    let text = String::from_utf8_lossy(&line[..line.len().min(SHOWN)]).into_owned();
    if line.len() > SHOWN {
        format!("{text}.. ({} bytes)", line.len())
    } else {
        text
    }
}

/// Whether an operation can give this answer; column 0 is that it is done.
fn possible(operation: &Operation, column: usize) -> bool {
    column == 0 || operation.refusals.contains(&(column as u64))
}

impl Tally {
    pub fn new() -> Tally {
        Tally { cases: 0, differ: 0, unknown: 0, counts: vec![[0; NAMES.len()]; ALL.len()], strange: 0 }
    }

    /// Counts one case with its own answer, and compares it with the other's.
    pub fn add(&mut self, case: &[u8], own: &str, other: &[u8], name: &str) {
        self.cases += 1;
        self.count(case, own);
        if own.as_bytes() != other {
            self.differ += 1;
            if self.differ <= FIRST_SHOWN {
                println!("line {} differs", self.cases);
                println!("  case  {}", shown(case));
                println!("  own   {}", shown(own.as_bytes()));
                println!("  {name}  {}", shown(other));
            }
        }
        if self.cases % 10_000 == 0 {
            eprintln!("{} cases, {} differ", self.cases, self.differ);
        }
    }

    pub fn count(&mut self, case: &[u8], own: &str) {
        if own == UNKNOWN {
            self.unknown += 1;
            return;
        }
        let row = ALL.iter().position(|operation| operation.name.as_bytes() == name_of(case));
        let mut words = own.split(' ');
        let column = match (words.next(), words.next()) {
            (Some("done"), _) => Some(0),
            (Some("refused"), Some(number)) => number.parse::<usize>().ok().filter(|&number| number < NAMES.len()),
            _ => None,
        };
        match (row, column) {
            (Some(row), Some(column)) => self.counts[row][column] += 1,
            _ => self.strange += 1,
        }
    }

    /// Names of the cells that could have been met and were not.
    pub fn empty_cells(&self) -> Vec<String> {
        let mut empty = Vec::new();
        for (operation, counts) in ALL.iter().zip(&self.counts) {
            for (column, refusal) in NAMES.iter().enumerate() {
                if possible(operation, column) && counts[column] == 0 {
                    empty.push(format!("{} {refusal}", operation.name));
                }
            }
        }
        if self.unknown == 0 {
            empty.push(UNKNOWN.to_string());
        }
        empty
    }

    fn print_table(&self) {
        print!("{:<11}", "");
        for name in NAMES {
            print!("{name:>9}");
        }
        println!();
        for (operation, counts) in ALL.iter().zip(&self.counts) {
            print!("{:<11}", operation.name);
            for (column, &count) in counts.iter().enumerate() {
                // A cell that is not possible is shown if it was met all the same.
                if possible(operation, column) || count > 0 {
                    print!("{count:>9}");
                } else {
                    print!("{:>9}", ".");
                }
            }
            println!();
        }
        println!("{UNKNOWN:<11}{:>9}", self.unknown);
    }

    /// Prints the table and the last line. True if nothing differs and no cell is empty.
    pub fn finish(&self, name: &str) -> bool {
        self.print_table();
        let empty = self.empty_cells();
        for cell in &empty {
            println!("empty: {cell}");
        }
        if self.strange > 0 {
            println!("{} answers fit no cell", self.strange);
        }
        println!("{name}: {} cases, {} differ, {} empty cells", self.cases, self.differ, empty.len());
        self.differ == 0 && empty.is_empty() && self.strange == 0
    }
}

/// Line by line; a missing line on either side makes the comparison fail.
pub fn files(cases: &mut dyn BufRead, answers: &mut dyn BufRead, name: &str) -> io::Result<bool> {
    let mut tally = Tally::new();
    let mut missing = 0u64;
    while let Some(case) = next_line(cases)? {
        let ours = answer(&case, own);
        match next_line(answers)? {
            Some(other) => tally.add(&case, &ours, &other, name),
            None => {
                missing += 1;
                tally.add(&case, &ours, b"(no line)", name);
            }
        }
    }
    let mut over = 0u64;
    while next_line(answers)?.is_some() {
        over += 1;
    }
    if missing + over > 0 {
        println!("line counts differ: {missing} answers missing, {over} too many");
    }
    Ok(tally.finish(name) && missing + over == 0)
}
