//! The stored set of cases: for each operation the stated ones, then random ones from its own stream with a fixed seed;
//! and last the stated lines that name no operation. So a change of one operation's cases moves no line of another. The
//! set is the same in every run. Making it fails if a stated outcome does not hold or a possible answer is missing.

use crate::cases::Stream;
use crate::compare::Tally;
use crate::lines::{answer, name_of};
use crate::operations::{named, own, Operation, ALL};
use crate::stated;
use std::collections::HashSet;

const SEED: u64 = 20_010_000;
/// How many random cases an operation has for each part of its share.
const FOR_SHARE: usize = 29;
/// Long lines are kept rare: only every so many of the random ones may be longer than this.
const USUAL_LINE: usize = 800;
const LONG_EVERY: usize = 12;
const LONGEST: usize = 5_000;

pub fn lines() -> Vec<Vec<u8>> {
    let list = stated::all();
    let broken = stated::broken(&list);
    assert!(broken.is_empty(), "stated outcomes that do not hold:\n{}", broken.join("\n"));
    let stated: Vec<Vec<u8>> = list.into_iter().map(|stated| stated.line.into_bytes()).collect();
    let mut lines = Vec::new();
    for &operation in ALL {
        let named = stated.iter().filter(|line| name_of(line) == operation.name.as_bytes());
        let mut block = Block::default();
        named.for_each(|line| block.add(line.clone()));
        block.add_random(operation);
        lines.append(&mut block.lines);
    }
    let mut others = Block::default();
    stated.iter().filter(|line| named(name_of(line)).is_none()).for_each(|line| others.add(line.clone()));
    lines.append(&mut others.lines);
    judge(&lines);
    lines
}

/// The lines of one operation, none of them twice.
#[derive(Default)]
struct Block {
    lines: Vec<Vec<u8>>,
    met: HashSet<Vec<u8>>,
}

impl Block {
    fn add(&mut self, line: Vec<u8>) {
        if self.met.insert(line.clone()) {
            self.lines.push(line);
        }
    }

    fn add_random(&mut self, operation: &'static Operation) {
        let wanted = self.lines.len() + FOR_SHARE * operation.share;
        let mut stream = Stream::new(SEED, operation);
        let mut waiting = 0;
        while self.lines.len() < wanted {
            let line = stream.line();
            waiting += 1;
            // Bytes that are not text would make the stored file hard to keep.
            let plain = line.iter().all(|&byte| byte == b'\r' || byte == b'\t' || (b' '..=b'~').contains(&byte));
            let long = line.len() > USUAL_LINE;
            if !plain || line.len() > LONGEST || (long && waiting < LONG_EVERY) {
                continue;
            }
            if long {
                waiting = 0;
            }
            self.add(line);
        }
    }
}

/// Every possible cell is met, and at least a third is done.
fn judge(lines: &[Vec<u8>]) {
    let mut tally = Tally::new();
    let mut done = 0;
    for line in lines {
        let ours = answer(line, own);
        done += usize::from(ours.starts_with("done"));
        tally.count(line, &ours);
    }
    assert!(tally.empty_cells().is_empty(), "missing: {}", tally.empty_cells().join(", "));
    assert!(3 * done >= lines.len(), "only {done} of {} are done", lines.len());
}
