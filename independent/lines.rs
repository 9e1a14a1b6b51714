//! A case line of REPLAY.md: read, written, run, and its answer line. What is asked of a line stands in the operation's
//! row.

use crate::areas::{Area, Use};
use crate::fields::{length, Input};
use crate::operations::{named, Operation, Side};
use crate::refusals::Answer;

pub const LONGEST_LINE: usize = 65_536;
pub const UNKNOWN: &str = "unknown";

/// The inputs of one case, and the lengths of the areas lent to it.
#[derive(Clone)]
pub struct Case {
    pub operation: &'static Operation,
    pub inputs: Vec<Input>,
    pub lengths: Vec<usize>,
}

impl Case {
    /// Every lent area just as long as it has to be.
    pub fn exact(operation: &'static Operation, inputs: Vec<Input>) -> Case {
        let lengths = operation.lent.iter().map(|lent| lent.need).collect();
        Case { operation, inputs, lengths }
    }
}

/// The name that a line begins with.
pub fn name_of(line: &[u8]) -> &[u8] {
    line.split(|&byte| byte == b' ').next().expect("at least one part, if an empty one")
}

/// The case that a line without its newline asks for; None for anything that REPLAY.md answers `unknown`.
pub fn read_case(line: &[u8]) -> Option<Case> {
    if line.len() > LONGEST_LINE {
        return None;
    }
    let operation = named(name_of(line))?;
    let fields: Vec<&[u8]> = line.split(|&byte| byte == b' ').skip(1).collect();
    if fields.len() != operation.given.len() + operation.lent.len() {
        return None;
    }
    let (given, lent) = fields.split_at(operation.given.len());
    let inputs = operation.given.iter().zip(given).map(|(given, field)| given.read(field));
    let lengths = operation.lent.iter().zip(lent).map(|(lent, field)| length(field, lent.places));
    Some(Case { operation, inputs: inputs.collect::<Option<_>>()?, lengths: lengths.collect::<Option<_>>()? })
}

/// The line of a case, without its newline.
pub fn case_line(case: &Case) -> String {
    let mut fields = vec![case.operation.name.to_string()];
    fields.extend(case.inputs.iter().map(Input::shown));
    fields.extend(case.lengths.iter().map(usize::to_string));
    fields.join(" ")
}

/// How many places of an area of this length the answer says it wrote: `each` for every one counted. A library that
/// returns a made-up number may say more than there are.
fn written(answer: &Answer, each: usize, length: usize) -> usize {
    match answer {
        Ok(count) => (*count as usize).saturating_mul(each).min(length),
        Err(_) => 0,
    }
}

fn answer_line(operation: &Operation, answer: &Answer, areas: &[Area]) -> String {
    let mut shown = Vec::new();
    let mut fates = Vec::new();
    for (lent, area) in operation.lent.iter().zip(areas) {
        match lent.serves {
            Use::Result { each } => {
                let count = written(answer, each, area.length());
                shown.push(area.shown(count));
                fates.push(area.result_fate(count));
            }
            Use::Work => fates.push(area.work_fate()),
        }
    }
    match answer {
        Ok(count) => format!("done {count} {} {}", shown.join(" "), fates.join(" ")),
        Err(refused) => format!("refused {} {} {}", refused.number, refused.place, fates.join(" ")),
    }
}

/// Fills the areas anew, runs the case and makes its answer line.
pub fn run_case(case: &Case, side: Side) -> String {
    let lent = case.operation.lent.iter().zip(&case.lengths);
    let mut areas: Vec<Area> = lent.map(|(lent, &length)| Area::filled(lent.places, length)).collect();
    let answer = side(case.operation)(&case.inputs, &mut areas);
    answer_line(case.operation, &answer, &areas)
}

/// The answer line for a line without its newline.
pub fn answer(line: &[u8], side: Side) -> String {
    match read_case(line) {
        Some(case) => run_case(&case, side),
        None => UNKNOWN.to_string(),
    }
}
