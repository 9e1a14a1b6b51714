//! ROOM, what is left in the areas, and the lines that REPLAY.md answers `unknown`.

use super::Statements;
use crate::areas::{LONGEST_BYTE_AREA, LONGEST_WORD_AREA};
use crate::estimate::ANSWER_ROOM;
use crate::lines::{run_case, Case, LONGEST_LINE, UNKNOWN};
use crate::operations::{own, Operation, ALL};
use crate::packed::{MOST_PACKED, UNPACK_ROOM};
use crate::refusals::{LIST, READING, ROOM, SHAPE, SUM, TEXT, VARIABLE};
use crate::spelling::SPELLING_ROOM;
use crate::sums::{MOST_TERMS, VARIABLES};
use crate::table::WORK_ROOM;
use crate::text::{LONGEST_TEXT, TABLE_ROOM};

pub fn state(all: &mut Statements) {
    for &operation in ALL {
        lengths(all, operation);
    }
    before_others(all);
    work_areas(all);
    unknown(all);
    largest(all);
}

/// Each area one short, none, exact, one longer, and the longest; the others exact.
fn lengths(all: &mut Statements, operation: &'static Operation) {
    let exact = Case::exact(operation, (operation.example)());
    let stay = vec!["stay"; operation.lent.len()].join(" ");
    let done = run_case(&exact, own);
    assert!(done.starts_with("done"), "{} with exact areas", operation.name);
    for (index, lent) in operation.lent.iter().enumerate() {
        let of_length = |length: usize| {
            let mut case = exact.clone();
            case.lengths[index] = length;
            case
        };
        for length in [lent.need - 1, 0, 1, lent.need / 2] {
            all.case("one area short", &of_length(length), &format!("refused {ROOM} 0 {stay}"));
        }
        for length in [lent.need, lent.need + 1, lent.places.longest()] {
            all.case("long enough", &of_length(length), &done);
        }
    }
}

/// A line in which sizes are written by name, with 1 or 2 added or taken away if wanted: `unpack 00 UNPACK UNPACK-1`.
fn sized(line: &str) -> String {
    let field = |field: &str| {
        let end = field.find(['+', '-']).filter(|&end| end > 0).unwrap_or(field.len());
        let (name, change) = field.split_at(end);
        let size = match name {
            "TABLE" => TABLE_ROOM,
            "RESULT" => MOST_PACKED,
            "WORK" => WORK_ROOM,
            "UNPACK" => UNPACK_ROOM,
            "ANSWER" => ANSWER_ROOM,
            "SPELLING" => SPELLING_ROOM,
            "TERMS" => MOST_TERMS,
            "VARIABLES" => VARIABLES,
            "BYTES" => LONGEST_BYTE_AREA,
            "WORDS" => LONGEST_WORD_AREA,
            _ => return field.to_string(),
        };
        let change: i64 = if change.is_empty() { 0 } else { change.parse().expect("a change of a size") };
        (size as i64 + change).to_string()
    };
    line.split(' ').map(field).collect::<Vec<String>>().join(" ")
}

/// ROOM before every other check, also on inputs that are refused for another reason.
fn before_others(all: &mut Statements) {
    let why = "ROOM first, and nothing is touched";
    for (line, fates) in [
        ("text - TABLE-1", "stay"),
        ("simplify - RESULT-1 WORK WORK", "stay stay stay"),
        ("simplify - RESULT WORK-1 WORK", "stay stay stay"),
        ("simplify - RESULT WORK WORK-1", "stay stay stay"),
        ("unpack - UNPACK-1 UNPACK", "stay stay"),
        ("unpack - UNPACK UNPACK-1", "stay stay"),
        ("pack TERMS+1 - - RESULT-1", "stay"),
        ("slope - VARIABLES RESULT-1", "stay"),
        ("substitute - - RESULT-1 WORK WORK", "stay stay stay"),
        ("substitute - - RESULT WORK 0", "stay stay stay"),
        ("estimate - - - ANSWER-1", "stay"),
        ("write - SPELLING-1", "stay"),
    ] {
        all.line(why, &sized(line), &format!("refused {ROOM} 0 {fates}"));
    }
}

fn work_areas(all: &mut Statements) {
    let why = "work areas are zero after every other refusal";
    for (line, number) in [
        ("simplify - RESULT WORK WORK", SHAPE),
        ("substitute - - RESULT WORK WORK", SUM),
        ("substitute 00 - RESULT WORDS WORK+1", LIST),
    ] {
        all.line(why, &sized(line), &format!("refused {number} 0 stay zero zero"));
    }
    all.line(why, &sized("substitute 00 00 RESULT WORDS WORK+1"), "done 1 00 stay zero zero");
}

fn unknown(all: &mut Statements) {
    let why = "REPLAY: unknown";
    let lines = [
        "", " ", "text", "text 61", "text 61 TABLE 1", "text  TABLE", "text 61  TABLE", " text 61 TABLE",
        "text 61 TABLE ", "text 61 192\r", "text 6 TABLE", "text 6A TABLE", "text 6g TABLE", "text 61 0192", "text 61 -1",
        "text 61 +192", "text 61 WORDS+1", "text 61 18446744073709551808", "text 61 1e2", "text 61\t192",
        "Text 61 TABLE", "texts 61 TABLE", "text -- TABLE", "text - -", "simplify 00 RESULT WORK WORK",
        "simplify 000000000000000 RESULT WORK WORK", "simplify - BYTES+1 WORK WORK", "simplify - RESULT WORDS+1 WORK",
        "simplify - RESULT WORK WORDS+1", "simplify - RESULT WORK", "unpack 00 UNPACK", "unpack 00 UNPACK UNPACK UNPACK",
        "unpack 00 WORDS+1 UNPACK", "pack 0 - -", "pack 00 - - RESULT", "pack 18446744073709551616 - - RESULT",
        "pack -1 - - RESULT", "pack 0 00 - RESULT", "pack 0 - 0000000000000001f RESULT", "pack 0 - - BYTES+1",
        "slope 00 18446744073709551616 RESULT", "slope 00 a RESULT", "slope 00 01 RESULT", "slope 00 0",
        "substitute 00 00 RESULT WORK", "substitute 00 RESULT WORK WORK", "substitute 00 0 RESULT WORK WORK",
        "estimate 00 - - BYTES+1", "estimate 00 - -", "estimate 00 - - 016", "terms 61", "unknown", "done 0 - stay",
        "divide 00 00 RESULT", "write 00", "write SPELLING", "write 00 SPELLING 1", "write  SPELLING",
        "write 0 SPELLING", "write 00 08192", "write 00 BYTES+1",
    ];
    for line in lines {
        all.line(why, &sized(line), UNKNOWN);
    }
}

fn largest(all: &mut Statements) {
    let why = "REPLAY: the largest numbers that are allowed";
    all.line(why, &sized("pack 18446744073709551615 - - RESULT"), &format!("refused {SHAPE} 0 stay"));
    all.line(why, &sized("slope 00 18446744073709551615 BYTES"), &format!("refused {VARIABLE} 0 stay"));
    all.line(why, &sized("estimate 00 - - BYTES"), &format!("refused {READING} 0 stay"));
    // The newline does not count.
    let line_of = |bytes: usize, table: usize| format!("text {} {table}", "61".repeat(bytes));
    let (longest, longer) = (line_of(LONGEST_LINE / 2 - 5, 1920), line_of(LONGEST_LINE / 2 - 4, 192));
    assert_eq!((longest.len(), longer.len()), (LONGEST_LINE, LONGEST_LINE + 1));
    all.line("REPLAY: a line as long as may be", &longest, &format!("refused {TEXT} {LONGEST_TEXT} stay"));
    all.line("REPLAY: a line of one byte more", &longer, UNKNOWN);
}
