//! What `write` wrote, formed in a second way; and read again, which gives the packed bytes that it was written from.

use super::reader::{whole_sum, Terms};
use super::Report;
use crate::fields::{bytes, show_bytes, Input};
use crate::operations::other_fields;
use crate::refusals::{Refused, NODES, TEXT};
use crate::spelling::letter_of;
use crate::sums::VARIABLES;
use crate::table::{MOST_NODES, NODE_NUMBERS};
use crate::text::{read_text, LONGEST_TEXT, TABLE_ROOM};
use crate::typed::packed_table;

/// Every term with its sign, its coefficient and all its letters, exponents 0 and 1 too; then what is not to be written
/// is struck out. The semicolon keeps the exponent 1 apart from 10.
fn in_full_and_struck_out(terms: &Terms) -> String {
    let mut text = String::new();
    for (coefficient, pattern) in terms {
        text += &format!("{coefficient:+}");
        for (variable, exponent) in pattern.iter().enumerate() {
            text += &format!("*{}^{exponent};", letter_of(variable));
        }
    }
    for variable in 0..VARIABLES {
        text = text.replace(&format!("*{}^0;", letter_of(variable)), "");
    }
    text = text.replace("^1;", "").replace(';', "").replace("+1*", "+").replace("-1*", "-");
    match text.strip_prefix('+') {
        Some(rest) => rest.to_string(),
        None if text.is_empty() => "0".to_string(),
        None => text,
    }
}

/// How many nodes a text without brackets needs, from its signs alone: a node for each atom, for each * and ^ and for
/// each sign between two terms, and two for each minus.
fn nodes_needed(text: &str) -> usize {
    let count = |sign: char| text.matches(sign).count();
    let between = count('+') + count('-') - usize::from(text.starts_with('-'));
    let atoms = 1 + count('*') + between;
    atoms + count('*') + count('^') + between + 2 * count('-')
}

/// Where the reader's limits allow it, text and table are both accepted and give the bytes again. Else the reader says
/// which limit it was; a written text has no other fault.
fn check_again(sum: &[u8], text: &str, report: &mut Report) {
    let mut table = vec![0; TABLE_ROOM];
    let read = read_text(text.as_bytes(), &mut table);
    let nodes = nodes_needed(text);
    let refused = |number: u64, place: usize| read == Err(Refused { number, place: place as u64 });
    let (name, holds) = if text.len() > LONGEST_TEXT {
        ("a written text over the reader's length", refused(TEXT, LONGEST_TEXT))
    } else if nodes > MOST_NODES {
        ("a written text over the reader's nodes", refused(NODES, 0))
    } else {
        let packed = read.is_ok_and(|count| {
            table.truncate(NODE_NUMBERS * count as usize);
            count as usize == nodes && packed_table(&table).as_deref() == Some(sum)
        });
        ("a written text read again", packed)
    };
    report.expect(name, holds, || format!("{sum:?}: {text}, read {read:?}"));
}

pub fn check_case(inputs: &[Input], own: &str, report: &mut Report) {
    let [Input::Bytes(sum)] = inputs else { other_fields() };
    if own.starts_with("refused 1 ") {
        return;
    }
    let expected = match whole_sum(sum) {
        Err(place) => format!("refused 7 {place} stay"),
        Ok(terms) => {
            let text = in_full_and_struck_out(&terms);
            format!("done {} {} stay", text.len(), show_bytes(text.as_bytes()))
        }
    };
    report.expect("write, a second way", own == expected, || format!("{sum:?}: {own}, second {expected}"));
    if let ["done", _, written, _] = own.split(' ').collect::<Vec<&str>>()[..] {
        let written = bytes(written.as_bytes()).expect("hex digits");
        check_again(sum, &String::from_utf8_lossy(&written), report);
    }
}
