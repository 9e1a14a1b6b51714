//! Lines that REPLAY.md answers `unknown`, each kind that it lists. Some changes leave a line as good as it was.

use super::chance::Chance;
use crate::areas::{LONGEST_BYTE_AREA, LONGEST_WORD_AREA};
use crate::fields::Given;
use crate::lines::{case_line, Case, LONGEST_LINE, UNKNOWN};
use crate::operations::Operation;
use crate::packed::MOST_PACKED;
use crate::text::TABLE_ROOM;

/// The line of a case with one thing changed.
pub fn odd_line(chance: &mut Chance, case: &Case) -> Vec<u8> {
    let line = case_line(case).into_bytes();
    let mut fields = fields_of(&line);
    match chance.below(14) {
        0 => return with_end(line, b"\r"),
        1 => return with_end(line, chance.pick(&[&b" "[..], b" 0", b" -", b" 192"])),
        2 => fields[0] = other_name(chance, case.operation.name),
        3 => {
            fields.remove(chance.below(fields.len()));
        }
        4 => empty_field(chance, &mut fields),
        5 => return line.to_ascii_uppercase(),
        6 => {
            let index = some_field(chance, &fields);
            fields[index].make_ascii_uppercase();
        }
        7 => {
            let index = digits_field(chance, case.operation);
            odd_digits(chance, &mut fields[index]);
        }
        8..=10 => fields[number_field(chance, case.operation)] = other_number(chance).into_bytes(),
        11 => return with_other_byte(chance, line),
        12 => return [&b" "[..], &line].concat(),
        _ => {
            let index = digits_field(chance, case.operation);
            word_cut(chance, &mut fields[index]);
        }
    }
    fields.join(&b' ')
}

/// Lines that come from no case.
pub fn strange_line(chance: &mut Chance) -> Vec<u8> {
    match chance.below(24) {
        0 => too_long(chance),
        1..=11 => Vec::new(),
        _ => chance.pick(&[UNKNOWN, "text", "-", "done 0 - stay", "text 61 192 stay", "# text 61 192"]).into(),
    }
}

fn fields_of(line: &[u8]) -> Vec<Vec<u8>> {
    line.split(|&byte| byte == b' ').map(<[u8]>::to_vec).collect()
}

fn with_end(line: Vec<u8>, end: &[u8]) -> Vec<u8> {
    [&line, end].concat()
}

/// A name that is nearly the operation's. Names of others are not taken: they may be given to an operation one day.
fn other_name(chance: &mut Chance, name: &str) -> Vec<u8> {
    let (first, rest) = name.split_at(1);
    match chance.below(4) {
        0 => format!("{}{rest}", first.to_ascii_uppercase()),
        1 => rest.to_string(),
        2 => format!("{name}s"),
        _ => name[..name.len() - 1].to_string(),
    }
    .into_bytes()
}

/// Any but the name.
fn some_field(chance: &mut Chance, fields: &[Vec<u8>]) -> usize {
    chance.between(1, fields.len() - 1)
}

/// Two spaces together: an empty field, either put between two others or in the place of one.
fn empty_field(chance: &mut Chance, fields: &mut Vec<Vec<u8>>) {
    let index = some_field(chance, fields);
    if chance.one_in(2) {
        fields.insert(index, Vec::new());
    } else {
        fields[index].clear();
    }
}

/// One of the fields of hex digits; the name is field 0.
fn digits_field(chance: &mut Chance, operation: &Operation) -> usize {
    let given = operation.given;
    let fields: Vec<usize> = (0..given.len()).filter(|&index| given[index] != Given::Number).collect();
    1 + chance.pick(&fields)
}

/// One of the fields that are decimal numbers: those given, and every length.
fn number_field(chance: &mut Chance, operation: &Operation) -> usize {
    let given = operation.given;
    let mut fields: Vec<usize> = (0..given.len()).filter(|&index| given[index] == Given::Number).collect();
    fields.extend(given.len()..given.len() + operation.lent.len());
    1 + chance.pick(&fields)
}

/// A digit less or a digit more.
fn odd_digits(chance: &mut Chance, field: &mut Vec<u8>) {
    if chance.one_in(2) {
        field.pop();
    } else {
        field.push(b'0');
    }
}

fn other_number(chance: &mut Chance) -> String {
    // The longest areas and one more, 2^64 - 1 and above, and what 32 bits would take for a small one.
    let limits = [LONGEST_BYTE_AREA, LONGEST_BYTE_AREA + 1, LONGEST_WORD_AREA, LONGEST_WORD_AREA + 1];
    let large = [
        "18446744073709551615", "18446744073709551616", "18446744073709551617", "99999999999999999999",
        "340282366920938463463374607431768211456", "4294967488",
    ];
    let forms = ["00", "01", "-1", "1e3", "0x80", "128.0", "", "-", "1_000", "１"];
    match chance.below(23) {
        0..=3 => chance.pick(&limits).to_string(),
        4..=9 => chance.pick(&large).to_string(),
        10 => format!("+{TABLE_ROOM}"),
        11 => format!("0{TABLE_ROOM}"),
        12 => format!("0{MOST_PACKED}"),
        _ => chance.pick(&forms).to_string(),
    }
}

fn with_other_byte(chance: &mut Chance, mut line: Vec<u8>) -> Vec<u8> {
    let place = chance.below(line.len());
    line[place] = chance.pick(b"\t\rgG/:`@ -xX,;\0\x7f\xe9\xff");
    line
}

/// Two digits less or more: whole bytes, but not whole words.
fn word_cut(chance: &mut Chance, field: &mut Vec<u8>) {
    if field.len() > 2 && chance.one_in(2) {
        field.truncate(field.len() - 2);
    } else {
        field.extend(b"00");
    }
}

/// The longest line that is still looked at, and longer ones. The newline does not count.
fn too_long(chance: &mut Chance) -> Vec<u8> {
    let length = LONGEST_LINE + chance.pick(&[0, 1, 2, 4_464]);
    let (start, end) = ("text ", format!(" {TABLE_ROOM}"));
    // An even number of digits, and zeros after the length to fill up.
    let digits = (length - start.len() - end.len()) / 2 * 2;
    let line = format!("{start}{}{end}", "6".repeat(digits));
    format!("{line}{}", "0".repeat(length - line.len())).into_bytes()
}
