//! Tables, packed sums and lists from typed texts, by this program's own readers.

use crate::packed::{write_number, MOST_PACKED};
use crate::table::{simplify, NODE_NUMBERS, WORK_ROOM};
use crate::text::nodes_of;

/// The table of a text that is known to be allowed.
pub fn table_of(text: &str) -> Vec<i64> {
    nodes_of(text.as_bytes()).expect("an allowed text").concat()
}

/// How many nodes such a text has.
pub fn node_count(text: &str) -> usize {
    table_of(text).len() / NODE_NUMBERS
}

/// The packed sum of a table, if it is accepted.
pub fn packed_table(table: &[i64]) -> Option<Vec<u8>> {
    let (mut result, mut patterns, mut coefficients) = (vec![0; MOST_PACKED], vec![0; WORK_ROOM], vec![0; WORK_ROOM]);
    let length = simplify(table, &mut result, &mut patterns, &mut coefficients).ok()?;
    result.truncate(length as usize);
    Some(result)
}

/// The packed sum of a text that is known to be accepted.
pub fn packed_of(text: &str) -> Vec<u8> {
    packed_table(&table_of(text)).expect("an accepted formula")
}

/// The number of a variable's letter.
pub fn number_of(letter: char) -> u64 {
    u64::from(letter as u32 - 'a' as u32)
}

/// A list of pairs in bytes.
pub fn list_of(pairs: &[(u64, &[u8])]) -> Vec<u8> {
    let mut bytes = Vec::new();
    write_number(&mut bytes, pairs.len() as u64);
    for (variable, sum) in pairs {
        write_number(&mut bytes, *variable);
        bytes.extend(*sum);
    }
    bytes
}

/// A list typed as letter and text put in.
pub fn typed_list(pairs: &[(char, &str)]) -> Vec<u8> {
    let packed: Vec<Vec<u8>> = pairs.iter().map(|(_, text)| packed_of(text)).collect();
    let numbers = pairs.iter().map(|(letter, _)| number_of(*letter));
    let pairs: Vec<(u64, &[u8])> = numbers.zip(packed.iter().map(Vec::as_slice)).collect();
    list_of(&pairs)
}
