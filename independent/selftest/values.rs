//! Values at random points, modulo the prime 2^61 - 1: of the typed text, of its table, of the packed sum, of slopes and
//! of substitutions.

use super::Report;
use crate::cases::chance::Chance;
use crate::cases::random_sums::{small_plan, small_sum};
use crate::cases::random_texts::any_text;
use crate::change::{self, Pair};
use crate::estimate::{estimate, ANSWER_ROOM};
use crate::fields::Input;
use crate::operations::{estimate::case as estimate_case, other_fields};
use crate::packed::{code_of, packed, read_sum, unpack, write_number, MOST_PACKED, UNPACK_ROOM};
use crate::sums::{Pattern, Sum, FIRST_LETTER, LAST_LETTER, VARIABLES};
use crate::table::{NODE_NUMBERS, WORK_ROOM};
use crate::text::nodes_of;
use crate::typed::{list_of, packed_table};

const PRIME: i128 = (1 << 61) - 1;

/// A value and its slope by one variable: products and sums by the rules of calculus.
type Dual = (i128, i128);

/// A value for each variable.
type Point = [Dual; VARIABLES];

fn times(left: Dual, right: Dual) -> Dual {
    (left.0 * right.0 % PRIME, (left.0 * right.1 + left.1 * right.0) % PRIME)
}

fn plus(left: Dual, right: Dual) -> Dual {
    ((left.0 + right.0) % PRIME, (left.1 + right.1) % PRIME)
}

fn raised(base: Dual, exponent: usize) -> Dual {
    (0..exponent).fold((1, 0), |power, _| times(power, base))
}

fn same(left: i128, right: i128) -> bool {
    (left - right) % PRIME == 0
}

/// The typed text, split at its last operator outside brackets; weakest operators first.
fn text_value(text: &str, point: &Point) -> Dual {
    if let Some(place) = last_outside(text, "+-").filter(|&place| place > 0) {
        let sign = if text.as_bytes()[place] == b'-' { -1 } else { 1 };
        let right = text_value(&text[place + 1..], point);
        return plus(text_value(&text[..place], point), (sign * right.0, sign * right.1));
    }
    if let Some(rest) = text.strip_prefix('-') {
        let value = text_value(rest, point);
        return (-value.0, -value.1);
    }
    if let Some(place) = last_outside(text, "*") {
        return times(text_value(&text[..place], point), text_value(&text[place + 1..], point));
    }
    if let Some(place) = last_outside(text, "^") {
        return raised(text_value(&text[..place], point), text[place + 1..].parse().expect("an exponent"));
    }
    if let Some(inside) = text.strip_prefix('(') {
        return text_value(&inside[..inside.len() - 1], point);
    }
    match text.as_bytes()[0] {
        letter @ FIRST_LETTER..=LAST_LETTER => point[usize::from(letter - FIRST_LETTER)],
        _ => (text.parse::<i128>().expect("a number") % PRIME, 0),
    }
}

fn last_outside(text: &str, operators: &str) -> Option<usize> {
    let mut depth = 0;
    let mut last = None;
    for (place, byte) in text.char_indices() {
        match byte {
            '(' => depth += 1,
            ')' => depth -= 1,
            _ if depth == 0 && operators.contains(byte) => last = Some(place),
            _ => {}
        }
    }
    last
}

fn table_value(table: &[[i64; NODE_NUMBERS]], point: &Point) -> Dual {
    let mut values: Vec<Dual> = Vec::new();
    for &[kind, first, second] in table {
        values.push(match kind {
            0 => (i128::from(first) % PRIME, 0),
            1 => point[first as usize],
            2 => plus(values[first as usize], values[second as usize]),
            3 => times(values[first as usize], values[second as usize]),
            _ => raised(values[first as usize], second as usize),
        });
    }
    *values.last().expect("at least one node")
}

fn sum_value(sum: &Sum, point: &Point) -> Dual {
    let mut total = (0, 0);
    for term in &sum.terms {
        let mut product = (i128::from(term.coefficient) % PRIME, 0);
        for (letter, &value) in point.iter().enumerate() {
            product = times(product, raised(value, usize::from(term.pattern.exponent(letter))));
        }
        total = plus(total, product);
    }
    total
}

/// A random text: its own value, its table's and its sum's; and the sum's slope against the slope of the text.
fn check_formula(chance: &mut Chance, report: &mut Report) {
    let text = any_text(chance);
    let variable = chance.variable();
    let mut point: Point = std::array::from_fn(|_| (i128::from(chance.word() >> 4) % PRIME, 0));
    point[variable].1 = 1;
    let table = nodes_of(text.as_bytes()).expect("made by the grammar");
    let wanted = text_value(&text, &point);
    let of_table = table_value(&table, &point);
    report.expect("value of a text and of its table", same(wanted.0, of_table.0), || text.clone());
    let Some(bytes) = packed_table(&table.concat()) else { return };
    let sum = read_sum(&bytes).expect("simplify packs sums");
    report.expect("value of a text and of its sum", same(wanted.0, sum_value(&sum, &point).0), || text.clone());
    let mut result = vec![0; MOST_PACKED];
    let Ok(length) = change::slope(&bytes, variable as u64, &mut result) else { return };
    let slope = read_sum(&result[..length as usize]).expect("slope packs sums");
    report.expect("slope of a text and of its sum", same(wanted.1, sum_value(&slope, &point).0), || text.clone());
}

/// Pairs are applied one after the other, so the last pair's letter is valued first.
fn check_substitution(chance: &mut Chance, report: &mut Report) {
    let plan = small_plan(chance);
    let sum = small_sum(chance, plan);
    let mut pairs = Vec::new();
    for _ in 0..chance.below(5) {
        let plan = small_plan(chance);
        pairs.push(Pair { variable: chance.variable(), sum: small_sum(chance, plan) });
    }
    let point: Point = std::array::from_fn(|_| (i128::from(chance.word() >> 4) % PRIME, 0));
    let mut seen = point;
    for pair in pairs.iter().rev() {
        seen[pair.variable] = sum_value(&pair.sum, &seen);
    }
    let in_bytes: Vec<Vec<u8>> = pairs.iter().map(|pair| packed(&pair.sum)).collect();
    let numbers = pairs.iter().map(|pair| pair.variable as u64);
    let list = list_of(&numbers.zip(in_bytes.iter().map(Vec::as_slice)).collect::<Vec<_>>());
    let (mut result, mut patterns, mut coefficients) = (vec![0; MOST_PACKED], vec![0; WORK_ROOM], vec![0; WORK_ROOM]);
    let answer = change::substitute(&packed(&sum), &list, &mut result, &mut patterns, &mut coefficients);
    let Ok(length) = answer else { return };
    let put_in = read_sum(&result[..length as usize]).expect("substitute packs sums");
    let holds = same(sum_value(&sum, &seen).0, sum_value(&put_in, &point).0);
    report.expect("value after a substitution", holds, || format!("{sum:?} {list:?}"));
}

/// Everything within the tolerances is within the margin; the largest step away is a corner or the middle.
fn check_margin(chance: &mut Chance, report: &mut Report) {
    let plan = small_plan(chance);
    let mut sum = small_sum(chance, plan);
    // Three letters, so that all points can be looked at.
    sum.terms.retain(|term| (3..VARIABLES).all(|letter| term.pattern.exponent(letter) == 0));
    let readings: [i16; 3] = std::array::from_fn(|_| chance.between(0, 10) as i16 - 5);
    let tolerances: [i16; 3] = std::array::from_fn(|_| chance.below(3) as i16);
    let inputs = estimate_case(&packed(&sum), &readings, &tolerances).inputs;
    let [Input::Bytes(bytes), Input::Bytes(read), Input::Bytes(allowed)] = &inputs[..] else { other_fields() };
    let mut answer = [0; ANSWER_ROOM];
    estimate(bytes, read, allowed, &mut answer).expect("small numbers are in range");
    let (first, second) = answer.split_at(ANSWER_ROOM / 2);
    let [estimate, margin] = [first, second].map(|half| i64::from_le_bytes(half.try_into().expect("half an answer")));
    let around = |index: usize| readings[index] - tolerances[index]..=readings[index] + tolerances[index];
    for a in around(0) {
        for b in around(1) {
            for c in around(2) {
                let mut point = [(0, 0); VARIABLES];
                [point[0].0, point[1].0, point[2].0] = [a, b, c].map(i128::from);
                let value = sum_value(&sum, &point).0;
                let away = (value - i128::from(estimate)).abs();
                let middle = [a, b, c] == readings;
                let holds = away <= i128::from(margin) && (!middle || away == 0);
                report.expect("within the margin", holds, || format!("{sum:?} at {a} {b} {c}: {value}"));
            }
        }
    }
}

pub fn check(chance: &mut Chance, report: &mut Report) {
    check_formula(chance, report);
    check_substitution(chance, report);
    check_margin(chance, report);
}

/// pack, then unpack, gives the words back; and what is refused is not a packed sum either if it is written plainly.
pub fn check_pack(inputs: &[Input], own: &str, report: &mut Report) {
    let [Input::Number(count), Input::Words(patterns), Input::Signed(coefficients)] = inputs else { other_fields() };
    if own.starts_with("refused 1 ") || own.starts_with("refused 2 ") {
        return;
    }
    let count = *count as usize;
    let mut plain = Vec::new();
    write_number(&mut plain, count as u64);
    for index in 0..count {
        write_number(&mut plain, code_of(i128::from(coefficients[index])));
        let pattern = Pattern::from_word(patterns[index]);
        for variable in 0..VARIABLES {
            write_number(&mut plain, u64::from(pattern.exponent(variable)));
        }
    }
    let (mut again, mut numbers) = (vec![0; UNPACK_ROOM], vec![0; UNPACK_ROOM]);
    let read = unpack(&plain, &mut again, &mut numbers);
    let holds = match read {
        Ok(terms) => {
            let back = again[..count] == patterns[..count] && numbers[..count] == coefficients[..count];
            own.starts_with("done") && terms as usize == count && back
        }
        Err(_) => own.starts_with("refused 7 "),
    };
    report.expect("pack and unpack agree", holds, || format!("{patterns:x?} {coefficients:?}: {own}"));
}
