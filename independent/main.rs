//! A second, independent program for 01 of Reeveboom and request One of 02: answers the case lines of REPLAY.md, makes
//! cases, and compares. It was written from the words of 01 and 02 and their source documents, of the open points that
//! docs/DECISIONS.md lists, and of docs/REPLAY.md; no crate was looked at.

// `linked` is only set by the command line of the library build.
#![allow(unexpected_cfgs)]

mod areas;
mod cases;
mod change;
mod compare;
mod estimate;
mod fields;
#[cfg(linked)]
mod library;
mod lines;
mod operations;
mod packed;
mod refusals;
mod selftest;
mod spelling;
mod stated;
mod stored;
mod sums;
mod table;
mod text;
mod typed;

use cases::Fresh;
use operations::own;
use std::fs::File;
use std::io::{self, BufRead, BufReader, BufWriter, Write};
use std::process::exit;

const USAGE: &str = "answer | cases SEED COUNT | stored | check | selftest SEED COUNT
compare CASES ANSWERS NAME | library SEED COUNT (only in the library build)";

fn main() {
    let arguments: Vec<String> = std::env::args().skip(1).collect();
    let words: Vec<&str> = arguments.iter().map(String::as_str).collect();
    let done = match words[..] {
        ["answer"] => answer_all(),
        ["cases", seed, count] => write_cases(number(seed), number(count)),
        ["stored"] => write_lines(&stored::lines()).map(|()| true),
        ["check"] => Ok(stated::check()),
        ["selftest", seed, count] => Ok(selftest::run(number(seed), number(count))),
        ["compare", cases, answers, name] => compare_files(cases, answers, name),
        #[cfg(linked)]
        ["library", seed, count] => Ok(library::compare(number(seed), number(count))),
        _ => usage(),
    };
    match done {
        Ok(true) => {}
        Ok(false) => exit(1),
        // The reader of a pipe may stop early.
        Err(error) if error.kind() == io::ErrorKind::BrokenPipe => {}
        Err(error) => {
            eprintln!("{error}");
            exit(1)
        }
    }
}

fn usage() -> ! {
    eprintln!("{USAGE}");
    exit(2)
}

fn number(word: &str) -> u64 {
    word.parse().unwrap_or_else(|_| usage())
}

fn output() -> BufWriter<io::StdoutLock<'static>> {
    BufWriter::with_capacity(1 << 16, io::stdout().lock())
}

/// The next line without its newline; None at the end. A last line without a newline counts as a line.
pub fn next_line(input: &mut dyn BufRead) -> io::Result<Option<Vec<u8>>> {
    let mut line = Vec::new();
    if input.read_until(b'\n', &mut line)? == 0 {
        return Ok(None);
    }
    if line.last() == Some(&b'\n') {
        line.pop();
    }
    Ok(Some(line))
}

fn answer_all() -> io::Result<bool> {
    let mut input = io::stdin().lock();
    let mut output = output();
    while let Some(line) = next_line(&mut input)? {
        writeln!(output, "{}", lines::answer(&line, own))?;
    }
    output.flush().map(|()| true)
}

fn write_cases(seed: u64, count: u64) -> io::Result<bool> {
    let mut output = output();
    let mut fresh = Fresh::new(seed);
    for _ in 0..count {
        output.write_all(&fresh.line())?;
        output.write_all(b"\n")?;
    }
    output.flush().map(|()| true)
}

fn write_lines(lines: &[Vec<u8>]) -> io::Result<()> {
    let mut output = output();
    for line in lines {
        output.write_all(line)?;
        output.write_all(b"\n")?;
    }
    output.flush()
}

fn compare_files(cases: &str, answers: &str, name: &str) -> io::Result<bool> {
    let mut cases = BufReader::new(File::open(cases)?);
    let mut answers = BufReader::new(File::open(answers)?);
    compare::files(&mut cases, &mut answers, name)
}
