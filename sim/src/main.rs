//! `sim`: a trace on standard input, its answers on standard output.

use std::io::{self, BufWriter, Write};
use std::process::ExitCode;

use sim::calls::answer_lines;
use sim::firmware;
use sim::replay::{replay, Pace};
use sim::stats::Stats;

const USAGE: &str = "\
sim                        trace on standard input, answers on standard output
sim --plain                the same, every tick by itself
sim --tested               the same, the state tested before each record
sim --calls                calls on lent tables, a line each, in and out
sim --stats                trace on standard input, counts of verdicts and departures out
sim --next FLAG LAST GAP NOW   next eligibility, four 32-bit numbers
sim --level LINK ROWS      level question, both in hexadecimal ('-' is no bytes)
sim --units LINK ROWS      the units by which that level is over";

fn main() -> ExitCode {
    let arguments: Vec<String> = std::env::args_os()
        .skip(1)
        .map(|argument| argument.to_string_lossy().into_owned())
        .collect();
    let arguments: Vec<&str> = arguments.iter().map(String::as_str).collect();
    let result = match arguments.as_slice() {
        [] => replay(io::stdin().lock(), io::stdout().lock(), Pace::Passing),
        ["--plain"] => replay(io::stdin().lock(), io::stdout().lock(), Pace::Plain),
        ["--tested"] => replay(io::stdin().lock(), io::stdout().lock(), Pace::Tested),
        ["--calls"] => answer_lines(io::stdin().lock(), BufWriter::new(io::stdout().lock())),
        ["--stats"] => Stats::of(io::stdin().lock()).and_then(|stats| say(&stats.table())),
        ["--next", numbers @ ..] => answer(next_question(numbers)),
        ["--level", link, rows] => answer(level_question(link, rows)),
        ["--units", link, rows] => answer(units_question(link, rows)),
        _ => answer(None),
    };
    match result {
        Ok(()) => ExitCode::SUCCESS,
        Err(error) => {
            let _ = writeln!(io::stderr(), "{error}");
            ExitCode::FAILURE
        }
    }
}

fn say(text: &str) -> io::Result<()> {
    writeln!(io::stdout().lock(), "{text}")
}

fn answer(number: Option<u64>) -> io::Result<()> {
    match number {
        Some(number) => say(&number.to_string()),
        None => Err(io::Error::new(io::ErrorKind::InvalidInput, USAGE)),
    }
}

fn next_question(numbers: &[&str]) -> Option<u64> {
    let numbers: Option<Vec<u32>> = numbers.iter().map(|text| text.parse().ok()).collect();
    match *numbers?.as_slice() {
        [flag, last, gap, now] => Some(firmware::next_eligibility(flag, last, gap, now)),
        _ => None,
    }
}

fn level_question(link: &str, rows: &str) -> Option<u64> {
    let answer = firmware::level_answer(&bytes_of(link)?, &bytes_of(rows)?);
    Some(u64::from(answer))
}

fn units_question(link: &str, rows: &str) -> Option<u64> {
    Some(firmware::units_answer(&bytes_of(link)?, &bytes_of(rows)?))
}

/// Bytes from hexadecimal digits; `-` is no bytes.
fn bytes_of(text: &str) -> Option<Vec<u8>> {
    if text == "-" {
        return Some(Vec::new());
    }
    let digits: Option<Vec<u32>> = text.chars().map(|digit| digit.to_digit(16)).collect();
    digits?
        .chunks(2)
        .map(|pair| match *pair {
            [high, low] => u8::try_from(16 * high + low).ok(),
            _ => None,
        })
        .collect()
}
