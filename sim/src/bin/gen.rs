//! `gen`: traces made from a kind and a seed, on standard output.

use std::io::{self, Write};
use std::process::ExitCode;

use sim::kinds::{Kind, KINDS};
use sim::stats::Stats;

const USAGE: &str = "\
gen KIND SEED [SIZE]   the trace of a kind and a seed; SIZE counts steps, not bytes
gen --kinds            the kinds
gen --stats [SEEDS]    verdicts, departures and ticks per kind over seeds 0 to SEEDS - 1, then
                       which levels were short and how many bytes their units need";

fn main() -> ExitCode {
    let arguments: Vec<String> = std::env::args_os()
        .skip(1)
        .map(|argument| argument.to_string_lossy().into_owned())
        .collect();
    let arguments: Vec<&str> = arguments.iter().map(String::as_str).collect();
    let result = match arguments.as_slice() {
        ["--kinds"] => list_kinds(),
        ["--stats"] => print_stats(20),
        ["--stats", seeds] => seeds.parse().map_or_else(usage, print_stats),
        [kind, seed] => write_trace(kind, seed, None),
        [kind, seed, size] => write_trace(kind, seed, Some(size)),
        _ => usage(()),
    };
    match result {
        Ok(()) => ExitCode::SUCCESS,
        Err(error) => {
            let _ = writeln!(io::stderr(), "{error}");
            ExitCode::FAILURE
        }
    }
}

fn usage<T>(_: T) -> io::Result<()> {
    Err(io::Error::new(io::ErrorKind::InvalidInput, USAGE))
}

fn list_kinds() -> io::Result<()> {
    let mut out = io::stdout().lock();
    KINDS
        .iter()
        .try_for_each(|kind| writeln!(out, "{}", kind.name))
}

fn write_trace(kind: &str, seed: &str, size: Option<&str>) -> io::Result<()> {
    let (kind, seed) = match (Kind::named(kind), seed.parse()) {
        (Some(kind), Ok(seed)) => (kind, seed),
        _ => return usage(()),
    };
    let size = match size.map(str::parse) {
        None => None,
        Some(Ok(size)) => Some(size),
        Some(Err(error)) => return usage(error),
    };
    let mut out = io::stdout().lock();
    out.write_all(&kind.trace(seed, size))?;
    out.flush()
}

fn print_stats(seeds: u64) -> io::Result<()> {
    let mut out = io::stdout().lock();
    writeln!(
        out,
        "{} departures notices          ticks",
        Stats::head("kind")
    )?;
    let mut shortages = Vec::new();
    for kind in &KINDS {
        let mut total = Stats::default();
        for seed in 0..seeds {
            total += &Stats::of(kind.trace(seed, None).as_slice())?;
        }
        writeln!(out, "{}", total.line(kind.name))?;
        shortages.push(total.short_line(kind.name));
    }
    writeln!(out, "\n{}", Stats::short_head("kind"))?;
    shortages
        .iter()
        .try_for_each(|line| writeln!(out, "{line}"))
}
