//! The calls that a caller in C makes on lent tables, as lines of text (include/mtredovim.h has their numbers and what they are told).
//!
//! ```text
//! lent L C P N [A=V ..]     tables of these lengths; A is a letter of l, c, p, n for line, connections, places, notices, and a place
//!                           in it, from 0; V the number there. All others are 0. Answer: `sound`, or `not sound`
//! try CALL NUMBERS          what the call is told on these tables, and behind it each number that it changes, A=V; where these are
//!                           many, how many, and a sum of all of them
//! make CALL NUMBERS         the same, and they stay changed
//! ```

use std::io::{self, BufRead, Write};

use crate::departure::Tick;
use crate::frames::{Framing, Share};
use crate::link::{Figures, LinkFigures, MOST_LEVELS};
use crate::notices::NOTICE_NUMBER;
use crate::record::{Answer, Record, NO_CONNECTION};
use crate::replay::Job;
use crate::tables::{Tables, NOTICES, PLACES};

const NOT_SOUND: u32 = 1;

/// So many changed numbers are said one by one.
const MOST_SAID: usize = 60;

/// The letters of the tables, in their order.
const LETTERS: [char; 4] = ['l', 'c', 'p', 'n'];

/// Tables that are lent, and the line that they stand for where they are sound.
struct Lent {
    tables: Tables,
    line: Option<Job>,
}

impl Lent {
    fn of(tables: Tables) -> Lent {
        let line = tables.line();
        Lent { tables, line }
    }

    fn said(&self) -> String {
        let sound = self.line.is_some();
        String::from(if sound { "sound" } else { "not sound" })
    }

    /// Makes a call; what is told, and the numbers that it has changed.
    fn make(&mut self, call: &str, numbers: &[u32]) -> Option<String> {
        let told = match &mut self.line {
            Some(line) => told(line, &self.tables, call, numbers)?,
            None => refused(call, NOT_SOUND)?,
        };
        let mut said: Vec<String> = told.iter().map(u32::to_string).collect();
        if let Some(line) = &self.line {
            let after = Tables::of(line);
            said.extend(changed(&self.tables, &after));
            self.tables = after;
        }
        Some(said.join(" "))
    }

    fn copy(&self) -> Lent {
        Lent {
            tables: self.tables.clone(),
            line: self.line.clone(),
        }
    }
}

/// Each number that is another one now, by its table and its place.
fn changed(before: &Tables, after: &Tables) -> Vec<String> {
    let mut all = Vec::new();
    for table in 0..LETTERS.len() {
        let pairs = before.numbers[table].iter().zip(&after.numbers[table]);
        let others = pairs.enumerate().filter(|(_, (old, new))| old != new);
        all.extend(others.map(|(at, (_, &new))| (table, at, new)));
    }
    match all.len() {
        0..=MOST_SAID => all.iter().map(said).collect(),
        many => vec![format!("changed={many}"), format!("sum={}", sum(&all))],
    }
}

fn said(&(table, at, number): &(usize, usize, u32)) -> String {
    format!("{}{at}={number}", LETTERS[table])
}

/// FNV-1a, by words.
fn sum(all: &[(usize, usize, u32)]) -> u64 {
    let words = all
        .iter()
        .flat_map(|&(table, at, number)| [table as u64, at as u64, u64::from(number)]);
    words.fold(0xcbf2_9ce4_8422_2325, |sum: u64, word| {
        (sum ^ word).wrapping_mul(0x0100_0000_01b3)
    })
}

/// What a call is told that is refused: the verdict, of an admission 255, else zeros.
fn refused(call: &str, verdict: u32) -> Option<Vec<u32>> {
    let (number, zeros) = match call {
        "link" | "link_frames" | "close" => (None, 0),
        "admit" | "admit_stamped" | "admit_share" => (Some(u32::from(NO_CONNECTION)), 2),
        "offer" | "offer_stamped" | "notice" => (None, 1),
        "tick" => (None, 7),
        "ticks" => (None, 8),
        _ => return None,
    };
    let mut told = vec![verdict];
    told.extend(number);
    told.extend(vec![0; zeros]);
    Some(told)
}

/// What a call on a sound line is told.
fn told(line: &mut Job, tables: &Tables, call: &str, numbers: &[u32]) -> Option<Vec<u32>> {
    match (call, numbers) {
        ("tick", []) => {
            let mut told = ticks(line, tables, 1);
            told.remove(1);
            Some(told)
        }
        ("ticks", &[asked]) => Some(ticks(line, tables, asked)),
        _ => {
            let mut told = Vec::new();
            let carried_out = line.carry_out(record(call, numbers)?, &mut |answer| {
                told = numbers_of(&answer);
                Ok::<(), ()>(())
            });
            carried_out.ok().map(|()| told)
        }
    }
}

/// The verdict, how many ticks are done, 1 and the packet where one has left: connection, length, tag, arrival, eligibility, finish. It was
/// the first of its connection's rows, or the first notice.
fn ticks(line: &mut Job, tables: &Tables, asked: u32) -> Vec<u32> {
    let (verdict, done, departure) = line.ticks_to_departure(Tick::from(asked));
    let mut told = vec![u32::from(verdict), done as u32];
    told.extend(match departure {
        None => [0; 7],
        Some(gone) => [
            1,
            u32::from(gone.connection),
            first_length(tables, gone.connection),
            gone.tag,
            gone.arrival as u32,
            gone.eligibility as u32,
            gone.finish as u32,
        ],
    });
    told
}

fn first_length(tables: &Tables, connection: u8) -> u32 {
    let table = match connection {
        NOTICE_NUMBER => NOTICES,
        _ => PLACES,
    };
    let mut rows = tables.numbers[table].chunks_exact(5);
    let first = rows.find(|row| row[0] == u32::from(connection) && row[1] != 0);
    first.map_or(0, |row| row[1])
}

/// What an answer tells.
fn numbers_of(answer: &Answer) -> Vec<u32> {
    match *answer {
        Answer::Link { verdict } | Answer::Closed { verdict } => vec![u32::from(verdict)],
        Answer::Connection {
            verdict,
            connection,
            short,
        } => {
            let (level, units) = short.map_or((0, 0), |one| (one.level, one.units));
            let numbers = [u32::from(verdict), u32::from(connection), u32::from(level)];
            numbers.into_iter().chain([units as u32]).collect()
        }
        Answer::Packet {
            verdict,
            eligibility,
        }
        | Answer::Notice {
            verdict,
            eligibility,
        } => vec![u32::from(verdict), eligibility as u32],
        _ => Vec::new(),
    }
}

/// A number in the place of one that is too great for its kind: greater than every limit too.
fn byte(number: u32) -> u8 {
    u8::try_from(number).unwrap_or(u8::MAX)
}

fn two(number: u32) -> u16 {
    u16::try_from(number).unwrap_or(u16::MAX)
}

/// The record that asks what a call asks.
fn record(call: &str, numbers: &[u32]) -> Option<Record> {
    Some(match (call, numbers) {
        ("link", numbers) => Record::Link(Box::new(link(numbers)?)),
        ("link_frames", &[frame, largest, silence]) => Record::Framing(Framing {
            frame: two(frame),
            largest: two(largest),
            silence: byte(silence),
        }),
        ("admit", &[level, gap, size, window, average]) => {
            Record::Connection(figures(level, gap, size, (window, average), None))
        }
        ("admit_stamped", &[level, gap, size, allowance]) => {
            Record::Connection(figures(level, gap, size, (0, 0), Some(allowance)))
        }
        ("admit_share", &[units, places]) => Record::Share(Share {
            units: two(units),
            places: two(places),
        }),
        ("offer", &[connection, length, tag]) => packet(connection, length, tag, None),
        ("offer_stamped", &[connection, length, tag, stamp]) => {
            packet(connection, length, tag, Some(stamp))
        }
        ("notice", &[length, tag]) => Record::Notice {
            length: two(length),
            tag,
        },
        ("close", &[connection]) => Record::Close {
            connection: byte(connection),
        },
        _ => return None,
    })
}

/// Levels, S, silence and setting, eight bounds, eight windows.
fn link(numbers: &[u32]) -> Option<LinkFigures> {
    let (levels, largest, silence, setting, spans) = match *numbers {
        [levels, largest, silence, setting, ref spans @ ..] if spans.len() == 2 * MOST_LEVELS => {
            (levels, largest, silence, setting, spans)
        }
        _ => return None,
    };
    let eight = |from: usize| {
        let mut all = [0; MOST_LEVELS];
        let some = all.iter_mut().zip(&spans[from..]);
        some.for_each(|(one, &number)| *one = two(number));
        all
    };
    Some(LinkFigures {
        levels: byte(levels),
        largest: two(largest),
        silence: byte(silence),
        setting: Some(byte(setting)),
        bounds: eight(0),
        windows: Some(eight(MOST_LEVELS)),
    })
}

/// The limit of a gap, a window, an average gap and an allowance is the greatest that two bytes hold: where
/// one of them is greater, a limit is broken, as by a gap of 0.
fn figures(
    level: u32,
    gap: u32,
    size: u32,
    (window, average): (u32, u32),
    allowance: Option<u32>,
) -> Figures {
    let most = u32::from(u16::MAX);
    let numbers = [gap, window, average, allowance.unwrap_or(0)];
    let fit = numbers.iter().all(|&number| number <= most);
    Figures {
        level: byte(level),
        gap: if fit { two(gap) } else { 0 },
        size: two(size),
        window: two(window),
        average: two(average),
        allowance: allowance.map(two),
    }
}

fn packet(connection: u32, length: u32, tag: u32, stamp: Option<u32>) -> Record {
    Record::Packet {
        connection: byte(connection),
        length: two(length),
        tag,
        stamp,
    }
}

// ---- the lines

/// The tables of a `lent`.
fn tables(words: &mut std::str::SplitAsciiWhitespace) -> Option<Tables> {
    let mut numbers = [vec![], vec![], vec![], vec![]];
    for table in &mut numbers {
        *table = vec![0; words.next()?.parse().ok()?];
    }
    for word in words {
        let (place, number) = word.split_once('=')?;
        let table = LETTERS.iter().position(|&one| place.starts_with(one))?;
        let at: usize = place[1..].parse().ok()?;
        *numbers[table].get_mut(at)? = number.parse().ok()?;
    }
    Some(Tables { numbers })
}

/// What is answered to a line; nothing where it is not understood.
fn answer(lent: &mut Lent, line: &str) -> Option<String> {
    let mut words = line.split_ascii_whitespace();
    let asked = words.next()?;
    if asked == "lent" {
        *lent = Lent::of(tables(&mut words)?);
        return Some(lent.said());
    }
    let call = words.next()?;
    let numbers: Option<Vec<u32>> = words.map(|word| word.parse().ok()).collect();
    match asked {
        "try" => lent.copy().make(call, &numbers?),
        "make" => lent.make(call, &numbers?),
        _ => None,
    }
}

/// Answers each line by a line.
pub fn answer_lines(input: impl BufRead, mut output: impl Write) -> io::Result<()> {
    let mut lent = Lent::of(Tables::fresh());
    for line in input.lines() {
        let line = line?;
        let not_understood = || {
            let text = format!("not understood: {line}");
            io::Error::new(io::ErrorKind::InvalidInput, text)
        };
        let said = answer(&mut lent, &line).ok_or_else(not_understood)?;
        writeln!(output, "{said}")?;
    }
    output.flush()
}
