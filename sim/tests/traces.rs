//! What a trace may end in, and the order of verdicts.

use std::io::{self, Read};

use sim::departure::Departure;
use sim::hub::CLOCK_END;
use sim::kinds::Kind;
use sim::link::{Connection, MOST_CONNECTIONS};
use sim::notices::NOTICE_NUMBER;
use sim::record::{Answer, Record};
use sim::replay::{answers, replay, Job, Pace, SIZE_LIMIT};

const LINK: &[u8] = b"LK\x02\x04\x00\x00\x0A\x00\x14\x00";
const CONNECTION: &[u8] = b"CN\x01\x0A\x00\x04\x00\x00\x00\x00\x00";
const PACKET: &[u8] = b"PK\x00\x02\x00\x07\x00\x00\x00";
const TICKS: &[u8] = b"TK\x02\x00";

fn answered(trace: &[u8]) -> Vec<u8> {
    let passing = answers(trace, Pace::Passing).expect("answers");
    assert_eq!(passing, answers(trace, Pace::Plain).expect("answers"));
    passing
}

fn error_at(offset: usize) -> Vec<u8> {
    let mut answer = b"ER\x0E".to_vec();
    answer.extend_from_slice(&(offset as u32).to_le_bytes());
    answer
}

fn ticks(count: u16) -> Vec<u8> {
    [&b"TK"[..], &count.to_le_bytes()].concat()
}

#[test]
fn empty_trace() {
    assert_eq!(answered(b""), b"");
}

#[test]
fn cut_at_every_byte() {
    let records = [LINK, CONNECTION, PACKET, TICKS];
    let trace = records.concat();
    let mut starts = vec![0];
    for record in records {
        starts.push(starts[starts.len() - 1] + record.len());
    }
    for length in 0..=trace.len() {
        let given = answered(&trace[..length]);
        let start = starts.iter().rev().find(|&&start| start <= length);
        let start = *start.expect("0 is a start");
        let mut expected = answered(&trace[..start]);
        if start < length {
            expected.extend(error_at(start));
        }
        assert_eq!(given, expected, "cut at {length}");
    }
}

#[test]
fn unknown_marks_and_answer_marks() {
    for mark in ["LA", "CA", "PA", "DP", "TA", "ER", "lk", "KT", "XX", "\0\0"] {
        let trace = [TICKS, mark.as_bytes(), &[0; 30]].concat();
        let expected = [&b"TA\x02\x00\x00"[..], &error_at(4)].concat();
        assert_eq!(answered(&trace), expected, "{mark}");
    }
}

#[test]
fn a_link_with_n_out_of_range_is_malformed_even_after_a_link() {
    for levels in [0, 9, 255] {
        let trace = [LINK, b"LK", &[levels], &[1; 600]].concat();
        let expected = [&b"LA\x00"[..], &error_at(LINK.len())].concat();
        assert_eq!(answered(&trace), expected);
    }
}

#[test]
fn a_second_link_is_3_also_with_broken_limits() {
    let trace = [LINK, LINK, b"LK\x01\x00\x00\x00\x00\x00"].concat();
    assert_eq!(answered(&trace), b"LA\x00LA\x03LA\x03");
}

#[test]
fn no_link_set() {
    let trace = [CONNECTION, PACKET, TICKS, &ticks(0)].concat();
    let expected = [
        &b"CA\x02\xFF\x00\x00\x00\x00\x00PA\x02\x00\x00\x00\x00"[..],
        b"TA\x02\x00\x00TA\x02\x00\x00",
    ]
    .concat();
    assert_eq!(answered(&trace), expected);
}

/// A trace of link and one connection whose clock stands `left` ticks before its end.
fn near_the_end(left: u64) -> Vec<u8> {
    let mut trace = [LINK, CONNECTION].concat();
    let mut wanted = CLOCK_END - left;
    while wanted > 0 {
        let asked = wanted.min(65_535);
        trace.extend(ticks(asked as u16));
        wanted -= asked;
    }
    trace
}

/// The answers to what follows a long run, which is too long for single ticks.
fn answered_after(run: &[u8], rest: &[u8]) -> Vec<u8> {
    let before = answers(run, Pace::Passing).expect("answers").len();
    let mut given = answers(&[run, rest].concat(), Pace::Passing).expect("answers");
    given.drain(..before);
    given
}

#[test]
fn ticks_across_the_clocks_end() {
    let run = near_the_end(3);
    let across = answered_after(&run, &[ticks(4), ticks(0), ticks(1)].concat());
    assert_eq!(across, b"TA\x0D\x03\x00TA\x00\x00\x00TA\x0D\x00\x00");
    let exact = answered_after(&run, &[ticks(3), ticks(2)].concat());
    assert_eq!(exact, b"TA\x00\x03\x00TA\x0D\x00\x00");
}

#[test]
fn offers_and_admissions_at_the_clocks_end() {
    let run = near_the_end(0);
    assert_eq!(answered_after(&run, PACKET), b"PA\x0D\x00\x00\x00\x00");
    let missing = b"PK\x01\x02\x00\x07\x00\x00\x00";
    assert_eq!(answered_after(&run, missing), b"PA\x0A\x00\x00\x00\x00");
    let too_long = b"PK\x00\x05\x00\x07\x00\x00\x00";
    assert_eq!(answered_after(&run, too_long), b"PA\x0B\x00\x00\x00\x00");
    let newcomer = b"CN\x02\x14\x00\x04\x00\x00\x00\x00\x00";
    let accepted = b"CA\x00\x01\x00\x00\x00\x00\x00";
    assert_eq!(answered_after(&run, newcomer), accepted);
    assert_eq!(answered_after(&run, LINK), b"LA\x03");
}

#[test]
fn a_packet_in_service_at_the_clocks_end_stays_held() {
    let run = near_the_end(1);
    let rest = [PACKET, &ticks(9), PACKET].concat();
    let first = (CLOCK_END as u32 - 1).to_le_bytes();
    let expected = [
        b"PA\x00",
        &first[..],
        b"TA\x0D\x01\x00PA\x0C\x00\x00\x00\x00",
    ]
    .concat();
    assert_eq!(answered_after(&run, &rest), expected);
}

#[test]
fn eligibility_beyond_the_clocks_end() {
    // Accepted, never served, held for ever.
    let run = near_the_end(3);
    let newcomer = b"CN\x02\xFF\xFF\x04\x00\x00\x00\x00\x00";
    let offer = b"PK\x01\x01\x00\x00\x00\x00\x00";
    let rest = [newcomer, &offer[..], &ticks(1), offer, &ticks(3), offer].concat();
    let beyond = (CLOCK_END - 3 + 65_535) as u32;
    let expected = [
        b"PA\x00",
        &beyond.to_le_bytes()[..],
        b"TA\x0D\x02\x00PA\x0C\x00\x00\x00\x00",
    ]
    .concat();
    let given = answered_after(&run, &rest);
    assert!(given.ends_with(&expected), "{given:?}");
}

/// A link, refused offers and `TK` 0, `length` bytes in all.
fn filler(length: usize) -> Vec<u8> {
    let mut trace = LINK.to_vec();
    for _ in 0..(length - trace.len()) % 4 {
        trace.extend_from_slice(PACKET);
    }
    while trace.len() < length {
        trace.extend_from_slice(b"TK\x00\x00");
    }
    trace
}

#[test]
fn the_size_limit() {
    let limit = SIZE_LIMIT as usize;
    let full = filler(limit);
    let full_answers = answers(&full, Pace::Passing).expect("answers");
    assert!(full_answers.ends_with(b"TA\x00\x00\x00"));
    for tail in [&b"T"[..], b"\0", TICKS, PACKET] {
        let longer = answers(&[&full[..], tail].concat(), Pace::Passing).expect("answers");
        assert_eq!(longer, [&full_answers[..], &error_at(limit)].concat());
    }
    for missing in 1..=4 {
        let below = filler(limit - missing);
        let crossed = [&below[..], PACKET].concat();
        let given = answers(&crossed, Pace::Passing).expect("answers");
        assert!(given.ends_with(&error_at(limit - missing)));
        let cut = answers(&crossed[..limit], Pace::Passing).expect("answers");
        assert_eq!(given, cut);
    }
    let last = [&filler(limit - PACKET.len())[..], PACKET].concat();
    let given = answers(&last, Pace::Passing).expect("answers");
    assert!(given.ends_with(b"PA\x0A\x00\x00\x00\x00"));
}

/// An input that gives its bytes in short pieces, with interruptions.
struct Pieces<'a> {
    rest: &'a [u8],
    turn: usize,
}

impl Read for Pieces<'_> {
    fn read(&mut self, room: &mut [u8]) -> io::Result<usize> {
        self.turn += 1;
        if self.turn % 5 == 0 {
            return Err(io::ErrorKind::Interrupted.into());
        }
        let count = (self.turn % 3 + 1).min(room.len()).min(self.rest.len());
        let (given, rest) = self.rest.split_at(count);
        room[..count].copy_from_slice(given);
        self.rest = rest;
        Ok(count)
    }
}

#[test]
fn short_pieces() {
    for kind in Kind::of_levels().filter(|kind| !kind.name.ends_with("limit")) {
        let trace = kind.trace(1, None);
        let mut given = Vec::new();
        let pieces = Pieces {
            rest: &trace,
            turn: 0,
        };
        replay(pieces, &mut given, Pace::Passing).expect("answers");
        let expected = answers(&trace, Pace::Passing).expect("answers");
        assert!(given == expected, "{}", kind.name);
    }
}

#[test]
fn reading_what_is_written_gives_the_record_back() {
    for kind in Kind::of_levels().filter(|kind| !kind.name.ends_with("limit")) {
        let trace = kind.trace(2, None);
        let mut rest = &trace[..];
        while let Some((record, length)) = Record::read(rest) {
            let mut written = Vec::new();
            record.append_to(&mut written);
            assert_eq!(written, &rest[..length]);
            assert_eq!(Record::read(&written), Some((record, length)));
            rest = &rest[length..];
        }
    }
}

#[test]
fn the_bound_is_kept() {
    // Each accepted packet with eligibility e at a level with bound d finishes by e + d.
    for kind in Kind::of_levels().filter(|kind| !kind.name.ends_with("limit")) {
        for seed in 0..10 {
            let trace = kind.trace(seed, None);
            check_bounds(&trace, kind.name, seed);
        }
    }
}

fn check_bounds(trace: &[u8], kind: &str, seed: u64) {
    let mut job = Job::new(Pace::Passing);
    let mut rest = trace;
    while let Some((record, length)) = Record::read(rest) {
        rest = &rest[length..];
        let mut departed = Vec::new();
        let result: Result<(), ()> = job.carry_out(record, &mut |answer| {
            if let Answer::Departed(departure) = answer {
                departed.push(departure);
            }
            Ok(())
        });
        assert_eq!(result, Ok(()));
        let of_levels = |departure: &Departure| departure.connection != NOTICE_NUMBER;
        for departure in departed.into_iter().filter(of_levels) {
            let link = job.hub().link().expect("a link");
            let line = job.hub().connection(departure.connection);
            let bound = u64::from(link.bound(line.expect("it stands").level()));
            let latest = departure.eligibility + bound;
            assert!(departure.finish <= latest, "{kind} {seed} {departure:?}");
        }
    }
}

#[test]
fn lines_that_keep_their_word_are_eligible_on_arrival() {
    let (mut plain, mut with_average) = (0, 0);
    for kind in Kind::of_levels().filter(|kind| !kind.name.ends_with("limit")) {
        for seed in 0..10 {
            let checked = check_words(&kind.trace(seed, None), kind.name, seed);
            plain += checked.0;
            with_average += checked.1;
        }
    }
    assert!(plain > 2_000, "only {plain} offers");
    assert!(with_average > 1_000, "only {with_average} offers");
}

/// Whether an offer now keeps a connection's word: its gap behind the last of its offers of allowed
/// length and, with an average, I behind the n-th of them before it.
fn in_its_word(terms: &Connection, offered: &[u64], now: u64) -> bool {
    let gap = u64::from(terms.gap());
    let keeps_gap = offered.last().map_or(true, |last| last + gap <= now);
    let nth = |n: u16| offered.iter().rev().nth(usize::from(n) - 1);
    keeps_gap
        && terms.average().map_or(true, |average| {
            nth(average.packets()).map_or(true, |one| one + u64::from(average.window()) <= now)
        })
}

/// Offers of allowed length of lines that have kept their word: no 12, eligible on arrival. Gives
/// how many there were, of plain lines and of those with an average.
fn check_words(trace: &[u8], kind: &str, seed: u64) -> (usize, usize) {
    let mut job = Job::new(Pace::Passing);
    let mut offered = vec![Vec::new(); MOST_CONNECTIONS];
    let mut keeps = [true; MOST_CONNECTIONS];
    let (mut rest, mut checked) = (trace, (0, 0));
    while let Some((record, length)) = Record::read(rest) {
        rest = &rest[length..];
        let mut last_answer = None;
        let result: Result<(), ()> = job.carry_out(record.clone(), &mut |answer| {
            last_answer = Some(answer);
            Ok(())
        });
        assert_eq!(result, Ok(()));
        if let Some(Answer::Connection {
            verdict: 0,
            connection,
            ..
        }) = last_answer
        {
            // The new owner of a number has nothing to do with those before it.
            offered[usize::from(connection)].clear();
            keeps[usize::from(connection)] = true;
        }
        let (connection, length) = match record {
            Record::Packet {
                connection,
                length,
                stamp: None,
                ..
            } => (connection, length),
            _ => continue,
        };
        let (line, clock) = (usize::from(connection), job.hub().clock());
        let terms = match job.hub().connection(connection) {
            Some(terms) if terms.allowance().is_none() => *terms,
            _ => continue,
        };
        if length == 0 || length > terms.size() || clock >= CLOCK_END {
            continue;
        }
        keeps[line] &= in_its_word(&terms, &offered[line], clock);
        offered[line].push(clock);
        if keeps[line] {
            let on_arrival = Answer::Packet {
                verdict: 0,
                eligibility: clock,
            };
            assert_eq!(last_answer, Some(on_arrival), "{kind} {seed}");
            match terms.average() {
                None => checked.0 += 1,
                Some(_) => checked.1 += 1,
            }
        }
    }
    checked
}
