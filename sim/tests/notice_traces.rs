//! Notices in traces: bytes, and what must hold over every generated trace with notices.

use std::collections::VecDeque;

use sim::kinds::Kind;
use sim::notices::{MOST_NOTICES, NOTICE_NUMBER};
use sim::record::{Answer, Record};
use sim::replay::{answers, Job, Pace};

const LINK: &[u8] = b"LK\x01\x04\x00\x00\x0A\x00";
const NOTICE: &[u8] = b"NQ\x02\x00\x07\x01\x00\x80";

fn answered(trace: &[u8]) -> Vec<u8> {
    let passing = answers(trace, Pace::Passing).expect("answers");
    assert_eq!(passing, answers(trace, Pace::Plain).expect("answers"));
    passing
}

#[test]
fn the_bytes_of_a_notice() {
    // Offered at 3, units at 3 and 4; the departure bears 254 and twice the arrival.
    let trace = [LINK, b"TK\x03\x00", NOTICE, b"TK\x02\x00"].concat();
    let expected = [
        &b"LA\x00TA\x00\x03\x00NA\x00\x03\x00\x00\x00"[..],
        b"DP\xFE\x07\x01\x00\x80\x03\x00\x00\x00\x03\x00\x00\x00\x05\x00\x00\x00",
        b"TA\x00\x02\x00",
    ]
    .concat();
    assert_eq!(answered(&trace), expected);
}

#[test]
fn the_bytes_of_refusals() {
    let too_long = b"NQ\x05\x00\x07\x00\x00\x00";
    let trace = [NOTICE, LINK, too_long, &NOTICE.repeat(65)].concat();
    let expected = [
        &b"NA\x02\x00\x00\x00\x00LA\x00NA\x0B\x00\x00\x00\x00"[..],
        &b"NA\x00\x00\x00\x00\x00".repeat(64),
        b"NA\x0F\x00\x00\x00\x00",
    ]
    .concat();
    assert_eq!(answered(&trace), expected);
}

#[test]
fn a_notice_cut_at_every_byte_is_malformed_at_its_start() {
    for length in 1..NOTICE.len() {
        let trace = [LINK, NOTICE, &NOTICE[..length]].concat();
        let expected = b"LA\x00NA\x00\x00\x00\x00\x00ER\x0E\x10\x00\x00\x00";
        assert_eq!(answered(&trace), expected, "{length} bytes");
    }
}

#[test]
fn the_answers_mark_is_no_trace_record() {
    for mark in ["NA", "nq", "QN", "N\0", "NR"] {
        let trace = [LINK, mark.as_bytes(), &[1; 30]].concat();
        assert_eq!(answered(&trace), b"LA\x00ER\x0E\x08\x00\x00\x00", "{mark}");
    }
}

/// The queue as told by the answers alone.
#[derive(Default)]
struct Told {
    waiting: VecDeque<(u32, u64)>,
    departed: usize,
}

impl Told {
    /// Accepted only with room, refused by 15 only without, departing in the order accepted.
    fn follow(&mut self, record: &Record, answer: Answer) {
        match (record, answer) {
            (
                Record::Notice { tag, .. },
                Answer::Notice {
                    verdict,
                    eligibility,
                },
            ) => match verdict {
                0 => {
                    assert!(self.waiting.len() < MOST_NOTICES);
                    self.waiting.push_back((*tag, eligibility));
                }
                15 => assert_eq!(self.waiting.len(), MOST_NOTICES),
                _ => assert_eq!(eligibility, 0),
            },
            (_, Answer::Departed(gone)) if gone.connection == NOTICE_NUMBER => {
                assert_eq!(gone.arrival, gone.eligibility);
                assert_eq!(self.waiting.pop_front(), Some((gone.tag, gone.arrival)));
                self.departed += 1;
            }
            (_, answer) => assert_ne!(answer.verdict(), Some(15)),
        }
    }
}

#[test]
fn accepted_is_departed_followed_by_waiting() {
    let mut departed = 0;
    for kind in Kind::of_levels().filter(|kind| !kind.name.ends_with("limit")) {
        for seed in 0..10 {
            let trace = kind.trace(seed, None);
            let (mut job, mut told, mut rest) =
                (Job::new(Pace::Passing), Told::default(), &trace[..]);
            while let Some((record, length)) = Record::read(rest) {
                rest = &rest[length..];
                let result: Result<(), ()> = job.carry_out(record.clone(), &mut |answer| {
                    told.follow(&record, answer);
                    Ok(())
                });
                assert_eq!(result, Ok(()));
                assert_eq!(told.waiting.len(), job.hub().notices_waiting());
            }
            departed += told.departed;
        }
    }
    assert!(departed > 5_000, "only {departed} notices");
}

/// What is left of a trace without its notices.
fn without_notices(trace: &[u8]) -> Vec<u8> {
    let (mut kept, mut rest) = (Vec::new(), trace);
    while let Some((record, length)) = Record::read(rest) {
        if !matches!(record, Record::Notice { .. }) {
            kept.extend_from_slice(&rest[..length]);
        }
        rest = &rest[length..];
    }
    kept
}

/// Verdict and connection of each admission, verdict of each link and `TK`.
fn calls_beside(trace: &[u8]) -> Vec<Answer> {
    let (mut job, mut told, mut rest) = (Job::new(Pace::Passing), Vec::new(), trace);
    while let Some((record, length)) = Record::read(rest) {
        rest = &rest[length..];
        let result: Result<(), ()> = job.carry_out(record, &mut |answer| {
            match answer {
                Answer::Packet { .. } | Answer::Notice { .. } | Answer::Departed(_) => {}
                other => told.push(other),
            }
            Ok(())
        });
        assert_eq!(result, Ok(()));
    }
    told
}

#[test]
fn notices_change_no_answer_of_links_admissions_and_ticks() {
    for kind in Kind::of_levels().filter(|kind| kind.name.starts_with("notice")) {
        if kind.name == "noticelimit" {
            continue;
        }
        for seed in 0..10 {
            let trace = kind.trace(seed, None);
            assert!(calls_beside(&trace) == calls_beside(&without_notices(&trace)));
        }
    }
}
