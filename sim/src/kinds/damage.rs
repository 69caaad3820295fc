//! Damaged traces: changed, cut, spliced and made-up bytes.

use super::script::Script;
use super::{closing, early, edges, frames, notices, stamps, traffic, windows};
use crate::random::Random;

/// A mark and how many bytes follow it.
type Marked = (&'static [u8; 2], usize);

/// Answers.
const ANSWERS: [Marked; 6] = [
    (b"LA", 1),
    (b"CA", 7),
    (b"PA", 5),
    (b"DP", 17),
    (b"TA", 3),
    (b"ER", 5),
];

/// A good record of each kind.
const GOOD: [&[u8]; 4] = [
    b"LK\x08\x01\x00\x02\x09\x00\x0A\x00\x0B\x00\x0C\x00\x0D\x00\x0E\x00\x0F\x00\x10\x00",
    b"CN\x01\x14\x00\x01\x00\x78\x00\x28\x00",
    b"PK\x00\x01\x00\x07\x00\x00\x00",
    b"TK\x05\x00",
];

/// Numbers of levels with which a link is malformed.
const BAD_LEVELS: [u8; 5] = [0, 9, 10, 128, 255];

/// What a trace is made of. The records that came later than document 01's are damaged in kinds of
/// their own, and the lists above stay as they were.
#[derive(Clone, Copy, Debug, PartialEq, Eq)]
enum Of {
    Packets,
    Notices,
    Closes,
    Stamps,
    Early,
    Windows,
    Frames,
}

/// A record that came later, and its answer.
#[derive(Clone, Copy)]
struct Later {
    record: &'static [u8],
    marked: Marked,
    answer: Marked,
}

const NOTICES: [Later; 1] = [Later {
    record: b"NQ\x01\x00\x07\x00\x00\x00",
    marked: (b"NQ", 6),
    answer: (b"NA", 5),
}];

const CLOSES: [Later; 1] = [Later {
    record: b"CL\x00",
    marked: (b"CL", 1),
    answer: (b"CD", 1),
}];

const STAMPS: [Later; 2] = [
    Later {
        record: b"PS\x00\x01\x00\x07\x00\x00\x00\x03\x00\x00\x00",
        marked: (b"PS", 11),
        answer: (b"PA", 5),
    },
    Later {
        record: b"CS\x01\x14\x00\x01\x00\x1E\x00",
        marked: (b"CS", 7),
        answer: (b"CA", 7),
    },
];

const EARLY: [Later; 1] = [Later {
    record:
        b"LE\x08\x01\x00\x02\x01\x09\x00\x0A\x00\x0B\x00\x0C\x00\x0D\x00\x0E\x00\x0F\x00\x10\x00",
    marked: (b"LE", 7),
    answer: (b"LA", 1),
}];

const WINDOWS: [Later; 1] = [Later {
    record: b"LW\x08\x01\x00\x02\x00\
        \x09\x00\x0A\x00\x0B\x00\x0C\x00\x0D\x00\x0E\x00\x0F\x00\x10\x00\
        \x19\x00\x1A\x00\x1B\x00\x1C\x00\x1D\x00\x1E\x00\x1F\x00\x20\x00",
    marked: (b"LW", 9),
    answer: (b"LA", 1),
}];

const FRAMES: [Later; 2] = [
    Later {
        record: b"LF\x0A\x00\x04\x00\x01",
        marked: (b"LF", 5),
        answer: (b"LA", 1),
    },
    Later {
        record: b"CF\x03\x00\x02\x00",
        marked: (b"CF", 4),
        answer: (b"CA", 7),
    },
];

/// An `LK`, an `LE` and an `LW` up to their bounds, with any n.
const LINK: [u8; 6] = *b"LK\0\x01\0\0";
const LINK_BY_SETTING: [u8; 7] = *b"LE\0\x01\0\0\x01";
const LINK_BY_WINDOWS: [u8; 7] = *b"LW\0\x01\0\0\0";

impl Of {
    fn later(self) -> &'static [Later] {
        match self {
            Of::Packets => &[],
            Of::Notices => &NOTICES,
            Of::Closes => &CLOSES,
            Of::Stamps => &STAMPS,
            Of::Early => &EARLY,
            Of::Windows => &WINDOWS,
            Of::Frames => &FRAMES,
        }
    }

    /// Up to its bounds the link that came later.
    fn link(self) -> Option<[u8; 7]> {
        match self {
            Of::Early => Some(LINK_BY_SETTING),
            Of::Windows => Some(LINK_BY_WINDOWS),
            _ => None,
        }
    }

    /// One of the records that came later, once in three times where there are any.
    fn now_and_then_later(self, random: &mut Random) -> Option<Later> {
        let later = self.later();
        if later.is_empty() || !random.once_in(3) {
            return None;
        }
        random.one_of(later)
    }
}

/// A trace and the places where its records started before it was damaged.
struct Trace {
    bytes: Vec<u8>,
    starts: Vec<usize>,
    of: Of,
}

/// A good trace with one bad record in it; the bad records take turns with the seed.
pub fn bad_record(seed: u64, random: &mut Random, size: usize) -> Vec<u8> {
    let (bad, cut) = (bad_marks_and_links(), cut_records());
    let turn = (seed % (bad.len() + cut.len()) as u64) as usize;
    let mut trace = good_trace(random, size, Of::Packets);
    if let Some(record) = bad.get(turn) {
        let at = late_start(&trace, random);
        insert(&mut trace, at, record);
    } else {
        trace.bytes.extend_from_slice(&cut[turn - bad.len()]);
    }
    trace.bytes
}

/// Records that are malformed wherever they stand, with all the bytes they seem to need.
fn bad_marks_and_links() -> Vec<Vec<u8>> {
    let mut all: Vec<Vec<u8>> = BAD_LEVELS.map(|levels| link_of(&LINK, levels)).to_vec();
    all.extend(ANSWERS.map(answer_of));
    all.extend(GOOD.into_iter().flat_map(wrong_marks));
    all
}

/// A good record under marks that are nearly its own.
fn wrong_marks(record: &'static [u8]) -> impl Iterator<Item = Vec<u8>> {
    let changes: [fn(&mut [u8]); 6] = [
        |mark| mark.make_ascii_lowercase(),
        |mark| mark.swap(0, 1),
        |mark| mark[0] += 1,
        |mark| mark[1] += 1,
        |mark| mark[0] ^= 128,
        |mark| mark[1] = 0,
    ];
    changes.into_iter().map(move |change| {
        let mut changed = record.to_vec();
        change(&mut changed[..2]);
        changed
    })
}

/// Every good record cut after each of its bytes but the last.
fn cut_records() -> Vec<Vec<u8>> {
    GOOD.into_iter().flat_map(cuts_of).collect()
}

fn cuts_of(record: &'static [u8]) -> impl Iterator<Item = Vec<u8>> {
    (1..record.len()).map(move |length| record[..length].to_vec())
}

/// The same for `NQ` and `NA`, in traces with notices.
pub fn bad_notice(seed: u64, random: &mut Random, size: usize) -> Vec<u8> {
    bad_later(seed, random, size, Of::Notices)
}

/// The same for `CL` and `CD`, in traces with closes.
pub fn bad_close(seed: u64, random: &mut Random, size: usize) -> Vec<u8> {
    bad_later(seed, random, size, Of::Closes)
}

/// The same for `PS` and `CS`, in traces with stamps.
pub fn bad_stamp(seed: u64, random: &mut Random, size: usize) -> Vec<u8> {
    bad_later(seed, random, size, Of::Stamps)
}

/// The same for `LE`, in traces with packets that stand by; and `LE`s with n outside 1 to 8.
pub fn bad_early(seed: u64, random: &mut Random, size: usize) -> Vec<u8> {
    bad_later(seed, random, size, Of::Early)
}

/// The same for `LW`, in traces with windows; and `LW`s with n outside 1 to 8.
pub fn bad_window(seed: u64, random: &mut Random, size: usize) -> Vec<u8> {
    bad_later(seed, random, size, Of::Windows)
}

/// The same for `LF` and `CF`, in traces with frames.
pub fn bad_frame(seed: u64, random: &mut Random, size: usize) -> Vec<u8> {
    bad_later(seed, random, size, Of::Frames)
}

/// The cuts come at the end and, in other turns, between records, where the next bytes are read as
/// the missing fields.
fn bad_later(seed: u64, random: &mut Random, size: usize, of: Of) -> Vec<u8> {
    let mut trace = good_trace(random, size, of);
    let (mut inside, mut at_the_end) = (Vec::new(), Vec::new());
    if let Some(head) = of.link() {
        inside.extend(BAD_LEVELS.map(|levels| link_of(&head, levels)));
    }
    for later in of.later() {
        inside.push(answer_of(later.answer));
        inside.extend(wrong_marks(later.record));
        inside.extend(cuts_of(later.record));
        at_the_end.extend(cuts_of(later.record));
    }
    let turn = (seed % (inside.len() + at_the_end.len()) as u64) as usize;
    if let Some(record) = inside.get(turn) {
        let at = late_start(&trace, random);
        insert(&mut trace, at, record);
    } else {
        trace
            .bytes
            .extend_from_slice(&at_the_end[turn - inside.len()]);
    }
    trace.bytes
}

pub fn malformed(_seed: u64, random: &mut Random, size: usize) -> Vec<u8> {
    damaged(random, size, Of::Packets)
}

pub fn damaged_notices(_seed: u64, random: &mut Random, size: usize) -> Vec<u8> {
    damaged(random, size, Of::Notices)
}

pub fn damaged_closes(_seed: u64, random: &mut Random, size: usize) -> Vec<u8> {
    damaged(random, size, Of::Closes)
}

pub fn damaged_stamps(_seed: u64, random: &mut Random, size: usize) -> Vec<u8> {
    damaged(random, size, Of::Stamps)
}

pub fn damaged_early(_seed: u64, random: &mut Random, size: usize) -> Vec<u8> {
    damaged(random, size, Of::Early)
}

pub fn damaged_windows(_seed: u64, random: &mut Random, size: usize) -> Vec<u8> {
    damaged(random, size, Of::Windows)
}

pub fn damaged_frames(_seed: u64, random: &mut Random, size: usize) -> Vec<u8> {
    damaged(random, size, Of::Frames)
}

fn damaged(random: &mut Random, size: usize, of: Of) -> Vec<u8> {
    let mut trace = good_trace(random, size, of);
    for _ in 0..random.between(1, 2) {
        damage(&mut trace, random, size);
    }
    trace.bytes
}

/// A short trace of another kind.
fn good_trace(random: &mut Random, size: usize, of: Of) -> Trace {
    let mut script = Script::new(random.number());
    match of {
        Of::Packets => good_packets(&mut script, random, size),
        Of::Notices => good_notices(&mut script, random, size),
        Of::Closes => good_closes(&mut script, random, size),
        Of::Stamps => good_stamps(&mut script, random, size),
        Of::Early => good_early(&mut script, random, size),
        Of::Windows => good_windows(&mut script, random, size),
        Of::Frames => good_frames(&mut script, random, size),
    }
    let (bytes, starts) = script.finish();
    Trace { bytes, starts, of }
}

fn good_packets(script: &mut Script, random: &mut Random, size: usize) {
    match random.between(0, 5) {
        0 => traffic::quiet(script, size),
        1 => traffic::flooded(script, size / 2),
        2 => traffic::midrun(script, 2 * size),
        3 => traffic::ties(script, size / 3),
        4 => edges::tight(script, size / 2),
        _ => edges::refusals(script, size),
    }
}

fn good_notices(script: &mut Script, random: &mut Random, size: usize) {
    match random.between(0, 3) {
        0 => notices::notice_flood(script, size / 2),
        1 => notices::notice_refusals(script, size),
        _ => notices::mixed(script, size / 2),
    }
}

fn good_closes(script: &mut Script, random: &mut Random, size: usize) {
    match random.between(0, 3) {
        0 => closing::turns(script, size / 2),
        1 => closing::refusals(script, size),
        _ => closing::small(script, 2 * size),
    }
}

fn good_stamps(script: &mut Script, random: &mut Random, size: usize) {
    match random.between(0, 3) {
        0 => stamps::relayed(script, size / 2),
        1 => stamps::reopened(script, size / 8),
        2 => stamps::small(script, 2 * size),
        _ => stamps::mixed(script, size),
    }
}

fn good_early(script: &mut Script, random: &mut Random, size: usize) {
    match random.between(0, 3) {
        0 => early::links(script, size),
        1 => early::distances(script, size / 4),
        2 => early::flooded(script, 4 * size),
        _ => early::small(script, 2 * size),
    }
}

fn good_windows(script: &mut Script, random: &mut Random, size: usize) {
    match random.between(0, 3) {
        0 | 1 => windows::links(script, size),
        2 => windows::edges(script, size / 2),
        _ => windows::small(script, 2 * size),
    }
}

fn good_frames(script: &mut Script, random: &mut Random, size: usize) {
    match random.between(0, 3) {
        0 => frames::either(script, size),
        1 => frames::mixed(script, 2 * size),
        2 => frames::edges(script, size / 2),
        _ => frames::small(script, 2 * size),
    }
}

fn damage(trace: &mut Trace, random: &mut Random, size: usize) {
    match random.between(0, 11) {
        0 => change_bytes(trace, random),
        1 | 2 => change_fields(trace, random),
        3 => cut_anywhere(trace, random),
        4 => splice_records(trace, random, size),
        5 => splice_anywhere(trace, random, size),
        6 => insert_answer(trace, random),
        7 => insert_link_of_bad_n(trace, random),
        8 => lose_or_double_a_byte(trace, random),
        9 => append_noise(trace, random),
        10 => change_a_mark(trace, random),
        _ => only_noise(trace, random),
    }
}

/// Where a record starts, more often late than early; the end is a possible place.
fn late_start(trace: &Trace, random: &mut Random) -> usize {
    let count = trace.starts.len() + 1;
    let which = random.place(count).max(random.place(count));
    let start = trace.starts.get(which).copied();
    start.unwrap_or(trace.bytes.len()).min(trace.bytes.len())
}

fn insert(trace: &mut Trace, at: usize, bytes: &[u8]) {
    trace.bytes.splice(at..at, bytes.iter().copied());
}

fn change_bytes(trace: &mut Trace, random: &mut Random) {
    for _ in 0..random.between(1, 4) {
        let at = random.place(trace.bytes.len());
        if let Some(byte) = trace.bytes.get_mut(at) {
            *byte = random.byte();
        }
    }
}

/// Changes bytes behind marks, so that most records stay readable.
fn change_fields(trace: &mut Trace, random: &mut Random) {
    for _ in 0..random.between(1, 12) {
        let start = late_start(trace, random);
        let at = start + 2 + random.place(6);
        if let Some(byte) = trace.bytes.get_mut(at) {
            *byte = random.pick([0, 1, 2, 255, *byte ^ 1, *byte ^ 128]);
        }
    }
}

fn cut_anywhere(trace: &mut Trace, random: &mut Random) {
    let length = trace.bytes.len();
    let at = random.place(length + 1).max(random.place(length + 1));
    trace.bytes.truncate(at);
}

/// Whole records of another trace between two records.
fn splice_records(trace: &mut Trace, random: &mut Random, size: usize) {
    let other = good_trace(random, size, trace.of);
    let (one, two) = (late_start(&other, random), late_start(&other, random));
    let at = late_start(trace, random);
    insert(trace, at, &other.bytes[one.min(two)..one.max(two)]);
}

/// Any bytes of another trace at any place.
fn splice_anywhere(trace: &mut Trace, random: &mut Random, size: usize) {
    let other = good_trace(random, size, trace.of);
    let from = random.place(other.bytes.len());
    let to = (from + random.place(60)).min(other.bytes.len());
    let at = random.place(trace.bytes.len() + 1);
    insert(trace, at, &other.bytes[from..to]);
}

/// An answer record where a trace record should be.
fn insert_answer(trace: &mut Trace, random: &mut Random) {
    let marked = match trace.of.now_and_then_later(random) {
        Some(later) => later.answer,
        None => random.pick(ANSWERS),
    };
    let answer = answer_of(marked);
    let at = late_start(trace, random);
    insert(trace, at, &answer);
}

fn answer_of((mark, fields): Marked) -> Vec<u8> {
    let mut answer = mark.to_vec();
    answer.resize(2 + fields, 0);
    answer
}

/// A link with all the bounds that it promises, and all the windows.
fn link_of(head: &[u8], levels: u8) -> Vec<u8> {
    let mut link = head.to_vec();
    link[2] = levels;
    let numbers = if head.starts_with(b"LW") { 2 } else { 1 } * u16::from(levels);
    for number in 1..=numbers {
        link.extend_from_slice(&number.to_le_bytes());
    }
    link
}

/// A link with n outside 1 to 8.
fn insert_link_of_bad_n(trace: &mut Trace, random: &mut Random) {
    let levels = random.pick([0, 9, 9, 10, 128, 255]);
    let link = match trace.of.link() {
        Some(head) if random.once_in(2) => link_of(&head, levels),
        _ => link_of(&LINK, levels),
    };
    let late = late_start(trace, random);
    let at = random.pick([0, late]);
    insert(trace, at, &link);
}

fn lose_or_double_a_byte(trace: &mut Trace, random: &mut Random) {
    let at = random.place(trace.bytes.len());
    let byte = match trace.bytes.get(at) {
        Some(&byte) => byte,
        _ => return,
    };
    if random.once_in(2) {
        trace.bytes.remove(at);
    } else {
        trace.bytes.insert(at, byte);
    }
}

fn append_noise(trace: &mut Trace, random: &mut Random) {
    for _ in 0..random.between(1, 30) {
        trace.bytes.push(random.byte());
    }
}

/// Small letters, exchanged letters, or half a mark.
fn change_a_mark(trace: &mut Trace, random: &mut Random) {
    let start = late_start(trace, random);
    let mark = match trace.bytes.get_mut(start..start + 2) {
        Some(mark) => mark,
        _ => return,
    };
    match random.between(0, 2) {
        0 => mark.make_ascii_lowercase(),
        1 => mark.swap(0, 1),
        _ => mark[1] = 0,
    }
}

/// Random fields behind good marks, or random bytes altogether.
fn only_noise(trace: &mut Trace, random: &mut Random) {
    let mut bytes = Vec::new();
    for _ in 0..random.between(1, 20) {
        let (mark, fields): Marked = match trace.of.now_and_then_later(random) {
            Some(later) => later.marked,
            None => random.pick([(b"CN", 9), (b"PK", 7), (b"TK", 2), (b"LK", 6)]),
        };
        bytes.extend_from_slice(mark);
        for _ in 0..fields {
            bytes.push(random.pick([0, 1, 1, 2, 4, 255]));
        }
    }
    if random.once_in(4) {
        bytes.iter_mut().for_each(|byte| *byte = random.byte());
    }
    trace.bytes = bytes;
}
