//! Kinds that go to the edges: refusals, tight level tests, the clock's end, the size limit.

use super::script::Script;
use super::traffic::{admit_one, admit_some, flood, modest_link};
use crate::hub::CLOCK_END;
use crate::level_test::{level_sum, shortage_of};
use crate::link::{
    Connection, Figures, Link, LinkFigures, HIGHEST_BOUND, MOST_CONNECTIONS, MOST_PER_WINDOW,
    MOST_RESERVED, MOST_SILENCE, MOST_UNITS,
};
use crate::record::Record;
use crate::replay::SIZE_LIMIT;

/// Every verdict from 2 to 12, several of them with more than one cause. The bounds leave room for
/// all connections and, with up to 11 ticks of silence, for more packets than all places.
pub fn refusals(script: &mut Script, size: usize) {
    before_the_link(script);
    let largest = script.random.between16(2, 16);
    let levels = script.random.between16(1, 8);
    let silence = script.some_silence();
    let room = (1 + u16::from(silence)).clamp(2, 12);
    let bound_of = |level| room * (2_100 + 75 * level);
    let bounds: Vec<u16> = (1..=levels).map(bound_of).collect();
    script.link(largest, silence, &bounds);
    for _ in 0..size / 3 {
        one_refusal(script);
    }
    let crowd = script.random.place(MOST_CONNECTIONS - 8) + 4;
    crowd_up_to(script, crowd);
    for _ in 0..size / 3 {
        one_refusal(script);
    }
    crowd_up_to(script, MOST_CONNECTIONS);
    for _ in 0..size / 3 {
        one_refusal(script);
    }
    script.tick(300);
}

/// Calls with no link set, and links that break a limit.
fn before_the_link(script: &mut Script) {
    for _ in 0..script.random.between(1, 6) {
        match script.random.between(0, 4) {
            0 => admit_one(script),
            1 => script.offer(0, 1),
            2 => script.tick(0),
            3 => script.tick(9),
            _ => broken_link(script),
        };
    }
    script.admit(0, 0, 0);
    script.tick(1);
    broken_link(script);
}

pub fn broken_link(script: &mut Script) -> u8 {
    let silence = script.any_silence();
    match script.random.between(0, 11) {
        0 => script.link(0, silence, &[10]),
        1 => script.link(MOST_UNITS + 1, silence, &[9_000]),
        2 => script.link(4, silence, &[10, 10]),
        3 => script.link(4, silence, &[10, 20, 19]),
        4 => script.link(4, silence, &[3, 20]),
        5 => script.link(4, silence, &[10, HIGHEST_BOUND + 1]),
        6 => script.link(4, silence, &[0]),
        7 => script.link(u16::MAX, silence, &[u16::MAX]),
        8 => script.link(1, silence, &[1, 2, 3, 4, 5, 6, 7, 7]),
        9 => too_silent(script),
        _ => first_bound_too_low(script),
    }
}

/// A silence above its limit, with bounds that leave room for it.
fn too_silent(script: &mut Script) -> u8 {
    let some = script.random.between(65, 255) as u8;
    let silence = script.random.pick([MOST_SILENCE + 1, 128, 255, some]);
    script.link(4, silence, &[1_000, 2_000])
}

/// A first bound one below S plus the silence, or S alone.
fn first_bound_too_low(script: &mut Script) -> u8 {
    let largest = script.random.between16(1, 30);
    let silence = script.random.between16(1, u16::from(MOST_SILENCE));
    let bound = script.random.pick([largest + silence - 1, largest]);
    script.link(largest, silence as u8, &[bound, 2_000])
}

/// Small reservations, so that all connections can stand.
pub fn crowd_up_to(script: &mut Script, wanted: usize) {
    let link = match script.link_set() {
        Some(link) => link,
        _ => return,
    };
    for _ in 0..MOST_CONNECTIONS {
        if script.hub().counted().count() >= wanted {
            return;
        }
        let level = script.random.between16(1, u16::from(link.levels())) as u8;
        let bound = link.bound(level);
        let gap = script
            .random
            .between16(bound / 7 + 1, bound.saturating_mul(4));
        script.admit(level, gap, 1);
    }
}

fn one_refusal(script: &mut Script) {
    match script.random.between(0, 9) {
        0 => {
            broken_link(script);
        }
        1 => {
            let silence = script.any_silence();
            script.link(4, silence, &[10, 20]);
        }
        2..=4 => bad_admission(script),
        5..=7 => bad_offer(script),
        8 => script.offer_on_any(),
        _ => {
            let ticks = script.random.pick([0, 1, 3, 50]);
            script.tick(ticks);
        }
    }
}

pub fn bad_admission(script: &mut Script) {
    let link = match script.link_set() {
        Some(link) => link,
        _ => return,
    };
    let (levels, largest) = (link.levels(), link.largest());
    match script.random.between(0, 11) {
        0 => script.admit(0, 100, 1),
        1 => script.admit(levels + 1, 100, 1),
        2 => script.admit(255, 0, 0),
        3 => script.admit(1, 0, 1),
        4 => script.admit(levels, 100, 0),
        5 => script.admit(1, 100, largest + 1),
        6 => script.admit(levels, 0, u16::MAX),
        7 => script.admit(1, 1, largest),
        8 => script.admit(levels, 2, 2),
        9 => {
            let figures = broken_average(script, Figures::plain(levels, 100, 1));
            script.admit_with(figures)
        }
        _ => admit_past_the_reservations(script, &link),
    };
}

/// The same figures with an average that breaks a limit, but for a few at the ends of the
/// numbers: a window or an average gap alone, an average gap below the gap, one that does not
/// divide, a packet more than the most, the two exchanged.
pub fn broken_average(script: &mut Script, figures: Figures) -> Figures {
    let gap = figures.gap;
    let (window, average) = script.some_average(gap);
    let most = MOST_PER_WINDOW + 1;
    let (window, average) = match script.random.between(0, 6) {
        0 => (window, 0),
        1 => (0, average),
        2 => ((gap - 1).max(1), gap - 1),
        3 => (window - 1, average),
        4 => (window.saturating_add(1), average),
        5 => (most.saturating_mul(gap), gap),
        _ => (average, window),
    };
    figures.with_average(window, average)
}

/// One packet more than the reservations that are left.
fn admit_past_the_reservations(script: &mut Script, link: &Link) -> u8 {
    let left = script.places_left(link);
    let gap = (link.largest_bound() - 1) / (left + 1);
    script.admit(link.levels(), gap.max(1), 1)
}

fn bad_offer(script: &mut Script) {
    let next = script.hub().next_number();
    let (number, connection) = match script.any_connection() {
        Some((number, connection)) => (number, connection),
        _ => {
            script.offer(0, 0);
            return;
        }
    };
    match script.random.between(0, 6) {
        0 => script.offer(next.unwrap_or(MOST_CONNECTIONS as u8), 1),
        1 => script.offer(255, 0),
        2 => script.offer(number, 0),
        3 => script.offer(number, connection.size() + 1),
        4 => script.offer(number, u16::MAX),
        _ => offer_until_full(script, number, &connection),
    };
}

/// Offers until the reservation is full, then one too many, also of a wrong length.
fn offer_until_full(script: &mut Script, number: u8, connection: &Connection) -> u8 {
    let mut verdict = 0;
    for _ in 0..MOST_RESERVED {
        if verdict != 0 {
            break;
        }
        verdict = script.offer_good(number, connection);
    }
    script.offer(number, 0)
}

/// Newcomers whose sums meet a bound exactly, or pass it by as little as possible.
pub fn tight(script: &mut Script, size: usize) {
    tight_link(script);
    for _ in 0..size {
        tight_admission(script);
        for _ in 0..script.random.between(0, 3) {
            script.offer_on_any();
        }
        let ticks = script.random.pick([0, 1, 5, 60]);
        script.tick(ticks);
    }
    script.drain();
}

/// Links at their limits beside ordinary ones.
pub fn tight_link(script: &mut Script) {
    let silence = script.some_silence();
    let q = u16::from(silence);
    match script.random.between(0, 6) {
        0 => script.link(MOST_UNITS, silence, &[MOST_UNITS + q, 9_000, HIGHEST_BOUND]),
        1 => script.link(1, silence, &[1, 2, 3, 4, 5, 6, 7, 8].map(|bound| q + bound)),
        2 => script.link(1, silence, &[HIGHEST_BOUND]),
        3 => script.link(16, silence, &[100, 101, 102, 103, 104, 105, 106, 107]),
        4 => script.link(4, silence, &[10 + q, 20 + 3 * q]),
        _ => {
            modest_link(script);
            0
        }
    };
}

pub fn tight_admission(script: &mut Script) {
    let link = match script.link_set() {
        Some(link) => link,
        _ => return,
    };
    let levels = u16::from(link.levels());
    let level = script.random.between16(1, levels) as u8;
    let bound = link.bound(script.random.between16(1, levels) as u8);
    let gap = match script.random.between(0, 6) {
        0 => bound,
        1 => bound - 1,
        2 => bound + 1,
        3 => bound / 2,
        4 => bound / 3 + 1,
        5 => script.random.between16(1, bound),
        _ => u16::MAX,
    };
    let gap = gap.max(1);
    let (window, average) = match script.random.between(0, 2) {
        0 => script.some_average(gap),
        _ => (0, 0),
    };
    let sized = |size| Figures::plain(level, gap, size).with_average(window, average);
    let most = largest_passing(&link, &script.counted(), sized(1));
    script.admit_with(sized(most + 1));
    if script.random.once_in(3) {
        script.admit_with(sized(most));
        script.admit_with(sized(1));
    } else {
        let size = script.random.between16(1, most.max(1));
        script.admit_with(sized(size));
    }
}

/// The largest size that a newcomer of these figures may have, whatever theirs is; 0 if none.
pub fn largest_passing(link: &Link, connections: &[Connection], figures: Figures) -> u16 {
    let newcomer = match Connection::new(link, figures) {
        Ok(newcomer) => newcomer,
        Err(_) => return 0,
    };
    if link.has_windows() {
        return largest_by_halves(link, connections, figures);
    }
    (newcomer.level()..=link.levels())
        .map(|one| {
            let bound = link.bound(one);
            let sum = level_sum(link, connections, one);
            let room = u64::from(bound).saturating_sub(sum);
            let packets = newcomer.packets_within(bound);
            (room / packets).saturating_sub(u64::from(link.silence()))
        })
        .min()
        .map_or(0, |most| most.min(u64::from(link.largest())) as u16)
}

/// The same by the finer test, which no smaller size fails where a larger one passes.
fn largest_by_halves(link: &Link, connections: &[Connection], figures: Figures) -> u16 {
    let mut counted = connections.to_vec();
    let (mut passing, mut failing) = (0, link.largest() + 1);
    while passing + 1 < failing {
        let size = (passing + failing) / 2;
        let sized = Connection::new(link, Figures { size, ..figures });
        counted.extend(sized);
        match shortage_of(link, &counted) {
            None => passing = size,
            Some(_) => failing = size,
        }
        counted.truncate(connections.len());
    }
    passing
}

/// Traffic up to the clock's end and all kinds of calls behind it.
pub fn clock_end(script: &mut Script, size: usize) {
    modest_link(script);
    admit_with_longest_gap(script);
    admit_some(script, 5);
    flood(script, size);
    script.drain();
    let lead = script.random.between(100, 2_000);
    script.ticks_until(CLOCK_END - lead);
    script.offer(0, 1);
    while script.clock() + 50 < CLOCK_END {
        flood(script, 3);
        let ticks = script.random.between16(1, 40);
        script.tick(ticks);
    }
    let last_ticks = script.random.between(1, 3);
    script.ticks_until(CLOCK_END - last_ticks);
    script.offer(0, 1);
    for _ in 0..12 {
        script.offer_on_any();
    }
    script.tick(0);
    cross_the_end(script);
    for _ in 0..size {
        after_the_end(script);
    }
}

/// Connection 0 of the last level: its second offer near the end is eligible beyond it.
fn admit_with_longest_gap(script: &mut Script) {
    if let Some(link) = script.link_set() {
        script.admit(link.levels(), u16::MAX, 1);
    }
}

/// Exactly the ticks left, or more of them.
pub fn cross_the_end(script: &mut Script) {
    let left = CLOCK_END.saturating_sub(script.clock()) as u16;
    let asked = script.random.pick([left, left + 1, left + 9, u16::MAX]);
    script.tick(asked);
}

pub fn after_the_end(script: &mut Script) {
    match script.random.between(0, 8) {
        0 => {
            let ticks = script.random.pick([0, 0, 1, 2, u16::MAX]);
            script.tick(ticks);
        }
        1 | 2 => {
            admit_one(script);
        }
        3 => {
            broken_link(script);
        }
        4 => bad_admission(script),
        5 | 6 => bad_offer(script),
        _ => script.offer_on_any(),
    }
}

/// Traces that end just below the size limit, at it, and beyond it.
pub fn limit(script: &mut Script, size: usize) {
    let limit = SIZE_LIMIT as usize;
    modest_link(script);
    admit_some(script, 4);
    flood(script, size);
    let crossing = some_record(script);
    let all_but_one = crossing.len() - 1;
    let inside = script.random.between(1, all_but_one as u64) as usize;
    let beyond = script.random.pick([b'T', b'L', 0, 255]);
    match script.seed() % 8 {
        0 => fill_up_to(script, limit),
        1 => {
            let missing = script.random.place(20) + 1;
            fill_up_to(script, limit - missing);
        }
        2 => end_with(script, limit, &[beyond]),
        3 => end_with(script, limit, &crossing),
        4 => end_with(script, limit - all_but_one, &crossing),
        5 => end_with(script, limit - inside, &crossing[..inside]),
        6 => end_with(script, limit - inside, &crossing[..inside + 1]),
        _ => end_with(script, limit - 1, &[beyond]),
    }
}

/// The bytes of a good record of any of document 01's four kinds.
fn some_record(script: &mut Script) -> Vec<u8> {
    let record = match script.random.between(0, 3) {
        0 => Record::Link(Box::new(LinkFigures {
            levels: 2,
            largest: 4,
            silence: 3,
            setting: None,
            bounds: [10, 20, 0, 0, 0, 0, 0, 0],
            windows: None,
        })),
        1 => Record::Connection(Figures::plain(1, 9, 1).with_average(36, 12)),
        2 => Record::Packet {
            connection: 0,
            length: 1,
            tag: 7,
            stamp: None,
        },
        _ => Record::Ticks { asked: 1 },
    };
    let mut bytes = Vec::new();
    record.append_to(&mut bytes);
    bytes
}

/// A record at the size limit, in turn: that ends there; that crosses it; cut at it. What is mixed
/// in ends some way before.
pub fn at_the_limit(script: &mut Script, record: Record) {
    let limit = SIZE_LIMIT as usize;
    fill_up_to(script, limit - 10_000);
    script.mix_in_nothing();
    let mut bytes = Vec::new();
    record.append_to(&mut bytes);
    let inside = script.random.between(1, bytes.len() as u64 - 1) as usize;
    match script.seed() % 3 {
        0 => end_with(script, limit - bytes.len(), &bytes),
        1 => end_with(script, limit - inside, &bytes),
        _ => end_with(script, limit - inside, &bytes[..inside]),
    }
}

fn end_with(script: &mut Script, length: usize, bytes: &[u8]) {
    fill_up_to(script, length);
    script.raw(bytes);
}

/// Whole records up to exactly this length: mostly long ones, then 9 and 4 bytes at a time.
fn fill_up_to(script: &mut Script, length: usize) {
    while script.length() + 200 < length {
        match script.random.between(0, 99) {
            0 => script.offer_on_any(),
            1 => {
                script.tick(3);
            }
            2 => {
                script.admit(1, 1, 1);
            }
            _ => {
                script.link(1, 0, &[1, 2, 3, 4, 5, 6, 7, 8]);
            }
        }
    }
    for _ in 0..(length - script.length()) % 4 {
        script.offer(0, 1);
    }
    while script.length() < length {
        script.tick(1);
    }
}
