//! Kinds with frames (docs/RULES.md, R-13).

use super::closing;
use super::edges::{at_the_limit, broken_link, cross_the_end};
use super::script::Script;
use super::traffic::{admit_one, flood, modest_link};
use crate::departure::Tick;
use crate::frames::{Framing, Share, LONGEST_FRAME, MOST_FRAME_UNITS, MOST_PLACES};
use crate::hub::CLOCK_END;
use crate::link::{MOST_CONNECTIONS, MOST_RESERVED, MOST_SILENCE, MOST_UNITS};
use crate::record::Record;
use crate::verdict::DONE;

/// A link of a few packets to a frame, and now and then of as few ticks as it may have.
fn modest_framing(script: &mut Script) -> Option<Framing> {
    let largest = script.random.between16(1, 24);
    let silence = script.some_silence().min(MOST_SILENCE);
    let cost = largest + u16::from(silence);
    let more = script.random.between16(1, 9) * cost + script.random.between16(0, 9);
    let frame = cost
        + script
            .random
            .pick([more, more, more, more, more, more, 1, 0]);
    script.framing(frame, largest, silence);
    script.framing_set()
}

/// How many units are left for a newcomer.
fn units_left(script: &Script, link: &Framing) -> u16 {
    let (units, _) = script.frames().sums();
    u64::from(link.frame).saturating_sub(units) as u16
}

fn places_left(script: &Script) -> u16 {
    let (_, places) = script.frames().sums();
    MOST_RESERVED.saturating_sub(places) as u16
}

/// Few places, more often an odd number of them; or many.
fn some_places(script: &mut Script) -> u16 {
    let any = script.random.between16(1, 40);
    script.random.pick([1, 1, 2, 3, 3, 5, 7, any])
}

/// Units that may be let in: about a packet or some, at the silence or a unit beside it, all that are
/// left; or one more than that, which is refused.
fn some_share(script: &mut Script, link: &Framing) -> Share {
    let silence = u16::from(link.silence);
    let cost = link.cost(link.largest) as u16;
    let left = units_left(script, link);
    let some = script.random.between16(1, (left / 2).max(1));
    let units = match script.random.between(0, 11) {
        0 => silence,
        1 => silence + 1,
        2 => silence.saturating_sub(1),
        3 | 4 => cost,
        5 => cost.saturating_sub(1),
        6 => left,
        7 => left + 1,
        _ => some,
    };
    Share {
        units: units.clamp(1, MOST_FRAME_UNITS),
        places: some_places(script),
    }
}

fn admit_share(script: &mut Script) -> u8 {
    match script.framing_set() {
        Some(link) => {
            let Share { units, places } = some_share(script, &link);
            script.share(units, places)
        }
        None => script.share(3, 2),
    }
}

/// Admissions until some were refused or so many stand.
fn admit_shares(script: &mut Script, wanted: usize) {
    for _ in 0..3 * wanted {
        if script.frames().shares().count() >= wanted {
            return;
        }
        admit_share(script);
    }
}

fn any_share(script: &mut Script) -> Option<(u8, Share)> {
    let standing: Vec<(u8, Share)> = (0..).zip(script.frames().shares()).collect();
    script.random.one_of(&standing)
}

/// An offer of allowed length: what fills the rest of the units exactly, a unit more, S, or any.
fn offer_by_share(script: &mut Script, number: u8, share: Share) -> u8 {
    let link = match script.framing_set() {
        Some(link) => link,
        None => return script.offer(number, 1),
    };
    let used = script.frames().used_by(number) as u16;
    let rest = share.units.saturating_sub(used + u16::from(link.silence));
    let some = script.random.between16(1, link.largest);
    let length = script.random.pick([rest, rest, rest + 1, some, some, 1]);
    script.offer(number, length.clamp(1, link.largest))
}

fn offer_on_any_share(script: &mut Script) -> u8 {
    match any_share(script) {
        Some((number, share)) => offer_by_share(script, number, share),
        None => script.offer(0, 1),
    }
}

/// Offers of single units until one is refused.
fn use_up(script: &mut Script, number: u8, length: u16) -> u8 {
    for _ in 0..MOST_PLACES {
        let verdict = script.offer(number, length);
        if verdict != DONE {
            return verdict;
        }
    }
    DONE
}

/// Ticks up to so many before the start of the next frame.
fn to_the_frames_end(script: &mut Script, before: Tick) {
    if let Some(link) = script.framing_set() {
        let start = link.next_start(script.clock());
        script.ticks_until(start.saturating_sub(before));
    }
}

/// Some ticks: few, to about a frame's end, or more than a frame.
fn some_ticks(script: &mut Script) {
    let frame = script.framing_set().map_or(1, |link| link.frame);
    match script.random.between(0, 9) {
        0 => to_the_frames_end(script, 1),
        1 => to_the_frames_end(script, 0),
        2 => {
            let part = script.random.between16(1, frame);
            script.tick(part);
        }
        3 => {
            let ticks = script.random.between(1, 3 * u64::from(frame));
            script.ticks(ticks);
        }
        _ => {
            let ticks = script.random.pick([0, 1, 1, 2, 3, 5, 9, 17]);
            script.tick(ticks);
        }
    }
}

/// Offers, notices, newcomers and ticks in any order.
pub fn mixed(script: &mut Script, size: usize) {
    modest_framing(script);
    admit_shares(script, 6);
    for _ in 0..size {
        match script.random.between(0, 11) {
            0 => {
                admit_share(script);
            }
            1 => {
                script.notice_good();
            }
            2 => {
                script.notice_odd();
            }
            3..=7 => {
                offer_on_any_share(script);
            }
            _ => some_ticks(script),
        }
    }
    script.drain();
}

/// Few units, short frames, single ticks: starts, ends of frames, notices, silences and newcomers meet in
/// every way.
pub fn small(script: &mut Script, size: usize) {
    let largest = script.random.between16(1, 3);
    let silence = script.random.pick([0, 0, 1, 2]);
    let cost = largest + u16::from(silence);
    let frame = cost + script.random.between16(0, 3 * cost);
    script.framing(frame, largest, silence);
    for _ in 0..size {
        match script.random.between(0, 15) {
            0 => {
                let units = script.random.between16(1, 4);
                let places = script.random.between16(1, 4);
                script.share(units, places);
            }
            1..=6 => {
                offer_on_any_share(script);
            }
            7 | 8 => {
                script.notice_good();
            }
            _ => {
                let ticks = script.random.pick([0, 1, 1, 1, 1, 2, 3, frame]);
                script.tick(ticks);
            }
        }
    }
    script.drain();
}

/// All connections offer more than they may in every frame, and notices come beside them.
pub fn flooded(script: &mut Script, size: usize) {
    modest_framing(script);
    let wanted = script.random.between(2, 12) as usize;
    admit_shares(script, wanted);
    script.mix_in_notices(6);
    for _ in 0..size {
        if script.random.once_in(30) {
            for _ in 0..66 {
                script.notice_good();
            }
        }
        for _ in 0..script.random.between(1, 8) {
            offer_on_any_share(script);
        }
        if script.random.once_in(4) {
            if let Some((number, _)) = any_share(script) {
                use_up(script, number, 1);
            }
        }
        some_ticks(script);
    }
    script.drain();
}

/// Offers in the last tick of a frame, in its first one and beside them; notices that are on the line, or
/// silent behind it, while a frame ends.
pub fn last_ticks(script: &mut Script, size: usize) {
    let link = match modest_framing(script) {
        Some(link) => link,
        None => return,
    };
    admit_shares(script, 5);
    for _ in 0..size {
        for _ in 0..script.random.between(0, 3) {
            offer_on_any_share(script);
        }
        let longest = link.cost(link.largest);
        let before = script.random.between(1, longest + 1);
        to_the_frames_end(script, before);
        for _ in 0..script.random.between(0, 2) {
            let length = script.random.between16(1, link.largest);
            let length = script.random.pick([length, link.largest]);
            script.notice(length);
        }
        for place in [2, 1, 0] {
            to_the_frames_end(script, place);
            for _ in 0..script.random.between(0, 2) {
                offer_on_any_share(script);
            }
        }
        script.tick(1);
        offer_on_any_share(script);
    }
    script.drain();
}

/// Frames that are full: each connection uses all its units, and a notice of S units starts in the last tick
/// before they are eligible, frame by frame.
pub fn worst(script: &mut Script, size: usize) {
    let link = match modest_framing(script) {
        Some(link) => link,
        None => return,
    };
    for _ in 0..40 {
        let left = units_left(script, &link).min(MOST_FRAME_UNITS);
        let units = script.random.pick([left, left / 2, left / 3]).max(1);
        let places = script.random.pick([2 * units, units, 5]);
        if script.share(units, places.clamp(1, MOST_PLACES)) != DONE {
            break;
        }
    }
    for _ in 0..size {
        let numbers = script.frames().shares().count() as u8;
        for number in 0..numbers {
            let length = script.random.between16(1, link.largest);
            let length = script.random.pick([1, length, link.largest]);
            use_up(script, number, length);
            use_up(script, number, 1);
        }
        to_the_frames_end(script, 1);
        script.notice(link.largest);
        script.tick(1);
        let ticks = script.random.between16(0, link.frame - 1);
        script.tick(ticks);
    }
    script.drain();
}

/// Newcomers that just fit and that just do not, by the units and by the places; all their figures at their
/// limits.
pub fn edges(script: &mut Script, size: usize) {
    let link = match edge_framing(script) {
        Some(link) => link,
        None => return,
    };
    for _ in 0..size {
        let (units, places) = (units_left(script, &link), places_left(script));
        let over = script.random.between16(1, 5);
        match script.random.between(0, 9) {
            0 => script.share(units + over, 1),
            1 => script.share(1, places + over),
            2 => script.share(units + 1, places + 1),
            3 => script.share(MOST_FRAME_UNITS, MOST_PLACES),
            4 if script.random.once_in(6) => script.share(units, 1),
            5 if script.random.once_in(6) => script.share(1, places),
            6 => {
                let figure = script.random.pick([0, MOST_PLACES + 1, u16::MAX]);
                script.share(1, figure)
            }
            7 => {
                let figure = script.random.pick([0, MOST_FRAME_UNITS + 1, u16::MAX]);
                script.share(figure, 1)
            }
            _ => {
                let part = script.random.between16(2, 12);
                script.share((units / part).max(1), (places / part).max(1))
            }
        };
        offer_on_any_share(script);
        some_ticks(script);
    }
    script.drain();
}

/// In turn: any; the longest frame; S and its silence leave room for a unit or for none; both at their
/// limits.
fn edge_framing(script: &mut Script) -> Option<Framing> {
    match script.seed() % 5 {
        0 => return modest_framing(script),
        1 => script.framing(LONGEST_FRAME, 20, 3),
        2 => script.framing(24, 20, 3),
        3 => script.framing(23, 20, 3),
        _ => script.framing(LONGEST_FRAME, MOST_UNITS, MOST_SILENCE),
    };
    script.framing_set()
}

/// Every verdict, several of them with more than one cause.
pub fn refusals(script: &mut Script, size: usize) {
    before_the_framing(script);
    let largest = script.random.between16(2, 16);
    let silence = script.some_silence();
    let frame = script.random.between16(2_300, 3_300);
    script.framing(frame, largest, silence);
    for _ in 0..size / 3 {
        one_refusal(script);
    }
    crowd(script);
    for _ in 0..size {
        one_refusal(script);
    }
    for _ in 0..70 {
        script.notice_good();
    }
    script.tick(300);
}

/// All connections that there may be, of few units and few places each.
fn crowd(script: &mut Script) {
    for _ in 0..MOST_CONNECTIONS {
        let units = script.random.between16(1, 14);
        let places = script.random.between16(1, 12);
        if script.share(units, places) != DONE && script.share(1, 1) != DONE {
            return;
        }
    }
}

/// Calls with no link set, and links that break a limit.
fn before_the_framing(script: &mut Script) {
    for _ in 0..script.random.between(1, 6) {
        match script.random.between(0, 6) {
            0 => script.share(1, 1),
            1 => script.share(0, 0),
            2 => script.offer(0, 1),
            3 => script.notice(1),
            4 => script.tick(0),
            5 => script.tick(9),
            _ => broken_framing(script),
        };
    }
    for _ in 0..12 {
        broken_framing(script);
    }
}

/// A link out of one limit, or of several.
fn broken_framing(script: &mut Script) -> u8 {
    let silence = script.any_silence();
    let largest = script.random.between16(1, 40);
    let cost = largest + u16::from(silence);
    match script.random.between(0, 7) {
        0 => script.framing(0, largest, silence),
        1 => script.framing(LONGEST_FRAME + 1, largest, silence),
        2 => script.framing(u16::MAX, u16::MAX, u8::MAX),
        3 => script.framing(9_000, 0, silence),
        4 => script.framing(9_000, MOST_UNITS + 1, silence),
        5 => script.framing(9_000, largest, MOST_SILENCE + 1),
        6 => script.framing(0, 0, 0),
        _ => script.framing(cost - 1, largest, silence),
    }
}

fn one_refusal(script: &mut Script) {
    let largest = script.largest();
    let next = script.frames().shares().count().min(255) as u8;
    let number = any_share(script).map_or(0, |(number, _)| number);
    let units = script.framing_set();
    let units = units.map_or(0, |link| units_left(script, &link)) + 1;
    let places = places_left(script) + 1;
    match script.random.between(0, 17) {
        0 => broken_framing(script),
        1 => script.framing(20, 4, 0),
        2 => script.share(0, 1),
        3 => script.share(1, 0),
        4 => script.share(MOST_FRAME_UNITS + 1, MOST_PLACES + 1),
        5 => script.share(units, 1),
        6 => script.share(1, places),
        7 => script.share(units, places),
        8 => script.offer(next, 1),
        9 => script.offer(255, 0),
        10 => script.offer(number, 0),
        11 => script.offer(number, largest + 1),
        12 => script.offer(number, u16::MAX),
        13 => use_up(script, number, 1),
        14 => use_up(script, number, largest),
        15 => script.notice_odd(),
        16 => {
            let ticks = script.random.pick([0, 1, 3, 50]);
            script.tick(ticks)
        }
        _ => {
            to_the_frames_end(script, 1);
            offer_on_any_share(script)
        }
    };
}

/// All connections that there may be, all places, as many of them in use as can be.
pub fn beds(script: &mut Script, size: usize) {
    let silence = script.random.pick([0, 0, 1, 3, 8]);
    script.framing(LONGEST_FRAME, 8, silence);
    let per_place = 1 + u16::from(silence);
    let mut last = DONE;
    while last == DONE {
        let left = places_left(script);
        let places = script.random.pick([10, 10, 11]).min(left).max(1);
        let more = script.random.between16(0, 9);
        last = script.share(places * per_place + more, places);
    }
    for _ in 0..size {
        let numbers = script.frames().shares().count() as u8;
        for number in 0..=numbers {
            use_up(script, number, 1);
        }
        admit_share(script);
        script.notice_good();
        match script.random.between(0, 2) {
            0 => to_the_frames_end(script, 1),
            1 => to_the_frames_end(script, 0),
            _ => script.ticks(3_000),
        }
        offer_on_any_share(script);
    }
    script.drain();
}

/// Connections that keep to half their places in each frame, beside others that do not.
pub fn halves(script: &mut Script, size: usize) {
    let link = match modest_framing(script) {
        Some(link) => link,
        None => return,
    };
    admit_shares(script, 8);
    let shares: Vec<(u8, Share)> = (0..).zip(script.frames().shares()).collect();
    for _ in 0..size {
        let half = |share: &Share| usize::from(share.places / 2);
        let mut due: Vec<u8> = Vec::new();
        for (number, share) in &shares {
            let times = match number % 2 {
                0 => script.random.place(half(share).min(20) + 1),
                _ => script.random.place(12),
            };
            due.extend(std::iter::repeat(*number).take(times));
        }
        let steps = due.len() as Tick + 1;
        while !due.is_empty() {
            let number = due.swap_remove(script.random.place(due.len()));
            let (_, share) = shares[usize::from(number)];
            offer_by_share(script, number, share);
            let left = link.next_start(script.clock()) - script.clock() - 1;
            let some = script.random.between(0, 2 * Tick::from(link.frame) / steps);
            script.ticks(some.min(left));
        }
        if script.random.once_in(2) {
            script.notice_good();
        }
        to_the_frames_end(script, 0);
    }
    script.drain();
}

/// Records of both disciplines before any link, and behind the first that is accepted, of either.
pub fn either(script: &mut Script, size: usize) {
    for _ in 0..script.random.between(0, 12) {
        of_either(script);
    }
    match script.seed() % 3 {
        0 => modest_link(script),
        _ => {
            modest_framing(script);
        }
    }
    for _ in 0..size {
        of_either(script);
        if script.framing_set().is_some() {
            flood_shares(script);
        } else {
            admit_one(script);
            flood(script, 1);
        }
    }
    script.drain();
}

fn flood_shares(script: &mut Script) {
    if script.random.once_in(3) {
        admit_share(script);
    }
    for _ in 0..script.random.between(1, 4) {
        offer_on_any_share(script);
    }
    some_ticks(script);
}

/// A record that perhaps only the other discipline knows.
fn of_either(script: &mut Script) {
    let stamp = script.random.pick([0, 1, script.clock() as u32, u32::MAX]);
    let number = script.random.pick([0, 1, 2, 255]);
    match script.random.between(0, 11) {
        0 => broken_link(script),
        1 => broken_framing(script),
        2 if script.clock() > 0 => script.framing(30, 4, 1),
        3 if script.clock() > 0 => script.link(4, 1, &[30, 50]),
        4 => script.admit(1, 40, 1),
        5 => admit_share(script),
        6 => script.close(number),
        7 => script.offer_with(number, 1, Some(stamp)),
        8 => script.offer(number, 1),
        9 => script.notice_odd(),
        10 => script.tick(0),
        _ => {
            closing::probe(script);
            script.tick(1)
        }
    };
}

/// The clock's end: a last frame that ends before it, with it or behind it, all calls after it.
pub fn end(script: &mut Script, size: usize) {
    let largest = script.random.between16(1, 6);
    let silence = script.random.pick([0, 1, 3]);
    let frame = script.random.pick([4_000, 32_000, 32_768, 10_007]);
    script.framing(frame, largest, silence);
    let cost = largest + u16::from(silence);
    for places in [1, 3, 40] {
        script.share(3 * cost, places);
    }
    script.share(u16::from(silence).max(1), 2);
    offer_on_any_share(script);
    let lead = script.random.between(10, 40);
    let frames_before = script.random.between(0, 2) * Tick::from(frame);
    script.ticks_until(CLOCK_END - lead - frames_before);
    for number in 0..4 {
        use_up(script, number, 1);
    }
    script.ticks_until(CLOCK_END - lead);
    while script.clock() + 4 < CLOCK_END {
        offer_on_any_share(script);
        if script.random.once_in(3) {
            script.notice_good();
        }
        script.tick(1);
    }
    cross_the_end(script);
    for _ in 0..size {
        match script.random.between(0, 4) {
            0 => one_refusal(script),
            1 => of_either(script),
            2 => {
                cross_the_end(script);
            }
            _ => {
                offer_on_any_share(script);
            }
        }
    }
}

/// An `LF` or a `CF` at the size limit.
pub fn limit(script: &mut Script, size: usize) {
    modest_framing(script);
    admit_shares(script, 4);
    for _ in 0..size {
        flood_shares(script);
    }
    let framing = Record::Framing(Framing {
        frame: 10,
        largest: 4,
        silence: 1,
    });
    let share = Record::Share(Share {
        units: 3,
        places: 2,
    });
    let record = if script.random.once_in(2) {
        framing
    } else {
        share
    };
    at_the_limit(script, record);
}
