//! Kinds with average rates (docs/RULES.md, R-6).

use super::edges::{after_the_end, broken_average, cross_the_end, crowd_up_to};
use super::script::Script;
use super::traffic::{admit_some, camera, flood, modest_link, wild_among_keepers, Keepers};
use crate::hub::CLOCK_END;
use crate::link::{Figures, Link, MOST_CONNECTIONS, MOST_PER_WINDOW};

/// Cameras beside plain lines; in turn all keep their word twice, then a camera goes wild.
pub fn bursts(script: &mut Script, size: usize) {
    ward_with_cameras(script);
    let wild = script
        .any_connection()
        .filter(|_| script.seed() % 3 == 2)
        .filter(|(_, terms)| terms.average().is_some());
    match wild {
        Some((wild, terms)) => wild_among_keepers(script, wild, &terms, size),
        None => keep_your_word(script, size),
    }
    script.drain();
}

fn ward_with_cameras(script: &mut Script) {
    modest_link(script);
    if let Some(link) = script.link_set() {
        for _ in 0..script.random.between(2, 6) {
            let figures = camera(script, &link);
            script.admit_with(figures);
        }
    }
    let wanted = script.random.between(2, 8) as usize;
    admit_some(script, wanted);
}

fn keep_your_word(script: &mut Script, size: usize) {
    let mut keepers = Keepers::all_but(script, None);
    for _ in 0..size {
        let moment = keepers.earliest().unwrap_or(script.clock());
        script.ticks_until(moment);
        keepers.offer_due(script);
    }
}

/// Floods, offers about the ticks at which a window lets the next packet through, and stretches in
/// which windows pass.
pub fn flooded(script: &mut Script, size: usize) {
    ward_with_cameras(script);
    for _ in 0..size {
        match script.random.between(0, 5) {
            0 => {
                let ticks = script.random.pick([50, 300, 2_000, u16::MAX]);
                script.tick(ticks);
            }
            1 | 2 => offer_about_its_moment(script),
            _ => flood(script, 1),
        }
    }
    script.drain();
}

/// Offers of one connection a tick before the next may be eligible, at that tick, and behind it.
fn offer_about_its_moment(script: &mut Script) {
    let (number, terms) = match script.any_connection() {
        Some((number, terms)) => (number, terms),
        None => return,
    };
    let moment = script.hub().eligibility_now(number).unwrap_or(0);
    let early = script.random.between(0, 2);
    script.ticks_until((moment + 1).saturating_sub(early));
    for _ in 0..script.random.between(1, 3) {
        script.offer_good(number, &terms);
    }
}

/// Figures at their limits and past them: before a link, with room, with all connections standing,
/// for which more than 20 ticks of silence would leave no room.
pub fn figures(script: &mut Script, size: usize) {
    let newcomer = edge_figures(script, 1, 1);
    script.admit_with(newcomer);
    let levels = script.random.between16(1, 4);
    let silence = script.some_silence().min(20);
    let bounds: Vec<u16> = (1..=levels).map(|level| 8_000 * level).collect();
    script.link(4, silence, &bounds);
    for wanted in [0, 30, MOST_CONNECTIONS - 1, MOST_CONNECTIONS] {
        crowd_up_to(script, wanted);
        for _ in 0..size / 4 {
            let level = script.random.between16(0, levels + 1) as u8;
            let size = script.random.pick([1, 1, 1, 1, 1, 1, 4, 0, 5]);
            let newcomer = edge_figures(script, level, size);
            script.admit_with(newcomer);
            script.offer_on_any();
        }
        about_the_reservations(script);
        let ticks = script.random.pick([1, 90, 3_000, u16::MAX]);
        script.tick(ticks);
    }
    script.drain();
}

/// Windows of one packet each, so many that they need a place more than is left; as the last
/// connection of all so few that what is left is enough.
fn about_the_reservations(script: &mut Script) {
    let link = match script.link_set() {
        Some(link) => link,
        None => return,
    };
    let left = script.places_left(&link);
    let bound = link.largest_bound();
    let mut windows = vec![bound / (left + 1)];
    if script.hub().counted().count() + 1 == MOST_CONNECTIONS {
        windows.push(bound / left.max(1) + 1);
    }
    for window in windows {
        script.admit_with(Figures::plain(link.levels(), 1, 1).with_average(window, window));
    }
}

/// An average at a limit: n 1, 16 and 17, the longest windows, an average gap at the gap and beside
/// it; one in four broken in some other way.
fn edge_figures(script: &mut Script, level: u8, size: u16) -> Figures {
    let some = script.random.between16(2, 4_000);
    let gap = script.random.pick([1, 2, some, some, 4_095, u16::MAX]);
    let plain = Figures::plain(level, gap, size);
    if script.random.once_in(4) {
        return broken_average(script, plain);
    }
    let most = MOST_PER_WINDOW;
    let packets = script.random.pick([1, 2, 3, 5, 15, most, most, most + 1]);
    let longest = u16::MAX / packets;
    let average = script
        .random
        .pick([gap - 1, gap, gap, gap.saturating_add(1), longest, longest]);
    plain.with_average(packets.saturating_mul(average), average)
}

/// Bounds of many windows, so that more packets are held than a connection remembers; in turn of
/// each number of packets to a window, the most first.
pub fn memory(script: &mut Script, size: usize) {
    let packets = MOST_PER_WINDOW - (script.seed() % u64::from(MOST_PER_WINDOW)) as u16;
    let silence = script.some_silence().min(5);
    let least = 1 + u16::from(silence);
    let average = least + script.random.between16(1, 12);
    let gap = script.random.between16(1, average);
    let window = packets * average;
    let windows = script.random.between16(1, 300 / packets);
    let bound = windows * window + script.random.between16(2 * least, window + 2 * least);
    script.link(1, silence, &[bound]);
    script.admit_with(Figures::plain(1, gap, 1).with_average(window, average));
    admit_some(script, 2);
    for _ in 0..size {
        for _ in 0..script.random.pick([1, packets, packets + 1, 40]) {
            script.offer_on_any();
        }
        let ticks = [1, gap, average, window - 1, window, window + 1, 4 * window];
        let ticks = script.random.pick(ticks);
        script.tick(ticks);
    }
    script.drain();
}

/// The longest windows at the clock's end: eligibilities far beyond it, and all calls behind it.
pub fn end(script: &mut Script, size: usize) {
    modest_link(script);
    if let Some(link) = script.link_set() {
        let newcomer = longest_window(script, &link);
        script.admit_with(newcomer);
    }
    admit_some(script, 4);
    flood(script, size);
    script.drain();
    let lead = script.random.between(300, 60_000);
    script.ticks_until(CLOCK_END - lead);
    while script.clock() + 100 < CLOCK_END {
        script.offer(0, 1);
        flood(script, 1);
        let some = script.random.between(0, lead / 10);
        script.ticks_until((script.clock() + some).min(CLOCK_END - 3));
    }
    script.offer(0, 1);
    cross_the_end(script);
    for _ in 0..size {
        after_the_end(script);
    }
}

/// A camera with a window of 65,535 ticks or the longest of 16 packets.
fn longest_window(script: &mut Script, link: &Link) -> Figures {
    let packets = [1, 3, 5, MOST_PER_WINDOW][(script.seed() % 4) as usize];
    let average = u16::MAX / packets;
    let gap = script.random.between16(1, link.bound(link.levels()));
    Figures::plain(link.levels(), gap, 1).with_average(packets * average, average)
}
