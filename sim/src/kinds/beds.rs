//! Wards that use up the connections and the places.

use super::script::Script;
use super::traffic::{fill_places, Keepers, MOST_SILENT};
use crate::link::{Figures, Link, MOST_CONNECTIONS, MOST_LEVELS, MOST_RESERVED};
use crate::notices::NOTICE_NUMBER;

const PLACES: u16 = MOST_RESERVED as u16;

/// In turn: all connections and all places; one less of each, and newcomers for them; all places
/// without the last connection; all connections, which keep their word, with half of the places; one
/// connection with all places.
pub fn beds(script: &mut Script, size: usize) {
    match script.seed() % 5 {
        0 => full_ward(script, MOST_CONNECTIONS, PLACES, size),
        1 => full_ward(script, MOST_CONNECTIONS - 1, PLACES - 1, size),
        2 => full_ward(script, MOST_CONNECTIONS - 1, PLACES, size),
        3 => ward_of_keepers(script, 20 * size),
        _ => one_line(script, size),
    }
    script.drain();
}

fn full_ward(script: &mut Script, connections: usize, places: u16, size: usize) {
    if let Some(link) = wide_link(script) {
        reserve_between(script, &link, connections, places);
        newcomers(script, &link);
        full_places(script, size);
    }
}

fn ward_of_keepers(script: &mut Script, offers: usize) {
    if let Some(link) = wide_link(script) {
        reserve_between(script, &link, MOST_CONNECTIONS, PLACES / 2);
        newcomers(script, &link);
    }
    let mut keepers = Keepers::all_but(script, None);
    for _ in 0..offers {
        let moment = keepers.earliest().unwrap_or(script.clock());
        script.ticks_until(moment);
        keepers.offer_due(script);
    }
    about_the_last_number(script);
}

/// A link whose bounds have room for the packets of all places and, at every level, one more of each
/// connection.
pub fn wide_link(script: &mut Script) -> Option<Link> {
    let levels = script.random.between16(1, MOST_LEVELS as u16);
    let silence = script.some_silence().min(MOST_SILENT);
    let least = 1 + u16::from(silence);
    let bounds: Vec<u16> = (1..=levels)
        .map(|level| least * (2_295 + 5 * level))
        .collect();
    script.link(2, silence, &bounds);
    script.link_set()
}

/// So many connections with so many places between them: each draws up to twice its share of what is
/// left, the last one has the rest.
pub fn reserve_between(script: &mut Script, link: &Link, connections: usize, places: u16) {
    let mut left = places;
    for behind in (0..connections as u16).rev() {
        let share = left / (behind + 1);
        let packets = match behind {
            0 => left,
            _ => script.random.between16(1, 2 * share - 1),
        };
        admit_for(script, link, packets);
        left -= packets;
    }
}

/// A connection that reserves so many packets: plain, or with windows of one packet each.
pub fn admit_for(script: &mut Script, link: &Link, packets: u16) -> u8 {
    let level = script.random.between16(1, u16::from(link.levels())) as u8;
    let apart = (link.bound(level) + packets - 1) / packets;
    let gap = script.random.between16(1, apart);
    let line = match script.random.between(0, 3) {
        0 => Figures::plain(level, gap, 1).with_average(apart, apart),
        _ => Figures::plain(level, apart, 1),
    };
    script.admit_with(line)
}

/// Newcomers of two places and of one, one that no level has room for, and broken limits.
pub fn newcomers(script: &mut Script, link: &Link) {
    for packets in [2, 1, 1] {
        admit_for(script, link, packets);
    }
    script.admit(link.levels(), 1, 1);
    script.admit(link.levels() + 1, 1, 1);
    script.admit(1, 0, 1);
}

/// All places used, some freed and used again.
fn full_places(script: &mut Script, size: usize) {
    fill_places(script);
    for _ in 0..size {
        let ticks = script.random.pick([1, 2, 7, 30, 300]);
        script.tick(ticks);
        for _ in 0..40 {
            script.offer_on_any();
        }
        about_the_last_number(script);
    }
    fill_places(script);
}

/// Offers on the last connection and on the numbers that nobody has.
fn about_the_last_number(script: &mut Script) {
    let standing = script.hub().standing().count() as u8;
    let most = MOST_CONNECTIONS as u8;
    let numbers = [
        standing - 1,
        standing,
        most - 1,
        most,
        most + 1,
        NOTICE_NUMBER,
    ];
    for number in numbers {
        script.offer(number, 1);
    }
}

/// One connection with all places, plain or with an average of 1, 2, 4, 8 or 16 packets to a window.
fn one_line(script: &mut Script, size: usize) {
    let silence = script.some_silence().min(MOST_SILENT);
    let apart = script.random.between16(u16::from(silence) + 2, 16);
    script.link(2, silence, &[apart * PLACES]);
    let gap = script.random.between16(1, apart);
    let window = apart * script.random.pick([1, 2, 4, 8, 16]);
    let line = match script.random.between(0, 2) {
        0 => Figures::plain(1, apart, 1),
        _ => Figures::plain(1, gap, 1).with_average(window, apart),
    };
    script.admit_with(line);
    script.admit(1, u16::MAX, 1);
    full_places(script, size);
}
