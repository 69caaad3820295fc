//! Kinds with packets that stand by (docs/RULES.md, R-11).

use super::closing::{
    close_any, close_idle, close_odd, idle_behind_a_packet, probe, run_over_ends, spread_link,
    ticks_about, until_it_holds_nothing,
};
use super::edges::{after_the_end, at_the_limit, broken_link, cross_the_end};
use super::script::Script;
use super::silence::small_link;
use super::stamps::{admit_stamped, offer_on_the_edge};
use super::traffic::{admit_one, admit_some, flood, modest_link, some_line};
use crate::departure::Tick;
use crate::hub::CLOCK_END;
use crate::link::{Connection, Figures, LinkFigures, OFF, ON};
use crate::record::Record;
use crate::verdict::{Refusal, DONE};

const TOO_FAR: u8 = Refusal::TooFar.number();
const FULL: u8 = Refusal::ReservationFull.number();

/// Lines by their gap, with and without an average, and few by stamps; the queue is on.
fn ward(script: &mut Script) {
    script.links_by(Some(ON));
    modest_link(script);
    for _ in 0..script.random.between(0, 2) {
        admit_stamped(script);
    }
    let wanted = script.hub().standing().count() + script.random.between(1, 6) as usize;
    admit_some(script, wanted);
}

/// Some line whose packets may go early.
pub fn any_by_its_gap(script: &mut Script) -> Option<(u8, Connection)> {
    let mut lines = script.standing();
    lines.retain(|(_, connection)| connection.allowance().is_none());
    script.random.one_of(&lines)
}

/// Offers in so many ticks, in turn: bursts; one in each tick, one tick to a `TK`; those of one line
/// alone, as many as it may hold; bursts before long `TK`s.
pub fn flooded(script: &mut Script, size: usize) {
    ward(script);
    let alone = any_by_its_gap(script);
    let until = script.clock() + size as Tick + script.random.between(0, 999);
    while script.clock() < until {
        match (script.seed() % 4, alone) {
            (0, _) => flood(script, 1),
            (1, _) => {
                script.offer_on_any();
                script.tick(1);
            }
            (2, Some((number, connection))) => {
                while script.offer_good(number, &connection) == DONE {}
                let ticks = script.random.pick([1, 1, 1, 2, 30]);
                script.tick(ticks);
            }
            _ => {
                flood(script, 3);
                let ticks = script.random.pick([200, 900, 3_000, u16::MAX]);
                script.tick(ticks);
            }
        }
    }
    script.drain();
}

/// Lines that run ahead of the clock as far as they may; offers a tick before the next one is not too
/// far off any more, at that tick and behind it.
pub fn distances(script: &mut Script, size: usize) {
    ward(script);
    script.mix_in_notices(80);
    for _ in 0..size {
        match any_by_its_gap(script) {
            Some((number, connection)) => {
                run_ahead(script, number, &connection);
                offer_about_the_distance(script, number, &connection);
            }
            None => script.offer_on_any(),
        }
        if script.random.once_in(4) {
            flood(script, 1);
        }
    }
    script.drain();
}

/// Offers, each behind a packet that has left or before that, until one is too far off.
pub fn run_ahead(script: &mut Script, number: u8, connection: &Connection) {
    for _ in 0..script.random.between(1, 30) {
        match script.offer_good(number, connection) {
            TOO_FAR => return,
            FULL => until_it_holds_nothing(script, number),
            _ if script.random.once_in(3) => until_it_holds_nothing(script, number),
            _ => {}
        }
    }
}

/// Offers about the first tick of which the next eligibility is not further off than it may be.
fn offer_about_the_distance(script: &mut Script, number: u8, connection: &Connection) {
    let places = script.link_set().map(|link| connection.reservation(&link));
    let distance = places.unwrap_or(0) * Tick::from(connection.gap());
    let next = script.hub().eligibility_now(number).unwrap_or(0);
    ticks_about(script, next.saturating_sub(distance));
    for _ in 0..script.random.between(1, 3) {
        script.offer_good(number, connection);
    }
    script.tick(1);
    script.offer_good(number, connection);
}

/// Few units, short bounds and single ticks: early starts, eligibilities, stamps, notices, silences,
/// closes and newcomers meet in every way.
pub fn small(script: &mut Script, size: usize) {
    script.links_by(Some(ON));
    let largest = script.random.between16(1, 3);
    let silence = script.random.pick([0, 0, 0, 1, 2, 3]);
    small_link(script, largest, silence);
    for _ in 0..size {
        match script.random.between(0, 19) {
            0 | 1 => {
                admit_one(script);
            }
            2 => {
                admit_stamped(script);
            }
            3..=8 => script.offer_on_any(),
            9 => offer_on_the_edge(script),
            10 => {
                script.notice_good();
            }
            11 => close_idle(script),
            12 => close_any(script),
            13 => probe(script),
            _ => {
                let ticks = script.random.pick([0, 1, 1, 1, 2, 3, 6, 20]);
                script.tick(ticks);
            }
        }
    }
    script.drain();
}

/// Closes of lines that have run ahead of the clock, so that their charge counts from a tick that is
/// still to come; ticks to about its end, and newcomers that show what is free.
pub fn charges(script: &mut Script, size: usize) {
    script.links_by(Some(ON));
    let link = match spread_link(script) {
        Some(link) => link,
        None => return,
    };
    for _ in 0..size {
        for _ in 0..script.random.between(1, 4) {
            let mut line = some_line(script, &link);
            line.gap = script
                .random
                .pick([line.gap, line.gap, 20_000.max(line.gap)]);
            let line = Figures::plain(line.level, line.gap, line.size);
            let number = script.hub().next_number().unwrap_or(0);
            let admitted = script.admit_with(line) == DONE;
            if let Some(connection) = script.hub().connection(number).copied() {
                run_ahead(script, number, &connection);
                until_it_holds_nothing(script, number);
            }
            if admitted && !script.random.once_in(4) {
                script.close(number);
            }
        }
        for _ in 0..script.random.between(1, 4) {
            run_over_ends(script);
            close_odd(script);
            probe(script);
        }
        for number in idle_behind_a_packet(script) {
            script.close(number);
        }
    }
    script.drain();
}

/// Links with a setting and without, in any order, until one is accepted; others behind it.
pub fn links(script: &mut Script, size: usize) {
    for _ in 0..script.random.between(1, 6) {
        script.admit(1, 1, 1);
        edge_link(script);
    }
    if script.link_set().is_none() {
        let setting = script.random.pick([None, Some(OFF), Some(ON), Some(ON)]);
        script.links_by(setting);
        modest_link(script);
    }
    admit_some(script, 4);
    for _ in 0..size {
        flood(script, 1);
        if script.random.once_in(6) {
            edge_link(script);
        }
    }
    script.drain();
}

/// A link that is refused for its setting alone, for another limit, for both, or not at all.
fn edge_link(script: &mut Script) {
    let any = script.random.byte();
    let above = script.random.pick([Some(2), Some(3), Some(255), Some(any)]);
    let setting = script
        .random
        .pick([None, Some(OFF), Some(ON), above, above]);
    script.links_by(setting);
    match script.random.between(0, 4) {
        0 => small_link(script, 2, 1),
        1 | 2 => {
            broken_link(script);
        }
        _ => {
            script.links_by(above);
            small_link(script, 3, 0);
        }
    }
}

/// Lines that run ahead at the clock's end: eligibilities beyond it, offers of every sort behind it.
pub fn end(script: &mut Script, size: usize) {
    ward(script);
    if let Some(link) = script.link_set() {
        script.admit(link.levels(), u16::MAX, 1);
        script.admit_with(Figures::plain(link.levels(), 300, 1).with_average(60_000, 30_000));
    }
    flood(script, size);
    script.drain();
    let lead = script.random.between(100, 2_000);
    script.ticks_until(CLOCK_END - lead);
    while script.clock() + 50 < CLOCK_END {
        flood(script, 3);
        let ticks = script.random.between16(1, 40);
        script.tick(ticks);
    }
    let last_ticks = script.random.between(2, 5);
    script.ticks_until(CLOCK_END - last_ticks);
    offer_on_all(script, 2);
    script.tick(1);
    offer_on_all(script, 2);
    cross_the_end(script);
    offer_on_all(script, 2);
    for _ in 0..size {
        after_the_end(script);
        close_any(script);
    }
}

pub fn offer_on_all(script: &mut Script, times: usize) {
    for (number, connection) in script.standing() {
        for _ in 0..times {
            script.offer_good(number, &connection);
        }
    }
}

/// An `LE` at the size limit.
pub fn limit(script: &mut Script, size: usize) {
    ward(script);
    flood(script, size);
    let record = Record::Link(Box::new(LinkFigures {
        levels: 2,
        largest: 4,
        silence: 3,
        setting: Some(ON),
        bounds: [10, 20, 0, 0, 0, 0, 0, 0],
        windows: None,
    }));
    at_the_limit(script, record);
}
