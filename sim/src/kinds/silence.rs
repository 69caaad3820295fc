//! Kinds about the silence after each packet (docs/RULES.md, R-4).

use super::edges::{tight_admission, tight_link};
use super::notices::notice_after_the_end;
use super::script::Script;
use super::traffic::{admit_one, admit_some, flood};
use crate::hub::CLOCK_END;
use crate::link::{HIGHEST_BOUND, MOST_LEVELS, MOST_SILENCE, MOST_UNITS};

/// Few units and few ticks of silence, the calls between single ticks: starts, last units, offers
/// and the ends of silences meet in every way.
pub fn small(script: &mut Script, size: usize) {
    let largest = script.random.between16(1, 3);
    let silence = script.random.pick([0, 1, 1, 2, 2, 3, 5]);
    small_link(script, largest, silence);
    admit_some(script, 4);
    for _ in 0..size {
        match script.random.between(0, 9) {
            0..=3 => script.offer_on_any(),
            4 => {
                script.notice_good();
            }
            5 => {
                admit_one(script);
            }
            _ => {
                let ticks = script.random.pick([0, 1, 1, 1, 2, 3, 6]);
                script.tick(ticks);
            }
        }
    }
    script.drain();
}

/// One to three levels with room for a few packets in each bound.
pub fn small_link(script: &mut Script, largest: u16, silence: u8) {
    let cost = largest + u16::from(silence);
    let mut bound = 0;
    let mut bounds = Vec::new();
    for _ in 0..script.random.between(1, 3) {
        bound += cost * script.random.between16(2, 5) + script.random.between16(0, 3);
        bounds.push(bound);
    }
    script.link(largest, silence, &bounds);
}

/// Each silence is cut into several `TK`s, with offers, notices and other calls between them.
pub fn split(script: &mut Script, size: usize) {
    let largest = script.random.between16(1, 9);
    let any = script.random.between(1, u64::from(MOST_SILENCE)) as u8;
    let silence = script.random.pick([1, 2, 3, 7, any, MOST_SILENCE]);
    small_link(script, largest, silence);
    admit_some(script, 4);
    for _ in 0..size {
        run_into_a_silence(script);
        while script.hub().silence_left() > 0 {
            call_in_the_silence(script);
            let left = u16::from(script.hub().silence_left());
            let some = script.random.between16(0, left);
            let ticks = script.random.pick([0, 1, left - 1, left, left + 1, some]);
            script.tick(ticks);
        }
    }
    script.drain();
}

/// Single ticks until something has just gone.
fn run_into_a_silence(script: &mut Script) {
    if script.hub().notices_waiting() == 0 {
        script.notice_good();
    }
    script.offer_on_any();
    while script.hub().silence_left() == 0 {
        script.tick(1);
    }
}

/// What is offered in a silence takes part in the choice behind it.
fn call_in_the_silence(script: &mut Script) {
    match script.random.between(0, 5) {
        0 | 1 => script.offer_on_any(),
        2 => {
            script.notice_good();
        }
        3 => {
            admit_one(script);
        }
        _ => {}
    }
}

/// Links at the edges of the silence and of the first bound until one is accepted; sums that meet
/// a bound exactly or pass it by little.
pub fn links(script: &mut Script, size: usize) {
    for _ in 0..6 {
        edge_link(script);
    }
    if script.link_set().is_none() {
        tight_link(script);
    }
    for _ in 0..size {
        tight_admission(script);
        script.offer_on_any();
        let ticks = script.random.pick([0, 1, 9, 80]);
        script.tick(ticks);
    }
    edge_link(script);
    script.drain();
}

/// A first bound one below S plus the silence, at it, one above it, or that leaves the silence out.
fn edge_link(script: &mut Script) {
    let some = script.random.between16(1, MOST_UNITS);
    let largest = script.random.pick([1, 4, 16, MOST_UNITS, some]);
    let most = MOST_SILENCE;
    let any = script.random.byte();
    let silence = script
        .random
        .pick([0, 1, most - 1, most, most + 1, most + 2, 255, any]);
    let cost = largest + u16::from(silence);
    let first = script
        .random
        .pick([cost - 1, cost - 1, cost, cost + 1, largest]);
    let levels = script.random.between16(1, MOST_LEVELS as u16);
    let room = 40 + 4 * cost.min(300);
    let step = script
        .random
        .pick([1, room, room, (HIGHEST_BOUND - first) / levels]);
    let bounds: Vec<u16> = (0..levels).map(|level| first + level * step).collect();
    script.link(largest, silence, &bounds);
}

/// The last notice before the clock's end leaves, in turn, with the last tick; so that the end
/// comes within its silence; with its silence; a tick behind it, in which one more goes. In other
/// turns packets want that tick as well.
pub fn end(script: &mut Script, size: usize) {
    let largest = script.random.between16(2, 24);
    let silence = script.random.between(2, u64::from(MOST_SILENCE)) as u8;
    small_link(script, largest, silence);
    admit_some(script, 3);
    flood(script, size);
    script.drain();
    let within = script.random.between(1, u64::from(silence) - 1);
    let silence = u64::from(silence);
    let left = [0, within, silence, silence + 1][(script.seed() % 4) as usize];
    script.ticks_until(CLOCK_END - u64::from(largest) - left);
    script.notice(largest);
    script.tick(largest);
    script.notice(1);
    let some = script.random.between(0, left);
    script.ticks(some);
    if script.seed() % 8 > 3 {
        script.offer_on_any();
    }
    script.tick(u16::MAX);
    for _ in 0..size {
        notice_after_the_end(script);
    }
}
