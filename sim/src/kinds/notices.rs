//! Kinds with notices (docs/RULES.md, R-1).

use super::edges::{at_the_limit, broken_link, refusals, tight};
use super::script::Script;
use super::traffic::{
    admit_some, big_packets, flood, flooded, midrun, modest_link, quiet, reserve, ties, wild,
    Keepers,
};
use crate::hub::CLOCK_END;
use crate::link::MOST_UNITS;
use crate::notices::{MOST_NOTICES, NOTICE_NUMBER};
use crate::record::Record;

/// The other kinds in turn, with notices mixed in between their ticks.
pub fn mixed(script: &mut Script, size: usize) {
    let once_in = script.random.pick([1, 2, 5]);
    script.mix_in_notices(once_in);
    match script.seed() % 9 {
        0 => quiet(script, size),
        1 => flooded(script, size),
        2 => wild(script, size),
        3 => midrun(script, 2 * size),
        4 => ties(script, size / 2),
        5 => reserve(script, size / 12),
        6 => big_packets(script, size / 2),
        7 => refusals(script, size),
        _ => tight(script, size / 2),
    }
}

/// A flood of notices beside packets: in turn all connections keep their word, or none does.
pub fn notice_flood(script: &mut Script, size: usize) {
    modest_link(script);
    let wanted = script.random.between(1, 8) as usize;
    admit_some(script, wanted);
    let keeps = script.seed() % 2 == 0;
    let mut keepers = Keepers::all_but(script, None);
    for _ in 0..size {
        for _ in 0..script.random.between(1, 12) {
            script.notice_good();
        }
        if keeps {
            let portion = script.clock() + script.random.between(1, 40);
            script.ticks_until(keepers.earliest().unwrap_or(portion).min(portion));
            keepers.offer_due(script);
        } else {
            flood(script, 1);
        }
    }
    script.drain();
}

/// A queue that is filled up again as often as a place is freed, and sometimes emptied.
pub fn notice_full(script: &mut Script, size: usize) {
    modest_link(script);
    let wanted = script.random.between(0, 4) as usize;
    admit_some(script, wanted);
    for _ in 0..size {
        fill_the_queue(script);
        if script.random.once_in(3) {
            script.offer_on_any();
        }
        let cost = script.largest_cost() as u16;
        let ticks = [1, 1, 2, cost - 1, cost, cost + 1, 4 * cost];
        let ticks = script.random.pick(ticks);
        script.tick(ticks);
        if script.random.once_in(20) {
            script.drain();
        }
    }
    script.drain();
}

/// Notices up to the last place and refused ones past it, or one less than the places.
fn fill_the_queue(script: &mut Script) {
    let one_less = script.random.once_in(8);
    let wanted = MOST_NOTICES - usize::from(one_less);
    while script.hub().notices_waiting() < wanted && script.notice_good() == 0 {}
    if !one_less {
        script.notice_good();
        script.notice_odd();
    }
}

/// Wrong lengths and no link: with room, with a full queue, beside offers on the number 254.
pub fn notice_refusals(script: &mut Script, size: usize) {
    for _ in 0..script.random.between(1, 6) {
        script.notice_odd();
        if script.random.once_in(2) {
            broken_link(script);
        }
    }
    notice_link(script);
    admit_some(script, 3);
    for _ in 0..size {
        match script.random.between(0, 9) {
            0 | 1 => fill_the_queue(script),
            2..=5 => {
                script.notice_odd();
            }
            6 => script.offer_on_any(),
            7 => {
                let number = script.random.pick([NOTICE_NUMBER, NOTICE_NUMBER - 1, 255]);
                script.offer(number, 1);
            }
            _ => {
                let ticks = script.random.pick([0, 1, 2, 9, 300]);
                script.tick(ticks);
            }
        }
    }
    script.drain();
}

/// The largest packets and the smallest beside ordinary ones.
fn notice_link(script: &mut Script) {
    let silence = script.some_silence();
    let q = u16::from(silence);
    match script.random.between(0, 3) {
        0 => {
            script.link(MOST_UNITS, silence, &[MOST_UNITS + q, 9_000]);
        }
        1 => {
            script.link(1, silence, &[1 + q, 40 + 2 * q]);
        }
        _ => modest_link(script),
    }
}

/// Notices up to the clock's end and behind it, in turn: a full queue; a last unit that just
/// goes; one that just does not; packets beside them.
pub fn notice_end(script: &mut Script, size: usize) {
    let largest = script.random.between16(4, 24);
    let silence = script.some_silence();
    let cost = largest + u16::from(silence);
    script.link(largest, silence, &[3 * cost, 5 * cost]);
    admit_some(script, 3);
    script.mix_in_notices(2);
    flood(script, size);
    script.drain();
    let lead = script.random.between(200, 900);
    script.ticks_until(CLOCK_END - lead);
    match script.seed() % 4 {
        0 => full_at_the_end(script, largest),
        1 => last_notice(script, largest, largest),
        2 => last_notice(script, largest, largest - 1),
        _ => {
            script.mix_in_notices(1);
            while script.clock() + 50 < CLOCK_END {
                flood(script, 2);
            }
        }
    }
    script.tick(u16::MAX);
    for _ in 0..size {
        notice_after_the_end(script);
    }
}

/// The end comes before the last unit of the first notice, so that no place is freed.
fn full_at_the_end(script: &mut Script, largest: u16) {
    script.ticks_until(CLOCK_END - u64::from(largest - 1));
    while script.notice(largest) == 0 {}
}

/// A notice that starts on an idle line when so many ticks are left.
fn last_notice(script: &mut Script, length: u16, left: u16) {
    script.ticks_until(CLOCK_END - u64::from(left));
    script.notice(length);
    script.notice(1);
    script.tick(left);
}

pub fn notice_after_the_end(script: &mut Script) {
    match script.random.between(0, 4) {
        0 => script.offer_on_any(),
        1 => {
            let ticks = script.random.pick([0, 1, u16::MAX]);
            script.tick(ticks);
        }
        2 => {
            script.notice_good();
        }
        _ => {
            script.notice_odd();
        }
    }
}

/// A notice at the size limit, in turn: that ends there; that crosses it; cut at it.
pub fn notice_limit(script: &mut Script, size: usize) {
    modest_link(script);
    script.mix_in_notices(2);
    flood(script, size);
    at_the_limit(script, Record::Notice { length: 1, tag: 7 });
}
