//! Kinds with closes (docs/RULES.md, R-8).

use super::beds::{admit_for, newcomers, reserve_between, wide_link};
use super::edges::{
    at_the_limit, broken_link, cross_the_end, largest_passing, refusals as all_refusals, tight,
};
use super::script::Script;
use super::silence::{small_link, split};
use super::traffic::{
    admit_one, admit_some, big_packets, camera, flood, flooded, midrun, modest_link, quiet,
    reserve, some_line, ties, wild,
};
use super::{averages, notices};
use crate::departure::Tick;
use crate::hub::CLOCK_END;
use crate::link::{Figures, Link, HIGHEST_BOUND, MOST_CONNECTIONS, MOST_LEVELS};
use crate::notices::NOTICE_NUMBER;
use crate::record::Record;
use crate::verdict::DONE;

/// Other kinds in turn, with closes and newcomers mixed in between their ticks.
pub fn mixed(script: &mut Script, size: usize) {
    let once_in = script.random.pick([1, 1, 2, 4]);
    script.mix_in(once_in, closes_and_newcomers);
    match script.seed() % 12 {
        0 => quiet(script, size),
        1 => flooded(script, size),
        2 => wild(script, size),
        3 => midrun(script, 2 * size),
        4 => ties(script, size / 2),
        5 => reserve(script, size / 12),
        6 => big_packets(script, size / 2),
        7 => all_refusals(script, size),
        8 => tight(script, size / 2),
        9 => averages::bursts(script, size),
        10 => notices::notice_flood(script, size),
        _ => split(script, size / 2),
    }
}

fn closes_and_newcomers(script: &mut Script) {
    for _ in 0..script.random.between(1, 4) {
        match script.random.between(0, 9) {
            0 => close_odd(script),
            1 => close_any(script),
            2..=4 => close_idle(script),
            5 => script.offer_on_any(),
            _ => {
                admit_one(script);
            }
        }
    }
}

/// The numbers that stand and hold nothing.
fn idle(script: &Script) -> Vec<u8> {
    let hub = script.hub();
    hub.standing()
        .map(|(number, _)| number)
        .filter(|&number| hub.held_by(number) == 0)
        .collect()
}

/// Those of them that have sent.
pub fn idle_behind_a_packet(script: &Script) -> Vec<u8> {
    let mut idle = idle(script);
    idle.retain(|&number| script.hub().last_eligibility(number).is_some());
    idle
}

pub fn close_idle(script: &mut Script) {
    let mut idle = idle_behind_a_packet(script);
    if idle.is_empty() || script.random.once_in(3) {
        idle = self::idle(script);
    }
    if let Some(number) = script.random.one_of(&idle) {
        script.close(number);
    }
}

pub fn close_any(script: &mut Script) {
    if let Some((number, _)) = script.any_connection() {
        script.close(number);
    }
}

/// A number that most likely does not stand: charged, next to be given, past the last, any.
pub fn odd_number(script: &mut Script) -> u8 {
    let charged: Vec<u8> = script.hub().charged().map(|(number, _)| number).collect();
    let charged = script.random.one_of(&charged);
    let next = script.hub().next_number().unwrap_or(0);
    let most = MOST_CONNECTIONS as u8;
    let any = script.random.byte();
    match script.random.between(0, 3) {
        0 | 1 => charged.unwrap_or(next),
        2 => next,
        _ => script
            .random
            .pick([any, most - 1, most, most + 1, NOTICE_NUMBER, 255]),
    }
}

pub fn close_odd(script: &mut Script) {
    let number = odd_number(script);
    script.close(number);
}

fn offer_odd(script: &mut Script) {
    let number = odd_number(script);
    let length = script.random.pick([0, 1, 1]);
    script.offer(number, length);
}

/// When the next charge ends.
fn next_end(script: &Script) -> Option<Tick> {
    script.hub().charged().map(|(_, end)| end).min()
}

/// A tick before a moment, at it, or a tick behind it, in one `TK` or in two.
pub fn ticks_about(script: &mut Script, moment: Tick) {
    let moment = (moment + script.random.pick([0, 1, 1, 2])).saturating_sub(1);
    if script.random.once_in(2) {
        let left = moment.saturating_sub(script.clock());
        let some = script.random.between(0, left);
        script.ticks(some);
    }
    script.ticks_until(moment);
}

/// Few ticks at a time until a connection holds nothing, but not for ever.
pub fn until_it_holds_nothing(script: &mut Script, number: u8) {
    for _ in 0..100 {
        if script.hub().held_by(number) == 0 || script.clock() == CLOCK_END {
            return;
        }
        let ticks = script.random.pick([1, 1, 2, 9]);
        script.tick(ticks);
    }
}

/// Newcomers that show which number is free and how much room is left, and leave nothing: each is
/// closed before it sends. Of a size that just passes, and of one that just does not.
pub fn probe(script: &mut Script) {
    let link = match script.link_set() {
        Some(link) => link,
        None => return,
    };
    let level = script.random.between16(1, u16::from(link.levels())) as u8;
    let gap = script.random.pick([u16::MAX, link.bound(level)]);
    let line = Figures::plain(level, gap, 1);
    let most = largest_passing(&link, &script.counted(), line);
    for size in [most, most + 1] {
        let number = script.hub().next_number();
        if (1..=link.largest()).contains(&size)
            && script.admit_with(Figures { size, ..line }) == DONE
        {
            script.close(number.unwrap_or(0));
        }
    }
}

/// Few units, short bounds and single ticks: last units, silences, ends of charges, closes, offers
/// and newcomers meet in every way.
pub fn small(script: &mut Script, size: usize) {
    let largest = script.random.between16(1, 3);
    let silence = script.random.pick([0, 0, 1, 2, 3]);
    small_link(script, largest, silence);
    for _ in 0..size {
        match script.random.between(0, 19) {
            0..=2 => {
                admit_one(script);
            }
            3..=6 => script.offer_on_any(),
            7 => {
                script.notice_good();
            }
            8..=10 => close_idle(script),
            11 => close_any(script),
            12 => close_odd(script),
            13 => offer_odd(script),
            14 => probe(script),
            _ => {
                let ticks = script.random.pick([0, 1, 1, 1, 2, 3, 6, 20]);
                script.tick(ticks);
            }
        }
    }
    script.drain();
}

/// Lines that send as soon as they are admitted, are closed with their last unit and ask to be let
/// in again at once and when a charge ends; beside them others that stay.
pub fn turns(script: &mut Script, size: usize) {
    modest_link(script);
    let link = match script.link_set() {
        Some(link) => link,
        None => return,
    };
    let wanted = script.random.between(0, 3) as usize;
    admit_some(script, wanted);
    let staying = script.standing();
    let lines = [(); 4].map(|_| some_line(script, &link));
    for _ in 0..size {
        for _ in 0..script.random.between(1, 4) {
            let line = script.random.pick(lines);
            enter(script, line);
        }
        if script.random.once_in(4) {
            script.notice_good();
        }
        if let Some((number, connection)) = script.random.one_of(&staying) {
            script.offer_good(number, &connection);
        }
        match next_end(script) {
            Some(end) if script.random.once_in(4) => ticks_about(script, end),
            _ => {
                let ticks = script.random.pick([1, 1, 2, 3, 8]);
                script.tick(ticks);
            }
        }
        for number in idle(script) {
            if staying.iter().all(|(stays, _)| *stays != number) {
                script.close(number);
            }
        }
    }
    script.drain();
}

/// An admission and, where it is accepted, offers at once.
fn enter(script: &mut Script, line: Figures) {
    let number = script.hub().next_number().unwrap_or(0);
    if script.admit_with(line) != DONE {
        return;
    }
    for _ in 0..script.random.pick([1, 1, 1, 2, 3]) {
        script.offer(number, line.size);
    }
}

/// Charges whose ends lie within a `TK`, at its end, and a tick beside it; closes about the time at
/// which nothing is charged any more. In turn short bounds and long ones.
pub fn charges(script: &mut Script, size: usize) {
    let link = match spread_link(script) {
        Some(link) => link,
        None => return,
    };
    for _ in 0..size {
        for _ in 0..script.random.between(1, 5) {
            let line = some_line(script, &link);
            enter(script, line);
            let ticks = script.random.pick([0, 1, 5, 30]);
            script.tick(ticks);
        }
        for _ in 0..script.random.between(1, 5) {
            let cost = script.largest_cost();
            script.ticks(cost);
        }
        for _ in 0..script.random.between(1, 6) {
            close_about_its_time(script, &link);
            probe(script);
        }
        for _ in 0..script.random.between(0, 4) {
            run_over_ends(script);
            offer_odd(script);
            close_odd(script);
            probe(script);
        }
    }
    script.drain();
}

/// Up to 8 levels with bounds far apart.
pub fn spread_link(script: &mut Script) -> Option<Link> {
    let largest = script.random.between16(1, 8);
    let silence = script.some_silence();
    let least = 2 * (largest + u16::from(silence)) + 2;
    let levels = script.random.between16(1, MOST_LEVELS as u16);
    let apart = match script.seed() % 3 {
        0 => least,
        1 => 40 * least.min(60),
        _ => (HIGHEST_BOUND - least) / levels,
    };
    let bounds: Vec<u16> = (0..levels).map(|level| least + level * apart).collect();
    script.link(largest, silence, &bounds);
    script.link_set()
}

/// At once, or about the moment at which its charge would be over.
fn close_about_its_time(script: &mut Script, link: &Link) {
    let idle = idle_behind_a_packet(script);
    let number = match script.random.one_of(&idle) {
        Some(number) => number,
        None => return close_idle(script),
    };
    let last = script.hub().last_eligibility(number);
    if let Some(last) = last.filter(|_| script.random.once_in(4)) {
        ticks_about(script, last + Tick::from(link.charge_time()));
    }
    script.close(number);
}

/// To about the next end, past all of them, or some way.
pub fn run_over_ends(script: &mut Script) {
    let last_end = script.hub().charged().map(|(_, end)| end).max();
    match (script.random.between(0, 5), next_end(script), last_end) {
        (0, _, Some(last_end)) => ticks_about(script, last_end),
        (1, _, _) => {
            let ticks = script.random.pick([0, 1, 300, u16::MAX]);
            script.tick(ticks);
        }
        (_, Some(end), _) => ticks_about(script, end),
        _ => {
            script.tick(1);
        }
    }
}

/// Closes without a link, of numbers that do not stand, of connections that hold packets: waiting,
/// in service, with their last unit to go; beside them other calls.
pub fn refusals(script: &mut Script, size: usize) {
    for _ in 0..script.random.between(1, 4) {
        close_odd(script);
        script.close(0);
        if script.random.once_in(2) {
            broken_link(script);
        }
    }
    modest_link(script);
    close_odd(script);
    admit_some(script, 6);
    for _ in 0..size {
        match script.random.between(0, 9) {
            0 | 1 => close_while_held(script),
            2 | 3 => close_odd(script),
            4 => offer_odd(script),
            5 => script.offer_on_any(),
            6 => {
                close_any(script);
                admit_one(script);
            }
            7 => {
                close_idle(script);
                admit_some(script, 6);
            }
            8 => {
                script.notice_good();
            }
            _ => {
                let ticks = script.random.pick([0, 1, 3, 50]);
                script.tick(ticks);
            }
        }
    }
    script.drain();
}

/// A close before each unit of what a connection holds, and behind the last one.
fn close_while_held(script: &mut Script) {
    let (number, connection) = match script.any_connection() {
        Some((number, connection)) => (number, connection),
        None => return,
    };
    script.offer_good(number, &connection);
    for _ in 0..12 {
        if script.close(number) == DONE {
            return;
        }
        script.tick(1);
    }
}

/// Wards that use up the numbers and the places, in turn one of them, or nearly; of those that have
/// sent some are closed, and newcomers find that they count.
pub fn beds(script: &mut Script, size: usize) {
    let most = MOST_CONNECTIONS;
    let wards = [(most, 2_048), (most, 900), (most - 1, 2_048), (120, 2_047)];
    let (connections, places) = wards[(script.seed() % 4) as usize];
    let link = match wide_link(script) {
        Some(link) => link,
        None => return,
    };
    reserve_between(script, &link, connections, places);
    for _ in 0..size {
        some_send(script);
        let most_closed = script.random.pick([1, 2, 3, 10, 60, 200]);
        close_those_that_sent(script, most_closed);
        if script.random.once_in(4) {
            close_idle(script);
        }
        for _ in 0..2 {
            newcomers(script, &link);
            about_the_places_left(script, &link);
            close_odd(script);
            offer_odd(script);
            if let Some(end) = next_end(script) {
                ticks_about(script, end);
            }
        }
        if script.random.once_in(2) {
            script.ticks(Tick::from(link.charge_time()));
            while admit_for(script, &link, 3) == DONE {}
        }
    }
    script.drain();
}

/// Some connections or all of them send, and time goes by.
fn some_send(script: &mut Script) {
    if script.random.once_in(3) {
        for (number, connection) in script.standing() {
            script.offer_good(number, &connection);
        }
    } else {
        for _ in 0..script.random.between(5, 60) {
            script.offer_on_any();
        }
    }
    if script.random.once_in(2) {
        script.drain();
    } else {
        let ticks = script.random.pick([20, 200, 900]);
        script.tick(ticks);
    }
}

/// Of those that have sent and hold nothing, the first or the last so many.
fn close_those_that_sent(script: &mut Script, most: usize) {
    let mut sent = idle_behind_a_packet(script);
    if script.random.once_in(2) {
        sent.reverse();
    }
    for number in sent.into_iter().take(most) {
        script.close(number);
    }
}

/// A newcomer of a place more than is left, then one of just those.
fn about_the_places_left(script: &mut Script, link: &Link) {
    let left = script.places_left(link);
    admit_for(script, link, left + 1);
    if left > 0 && script.random.once_in(3) {
        admit_for(script, link, left);
    }
}

/// Cameras that have filled their windows are closed, and when their numbers are free again others
/// of the same figures, or of others, send the same burst under them.
pub fn reopened(script: &mut Script, size: usize) {
    modest_link(script);
    let link = match script.link_set() {
        Some(link) => link,
        None => return,
    };
    admit_some(script, 2);
    for _ in 0..size {
        let line = long_window(script, &link);
        for _ in 0..script.random.between(2, 4) {
            let number = script.hub().next_number().unwrap_or(0);
            if script.admit_with(line) != DONE {
                break;
            }
            burst(script, number, &line);
            let end = script.hub().charged().find(|(one, _)| *one == number);
            if let Some((_, end)) = end {
                script.ticks_until(end - 1);
                probe(script);
                script.tick(1);
            }
        }
        script.offer_on_any();
        probe(script);
    }
    script.drain();
}

/// A camera whose window outlasts its charge.
fn long_window(script: &mut Script, link: &Link) -> Figures {
    let camera = camera(script, link);
    let packets = camera.window / camera.average;
    let longest = u16::MAX / packets;
    let charge = link.charge_time().min(u32::from(u16::MAX)) as u16;
    let least = charge.max(camera.gap).min(longest);
    let average = script.random.between16(least, longest);
    camera.with_average(packets * average, average)
}

/// As many offers as a window holds or more, ticks until they have left, and a close.
fn burst(script: &mut Script, number: u8, line: &Figures) {
    let packets = line.window / line.average;
    for _ in 0..script
        .random
        .pick([1, packets, packets, packets, packets + 1])
    {
        script.offer(number, 1);
        let ticks = script.random.pick([0, 0, line.gap.min(500), 1]);
        script.tick(ticks);
    }
    until_it_holds_nothing(script, number);
    if script.close(number) != DONE {
        script.drain();
        script.close(number);
    }
}

/// Charges that end a tick before the clock's end, with it, a tick behind it and elsewhere; then
/// closes and all other calls behind the clock's end.
pub fn end(script: &mut Script, size: usize) {
    modest_link(script);
    let link = match script.link_set() {
        Some(link) => link,
        None => return,
    };
    admit_some(script, 6);
    script.mix_in(3, closes_and_newcomers);
    flood(script, size);
    script.mix_in_nothing();
    let last = CLOCK_END - Tick::from(link.charge_time());
    script.ticks_until(last - 9_000);
    script.mix_in(3, closes_and_newcomers);
    while script.clock() < last - 8_000 {
        flood(script, 1);
    }
    script.mix_in_nothing();
    script.ticks_until(last - 2);
    for number in idle(script) {
        script.close(number);
    }
    let sent = [last - 1, last, last + 1].map(|moment| send_at(script, &link, moment));
    for number in sent.into_iter().flatten() {
        until_it_holds_nothing(script, number);
        script.close(number);
    }
    for _ in 0..script.random.between(0, 3) {
        script.offer_on_any();
        closes_and_newcomers(script);
    }
    for left in [2, 1] {
        script.ticks_until(CLOCK_END - left);
        probe(script);
    }
    cross_the_end(script);
    probe(script);
    for _ in 0..size {
        close_after_the_end(script);
    }
}

/// A newcomer's packet at a moment, if both are accepted.
fn send_at(script: &mut Script, link: &Link, moment: Tick) -> Option<u8> {
    let level = script.random.between16(1, u16::from(link.levels())) as u8;
    let number = script.hub().next_number()?;
    let accepted = script.admit(level, u16::MAX, 1) == DONE;
    script.ticks_until(moment);
    (accepted && script.offer(number, 1) == DONE).then_some(number)
}

fn close_after_the_end(script: &mut Script) {
    match script.random.between(0, 9) {
        0 | 1 => close_idle(script),
        2 => close_any(script),
        3 => close_odd(script),
        4 => offer_odd(script),
        5 => script.offer_on_any(),
        6 => probe(script),
        7 => {
            script.notice_good();
        }
        8 => {
            let ticks = script.random.pick([0, 1, u16::MAX]);
            script.tick(ticks);
        }
        _ => {
            admit_one(script);
        }
    }
}

/// A `CL` at the size limit.
pub fn limit(script: &mut Script, size: usize) {
    modest_link(script);
    admit_some(script, 4);
    script.mix_in(2, closes_and_newcomers);
    flood(script, size);
    at_the_limit(script, Record::Close { connection: 0 });
}
