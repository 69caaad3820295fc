//! Kinds with windows (docs/RULES.md, R-12).

use super::closing::{
    close_any, close_idle, close_odd, idle_behind_a_packet, probe, run_over_ends, spread_link,
    until_it_holds_nothing,
};
use super::early::{offer_on_all, run_ahead};
use super::edges::{after_the_end, at_the_limit, broken_link, cross_the_end, largest_passing};
use super::script::{Script, Windows};
use super::silence::small_link;
use super::stamps::{admit_stamped, offer_on_the_edge};
use super::traffic::{admit_one, admit_some, camera, flood, modest_link, some_line};
use crate::departure::Tick;
use crate::hub::CLOCK_END;
use crate::link::{
    Figures, Link, LinkFigures, HIGHEST_BOUND, LONGEST_WINDOW, MOST_LEVELS, OFF, ON,
};
use crate::record::Record;
use crate::verdict::DONE;

/// Links with windows, their stand-by queue on once in three times.
fn set_windows(script: &mut Script) {
    let setting = script.random.pick([OFF, OFF, ON]);
    script.links_by(Some(setting));
    script.links_with(Windows::Any);
}

/// A line whose packets may come many to a bound: only a window tells how many.
fn dense_line(script: &mut Script, link: &Link) -> Figures {
    let level = script.random.between16(1, u16::from(link.levels())) as u8;
    let size = script.random.between16(1, link.largest());
    let cost = link.cost(size) as u16;
    let bound = link.bound(level);
    let short = script.random.between16(2, 6).saturating_mul(cost);
    let some = script.random.between16(cost, bound.max(cost + 1));
    let near = bound - script.random.between16(0, bound / 2);
    let gap = script.random.pick([short, some, some, near]);
    Figures::plain(level, gap, size)
}

/// A dense line, most often; sometimes a camera, a line by stamps, or one as on other links.
fn some_dense_line(script: &mut Script, link: &Link) -> Figures {
    match script.random.between(0, 7) {
        0 => camera(script, link),
        1 => some_line(script, link),
        2 => {
            let allowance = script.random.pick([0, 1, 20, link.bound(1)]);
            dense_line(script, link).by_stamps(allowance)
        }
        3 => {
            let line = dense_line(script, link);
            let (window, average) = script.some_average(line.gap);
            line.with_average(window, average)
        }
        _ => dense_line(script, link),
    }
}

/// Admissions until so many were refused: levels as full as they become.
fn fill_up(script: &mut Script, link: &Link, refused: usize) {
    let mut left = refused;
    for _ in 0..60 {
        let line = some_dense_line(script, link);
        left -= usize::from(script.admit_with(line) != DONE);
        if left == 0 {
            return;
        }
    }
}

/// A notice of S units, and behind its first unit as many packets of all lines as they may hold: the
/// worst that can come at one time.
fn worst_moment(script: &mut Script) {
    script.drain();
    let largest = script.largest();
    script.notice(largest);
    script.tick(1);
    offer_on_all(script, 3);
    for _ in 0..script.random.between(1, 12) {
        let ticks = script.random.pick([1, 1, 2, 5, 17]);
        script.tick(ticks);
        offer_on_all(script, 1);
    }
}

/// Levels that are full, and the worst that may come; newcomers in between.
pub fn flooded(script: &mut Script, size: usize) {
    set_windows(script);
    modest_link(script);
    let link = match script.link_set() {
        Some(link) => link,
        None => return,
    };
    fill_up(script, &link, 12);
    for _ in 0..size / 4 {
        worst_moment(script);
        flood(script, 2);
        let line = some_dense_line(script, &link);
        script.admit_with(line);
    }
    script.drain();
}

/// Newcomers that just pass the test and that just do not: by the w condition, by the first β, by a later
/// one.
pub fn edges(script: &mut Script, size: usize) {
    set_windows(script);
    let link = match edge_link(script) {
        Some(link) => link,
        None => return,
    };
    for _ in 0..size {
        let line = edge_line(script, &link);
        let most = largest_passing(&link, &script.counted(), Figures { size: 1, ..line });
        let over = script.random.between16(1, 4);
        script.admit_with(Figures {
            size: most + 1,
            ..line
        });
        if script.random.once_in(2) {
            script.admit_with(Figures {
                size: most + over,
                ..line
            });
        }
        if most > 0 && !script.random.once_in(3) {
            script.admit_with(Figures { size: most, ..line });
        }
        flood(script, 1);
        if script.random.once_in(4) {
            close_idle(script);
        }
    }
    worst_moment(script);
    script.drain();
}

/// In turn: a modest link; levels close together with windows of any length; one level with a window some
/// packets longer than its bound; large packets.
fn edge_link(script: &mut Script) -> Option<Link> {
    let silence = script.some_silence().min(8);
    let q = u16::from(silence);
    match script.seed() % 4 {
        0 => modest_link(script),
        1 => {
            script.link(24, silence, &[60 + q, 61 + q, 90 + q, 200 + q]);
        }
        2 => {
            let bound = 40 + 2 * q;
            let window = bound + script.random.between16(1, 90);
            script.link_with(20, silence, &[bound], Some(&[window]));
        }
        _ => {
            script.link(1_500, silence, &[4_000, 9_000, 20_000]);
        }
    }
    script.link_set()
}

/// Few packets close together, and no more within the window of its level: a later β counts them all.
fn burst(script: &mut Script, link: &Link) -> Figures {
    let level = script.random.between16(1, u16::from(link.levels())) as u8;
    let packets = script.random.between16(2, 6);
    let longest = u16::MAX / packets;
    let average = (link.span(level) / packets).clamp(9, longest);
    let gap = script.random.between16(1, 4);
    Figures::plain(level, gap, 1).with_average(packets * average, average)
}

/// Gaps at a bound, a window or a part of them, and beside it.
fn edge_line(script: &mut Script, link: &Link) -> Figures {
    match script.random.between(0, 4) {
        0 => return some_dense_line(script, link),
        1 => return burst(script, link),
        _ => {}
    }
    let levels = u16::from(link.levels());
    let level = script.random.between16(1, levels) as u8;
    let at = script.random.between16(1, levels) as u8;
    let base = script.random.pick([
        link.bound(at),
        link.span(at),
        link.span(at) - link.bound(at),
    ]);
    let part = base / script.random.between16(1, 5);
    let gap = script
        .random
        .pick([part, part + 1, part.saturating_sub(1), u16::MAX]);
    Figures::plain(level, gap.max(1), 1)
}

/// Few units, short bounds and windows, single ticks: starts, eligibilities, stamps, notices, silences,
/// closes, ends of charges and newcomers meet in every way.
pub fn small(script: &mut Script, size: usize) {
    set_windows(script);
    let largest = script.random.between16(1, 3);
    let silence = script.random.pick([0, 0, 1, 2]);
    let first = (largest + u16::from(silence)) * script.random.between16(2, 5);
    let bounds = [first, first + script.random.between16(1, 20)];
    let windows = bounds.map(|bound| bound + script.random.between16(0, 30));
    script.link_with(largest, silence, &bounds, Some(&windows));
    for _ in 0..size {
        match script.random.between(0, 19) {
            0..=2 => admit_dense(script),
            3 => {
                admit_stamped(script);
            }
            4..=8 => script.offer_on_any(),
            9 => offer_on_the_edge(script),
            10 => {
                script.notice_good();
            }
            11 | 12 => close_idle(script),
            13 => close_any(script),
            14 => probe(script),
            _ => {
                let ticks = script.random.pick([0, 1, 1, 1, 2, 3, 6, 20]);
                script.tick(ticks);
            }
        }
    }
    script.drain();
}

fn admit_dense(script: &mut Script) {
    if let Some(link) = script.link_set() {
        let line = some_dense_line(script, &link);
        script.admit_with(line);
    }
}

/// Lines that have sent are closed; ticks to about the ends of their charges, d and w behind their last
/// eligibility, and newcomers that show what is free. In every fourth turn charges of 65,536 ticks.
pub fn charges(script: &mut Script, size: usize) {
    set_windows(script);
    let link = match script.seed() % 4 {
        3 => longest_link(script),
        _ => spread_link(script),
    };
    let link = match link {
        Some(link) => link,
        None => return,
    };
    for _ in 0..size {
        for _ in 0..script.random.between(1, 4) {
            let line = Figures {
                allowance: None,
                ..some_dense_line(script, &link)
            };
            let number = script.hub().next_number().unwrap_or(0);
            if script.admit_with(line) != DONE {
                continue;
            }
            if let Some(connection) = script.hub().connection(number).copied() {
                run_ahead(script, number, &connection);
                until_it_holds_nothing(script, number);
            }
            if !script.random.once_in(4) {
                script.close(number);
            }
        }
        for _ in 0..script.random.between(1, 4) {
            run_over_ends(script);
            close_odd(script);
            probe(script);
        }
        for number in idle_behind_a_packet(script) {
            script.close(number);
        }
    }
    script.drain();
}

/// Two levels, the largest bound and the longest windows.
fn longest_link(script: &mut Script) -> Option<Link> {
    let largest = script.random.between16(1, 8);
    let silence = script.some_silence();
    let bounds = [HIGHEST_BOUND / 2, HIGHEST_BOUND];
    script.link_with(largest, silence, &bounds, Some(&[LONGEST_WINDOW; 2]));
    script.link_set()
}

/// Links of all three marks in any order, until one is accepted; others behind it.
pub fn links(script: &mut Script, size: usize) {
    for _ in 0..script.random.between(1, 6) {
        script.admit(1, 1, 1);
        odd_link(script);
    }
    if script.link_set().is_none() {
        set_windows(script);
        let windows = script
            .random
            .pick([Windows::Any, Windows::Zeros, Windows::AtTheBounds]);
        script.links_with(windows);
        modest_link(script);
    }
    admit_some(script, 4);
    for _ in 0..size {
        flood(script, 1);
        admit_dense(script);
        if script.random.once_in(6) {
            odd_link(script);
        }
    }
    script.drain();
}

/// A link that is refused for its windows alone, for another limit, for both, or not at all; with windows,
/// with a setting alone, or without both.
fn odd_link(script: &mut Script) {
    let setting = script.random.pick([None, Some(OFF), Some(ON), Some(2)]);
    script.links_by(setting);
    let windows = script
        .random
        .pick([Windows::Any, Windows::Zeros, Windows::None]);
    script.links_with(windows);
    match script.random.between(0, 9) {
        0 => small_link(script, 2, 1),
        1 => {
            broken_link(script);
        }
        _ => {
            let good = script.random.pick([None, Some(OFF), Some(ON)]);
            script.links_by(good);
            broken_windows(script);
        }
    }
}

/// Good bounds, and of windows within their limits one put out of them: below its bound, 0, above the
/// longest; or all of them; or each at its limit, which is good.
fn broken_windows(script: &mut Script) {
    let levels = script.random.place(MOST_LEVELS) + 1;
    let first = script.random.between16(4, 40);
    let bounds: Vec<u16> = (0..levels as u16).map(|level| first + 7 * level).collect();
    let mut windows = script.some_windows(&bounds);
    let place = script.random.place(levels);
    let any = script.random.between16(LONGEST_WINDOW + 1, u16::MAX);
    match script.random.between(0, 8) {
        0 | 1 => windows[place] = bounds[place] - 1,
        2 => windows[place] = 0,
        3 => windows[place] = LONGEST_WINDOW + 1,
        4 => windows[place] = script.random.pick([any, u16::MAX, 1]),
        5 => {
            windows.fill(0);
            windows[place] = bounds[place];
        }
        6 => windows.fill(LONGEST_WINDOW + 1),
        7 => windows.reverse(),
        _ => windows[place] = LONGEST_WINDOW,
    }
    script.link_with(3, 1, &bounds, Some(&windows));
}

/// Lines and closes at the clock's end: charges that end before it, with it and behind it, all calls after
/// it.
pub fn end(script: &mut Script, size: usize) {
    set_windows(script);
    modest_link(script);
    let link = match script.link_set() {
        Some(link) => link,
        None => return,
    };
    fill_up(script, &link, 4);
    worst_moment(script);
    script.drain();
    let time = Tick::from(link.charge_time());
    script.ticks_until(CLOCK_END - time - 2);
    for _ in 0..4 {
        offer_on_all(script, 1);
        script.tick(1);
    }
    for (number, _) in script.standing() {
        if script.random.once_in(2) {
            until_it_holds_nothing(script, number);
            script.close(number);
        }
    }
    let lead = script.random.between(20, 400);
    script.ticks_until(CLOCK_END - lead);
    while script.clock() + 4 < CLOCK_END {
        flood(script, 1);
        probe(script);
        script.tick(1);
    }
    cross_the_end(script);
    probe(script);
    for _ in 0..size {
        after_the_end(script);
        close_any(script);
        admit_one(script);
    }
}

/// An `LW` at the size limit.
pub fn limit(script: &mut Script, size: usize) {
    set_windows(script);
    modest_link(script);
    admit_some(script, 4);
    flood(script, size);
    let record = Record::Link(Box::new(LinkFigures {
        levels: 2,
        largest: 4,
        silence: 3,
        setting: Some(ON),
        bounds: [10, 20, 0, 0, 0, 0, 0, 0],
        windows: Some([30, 25, 0, 0, 0, 0, 0, 0]),
    }));
    at_the_limit(script, record);
}
