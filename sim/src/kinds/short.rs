//! Refused admissions (docs/RULES.md, R-2): every level comes to be the lowest
//! that fails, by one unit, by few and by many.

use super::edges::{bad_admission, largest_passing};
use super::script::Script;
use super::traffic::{admit_one, modest_link};
use crate::level_test::shortage_of;
use crate::link::{Connection, Figures, Link, HIGHEST_BOUND, MOST_LEVELS, MOST_UNITS};

/// Newcomers aimed at each level in turn, between others that fill the levels up.
pub fn short(script: &mut Script, size: usize) {
    let link = match short_link(script) {
        Some(link) => link,
        _ => return,
    };
    for step in 0..size {
        let aim = 1 + ((script.seed() + step as u64) % u64::from(link.levels())) as u8;
        match script.random.between(0, 7) {
            0 => {
                admit_one(script);
            }
            1 => fill_exactly(script, &link, aim),
            2 => bad_admission(script),
            _ => too_much_at(script, &link, aim),
        }
        if script.random.once_in(4) {
            script.offer_on_any();
            script.tick(3);
        }
    }
    script.drain();
}

/// In turn: any number of levels far apart, close together, with the largest packets, or as usual.
fn short_link(script: &mut Script) -> Option<Link> {
    let levels = script.random.between(1, MOST_LEVELS as u64) as u16;
    let silence = script.some_silence();
    let (largest, first, step) = match script.seed() % 4 {
        0 => (MOST_UNITS, HIGHEST_BOUND - 3_000 * (levels - 1), 3_000),
        1 => (4, 10 + 3 * u16::from(silence), 10 + u16::from(silence)),
        2 => (16, 200, 1),
        _ => {
            modest_link(script);
            return script.link_set();
        }
    };
    let bounds: Vec<u16> = (0..levels).map(|level| first + level * step).collect();
    script.link(largest, silence, &bounds);
    script.link_set()
}

/// The largest newcomer of one packet that still passes: what a level has left becomes little.
fn fill_exactly(script: &mut Script, link: &Link, level: u8) {
    let gap = HIGHEST_BOUND;
    let one = Figures::plain(level, gap, 1);
    let most = largest_passing(link, &script.counted(), one);
    script.admit(level, gap, most.max(1));
}

/// A newcomer for which the wanted level is the lowest that fails, if one is soon found; half of
/// them with the least size that fails at all.
fn too_much_at(script: &mut Script, link: &Link, aim: u8) {
    let connections = script.counted();
    let mut found = None;
    for _ in 0..40 {
        let newcomer = some_newcomer(script, link, aim);
        if fails_first(link, &connections, newcomer) == Some(aim) {
            found = Some(newcomer);
            break;
        }
    }
    let newcomer = match found {
        Some(found) => found,
        _ => return,
    };
    let size = if script.random.once_in(2) {
        largest_passing(link, &connections, newcomer) + 1
    } else {
        newcomer.size
    };
    script.admit_with(Figures { size, ..newcomer });
}

/// A newcomer of some level down to the wanted one, sometimes with an average.
fn some_newcomer(script: &mut Script, link: &Link, aim: u8) -> Figures {
    let level = script.random.between16(1, u16::from(aim)) as u8;
    let gap = some_gap(script, link.bound(aim));
    let size = script.random.between16(1, link.largest());
    let plain = Figures::plain(level, gap, size);
    if script.random.once_in(4) {
        let (window, average) = script.some_average(gap);
        plain.with_average(window, average)
    } else {
        plain
    }
}

/// Gaps of many packets within the bound and of few.
fn some_gap(script: &mut Script, bound: u16) -> u16 {
    let gap = match script.random.between(0, 4) {
        0 => script.random.between16(1, 3),
        1 => script.random.between16(1, bound),
        2 => bound / script.random.between16(1, 40),
        3 => bound - 1,
        _ => script.random.between16(bound, u16::MAX),
    };
    gap.max(1)
}

/// The lowest level that fails with this newcomer counted.
fn fails_first(link: &Link, standing: &[Connection], newcomer: Figures) -> Option<u8> {
    let mut counted = standing.to_vec();
    counted.push(Connection::new(link, newcomer).ok()?);
    shortage_of(link, &counted).map(|short| short.level)
}
