//! The questions of the firmware (section "Two questions from C firmware"; units by R-2,
//! the silence in `LK` by R-4, averages in the rows by R-6, 200 rows by R-7, `LW` by R-12).

use crate::level_test::shortage_of;
use crate::link::{Connection, Link, MOST_CONNECTIONS};
use crate::owners;
use crate::record::{whole_figures, Record};

/// The answer to the level question if it cannot be asked.
pub const NOT_TO_BE_ASKED: u8 = 255;

/// A row is laid out as in `CN` after its mark.
const ROW: usize = 9;

/// Question (a): the next eligibility. Flag 0: no earlier packet; any other number: one.
pub fn next_eligibility(flag: u32, last: u32, gap: u32, now: u32) -> u64 {
    let last = (flag != 0).then_some(u64::from(last));
    owners::next_eligibility(last, u64::from(gap), u64::from(now))
}

/// Question (b): 0 if all level tests hold, else the lowest failing level, or 255.
pub fn level_answer(link_bytes: &[u8], rows: &[u8]) -> u8 {
    match well_asked(link_bytes, rows) {
        Some((link, connections)) => {
            shortage_of(&link, &connections).map_or(0, |short| short.level)
        }
        None => NOT_TO_BE_ASKED,
    }
}

/// The units that the level of question (b) is over; 0 where it answers 0 or 255.
pub fn units_answer(link_bytes: &[u8], rows: &[u8]) -> u64 {
    well_asked(link_bytes, rows)
        .and_then(|(link, connections)| shortage_of(&link, &connections))
        .map_or(0, |short| short.units)
}

fn well_asked(link_bytes: &[u8], rows: &[u8]) -> Option<(Link, Vec<Connection>)> {
    let link = whole_link(link_bytes)?;
    let connections = all_connections(&link, rows)?;
    Some((link, connections))
}

/// One whole `LK` or `LW` record, not a byte more, within the link limits; an `LE` is none of them.
fn whole_link(bytes: &[u8]) -> Option<Link> {
    match Record::read(bytes)? {
        (Record::Link(figures), length) if length == bytes.len() => {
            let is_asked = figures.setting.is_some() == figures.windows.is_some();
            figures.link().filter(|_| is_asked)
        }
        _ => None,
    }
}

/// At most 200 whole rows, each within the connection limits. Reservations are not asked about.
fn all_connections(link: &Link, rows: &[u8]) -> Option<Vec<Connection>> {
    let rows = rows.chunks(ROW);
    if rows.len() > MOST_CONNECTIONS {
        return None;
    }
    rows.map(|row| Connection::new(link, whole_figures(row)?).ok())
        .collect()
}
