//! The level test (section "The level test"; which level was short by R-2, the silence by R-4, the finer
//! test by R-12).

use crate::link::{Connection, Link, MOST_LEVELS};
use crate::verdict::Shortage;

/// What one connection adds to the sum of each level, level 1 first.
pub type Loads = [u32; MOST_LEVELS];

/// The sums of all levels without S. Over 200 rows from C one can reach 13,841,203,200, which needs
/// 34 bits.
pub type Sums = [u64; MOST_LEVELS];

/// To each level from its own on a connection adds, for the span of that level, which is its window w
/// or on a link without windows its bound d, (the span divided by X, rounded up) times its size with
/// the silence behind it: at most 32,768 packets of 2,112 ticks.
pub fn loads(link: &Link, connection: &Connection) -> Loads {
    let mut loads = [0; MOST_LEVELS];
    for (level, load) in (1..=link.levels()).zip(&mut loads) {
        if connection.level() <= level {
            let packets = connection.packets_within(link.span(level));
            *load = (packets * link.cost(connection.size())) as u32;
        }
    }
    loads
}

/// One more connection comes into the sums.
pub fn add(sums: &mut Sums, loads: &Loads) {
    for (sum, &load) in sums.iter_mut().zip(loads) {
        *sum += u64::from(load);
    }
}

/// The sums with one more connection in them.
pub fn with(sums: &Sums, loads: &Loads) -> Sums {
    let mut all = *sums;
    add(&mut all, loads);
    all
}

/// The sums of some connections.
pub fn sums<'a>(link: &Link, connections: impl IntoIterator<Item = &'a Connection>) -> Sums {
    let none = [0; MOST_LEVELS];
    let add = |sums, connection| with(&sums, &loads(link, connection));
    connections.into_iter().fold(none, add)
}

/// The sum of one level as it is tested: S with its silence comes to it.
fn tested(link: &Link, packets: u64) -> u64 {
    packets + link.cost(link.largest())
}

/// That of some connections.
pub fn level_sum<'a>(
    link: &Link,
    connections: impl IntoIterator<Item = &'a Connection>,
    level: u8,
) -> u64 {
    tested(link, sums(link, connections)[usize::from(level) - 1])
}

/// The lowest level that fails, of connections with these sums; nothing if the test holds at every level.
#[inline]
pub fn lowest_shortage<'a>(
    link: &Link,
    sums: &Sums,
    connections: impl Iterator<Item = &'a Connection>,
) -> Option<Shortage> {
    if link.has_windows() {
        return finer_shortage(link, sums, &connections.copied().collect::<Vec<_>>(), 1);
    }
    shortage_in(link, sums)
}

/// The same where a newcomer is in the sums and the test holds without it: it is in no sum of a level
/// before its own.
#[inline]
pub fn shortage_with<'a>(
    link: &Link,
    sums: &Sums,
    others: impl Iterator<Item = &'a Connection>,
    newcomer: &'a Connection,
) -> Option<Shortage> {
    if link.has_windows() {
        let all: Vec<Connection> = others.chain([newcomer]).copied().collect();
        return finer_shortage(link, sums, &all, newcomer.level());
    }
    shortage_in(link, sums)
}

/// The lowest level whose sum is above its span.
fn shortage_in(link: &Link, sums: &Sums) -> Option<Shortage> {
    (1..=link.levels()).find_map(|level| shortage_at(link, sums, level))
}

/// The lowest level that fails, of connections alone.
pub fn shortage_of(link: &Link, connections: &[Connection]) -> Option<Shortage> {
    lowest_shortage(link, &sums(link, connections), connections.iter())
}

/// A level fails if its sum is above its span: document 01's test, and the w condition of R-12.
fn shortage_at(link: &Link, sums: &Sums, level: u8) -> Option<Shortage> {
    let sum = tested(link, sums[usize::from(level) - 1]);
    let span = u64::from(link.span(level));
    (sum > span).then(|| Shortage {
        level,
        units: sum - span,
    })
}

/// The lowest level from one on that fails by the finer test: its w condition, then that of each β.
#[inline(never)]
fn finer_shortage(
    link: &Link,
    sums: &Sums,
    connections: &[Connection],
    from: u8,
) -> Option<Shortage> {
    (from..=link.levels()).find_map(|level| {
        shortage_at(link, sums, level).or_else(|| {
            let moments = Moments::new(link, connections, level);
            let units = moments.first_excess()?;
            Some(Shortage { level, units })
        })
    })
}

/// The conditions of β of one level, on a link with windows.
struct Moments<'a> {
    link: &'a Link,
    bound: u64,
    span: u64,
    own: Vec<&'a Connection>,
    before: Vec<&'a Connection>,
}

impl<'a> Moments<'a> {
    fn new(link: &'a Link, connections: &'a [Connection], level: u8) -> Moments<'a> {
        let of = |one: &&Connection| one.level() == level;
        let more_urgent = |one: &&Connection| one.level() < level;
        Moments {
            link,
            bound: u64::from(link.bound(level)),
            span: u64::from(link.span(level)),
            own: connections.iter().filter(of).collect(),
            before: connections.iter().filter(more_urgent).collect(),
        }
    }

    /// What connections may send within so many ticks, at most w.
    fn within(&self, connections: &[&Connection], ticks: u64) -> u64 {
        let one = |one: &&Connection| one.packets_within(ticks as u16) * self.link.cost(one.size());
        connections.iter().map(one).sum()
    }

    /// The sum of β, which must be at most d + β: S, those of the level within β + 1 ticks, and those of
    /// the levels before it within the smaller of d + β and w.
    fn sum(&self, beta: u64) -> u64 {
        let seen = (self.bound + beta).min(self.span);
        tested(
            self.link,
            self.within(&self.own, beta + 1) + self.within(&self.before, seen),
        )
    }

    /// By how much the first β is over that is; nothing where none is. Those from w - d on are not where
    /// the w condition holds: no count is above that within w, and d + β is at least w.
    fn first_excess(&self) -> Option<u64> {
        let last = (self.span - self.bound).checked_sub(1)?;
        self.excess_from(0, last, self.sum(last))
    }

    /// The same from one β to another, whose sum is known: no sum before it is larger, so that none is
    /// over if it fits at the first of them. Else both halves are looked at, the lower one first.
    fn excess_from(&self, first: u64, last: u64, sum: u64) -> Option<u64> {
        if sum <= self.bound + first {
            return None;
        }
        if first == last {
            return Some(sum - self.bound - first);
        }
        let middle = (first + last) / 2;
        self.excess_from(first, middle, self.sum(middle))
            .or_else(|| self.excess_from(middle + 1, last, sum))
    }
}
