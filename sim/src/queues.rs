//! The held packets: a queue for each connection, and which of their first packets the line takes
//! next (sections "Link, connections, places" and "One tick"; before it is eligible by R-11).

use std::cmp::Reverse;
use std::collections::{BinaryHeap, VecDeque};

use crate::departure::{Departure, Tick};

/// A held packet. Its ticks fit in four bytes: an eligibility lies less than 65,536 beyond the
/// clock's end, and by R-11 less than the longest bound and the longest gap.
#[derive(Clone, Copy, Debug, PartialEq, Eq)]
pub struct Held {
    pub length: u16,
    pub tag: u32,
    pub arrival: u32,
    pub eligibility: u32,
    turn: u32,
}

/// The first packet of a connection that is not in service; the order of its fields is that of
/// step 1: lowest level number, then earliest eligibility, then earliest offered.
#[derive(Clone, Copy, Debug, PartialEq, Eq, PartialOrd, Ord)]
struct First {
    level: u8,
    eligibility: u32,
    turn: u32,
    connection: u8,
    length: u16,
}

/// What starts: the first packet of a connection, with its level and its length.
#[derive(Clone, Copy, Debug, PartialEq, Eq)]
pub struct Started {
    pub connection: u8,
    pub level: u8,
    pub length: u16,
}

/// A packet that stands by: its turn, its connection, and the level of that.
#[derive(Clone, Copy, Debug, PartialEq, Eq)]
struct StandsBy {
    turn: u32,
    connection: u8,
    level: u8,
}

/// The queues by the connections' numbers. Of each that holds something the first packet stands in
/// `eligible`, or in `waiting` by its eligibility, unless it is in service.
///
/// While the link's queue is on, `by_turn` has the packets that may go early in the order offered;
/// those that have started stay in it until they come to its front, but for those that went early. What
/// went early stays in `waiting` until its eligibility: `gone_early` counts these.
#[derive(Clone, Debug, Default)]
pub struct Queues {
    lines: Vec<VecDeque<Held>>,
    eligible: BinaryHeap<Reverse<First>>,
    waiting: BinaryHeap<Reverse<(u32, First)>>,
    by_turn: VecDeque<StandsBy>,
    gone_early: usize,
    offered: u32,
}

impl Queues {
    /// The packets of a connection in the order offered; one in service is the first until its last
    /// unit has gone.
    pub fn of(&self, connection: u8) -> &VecDeque<Held> {
        &self.lines[usize::from(connection)]
    }

    /// A number that is given has a queue, which stays when it is freed.
    pub fn make_room_for(&mut self, connection: u8) {
        if usize::from(connection) == self.lines.len() {
            self.lines.push(VecDeque::new());
        }
    }

    /// All held packets with their connections, in the order offered.
    pub fn in_order(&self) -> Vec<(u8, Held)> {
        let numbered = self.lines.iter().zip(0..);
        let mut all: Vec<(u8, Held)> = numbered
            .flat_map(|(line, number)| line.iter().map(move |held| (number, *held)))
            .collect();
        all.sort_by_key(|(_, held)| held.turn);
        all
    }

    /// The first packet of a connection, as a table has it, is in service: none of these names it.
    pub fn take_into_service(&mut self, connection: u8) {
        let eligible = std::mem::take(&mut self.eligible).into_vec().into_iter();
        let eligible = eligible.filter(|Reverse(first)| first.connection != connection);
        self.eligible = eligible.collect();
        let waiting = std::mem::take(&mut self.waiting).into_vec().into_iter();
        let waiting = waiting.filter(|Reverse((_, first))| first.connection != connection);
        self.waiting = waiting.collect();
    }

    /// How many packets a connection holds.
    #[inline]
    pub fn held_by(&self, connection: u8) -> usize {
        let line = self.lines.get(usize::from(connection));
        line.map_or(0, VecDeque::len)
    }

    /// How many packets are held.
    pub fn count(&self) -> usize {
        self.lines.iter().map(VecDeque::len).sum()
    }

    pub fn is_empty(&self) -> bool {
        self.count() == 0
            && self.eligible.is_empty()
            && self.waiting.is_empty()
            && self.by_turn.is_empty()
    }

    pub fn first_of(&self, connection: u8) -> Option<&Held> {
        self.lines.get(usize::from(connection))?.front()
    }

    /// A packet comes behind those of its connection. A trace has fewer than two million offers, so
    /// that no turn comes twice.
    #[inline]
    pub fn offer(&mut self, connection: u8, level: u8, length: u16, tag: u32, times: (Tick, Tick)) {
        let (arrival, eligibility) = (times.0 as u32, times.1 as u32);
        let turn = self.offered;
        self.offered = turn.wrapping_add(1);
        let line = &mut self.lines[usize::from(connection)];
        line.push_back(Held {
            length,
            tag,
            arrival,
            eligibility,
            turn,
        });
        if line.len() == 1 {
            self.comes_first(
                First {
                    level,
                    eligibility,
                    turn,
                    connection,
                    length,
                },
                arrival,
            );
        }
    }

    #[inline]
    fn comes_first(&mut self, first: First, clock: u32) {
        if first.eligibility <= clock {
            self.eligible.push(Reverse(first));
        } else {
            self.waiting.push(Reverse((first.eligibility, first)));
        }
    }

    /// Whether none is eligible; those that have become so come over.
    #[inline]
    pub fn none_eligible(&mut self, clock: Tick) -> bool {
        while let Some(&Reverse((eligibility, first))) = self.waiting.peek() {
            if Tick::from(eligibility) > clock {
                break;
            }
            self.comes_over(first);
        }
        self.eligible.is_empty()
    }

    fn comes_over(&mut self, first: First) {
        self.waiting.pop();
        if self.gone_early > 0 && self.has_left(first.connection, first.turn) {
            self.gone_early -= 1;
            return;
        }
        self.eligible.push(Reverse(first));
    }

    /// Whether the packet of a connection and a turn has left: what it holds was offered later.
    #[inline]
    fn has_left(&self, connection: u8, turn: u32) -> bool {
        let first = self.first_of(connection);
        first.map_or(true, |held| held.turn > turn)
    }

    /// The packet that was just offered may go early. What has left before it and would be in
    /// front is forgotten, so that `by_turn` does not grow with the trace: a held packet leaves within
    /// its connection's distance and its bound of its arrival, and behind it come no more than leave in
    /// that time and are held.
    pub fn stand_by(&mut self, connection: u8, level: u8) {
        self.any_stands_by();
        let turn = self.offered.wrapping_sub(1);
        self.by_turn.push_back(StandsBy {
            turn,
            connection,
            level,
        });
    }

    /// Whether a packet stands by; those that have left come off the front. On an idle line what is
    /// then in front is the first packet of its connection, since all that is held and may go early is
    /// in `by_turn`.
    #[inline]
    pub fn any_stands_by(&mut self) -> bool {
        !self.by_turn.is_empty() && self.any_is_left()
    }

    #[inline(never)]
    fn any_is_left(&mut self) -> bool {
        while let Some(one) = self.by_turn.front() {
            if !self.has_left(one.connection, one.turn) {
                return true;
            }
            self.by_turn.pop_front();
        }
        false
    }

    /// Step 1, on an idle line on which nothing is eligible and no notice waits: the packet that was
    /// offered first of those that stand by starts.
    pub fn start_early(&mut self) -> Option<Started> {
        if !self.any_stands_by() {
            return None;
        }
        let StandsBy {
            connection, level, ..
        } = self.by_turn.pop_front()?;
        self.gone_early += 1;
        let length = self.first_of(connection)?.length;
        Some(Started {
            connection,
            level,
            length,
        })
    }

    /// The earliest eligibility of those that wait.
    pub fn next_eligible(&self) -> Option<Tick> {
        let Reverse((eligibility, _)) = self.waiting.peek()?;
        Some(Tick::from(*eligibility))
    }

    /// Step 1: the chosen packet starts.
    #[inline]
    pub fn start(&mut self, clock: Tick) -> Option<Started> {
        if self.none_eligible(clock) {
            return None;
        }
        let Reverse(first) = self.eligible.pop()?;
        Some(Started {
            connection: first.connection,
            level: first.level,
            length: first.length,
        })
    }

    /// Step 2: the packet in service departs, and the next one of its connection comes first.
    #[inline]
    pub fn depart(&mut self, started: Started, finish: Tick) -> Option<Departure> {
        let Started {
            connection, level, ..
        } = started;
        let line = &mut self.lines[usize::from(connection)];
        let held = line.pop_front()?;
        if let Some(&Held {
            length,
            eligibility,
            turn,
            ..
        }) = line.front()
        {
            self.comes_first(
                First {
                    level,
                    eligibility,
                    turn,
                    connection,
                    length,
                },
                finish as u32,
            );
        }
        Some(Departure {
            connection,
            tag: held.tag,
            arrival: Tick::from(held.arrival),
            eligibility: Tick::from(held.eligibility),
            finish,
        })
    }

    /// Whether the two heaps name the first packet of each connection that holds something, but for
    /// the one in service, under its level, and what went early besides; none is eligible before its
    /// time.
    pub fn are_sound(
        &self,
        in_service: Option<u8>,
        clock: Tick,
        level_of: impl Fn(u8) -> Option<u8>,
    ) -> bool {
        let is_gone = |first: &First| {
            Some(first.connection) == in_service || self.has_left(first.connection, first.turn)
        };
        let gone = self.waiting.iter();
        let gone = gone.filter(|Reverse((_, first))| is_gone(first)).count();
        let is_sound = |first: &First| {
            let of_it = self.first_of(first.connection);
            Some(first.connection) != in_service
                && level_of(first.connection) == Some(first.level)
                && of_it.map(|held| (held.eligibility, held.turn, held.length))
                    == Some((first.eligibility, first.turn, first.length))
        };
        let busy = self.lines.iter().filter(|line| !line.is_empty()).count();
        let named = self.eligible.len() + self.waiting.len() + usize::from(in_service.is_some());
        gone == self.gone_early
            && named - gone == busy
            && self
                .eligible
                .iter()
                .all(|Reverse(first)| is_sound(first) && Tick::from(first.eligibility) <= clock)
            && self.waiting.iter().all(|Reverse((eligibility, first))| {
                *eligibility == first.eligibility && (is_gone(first) || is_sound(first))
            })
    }

    /// Whether those that stand by are all packets that may go early, in the order offered, but for one
    /// that went early and is in service: `level_of` gives the level of a connection whose packets may.
    pub fn stand_by_is_sound(
        &self,
        in_service: Option<u8>,
        level_of: impl Fn(u8) -> Option<u8>,
    ) -> bool {
        let place_of = |held: &Held| {
            let place = self
                .by_turn
                .binary_search_by_key(&held.turn, |one| one.turn);
            place.ok().map(|place| self.by_turn[place])
        };
        let mut pairs = self.by_turn.iter().zip(self.by_turn.iter().skip(1));
        let in_order = pairs.all(|(one, next)| one.turn < next.turn);
        let mut lines = self.lines.iter().zip(0..);
        in_order
            && lines.all(|(line, connection)| {
                let started = usize::from(in_service == Some(connection));
                let mut found = line.iter().skip(started).map(place_of);
                found.all(|found| match (found, level_of(connection)) {
                    (Some(one), Some(level)) => (one.connection, one.level) == (connection, level),
                    (None, None) => true,
                    _ => false,
                })
            })
    }
}
