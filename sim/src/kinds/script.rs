//! A trace in the making: every record is written down and carried out at once, so that a
//! generator knows clock, connections and held packets at each point.

use std::convert::Infallible;

use crate::departure::Tick;
use crate::frames::{Frames, Framing, Share};
use crate::hub::Hub;
use crate::link::{
    Connection, Figures, Link, LinkFigures, LONGEST_WINDOW, MOST_LEVELS, MOST_PER_WINDOW,
    MOST_RESERVED, MOST_SILENCE,
};
use crate::random::Random;
use crate::record::Record;
use crate::replay::{Job, Pace};
use crate::verdict::DONE;

pub struct Script {
    pub random: Random,
    seed: u64,
    job: Job,
    bytes: Vec<u8>,
    starts: Vec<usize>,
    mixed_in: Option<Mixed>,
    setting: Option<u8>,
    windows: Windows,
}

/// Which windows the links of a script come with: none, in an `LK` or an `LE`; or in an `LW` all 0,
/// each at its bound, or any within their limits.
#[derive(Clone, Copy, Debug, PartialEq, Eq)]
pub enum Windows {
    None,
    Zeros,
    AtTheBounds,
    Any,
}

/// Calls that come before one `TK` in so many.
#[derive(Clone, Copy)]
struct Mixed {
    once_in: u64,
    calls: fn(&mut Script),
}

impl Script {
    pub fn new(seed: u64) -> Script {
        Script {
            random: Random::new(seed),
            seed,
            job: Job::new(Pace::Passing),
            bytes: Vec::new(),
            starts: Vec::new(),
            mixed_in: None,
            setting: None,
            windows: Windows::None,
        }
    }

    /// The seed that was asked for, for kinds that take turns.
    pub fn seed(&self) -> u64 {
        self.seed
    }

    pub fn set_seed(&mut self, seed: u64) {
        self.seed = seed;
    }

    pub fn hub(&self) -> &Hub {
        self.job.hub()
    }

    /// The line by the discipline of frames.
    pub fn frames(&self) -> &Frames {
        self.job.frames()
    }

    /// The clock of the discipline that is set.
    pub fn clock(&self) -> Tick {
        self.job.clock()
    }

    pub fn length(&self) -> usize {
        self.bytes.len()
    }

    /// The trace and where its records start.
    pub fn finish(self) -> (Vec<u8>, Vec<usize>) {
        (self.bytes, self.starts)
    }

    /// Writes a record down, carries it out and gives its verdict.
    pub fn put(&mut self, record: Record) -> u8 {
        self.starts.push(self.bytes.len());
        record.append_to(&mut self.bytes);
        let mut verdict = DONE;
        let done = self.job.carry_out::<Infallible>(record, &mut |answer| {
            verdict = answer.verdict().unwrap_or(verdict);
            Ok(())
        });
        done.unwrap_or_else(|never| match never {});
        verdict
    }

    /// Bytes that are only written down.
    pub fn raw(&mut self, bytes: &[u8]) {
        self.bytes.extend_from_slice(bytes);
    }

    /// A silence for a link: none half of the time, else few ticks or any number up to the
    /// most.
    pub fn some_silence(&mut self) -> u8 {
        let few = self.random.between(1, 5) as u8;
        let any = self.random.between(1, u64::from(MOST_SILENCE)) as u8;
        self.random.pick([0, 0, 0, 0, 1, few, any, MOST_SILENCE])
    }

    /// A silence for a link that is refused anyhow: none half of the time, so that it hides no
    /// other reason.
    pub fn any_silence(&mut self) -> u8 {
        let any = self.random.byte();
        self.random
            .pick([0, 0, 0, 0, 1, MOST_SILENCE, MOST_SILENCE + 1, any])
    }

    /// From now on links come with a setting, or without.
    pub fn links_by(&mut self, setting: Option<u8>) {
        self.setting = setting;
    }

    /// From now on links come with such windows.
    pub fn links_with(&mut self, windows: Windows) {
        self.windows = windows;
    }

    pub fn link(&mut self, largest: u16, silence: u8, used: &[u16]) -> u8 {
        let windows = match self.windows {
            Windows::None => None,
            Windows::Zeros => Some(vec![0; used.len()]),
            Windows::AtTheBounds => Some(used.to_vec()),
            Windows::Any => Some(self.some_windows(used)),
        };
        self.link_with(largest, silence, used, windows.as_deref())
    }

    /// A link with these windows, or without.
    pub fn link_with(
        &mut self,
        largest: u16,
        silence: u8,
        used: &[u16],
        windows: Option<&[u16]>,
    ) -> u8 {
        self.put(Record::Link(Box::new(LinkFigures {
            levels: used.len().min(MOST_LEVELS) as u8,
            largest,
            silence,
            setting: self.setting,
            bounds: of_all_levels(used),
            windows: windows.map(of_all_levels),
        })))
    }

    /// A link of frames.
    pub fn framing(&mut self, frame: u16, largest: u16, silence: u8) -> u8 {
        self.put(Record::Framing(Framing {
            frame,
            largest,
            silence,
        }))
    }

    /// An admission with r units per frame and p places.
    pub fn share(&mut self, units: u16, places: u16) -> u8 {
        self.put(Record::Share(Share { units, places }))
    }

    /// Windows for these bounds: at them, little longer, some times as long, falling, any, or the
    /// longest.
    pub fn some_windows(&mut self, bounds: &[u16]) -> Vec<u16> {
        let style = self.random.between(0, 6);
        let top = self.random.between16(1, 9);
        let last = bounds.last().copied().unwrap_or(0);
        let mut windows = Vec::new();
        for (place, &bound) in (0..).zip(bounds) {
            let window = match style {
                0 => bound,
                1 => bound.saturating_add(self.random.between16(0, 40)),
                2 => bound.saturating_mul(self.random.between16(1, 4)),
                3 | 4 => last.saturating_mul(top) / (1 + place),
                5 => self.random.between16(bound, LONGEST_WINDOW),
                _ => LONGEST_WINDOW,
            };
            windows.push(window.min(LONGEST_WINDOW).max(bound));
        }
        windows
    }

    /// An admission without an average.
    pub fn admit(&mut self, level: u8, gap: u16, size: u16) -> u8 {
        self.admit_with(Figures::plain(level, gap, size))
    }

    pub fn admit_with(&mut self, figures: Figures) -> u8 {
        self.put(Record::Connection(figures))
    }

    pub fn close(&mut self, connection: u8) -> u8 {
        self.put(Record::Close { connection })
    }

    /// A window and an average gap for a connection of this gap: few packets to a window or
    /// up to the most, windows up to the longest.
    pub fn some_average(&mut self, gap: u16) -> (u16, u16) {
        let most = (u16::MAX / gap).min(MOST_PER_WINDOW);
        let any = self.random.between16(1, most);
        let packets = self.random.pick([1, most.min(2), any, any, most]);
        let longest = u16::MAX / packets;
        let near = self
            .random
            .between16(gap, longest.min(gap.saturating_mul(4)));
        let far = self.random.between16(gap, longest);
        let average = self.random.pick([gap, near, near, near, far, longest]);
        (packets * average, average)
    }

    /// An offer without a stamp, with a tag made up from the seed.
    pub fn offer(&mut self, connection: u8, length: u16) -> u8 {
        self.offer_with(connection, length, None)
    }

    pub fn offer_with(&mut self, connection: u8, length: u16, stamp: Option<u32>) -> u8 {
        let tag = self.random.number() as u32;
        self.put(Record::Packet {
            connection,
            length,
            tag,
            stamp,
        })
    }

    /// A notice with a tag made up from the seed.
    pub fn notice(&mut self, length: u16) -> u8 {
        let tag = self.random.number() as u32;
        self.put(Record::Notice { length, tag })
    }

    /// A notice of allowed length.
    pub fn notice_good(&mut self) -> u8 {
        let largest = self.largest();
        let some = self.random.between16(1, largest);
        let length = self.random.pick([1, some, some, largest]);
        self.notice(length)
    }

    /// A notice with a length at or past its limits.
    pub fn notice_odd(&mut self) -> u8 {
        let largest = self.largest();
        let length = self.random.pick([0, 1, largest, largest + 1, u16::MAX]);
        self.notice(length)
    }

    /// From now on such calls come before one `TK` in so many, and no others.
    pub fn mix_in(&mut self, once_in: u64, calls: fn(&mut Script)) {
        self.mixed_in = Some(Mixed { once_in, calls });
    }

    pub fn mix_in_nothing(&mut self) {
        self.mixed_in = None;
    }

    /// From now on notices come before one `TK` in so many.
    pub fn mix_in_notices(&mut self, once_in: u64) {
        self.mix_in(once_in, Script::some_notices);
    }

    fn some_notices(&mut self) {
        for _ in 0..self.random.between(1, 3) {
            if self.random.once_in(10) {
                self.notice_odd();
            } else {
                self.notice_good();
            }
        }
    }

    pub fn tick(&mut self, asked: u16) -> u8 {
        if let Some(Mixed { once_in, calls }) = self.mixed_in {
            if self.random.once_in(once_in) {
                calls(self);
            }
        }
        self.put(Record::Ticks { asked })
    }

    /// Any number of ticks, in as few records as possible.
    pub fn ticks(&mut self, mut wanted: Tick) {
        while wanted > 0 {
            let asked = wanted.min(Tick::from(u16::MAX)) as u16;
            self.tick(asked);
            wanted -= Tick::from(asked);
        }
    }

    /// The ticks up to a moment; none if it has passed.
    pub fn ticks_until(&mut self, moment: Tick) {
        self.ticks(moment.saturating_sub(self.clock()));
    }

    /// The connections that stand, with their numbers.
    pub fn standing(&self) -> Vec<(u8, Connection)> {
        let owned = |(number, connection): (u8, &Connection)| (number, *connection);
        self.hub().standing().map(owned).collect()
    }

    /// The connections that count against a newcomer, the closed ones that are charged among them
    ///
    pub fn counted(&self) -> Vec<Connection> {
        self.hub().counted().copied().collect()
    }

    /// How many places are left for reservations.
    pub fn places_left(&self, link: &Link) -> u16 {
        let reserved: u64 = self.hub().counted().map(|one| one.reservation(link)).sum();
        MOST_RESERVED.saturating_sub(reserved) as u16
    }

    /// The link that was set.
    pub fn link_set(&self) -> Option<Link> {
        self.hub().link().ok().copied()
    }

    /// The link of frames that was set.
    pub fn framing_set(&self) -> Option<Framing> {
        self.frames().link().ok()
    }

    /// S of the link that was set, of either discipline; 1 without one.
    pub fn largest(&self) -> u16 {
        let framed = self.framing_set().map_or(1, |link| link.largest);
        self.link_set().map_or(framed, |link| link.largest())
    }

    /// The ticks that a packet of S occupies the line; 1 without a link.
    pub fn largest_cost(&self) -> Tick {
        let framed = self.framing_set().map_or(1, |link| link.cost(link.largest));
        self.link_set()
            .map_or(framed, |link| link.cost(link.largest()))
    }

    /// Some standing connection, with its number.
    pub fn any_connection(&mut self) -> Option<(u8, Connection)> {
        let standing = self.standing();
        self.random.one_of(&standing)
    }

    /// An offer on some connection, more often of full size than not.
    pub fn offer_on_any(&mut self) {
        if let Some((number, connection)) = self.any_connection() {
            self.offer_good(number, &connection);
        }
    }

    /// An offer of allowed length that suits: with a stamp that is timely, if any is, where the
    /// connection is regulated by stamps.
    pub fn offer_good(&mut self, number: u8, connection: &Connection) -> u8 {
        let length = if self.random.once_in(2) {
            connection.size()
        } else {
            self.random.between16(1, connection.size())
        };
        let stamp = connection.allowance().map(|_| {
            let (first, last) = self.timely_stamps(number, connection);
            let some = self.random.between(first, last);
            self.random.pick([first, some, last]) as u32
        });
        self.offer_with(number, length, stamp)
    }

    /// The first and the last stamp that a packet may bring now; where the first is behind the
    /// last there is none.
    pub fn timely_stamps(&self, number: u8, connection: &Connection) -> (Tick, Tick) {
        let allowance = Tick::from(connection.allowance().unwrap_or(0));
        let gap = Tick::from(connection.gap());
        let now = self.clock();
        let last = self.hub().last_eligibility(number);
        let earliest = last.map_or(now, |last| now.max(last + gap));
        (earliest.saturating_sub(allowance), now)
    }

    /// Ticks until everything held and every notice must have gone; nothing is mixed in.
    pub fn drain(&mut self) {
        self.mix_in_nothing();
        self.drain_places();
        self.drain_frames();
        while self.hub().notices_waiting() + self.frames().notices_waiting() > 0 {
            let cost = self.largest_cost();
            let some = self.random.between(1, 3 * cost);
            self.ticks(some);
        }
    }

    fn drain_frames(&mut self) {
        while let (Some(link), 1..) = (self.framing_set(), self.frames().held()) {
            let some = self.random.between(1, 2 * Tick::from(link.frame));
            self.ticks(some);
        }
    }

    fn drain_places(&mut self) {
        for _ in 0..1_000 {
            let holding = |(number, _): &(u8, &Connection)| self.hub().held_by(*number) > 0;
            let waiting = match self.hub().standing().find(holding) {
                Some((_, waiting)) => *waiting,
                _ => return,
            };
            let window = waiting.average().map_or(0, |average| average.window());
            let ahead = window.max(waiting.allowance().unwrap_or(0));
            let apart = u64::from(waiting.gap().max(ahead));
            let some = self.random.between(1, 1 + 2 * apart);
            self.ticks(some);
        }
    }
}

/// The numbers of the levels that are used, 0 for all others.
fn of_all_levels(used: &[u16]) -> [u16; MOST_LEVELS] {
    let mut all = [0; MOST_LEVELS];
    for (number, value) in all.iter_mut().zip(used) {
        *number = *value;
    }
    all
}
