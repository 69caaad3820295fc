//! The second discipline: a line with frames (docs/RULES.md, R-13). Its calls are link,
//! admit, offer, offer of a notice, tick.

use std::collections::VecDeque;

use crate::departure::{Departure, Tick};
use crate::hub::CLOCK_END;
use crate::line::{Line, Sent};
use crate::link::{MOST_CONNECTIONS, MOST_RESERVED, MOST_SILENCE, MOST_UNITS};
use crate::notices::Notices;
use crate::verdict::{Refusal, Shortage};

/// The most ticks of a frame, the most units per frame and the most places of a connection.
pub const LONGEST_FRAME: u16 = 32_768;
pub const MOST_FRAME_UNITS: u16 = 2_048;
pub const MOST_PLACES: u16 = 2_048;

/// The level that an admission is told of with 8: a frame has none.
const NO_LEVEL: u8 = 0;

/// The figures of a link as they are handed in: frame length T, largest packet S, silence.
#[derive(Clone, Copy, Debug, PartialEq, Eq)]
pub struct Framing {
    pub frame: u16,
    pub largest: u16,
    pub silence: u8,
}

impl Framing {
    /// Whether it is within its limits; S with its silence is at most T.
    pub fn is_within(&self) -> bool {
        (1..=LONGEST_FRAME).contains(&self.frame)
            && (1..=MOST_UNITS).contains(&self.largest)
            && self.silence <= MOST_SILENCE
            && self.cost(self.largest) <= u64::from(self.frame)
    }

    /// What a packet of a length takes of the line, and of its connection's units: the silence counts.
    pub fn cost(&self, length: u16) -> u64 {
        u64::from(length) + u64::from(self.silence)
    }

    /// The start of the frame behind that of a tick; frames start at multiples of T.
    pub fn next_start(&self, tick: Tick) -> Tick {
        let frame = Tick::from(self.frame);
        (tick / frame + 1) * frame
    }
}

/// The figures of a connection as they are handed in: r units per frame, p places.
#[derive(Clone, Copy, Debug, PartialEq, Eq)]
pub struct Share {
    pub units: u16,
    pub places: u16,
}

impl Share {
    pub fn is_within(&self) -> bool {
        (1..=MOST_FRAME_UNITS).contains(&self.units) && (1..=MOST_PLACES).contains(&self.places)
    }
}

/// A connection: its figures, how many packets it holds, and what it has used of the frame whose end is
/// `used_until`; of any later frame it has used nothing.
#[derive(Clone, Copy, Debug, PartialEq, Eq)]
pub(crate) struct Member {
    pub share: Share,
    pub held: usize,
    pub used: u64,
    pub used_until: Tick,
}

impl Member {
    /// What it has used of the frame with this end.
    pub fn used_before(&self, end: Tick) -> u64 {
        match self.used_until == end {
            true => self.used,
            false => 0,
        }
    }
}

/// A held packet.
#[derive(Clone, Copy, Debug, PartialEq, Eq)]
pub(crate) struct Row {
    pub connection: u8,
    pub length: u16,
    pub tag: u32,
    pub arrival: Tick,
    pub eligibility: Tick,
}

/// The whole state: the connections by their numbers with the sums of their units and of their places, the
/// held packets in the order offered. What is in service is the first of them, or the first notice.
#[derive(Clone, Debug)]
pub struct Frames {
    pub(crate) link: Option<Framing>,
    pub(crate) members: Vec<Member>,
    pub(crate) units: u64,
    pub(crate) places: u64,
    pub(crate) rows: VecDeque<Row>,
    pub(crate) notices: Notices,
    pub(crate) line: Line<()>,
    pub(crate) clock: Tick,
}

impl Default for Frames {
    fn default() -> Self {
        Frames::new()
    }
}

impl Frames {
    pub fn new() -> Frames {
        Frames {
            link: None,
            members: Vec::new(),
            units: 0,
            places: 0,
            rows: VecDeque::new(),
            notices: Notices::default(),
            line: Line::Idle,
            clock: 0,
        }
    }

    pub fn clock(&self) -> Tick {
        self.clock
    }

    /// The link, or verdict 2.
    pub fn link(&self) -> Result<Framing, Refusal> {
        self.link.ok_or(Refusal::NoLink)
    }

    /// The connections by their numbers.
    pub fn shares(&self) -> impl Iterator<Item = Share> + '_ {
        self.members.iter().map(|member| member.share)
    }

    /// How many packets are held, and how many by a connection; one in service counts until its last
    /// unit has gone.
    pub fn held(&self) -> usize {
        self.rows.len()
    }

    pub fn held_by(&self, connection: u8) -> usize {
        let member = self.members.get(usize::from(connection));
        member.map_or(0, |member| member.held)
    }

    /// What a connection has used of its units in this frame.
    pub fn used_by(&self, connection: u8) -> u64 {
        match (self.link, self.members.get(usize::from(connection))) {
            (Some(link), Some(member)) => member.used_before(link.next_start(self.clock)),
            _ => 0,
        }
    }

    /// How many notices wait; one in service counts until its last unit has gone.
    pub fn notices_waiting(&self) -> usize {
        self.notices.count()
    }

    /// How many ticks of silence are still to run; 0 while something is in service.
    pub fn silence_left(&self) -> u8 {
        self.line.silence_left()
    }

    /// The sum of all r plus S and its silence, and the sum of all p.
    pub fn sums(&self) -> (u64, u64) {
        let largest = self.link.map_or(0, |link| link.cost(link.largest));
        (self.units + largest, self.places)
    }

    /// Sets the link: verdicts 3 and 4.
    pub fn set_link(&mut self, link: Framing) -> Result<(), Refusal> {
        if self.link.is_some() {
            return Err(Refusal::LinkSetAlready);
        }
        if !link.is_within() {
            return Err(Refusal::LinkLimit);
        }
        self.link = Some(link);
        Ok(())
    }

    /// Admits a connection and gives its number, in the order admitted: verdicts 2, 6, 7, 8, 9 in that
    /// order. With 8 comes by how much the frame is over, the newcomer counted.
    pub fn admit(&mut self, share: Share) -> Result<u8, Refusal> {
        let frame = u64::from(self.link()?.frame);
        if !share.is_within() {
            return Err(Refusal::ConnectionLimit);
        }
        if self.members.len() >= MOST_CONNECTIONS {
            return Err(Refusal::NoNumberFree);
        }
        let (units, places) = self.sums();
        let sum = units + u64::from(share.units);
        if sum > frame {
            return Err(Refusal::LevelTest(Shortage {
                level: NO_LEVEL,
                units: sum - frame,
            }));
        }
        if places + u64::from(share.places) > MOST_RESERVED {
            return Err(Refusal::Reservations);
        }
        Ok(self.join(share))
    }

    /// One with a link and a clock, as a table has them.
    pub(crate) fn laid_out(link: Framing, clock: Tick) -> Frames {
        Frames {
            link: Some(link),
            clock,
            ..Frames::new()
        }
    }

    /// A row more, as a table has it, which counts for its connection; nothing where that does not stand.
    pub(crate) fn lay_out(
        &mut self,
        connection: u8,
        length: u16,
        tag: u32,
        arrival: Tick,
        eligibility: Tick,
    ) -> Option<()> {
        let link = self.link?;
        let member = self.members.get_mut(usize::from(connection))?;
        member.held += 1;
        member.used_until = link.next_start(self.clock);
        if eligibility > self.clock {
            member.used += link.cost(length);
        }
        let row = Row {
            connection,
            length,
            tag,
            arrival,
            eligibility,
        };
        self.rows.push_back(row);
        Some(())
    }

    pub(crate) fn join(&mut self, share: Share) -> u8 {
        let number = self.members.len() as u8;
        self.units += u64::from(share.units);
        self.places += u64::from(share.places);
        self.members.push(Member {
            share,
            held: 0,
            used: 0,
            used_until: 0,
        });
        number
    }

    /// Offers a packet and gives its eligibility, the start of the next frame: verdicts 2, 10, 11, 12, 13,
    /// 19 in that order. A refused offer uses nothing.
    pub fn offer(&mut self, connection: u8, length: u16, tag: u32) -> Result<Tick, Refusal> {
        let link = self.link()?;
        let member = self
            .members
            .get_mut(usize::from(connection))
            .ok_or(Refusal::NoSuchConnection)?;
        if !(1..=link.largest).contains(&length) {
            return Err(Refusal::Length);
        }
        if member.held >= usize::from(member.share.places) {
            return Err(Refusal::ReservationFull);
        }
        if self.clock >= CLOCK_END {
            return Err(Refusal::ClockEnded);
        }
        let eligibility = link.next_start(self.clock);
        let used = member.used_before(eligibility) + link.cost(length);
        if used > u64::from(member.share.units) {
            return Err(Refusal::PastItsUnits);
        }
        member.held += 1;
        member.used = used;
        member.used_until = eligibility;
        self.rows.push_back(Row {
            connection,
            length,
            tag,
            arrival: self.clock,
            eligibility,
        });
        Ok(eligibility)
    }

    /// Offers a notice and gives its eligibility, the present tick: verdicts 2, 11, 13, 15
    /// in that order.
    pub fn offer_notice(&mut self, length: u16, tag: u32) -> Result<Tick, Refusal> {
        let largest = self.link()?.largest;
        self.notices.offer(largest, self.clock, length, tag)
    }

    /// One tick: verdicts 2 and 13.
    pub fn tick(&mut self) -> Result<Option<Departure>, Refusal> {
        let silence = self.link()?.silence;
        if self.clock >= CLOCK_END {
            return Err(Refusal::ClockEnded);
        }
        if self.line == Line::Idle {
            self.start_chosen();
        }
        let sent = self.line.send_or_be_silent(silence);
        let departure = sent.and_then(|sent| self.depart(sent));
        self.clock += 1;
        Ok(departure)
    }

    /// Step 1, on an idle line: the first packet of all starts if it is eligible, as eligibilities never
    /// fall in the order offered; where it is not, the first notice.
    fn start_chosen(&mut self) {
        let chosen = self
            .rows
            .front()
            .filter(|row| row.eligibility <= self.clock);
        let (sent, units_to_go) = match (chosen, self.notices.first()) {
            (Some(row), _) => (Sent::FirstOf(()), row.length),
            (None, Some(notice)) => (Sent::FirstNotice, notice.length),
            (None, None) => return,
        };
        self.line = Line::Serving { sent, units_to_go };
    }

    /// Step 2: with its last unit the packet or the notice departs.
    fn depart(&mut self, sent: Sent<()>) -> Option<Departure> {
        let finish = self.clock + 1;
        if sent == Sent::FirstNotice {
            return self.notices.depart_first(finish);
        }
        let row = self.rows.pop_front()?;
        self.members[usize::from(row.connection)].held -= 1;
        Some(Departure {
            connection: row.connection,
            tag: row.tag,
            arrival: row.arrival,
            eligibility: row.eligibility,
            finish,
        })
    }

    /// How many ticks from now on are sure to be quiet: in each of them the line either sends a unit that
    /// is not the last, or is silent, or stays idle because no notice waits and the first packet is not
    /// eligible yet.
    pub fn quiet_ticks(&self) -> Tick {
        if self.link.is_none() {
            return 0;
        }
        let to_the_end = CLOCK_END - self.clock;
        let quiet = match (self.line.quiet_ticks(), self.rows.front()) {
            (Some(quiet), _) => quiet,
            (None, _) if self.notices.count() > 0 => 0,
            (None, Some(row)) => row.eligibility.saturating_sub(self.clock),
            (None, None) => to_the_end,
        };
        quiet.min(to_the_end)
    }

    /// Passes over ticks at once, never more than are quiet; gives how many it passed.
    pub fn pass_over(&mut self, at_most: Tick) -> Tick {
        let passed = at_most.min(self.quiet_ticks());
        self.line.pass_over(passed);
        self.clock += passed;
        passed
    }
}
