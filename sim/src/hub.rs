//! The state of the hub and its calls: link, admit, offer, offer of a notice, close, tick.

use crate::departure::{Departure, Tick};
use crate::level_test::{loads, shortage_with, with};
use crate::line::{Line, Sent};
use crate::link::{Connection, Figures, Link, MOST_RESERVED};
use crate::notices::Notices;
use crate::owners::Owners;
use crate::queues::{Queues, Started};
use crate::verdict::Refusal;

/// The clock begins at 0 and ends here (section "Link, connections, places").
pub const CLOCK_END: Tick = 4_000_000_000;

/// The whole state.
#[derive(Clone, Debug)]
pub struct Hub {
    pub(crate) link: Option<Link>,
    pub(crate) owners: Owners,
    pub(crate) queues: Queues,
    pub(crate) notices: Notices,
    pub(crate) line: Line<Started>,
    pub(crate) clock: Tick,
}

impl Default for Hub {
    fn default() -> Self {
        Hub::new()
    }
}

impl Hub {
    pub fn new() -> Hub {
        Hub {
            link: None,
            owners: Owners::default(),
            queues: Queues::default(),
            notices: Notices::default(),
            line: Line::Idle,
            clock: 0,
        }
    }

    pub fn clock(&self) -> Tick {
        self.clock
    }

    /// The link, or verdict 2.
    pub fn link(&self) -> Result<&Link, Refusal> {
        self.link.as_ref().ok_or(Refusal::NoLink)
    }

    /// The connections that stand, with their numbers.
    pub fn standing(&self) -> impl Iterator<Item = (u8, &Connection)> {
        self.owners.standing()
    }

    /// The connection that stands under a number.
    pub fn connection(&self, number: u8) -> Option<&Connection> {
        let owner = self.owners.standing_at(number)?;
        Some(&owner.connection)
    }

    /// The connections that count against a newcomer: those that stand and those that are closed
    /// and charged.
    pub fn counted(&self) -> impl Iterator<Item = &Connection> + Clone {
        self.owners.counted()
    }

    /// The numbers that are closed and charged, with the moments that free them.
    pub fn charged(&self) -> impl Iterator<Item = (u8, Tick)> + '_ {
        self.owners.charged()
    }

    /// The number that the next accepted connection gets; nothing if none is free.
    pub fn next_number(&self) -> Option<u8> {
        self.owners.lowest_free()
    }

    /// How many packets a connection holds; one in service counts until its last unit has gone.
    #[inline]
    pub fn held_by(&self, connection: u8) -> usize {
        self.queues.held_by(connection)
    }

    /// When a packet that is offered now without a stamp would be eligible; nothing for a number
    /// that does not stand.
    pub fn eligibility_now(&self, connection: u8) -> Option<Tick> {
        let owner = self.owners.standing_at(connection)?;
        Some(owner.next_eligibility(self.clock))
    }

    /// The eligibility of the last packet that a standing connection sent, if it has sent one.
    pub fn last_eligibility(&self, connection: u8) -> Option<Tick> {
        self.owners.standing_at(connection)?.recent.back(1)
    }

    /// How many notices wait; one in service counts until its last unit has gone.
    pub fn notices_waiting(&self) -> usize {
        self.notices.count()
    }

    /// How many ticks of silence are still to run; 0 while something is in service.
    pub fn silence_left(&self) -> u8 {
        self.line.silence_left()
    }

    /// Sets the link: verdicts 3 and 4.
    pub fn set_link(&mut self, link: Option<Link>) -> Result<(), Refusal> {
        if self.link.is_some() {
            return Err(Refusal::LinkSetAlready);
        }
        self.link = Some(link.ok_or(Refusal::LinkLimit)?);
        Ok(())
    }

    /// Admits a connection and gives its number, the lowest that is free: verdicts 2, 5, 6, 7,
    /// 8, 9 in that order. With 8 comes which level is short and by how much, the newcomer counted
    ///
    pub fn admit(&mut self, figures: Figures) -> Result<u8, Refusal> {
        let link = self.link()?;
        let newcomer = Connection::new(link, figures)?;
        let number = self.owners.lowest_free().ok_or(Refusal::NoNumberFree)?;
        let loads = loads(link, &newcomer);
        let sums = with(self.owners.sums(), &loads);
        if let Some(shortage) = shortage_with(link, &sums, self.owners.counted(), &newcomer) {
            return Err(Refusal::LevelTest(shortage));
        }
        let reservation = newcomer.reservation(link);
        if self.owners.reserved() + reservation > MOST_RESERVED {
            return Err(Refusal::Reservations);
        }
        self.owners.give(number, newcomer, reservation, loads);
        self.queues.make_room_for(number);
        Ok(number)
    }

    /// Offers a packet without a stamp and gives its eligibility.
    pub fn offer(&mut self, connection: u8, length: u16, tag: u32) -> Result<Tick, Refusal> {
        self.offer_with(connection, length, tag, None)
    }

    /// Offers a packet that brings a stamp or none and gives its eligibility: verdicts 2, 10,
    /// 11, 12, 13, 17 and, while packets stand by, 18 in that order.
    #[inline]
    pub fn offer_with(
        &mut self,
        connection: u8,
        length: u16,
        tag: u32,
        stamp: Option<Tick>,
    ) -> Result<Tick, Refusal> {
        let stands_by = self.link()?.stands_by();
        let held = self.held_by(connection) as u64;
        let owner = self
            .owners
            .standing_at_mut(connection)
            .filter(|owner| owner.suits(stamp))
            .ok_or(Refusal::NoSuchConnection)?;
        let terms = &owner.connection;
        if !(1..=terms.size()).contains(&length) {
            return Err(Refusal::Length);
        }
        if held >= owner.reservation {
            return Err(Refusal::ReservationFull);
        }
        if self.clock >= CLOCK_END {
            return Err(Refusal::ClockEnded);
        }
        let eligibility = owner
            .eligibility_of(self.clock, stamp)
            .ok_or(Refusal::Untimely)?;
        if stands_by && eligibility > self.clock + owner.distance() {
            return Err(Refusal::TooFar);
        }
        let level = terms.level();
        let may_go_early = stands_by && terms.allowance().is_none();
        owner.recent.remember(eligibility);
        let times = (self.clock, eligibility);
        self.queues.offer(connection, level, length, tag, times);
        if may_go_early {
            self.queues.stand_by(connection, level);
        }
        Ok(eligibility)
    }

    /// Offers a notice and gives its eligibility, the present tick: verdicts 2, 11, 13, 15
    /// in that order.
    #[inline]
    pub fn offer_notice(&mut self, length: u16, tag: u32) -> Result<Tick, Refusal> {
        let largest = self.link()?.largest();
        self.notices.offer(largest, self.clock, length, tag)
    }

    /// Closes a connection: verdicts 2, 10, 16 in that order. It stays charged until the link's
    /// time for it has passed since its last eligibility; if it never sent that is over now.
    pub fn close(&mut self, connection: u8) -> Result<(), Refusal> {
        let time = Tick::from(self.link()?.charge_time());
        let owner = self
            .owners
            .standing_at(connection)
            .ok_or(Refusal::NoSuchConnection)?;
        if self.held_by(connection) > 0 {
            return Err(Refusal::PacketsHeld);
        }
        let last = owner.recent.back(1);
        let charge_end = last.map_or(self.clock, |last| last + time);
        self.owners.close(connection, charge_end);
        self.owners.free_ended(self.clock);
        Ok(())
    }

    /// One tick (section "One tick"): verdicts 2 and 13.
    #[inline]
    pub fn tick(&mut self) -> Result<Option<Departure>, Refusal> {
        let silence = self.link()?.silence();
        if self.clock >= CLOCK_END {
            return Err(Refusal::ClockEnded);
        }
        if self.line == Line::Idle {
            self.start_chosen();
        }
        let departure = self.send_or_be_silent(silence);
        self.run_clock(1);
        Ok(departure)
    }

    /// Step 1, on an idle line: the chosen packet starts; only where none is eligible the first
    /// notice, and only where none waits the first packet that stands by.
    #[inline]
    fn start_chosen(&mut self) {
        let (sent, units_to_go) = match (self.queues.start(self.clock), self.notices.first()) {
            (Some(started), _) => (Sent::FirstOf(started), started.length),
            (None, Some(notice)) => (Sent::FirstNotice, notice.length),
            (None, None) => return self.start_early(),
        };
        self.line = Line::Serving { sent, units_to_go };
    }

    #[inline(never)]
    fn start_early(&mut self) {
        if let Some(started) = self.queues.start_early() {
            self.line = Line::Serving {
                sent: Sent::FirstOf(started),
                units_to_go: started.length,
            };
        }
    }

    /// Step 2: with its last unit the packet or the notice departs.
    #[inline]
    fn send_or_be_silent(&mut self, silence: u8) -> Option<Departure> {
        let sent = self.line.send_or_be_silent(silence)?;
        let finish = self.clock + 1;
        match sent {
            Sent::FirstOf(started) => self.queues.depart(started, finish),
            Sent::FirstNotice => self.notices.depart_first(finish),
        }
    }

    /// Step 3, of one tick or of many quiet ones: numbers whose charge has come to its end are freed
    /// . No call comes between quiet ticks, so that nobody sees which of them freed a number.
    #[inline]
    fn run_clock(&mut self, ticks: Tick) {
        self.clock += ticks;
        self.owners.free_ended(self.clock);
    }

    /// How many ticks from now on are sure to be quiet: in each of them the line either sends
    /// a unit that is not the last, or is silent, or stays idle because no held packet is eligible
    /// yet, no notice waits and no packet stands by.
    #[inline]
    pub fn quiet_ticks(&mut self) -> Tick {
        if self.link.is_none() {
            return 0;
        }
        let to_the_end = CLOCK_END - self.clock;
        let quiet = match self.line.quiet_ticks() {
            Some(quiet) => quiet,
            None if self.notices.count() > 0 || self.queues.any_stands_by() => 0,
            None => self.ticks_until_one_is_eligible().unwrap_or(to_the_end),
        };
        quiet.min(to_the_end)
    }

    #[inline]
    fn ticks_until_one_is_eligible(&mut self) -> Option<Tick> {
        if !self.queues.none_eligible(self.clock) {
            return Some(0);
        }
        let earliest = self.queues.next_eligible()?;
        Some(earliest - self.clock)
    }

    /// Passes over ticks at once, never more than are quiet; gives how many it passed.
    #[inline]
    pub fn pass_over(&mut self, at_most: Tick) -> Tick {
        let passed = at_most.min(self.quiet_ticks());
        self.line.pass_over(passed);
        self.run_clock(passed);
        passed
    }
}
