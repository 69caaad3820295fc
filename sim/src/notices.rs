//! The queue of notices below all levels (docs/RULES.md, R-1).

use std::collections::VecDeque;

use crate::departure::{Departure, Tick};
use crate::hub::CLOCK_END;
use crate::verdict::Refusal;

/// The places of the queue; the notice in service keeps its own until its last unit has gone.
pub const MOST_NOTICES: usize = 64;

/// What a departed notice bears where a connection's number would stand.
pub const NOTICE_NUMBER: u8 = 254;

/// A notice that waits or is in service; its eligibility is its arrival.
#[derive(Clone, Copy, Debug, PartialEq, Eq)]
pub struct Notice {
    pub length: u16,
    pub tag: u32,
    pub arrival: Tick,
}

/// The notices in the order offered.
#[derive(Clone, Debug, Default)]
pub struct Notices {
    waiting: VecDeque<Notice>,
}

impl Notices {
    pub fn count(&self) -> usize {
        self.waiting.len()
    }

    /// All that wait, in order.
    pub fn all(&self) -> impl Iterator<Item = &Notice> {
        self.waiting.iter()
    }

    pub fn are_full(&self) -> bool {
        self.count() >= MOST_NOTICES
    }

    #[inline]
    pub fn add(&mut self, notice: Notice) {
        self.waiting.push_back(notice);
    }

    /// Offers a notice on a line with a link, whatever its discipline, and gives its eligibility, the
    /// present tick: verdicts 11, 13, 15 in that order.
    #[inline]
    pub fn offer(
        &mut self,
        largest: u16,
        clock: Tick,
        length: u16,
        tag: u32,
    ) -> Result<Tick, Refusal> {
        if !(1..=largest).contains(&length) {
            return Err(Refusal::Length);
        }
        if clock >= CLOCK_END {
            return Err(Refusal::ClockEnded);
        }
        if self.are_full() {
            return Err(Refusal::NoticesFull);
        }
        self.add(Notice {
            length,
            tag,
            arrival: clock,
        });
        Ok(clock)
    }

    /// Whether all may wait: not too many, each of a length from 1 to S and no later than the clock.
    pub fn are_sound(&self, largest: u16, clock: Tick) -> bool {
        let fits = |length| (1..=largest).contains(&length);
        let mut all = self.all();
        self.count() <= MOST_NOTICES
            && all.all(|notice| fits(notice.length) && notice.arrival <= clock)
    }

    /// The notice that is next to start, or is in service.
    pub fn first(&self) -> Option<&Notice> {
        self.waiting.front()
    }

    /// The first notice departs and the others move up.
    pub fn depart_first(&mut self, finish: Tick) -> Option<Departure> {
        let notice = self.waiting.pop_front()?;
        Some(Departure {
            connection: NOTICE_NUMBER,
            tag: notice.tag,
            arrival: notice.arrival,
            eligibility: notice.arrival,
            finish,
        })
    }
}
