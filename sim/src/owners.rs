//! Which connection has which number (docs/RULES.md, R-8): an owner stands until
//! it is closed, and closed it is charged until its number is freed. Eligibilities, by gaps and
//! averages or by stamps (section R-9).

use std::cmp::Reverse;
use std::collections::BinaryHeap;

use crate::departure::Tick;
use crate::level_test::{add, Loads, Sums};
use crate::link::{Connection, MOST_CONNECTIONS, MOST_LEVELS};
use crate::recent::Recent;

/// Where no charge runs, the next one to end.
const NEVER: Tick = Tick::MAX;

/// A connection that has a number, what it was admitted with, and the eligibilities of its last
/// accepted packets.
#[derive(Clone, Debug)]
pub struct Owner {
    pub connection: Connection,
    pub reservation: u64,
    pub recent: Recent,
    loads: Loads,
    charge_end: Option<Tick>,
}

impl Owner {
    /// Eligibility of a packet that arrives now: a gap behind the last accepted one and, with an
    /// average, also I behind the n-th accepted one before it.
    #[inline]
    pub fn next_eligibility(&self, arrival: Tick) -> Tick {
        let gap = Tick::from(self.connection.gap());
        let spaced = next_eligibility(self.recent.back(1), gap, arrival);
        match self.connection.average() {
            None => spaced,
            Some(average) => {
                let nth = self.recent.back(usize::from(average.packets()));
                next_eligibility(nth, Tick::from(average.window()), spaced)
            }
        }
    }

    /// Whether an offer with a stamp, or without one, is for a connection of this kind.
    #[inline]
    pub fn suits(&self, stamp: Option<Tick>) -> bool {
        self.connection.allowance().is_some() == stamp.is_some()
    }

    /// Eligibility of a packet that arrives now and suits: by its stamp if it brings one, and nothing
    /// where that is untimely.
    #[inline]
    pub fn eligibility_of(&self, arrival: Tick, stamp: Option<Tick>) -> Option<Tick> {
        match (self.connection.allowance(), stamp) {
            (Some(allowance), Some(stamp)) => self.timely(arrival, stamp, Tick::from(allowance)),
            _ => Some(self.next_eligibility(arrival)),
        }
    }

    /// The stamp plus a, but not where the stamp is later than now, where the sum is before
    /// now, or where it is less than X behind the last accepted one, if there is one.
    fn timely(&self, arrival: Tick, stamp: Tick, allowance: Tick) -> Option<Tick> {
        let eligibility = stamp + allowance;
        let gap = Tick::from(self.connection.gap());
        let earliest = self.recent.back(1).map_or(0, |last| last + gap);
        let in_time = stamp <= arrival && arrival <= eligibility && earliest <= eligibility;
        in_time.then_some(eligibility)
    }

    /// How far past the present tick an eligibility may lie while packets stand by: the
    /// reservation times X.
    #[inline]
    pub fn distance(&self) -> Tick {
        self.reservation * Tick::from(self.connection.gap())
    }

    /// One that is laid out in a table; closed where a moment frees its number.
    pub fn laid_out(
        connection: Connection,
        reservation: u64,
        recent: Recent,
        loads: Loads,
        charge_end: Option<Tick>,
    ) -> Owner {
        Owner {
            connection,
            reservation,
            recent,
            loads,
            charge_end,
        }
    }

    pub fn loads(&self) -> &Loads {
        &self.loads
    }

    /// Of one that is closed, the moment that frees its number.
    pub fn charge_end(&self) -> Option<Tick> {
        self.charge_end
    }

    fn stands(&self) -> bool {
        self.charge_end.is_none()
    }
}

/// Eligibility (section "Eligibility"): the first packet on arrival, each later one the greater
/// of its arrival and the eligibility before it plus X.
pub fn next_eligibility(last: Option<Tick>, gap: Tick, arrival: Tick) -> Tick {
    match last {
        None => arrival,
        Some(last) => arrival.max(last + gap),
    }
}

/// The numbers up to the highest that was ever given, each free or with its owner; what all owners
/// add to the levels and have reserved, the charges by their ends, and the first of these. No number
/// below `lowest` is free.
#[derive(Clone, Debug)]
pub struct Owners {
    numbers: Vec<Option<Owner>>,
    sums: Sums,
    reserved: u64,
    charges: BinaryHeap<Reverse<(Tick, u8)>>,
    next_end: Tick,
    lowest: usize,
}

impl Default for Owners {
    fn default() -> Self {
        Owners {
            numbers: Vec::new(),
            sums: [0; MOST_LEVELS],
            reserved: 0,
            charges: BinaryHeap::new(),
            next_end: NEVER,
            lowest: 0,
        }
    }
}

impl Owners {
    /// The numbers as a table has them, summed up.
    pub fn laid_out(numbers: Vec<Option<Owner>>) -> Owners {
        let mut owners = Owners::default();
        for (number, owner) in numbers.iter().enumerate() {
            if let Some(owner) = owner {
                add(&mut owners.sums, &owner.loads);
                owners.reserved += owner.reservation;
                if let Some(end) = owner.charge_end {
                    owners.next_end = owners.next_end.min(end);
                    owners.charges.push(Reverse((end, number as u8)));
                }
            }
        }
        owners.lowest = numbers.iter().take_while(|one| one.is_some()).count();
        owners.numbers = numbers;
        owners
    }

    /// All owners with their numbers.
    pub fn all(&self) -> impl Iterator<Item = (u8, &Owner)> {
        let numbered = |(number, owner): (usize, _)| (number as u8, owner);
        let owners = self.numbers.iter().enumerate().map(numbered);
        owners.filter_map(|(number, owner)| Some((number, owner.as_ref()?)))
    }

    /// Those that count in the level tests and the reservations: the standing and the charged.
    pub fn counted(&self) -> impl Iterator<Item = &Connection> + Clone {
        self.numbers.iter().flatten().map(|owner| &owner.connection)
    }

    /// Those that stand, with their numbers.
    pub fn standing(&self) -> impl Iterator<Item = (u8, &Connection)> {
        self.all()
            .filter(|(_, owner)| owner.stands())
            .map(|(number, owner)| (number, &owner.connection))
    }

    /// The numbers that are charged, with the moments that free them.
    pub fn charged(&self) -> impl Iterator<Item = (u8, Tick)> + '_ {
        self.all()
            .filter_map(|(number, owner)| Some((number, owner.charge_end?)))
    }

    /// The owner of a number, if it stands.
    #[inline]
    pub fn standing_at(&self, number: u8) -> Option<&Owner> {
        let owner = self.numbers.get(usize::from(number))?.as_ref();
        owner.filter(|owner| owner.stands())
    }

    #[inline]
    pub fn standing_at_mut(&mut self, number: u8) -> Option<&mut Owner> {
        let owner = self.numbers.get_mut(usize::from(number))?.as_mut();
        owner.filter(|owner| owner.stands())
    }

    /// The sums of all levels, without S.
    pub fn sums(&self) -> &Sums {
        &self.sums
    }

    /// The places of all reservations together.
    pub fn reserved(&self) -> u64 {
        self.reserved
    }

    /// The number that is given next.
    pub fn lowest_free(&self) -> Option<u8> {
        let free = self.numbers[self.lowest..].iter().position(Option::is_none);
        let number = free.map_or(self.numbers.len(), |free| self.lowest + free);
        (number < MOST_CONNECTIONS).then_some(number as u8)
    }

    /// Gives the lowest free number to a newcomer, who remembers nothing.
    pub fn give(&mut self, number: u8, connection: Connection, reservation: u64, loads: Loads) {
        let owner = Some(Owner {
            connection,
            reservation,
            recent: Recent::default(),
            loads,
            charge_end: None,
        });
        match self.numbers.get_mut(usize::from(number)) {
            Some(free) => *free = owner,
            None => self.numbers.push(owner),
        }
        add(&mut self.sums, &loads);
        self.reserved += reservation;
        self.lowest = usize::from(number) + 1;
    }

    /// Closes an owner that stands; its number is charged up to a moment.
    pub fn close(&mut self, number: u8, charge_end: Tick) {
        if let Some(owner) = self.standing_at_mut(number) {
            owner.charge_end = Some(charge_end);
            self.next_end = self.next_end.min(charge_end);
            self.charges.push(Reverse((charge_end, number)));
        }
    }

    /// Frees every number whose charge is over; mostly none is.
    #[inline]
    pub fn free_ended(&mut self, clock: Tick) {
        while self.next_end <= clock {
            self.free_first();
        }
    }

    /// Frees the number whose charge ends first.
    #[inline(never)]
    fn free_first(&mut self) {
        if let Some(Reverse((_, number))) = self.charges.pop() {
            self.free(number);
        }
        self.next_end = self.charges.peek().map_or(NEVER, |Reverse((end, _))| *end);
    }

    fn free(&mut self, number: u8) {
        let row = usize::from(number);
        if let Some(owner) = self.numbers[row].take() {
            for (sum, &load) in self.sums.iter_mut().zip(&owner.loads) {
                *sum -= u64::from(load);
            }
            self.reserved -= owner.reservation;
            self.lowest = self.lowest.min(row);
        }
    }

    /// Whether everything kept beside the owners is theirs: the sums, the reservations, the charges
    /// and that no number below `lowest` is free.
    pub fn are_summed_up(&self) -> bool {
        let (mut sums, mut reserved, mut charged) = ([0; MOST_LEVELS], 0, 0);
        for owner in self.numbers.iter().flatten() {
            add(&mut sums, &owner.loads);
            reserved += owner.reservation;
            charged += usize::from(!owner.stands());
        }
        let charge_of = |number: u8| self.numbers[usize::from(number)].as_ref()?.charge_end;
        let charges_hold = |&Reverse((end, number)): &_| charge_of(number) == Some(end);
        sums == self.sums
            && reserved == self.reserved
            && charged == self.charges.len()
            && self.charges.iter().all(charges_hold)
            && self.next_end
                == self
                    .charges
                    .iter()
                    .map(|one| one.0 .0)
                    .min()
                    .unwrap_or(NEVER)
            && self.numbers[..self.lowest].iter().all(Option::is_some)
    }
}
