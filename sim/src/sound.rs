//! The test of the state (section "A sound state"; docs/RULES.md: notices by R-1, the
//! silence by R-4, averages by R-6, closes by R-8, stamps by R-9, packets that stand by by R-11, windows by R-12). What is
//! kept beside the state's own numbers, so that no call counts anew, is tested with them.

use std::collections::VecDeque;

use crate::departure::Tick;
use crate::hub::{Hub, CLOCK_END};
use crate::level_test::{loads, lowest_shortage};
use crate::line::{Line, Sent};
use crate::link::{Connection, Link, MOST_PER_WINDOW, MOST_RESERVED};
use crate::owners::Owner;
use crate::queues::Held;

impl Hub {
    /// Whether the state is sound.
    pub fn is_sound(&self) -> bool {
        match &self.link {
            None => self.is_unused(),
            Some(link) => {
                self.clock <= CLOCK_END
                    && link.is_within()
                    && self.owners_are_sound(link)
                    && self.notices.are_sound(link.largest(), self.clock)
                    && self.line_is_sound(link)
                    && self.firsts_are_sound(link)
            }
        }
    }

    /// With no link set there is nothing.
    fn is_unused(&self) -> bool {
        self.clock == 0
            && self.line == Line::Idle
            && self.notices.count() == 0
            && self.owners.all().next().is_none()
            && self.queues.is_empty()
    }

    /// Each owner by itself, then the level tests and the reservations of all.
    fn owners_are_sound(&self, link: &Link) -> bool {
        let mut held = 0;
        let mut is_sound = |(number, owner)| {
            held += self.queues.held_by(number);
            self.owner_is_sound(link, number, owner)
        };
        self.owners.all().all(&mut is_sound)
            && held == self.queues.count()
            && self.owners.are_summed_up()
            && lowest_shortage(link, self.owners.sums(), self.owners.counted()).is_none()
            && self.owners.reserved() <= MOST_RESERVED
    }

    fn owner_is_sound(&self, link: &Link, number: u8, owner: &Owner) -> bool {
        let connection = &owner.connection;
        let rows = self.queues.of(number);
        let ahead = may_go_early(link, connection).then(|| owner.distance());
        let sequence = Sequence { owner, rows, ahead };
        connection.is_within(link)
            && owner.reservation == connection.reservation(link)
            && *owner.loads() == loads(link, connection)
            && rows.len() as u64 <= owner.reservation
            && self.charge_is_sound(link, owner, rows.len())
            && sequence.ends_with_the_rows()
            && sequence.left_in_time(self.clock)
            && sequence.rows_are_sound(self.clock)
    }

    /// A closed connection has sent and holds nothing, and its charge is not over.
    fn charge_is_sound(&self, link: &Link, owner: &Owner, held: usize) -> bool {
        let time = Tick::from(link.charge_time());
        let over = owner.recent.back(1).map(|last| last + time);
        owner.charge_end().map_or(true, |charge_end| {
            held == 0 && Some(charge_end) == over && self.clock < charge_end
        })
    }

    /// What is in service has 1 to its length units to go; a packet is eligible unless it may go early.
    fn line_is_sound(&self, link: &Link) -> bool {
        self.line.is_sound(link.silence(), |sent| match sent {
            Sent::FirstNotice => self.notices.first().map(|notice| notice.length),
            Sent::FirstOf(started) => {
                let first = self.queues.first_of(started.connection);
                let early = self.early_level_of(link, started.connection).is_some();
                let eligible = |held: &&Held| early || Tick::from(held.eligibility) <= self.clock;
                let length = first.filter(eligible).map(|held| held.length);
                length.filter(|&length| length == started.length)
            }
        })
    }

    /// The level of a number whose packets may go early.
    fn early_level_of(&self, link: &Link, number: u8) -> Option<u8> {
        let standing = self.connection(number)?;
        may_go_early(link, standing).then(|| standing.level())
    }

    /// The first packets are kept in order, under their connections' levels, and so are those that
    /// stand by.
    fn firsts_are_sound(&self, link: &Link) -> bool {
        let level_of = |number| Some(self.connection(number)?.level());
        let in_service = match self.line {
            Line::Serving {
                sent: Sent::FirstOf(started),
                ..
            } => Some(started),
            _ => None,
        };
        let number = in_service.map(|started| started.connection);
        in_service.map_or(true, |one| level_of(one.connection) == Some(one.level))
            && self.queues.are_sound(number, self.clock, level_of)
            && self
                .queues
                .stand_by_is_sound(number, |number| self.early_level_of(link, number))
    }
}

/// Whether a connection's packets may go early: it is regulated by its gap, and the queue is on.
fn may_go_early(link: &Link, connection: &Connection) -> bool {
    link.stands_by() && connection.allowance().is_none()
}

/// What a connection has sent, as far as it remembers, and its rows, which are the newest of it; where
/// its packets may go early, how far past the clock they may lie.
struct Sequence<'a> {
    owner: &'a Owner,
    rows: &'a VecDeque<Held>,
    ahead: Option<Tick>,
}

impl Sequence<'_> {
    /// The newest that are remembered are the rows' own; all 16 are, where there are more rows.
    fn ends_with_the_rows(&self) -> bool {
        let remembered = &self.owner.recent;
        let (count, held) = (remembered.count(), self.rows.len());
        let own = |back: usize| remembered.back(back) == self.before(held, back);
        (held <= count || count == usize::from(MOST_PER_WINDOW))
            && (1..count.min(held) + 1).all(own)
    }

    /// The eligibility that lies so many packets before a row; nothing where there was none or it is
    /// forgotten.
    fn before(&self, row: usize, back: usize) -> Option<Tick> {
        match row.checked_sub(back) {
            Some(row) => Some(Tick::from(self.rows[row].eligibility)),
            None => self.owner.recent.back(self.rows.len() + back - row),
        }
    }

    /// What has left keeps both rules, and lies at or before the clock; where packets may go early, at
    /// most the distance past it.
    fn left_in_time(&self, clock: Tick) -> bool {
        let (recent, connection) = (&self.owner.recent, &self.owner.connection);
        let held = self.rows.len();
        let newest = recent.back(held + 1);
        newest.map_or(true, |newest| newest <= clock + self.ahead.unwrap_or(0))
            && recent.are_apart(held, 1, Tick::from(connection.gap()))
            && connection.average().map_or(true, |average| {
                let packets = usize::from(average.packets());
                recent.are_apart(held, packets, Tick::from(average.window()))
            })
    }

    /// The rows in order: each by itself, and behind those before it.
    fn rows_are_sound(&self, clock: Tick) -> bool {
        let connection = &self.owner.connection;
        let mut last = self.before(0, 1);
        self.rows.iter().enumerate().all(|(row, held)| {
            let (arrival, tick) = (Tick::from(held.arrival), Tick::from(held.eligibility));
            let nth = |packets| self.before(row, packets);
            let earliest = earliest(connection, last, nth);
            let in_pace = earliest <= tick
                && (tick <= clock
                    || match self.ahead {
                        None => tick <= latest(connection, last, nth, clock),
                        Some(distance) => {
                            tick <= clock + distance
                                && (tick == earliest || !settles(connection, last, nth, clock))
                        }
                    });
            last = Some(tick);
            (1..=connection.size()).contains(&held.length)
                && arrival <= clock
                && arrival <= tick
                && in_pace
        })
    }
}

/// A gap behind the last one, if there is one.
fn spaced(connection: &Connection, last: Option<Tick>) -> Tick {
    last.map_or(0, |last| last + Tick::from(connection.gap()))
}

/// The earliest eligibility that both rules allow behind the last one and the n-th before.
fn earliest(
    connection: &Connection,
    last: Option<Tick>,
    nth: impl Fn(usize) -> Option<Tick>,
) -> Tick {
    let spaced = spaced(connection, last);
    connection.average().map_or(spaced, |average| {
        let nth = nth(usize::from(average.packets()));
        nth.map_or(spaced, |nth| spaced.max(nth + Tick::from(average.window())))
    })
}

/// Whether those before a row beyond the clock settle its eligibility, where packets may go early: with
/// an average if the n-th before it is known, without one if the last lies beyond the clock too.
fn settles(
    connection: &Connection,
    last: Option<Tick>,
    nth: impl Fn(usize) -> Option<Tick>,
    clock: Tick,
) -> bool {
    match connection.average() {
        None => last.map_or(false, |last| last > clock),
        Some(average) => nth(usize::from(average.packets())).is_some(),
    }
}

/// The latest of a row beyond the clock, where packets do not go early: by stamps a past the clock; else the earliest, where the
/// n-th before it is known, and what the clock allows where it is not.
fn latest(
    connection: &Connection,
    last: Option<Tick>,
    nth: impl Fn(usize) -> Option<Tick>,
    clock: Tick,
) -> Tick {
    if let Some(allowance) = connection.allowance() {
        return clock + Tick::from(allowance);
    }
    let spaced = spaced(connection, last);
    match connection.average() {
        None => spaced.max(clock + Tick::from(connection.gap())),
        Some(average) => {
            let window = Tick::from(average.window());
            let from = nth(usize::from(average.packets())).unwrap_or(clock);
            spaced.max(from + window)
        }
    }
}

#[cfg(test)]
mod tests {
    use super::*;
    use crate::link::{Figures, ON};

    /// Two levels, three connections of each kind, a packet in service and others held, a notice.
    fn busy() -> Hub {
        let mut hub = Hub::new();
        let link = Link::new(2, 8, 2, [60, 120, 0, 0, 0, 0, 0, 0]);
        hub.set_link(link).expect("a link");
        let kinds = [
            Figures::plain(1, 20, 2),
            Figures::plain(2, 20, 2).with_average(80, 40),
            Figures::plain(2, 30, 2).by_stamps(10),
        ];
        for figures in kinds {
            hub.admit(figures).expect("admitted");
        }
        for connection in [0, 0, 0, 1, 1, 1] {
            hub.offer(connection, 2, 7).expect("accepted");
        }
        hub.offer_with(2, 2, 7, Some(0)).expect("accepted");
        hub.offer_notice(8, 7).expect("accepted");
        hub.tick().expect("a tick");
        hub
    }

    #[test]
    fn a_run_stays_sound() {
        let mut hub = busy();
        for _ in 0..400 {
            assert!(hub.is_sound(), "at {}", hub.clock());
            hub.tick().expect("a tick");
        }
        for connection in 0..3 {
            hub.close(connection).expect("closed");
            assert!(hub.is_sound());
        }
        assert!(Hub::new().is_sound());
    }

    /// Behind each of these a sound state is not sound any more.
    fn break_all(sound: fn() -> Hub, breaks: &[fn(&mut Hub)]) {
        for (place, broken) in breaks.iter().enumerate() {
            let mut hub = sound();
            assert!(hub.is_sound());
            broken(&mut hub);
            assert!(!hub.is_sound(), "number {place}");
        }
    }

    fn remember(hub: &mut Hub, number: u8, eligibility: Tick) {
        let owner = hub.owners.standing_at_mut(number).expect("an owner");
        owner.recent.remember(eligibility);
    }

    #[test]
    fn what_is_broken_is_not_sound() {
        let breaks: [fn(&mut Hub); 12] = [
            |hub| hub.clock = CLOCK_END + 1,
            |hub| hub.link = None,
            |hub| hub.link = Link::new(1, 8, 2, [60, 0, 0, 0, 0, 0, 0, 0]),
            |hub| hub.link = Link::new(2, 8, 0, [60, 121, 0, 0, 0, 0, 0, 0]),
            |hub| hub.line = Line::Idle,
            |hub| hub.line = Line::Silent { ticks_to_go: 3 },
            |hub| hub.owners.standing_at_mut(0).expect("an owner").reservation += 1,
            |hub| hub.owners.close(0, 500),
            |hub| remember(hub, 0, 60),
            |hub| hub.queues.offer(0, 1, 2, 7, (1, 60)),
            |hub| {
                hub.queues.offer(2, 2, 2, 7, (1, 42));
                remember(hub, 2, 42);
            },
            |hub| {
                hub.queues.offer(0, 1, 3, 7, (1, 60));
                remember(hub, 0, 60);
            },
        ];
        break_all(busy, &breaks);
    }

    /// One level of bound 40 and S 2, the queue on: a line of gap 10, four places and a distance of 40,
    /// one of two packets in 40 ticks, gap 2, two places and a distance of 4, and one by stamps, which
    /// has the only packet. At 12 all others have left: the first line's last eligibility is 30, the
    /// second's 2.
    fn ahead() -> Hub {
        let mut hub = Hub::new();
        let link = Link::set_to(ON, 1, 2, 0, [40, 0, 0, 0, 0, 0, 0, 0]);
        hub.set_link(link).expect("a link");
        let kinds = [
            Figures::plain(1, 10, 2),
            Figures::plain(1, 2, 2).with_average(40, 20),
            Figures::plain(1, 30, 2).by_stamps(20),
        ];
        for figures in kinds {
            hub.admit(figures).expect("admitted");
        }
        for connection in [0, 0, 0, 0, 1, 1] {
            hub.offer(connection, 2, 7).expect("accepted");
        }
        for _ in 0..12 {
            hub.tick().expect("a tick");
        }
        hub.offer_with(2, 2, 7, Some(12)).expect("accepted");
        hub
    }

    /// One level of bound 10 and S 2, window 12: lines of gaps 100, 6 and 6, which only the finer test lets in
    /// at that bound; the first has sent at 0, and it is 3 now.
    fn with_windows() -> Hub {
        let mut hub = Hub::new();
        hub.set_link(window_of(10, 12)).expect("a link");
        for gap in [100, 6, 6] {
            hub.admit(Figures::plain(1, gap, 2)).expect("admitted");
        }
        hub.offer(0, 2, 7).expect("accepted");
        for _ in 0..3 {
            hub.tick().expect("a tick");
        }
        hub
    }

    fn window_of(bound: u16, window: u16) -> Option<Link> {
        let link = Link::new(1, 2, 0, [bound, 0, 0, 0, 0, 0, 0, 0])?;
        link.with_windows([window, 0, 0, 0, 0, 0, 0, 0])
    }

    #[test]
    fn what_is_broken_with_windows_is_not_sound() {
        let breaks: [fn(&mut Hub); 6] = [
            // Without windows, and with longer ones, other sums.
            |hub| hub.link = window_of(10, 0),
            |hub| hub.link = window_of(10, 13),
            // The same sums and places; 8 of 7 at the first moment.
            |hub| hub.link = window_of(7, 12),
            // Charged for d alone, for w alone, a tick too long.
            |hub| hub.owners.close(0, 10),
            |hub| hub.owners.close(0, 12),
            |hub| hub.owners.close(0, 23),
        ];
        break_all(with_windows, &breaks);
        let mut hub = with_windows();
        hub.owners.close(0, 22);
        assert!(hub.is_sound());
        hub.link = window_of(8, 12);
        assert!(!hub.is_sound(), "the charge is 20 then");
    }

    /// A row that stands by, offered now.
    fn stand(hub: &mut Hub, number: u8, eligibility: Tick) {
        hub.queues.offer(number, 1, 2, 7, (hub.clock, eligibility));
        hub.queues.stand_by(number, 1);
        remember(hub, number, eligibility);
    }

    /// The packet in service is the first of a connection, of two units.
    fn serve(hub: &mut Hub, connection: u8) {
        let sent = Sent::FirstOf(crate::queues::Started {
            connection,
            level: 1,
            length: 2,
        });
        hub.line = Line::Serving {
            sent,
            units_to_go: 2,
        };
    }

    #[test]
    fn what_stands_by_is_sound() {
        // A row behind one beyond the clock is a gap behind it; in service before it is eligible.
        let mut hub = ahead();
        stand(&mut hub, 0, 40);
        stand(&mut hub, 0, 50);
        assert!(hub.is_sound());
        hub.tick().expect("a tick");
        assert!(hub.is_sound());
        for _ in 0..60 {
            hub.tick().expect("a tick");
            assert!(hub.is_sound(), "at {}", hub.clock());
        }
        // What settles nothing leaves a row anywhere up to the distance: the last of the first line is
        // at 30, so that from 30 on a row may lie at 70; the second line's n-th before is at 0.
        let mut hub = ahead();
        while hub.clock() < 30 {
            hub.tick().expect("a tick");
        }
        stand(&mut hub, 0, 70);
        assert!(hub.is_sound());
    }

    #[test]
    fn what_stands_by_broken_is_not_sound() {
        let breaks: [fn(&mut Hub); 7] = [
            // With the queue off what has left would have to lie at or before the clock.
            |hub| hub.link = Link::new(1, 2, 0, [40, 0, 0, 0, 0, 0, 0, 0]),
            // Behind 30, which lies beyond the clock: a tick late, early.
            |hub| stand(hub, 0, 41),
            |hub| stand(hub, 0, 39),
            // More than 40 past the clock, behind what settles it.
            |hub| {
                stand(hub, 0, 40);
                stand(hub, 0, 50);
                stand(hub, 0, 60);
            },
            // With an average: the n-th before is 0, so that it would be 40, more than 4 off.
            |hub| stand(hub, 1, 40),
            |hub| stand(hub, 1, 16),
            // What has left more than the distance past the clock.
            |hub| {
                remember(hub, 0, 40);
                remember(hub, 0, 50);
                remember(hub, 0, 60);
            },
        ];
        break_all(ahead, &breaks);
    }

    #[test]
    fn stamps_and_the_queue_broken_are_not_sound() {
        let breaks: [fn(&mut Hub); 5] = [
            // By stamps nothing changes: not in service before it is eligible, and not standing by.
            |hub| serve(hub, 2),
            |hub| hub.queues.stand_by(2, 1),
            // More than the allowance past the clock.
            |hub| {
                hub.queues.offer(2, 1, 2, 7, (12, 62));
                remember(hub, 2, 62);
            },
            // Held, and not among those that stand by.
            |hub| {
                hub.queues.offer(0, 1, 2, 7, (12, 40));
                remember(hub, 0, 40);
            },
            // Under another level.
            |hub| {
                hub.queues.offer(0, 1, 2, 7, (12, 40));
                hub.queues.stand_by(0, 2);
                remember(hub, 0, 40);
            },
        ];
        break_all(ahead, &breaks);
    }
}
