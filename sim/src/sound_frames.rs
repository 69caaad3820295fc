//! The test of the state of a line with frames (docs/RULES.md, R-13, "A sound state"). What
//! is kept beside the state's own numbers, so that no call counts anew, is tested with them.

use crate::frames::{Frames, Framing, Member, Row};
use crate::hub::CLOCK_END;
use crate::line::{Line, Sent};
use crate::link::{MOST_CONNECTIONS, MOST_RESERVED};

impl Frames {
    /// Whether the state is sound.
    pub fn is_sound(&self) -> bool {
        match self.link {
            None => self.is_unused(),
            Some(link) => {
                self.clock <= CLOCK_END
                    && link.is_within()
                    && self.members_are_sound(&link)
                    && self.rows_are_sound(&link)
                    && self.notices.are_sound(link.largest, self.clock)
                    && self.line_is_sound(&link)
            }
        }
    }

    /// With no link set there is nothing.
    fn is_unused(&self) -> bool {
        self.clock == 0
            && self.line == Line::Idle
            && self.notices.count() == 0
            && self.members.is_empty()
            && (self.units, self.places) == (0, 0)
            && self.rows.is_empty()
    }

    /// Each connection within its limits, and both sums.
    fn members_are_sound(&self, link: &Framing) -> bool {
        let units: u64 = self.shares().map(|share| u64::from(share.units)).sum();
        let places: u64 = self.shares().map(|share| u64::from(share.places)).sum();
        self.members.len() <= MOST_CONNECTIONS
            && self.shares().all(|share| share.is_within())
            && (self.units, self.places) == (units, places)
            && units + link.cost(link.largest) <= u64::from(link.frame)
            && places <= MOST_RESERVED
    }

    /// Each row by itself, eligibilities that never fall, and of each connection how many rows it has and
    /// what it has used of this frame: by its rows that are not eligible yet.
    fn rows_are_sound(&self, link: &Framing) -> bool {
        let mut counted = vec![(0, 0); self.members.len()];
        let mut last = 0;
        for row in &self.rows {
            let (held, used) = match counted.get_mut(usize::from(row.connection)) {
                Some((held, used)) => (held, used),
                None => return false,
            };
            if !self.row_is_sound(link, row) || row.eligibility < last {
                return false;
            }
            last = row.eligibility;
            *held += 1;
            if row.eligibility > self.clock {
                *used += link.cost(row.length);
            }
        }
        let mut pairs = self.members.iter().zip(&counted);
        pairs.all(|(member, counted)| self.member_is_sound(link, member, counted))
    }

    fn row_is_sound(&self, link: &Framing, row: &Row) -> bool {
        (1..=link.largest).contains(&row.length)
            && row.arrival <= self.clock
            && row.eligibility == link.next_start(row.arrival)
    }

    fn member_is_sound(&self, link: &Framing, member: &Member, counted: &(usize, u64)) -> bool {
        let (held, used) = *counted;
        let end = link.next_start(self.clock);
        (member.held, member.used_before(end)) == (held, used)
            && held <= usize::from(member.share.places)
            && used <= u64::from(member.share.units)
            && member.used_until <= end
    }

    /// What is in service has 1 to its length units to go; a packet is the first of all, and eligible.
    fn line_is_sound(&self, link: &Framing) -> bool {
        self.line.is_sound(link.silence, |sent| match sent {
            Sent::FirstNotice => self.notices.first().map(|notice| notice.length),
            Sent::FirstOf(()) => {
                let first = self.rows.front();
                let eligible = first.filter(|row| row.eligibility <= self.clock);
                eligible.map(|row| row.length)
            }
        })
    }
}

#[cfg(test)]
mod tests {
    use super::*;
    use crate::frames::Share;
    use crate::notices::Notice;

    /// T 20, S 4, silence 1; r 9 and p 4, r 6 and p 2: 20 in all. At 21 the first connection's packet of frame
    /// 0 is in service; of frame 1 it has a packet that uses 5 of its 9 units, the other one that uses 3 of 6.
    fn busy() -> Frames {
        let mut line = Frames::new();
        line.set_link(framing(20, 4, 1)).expect("a link");
        for (units, places) in [(9, 4), (6, 2)] {
            let share = Share { units, places };
            line.admit(share).expect("admitted");
        }
        line.offer(0, 4, 7).expect("accepted");
        line.offer(1, 2, 7).expect("accepted");
        for _ in 0..21 {
            line.tick().expect("a tick");
        }
        line.offer(0, 4, 7).expect("accepted");
        line.offer(1, 2, 7).expect("accepted");
        line.offer_notice(4, 7).expect("accepted");
        line
    }

    fn framing(frame: u16, largest: u16, silence: u8) -> Framing {
        Framing {
            frame,
            largest,
            silence,
        }
    }

    /// A row more, counted for its connection.
    fn add(line: &mut Frames, connection: u8, length: u16, arrival: u64, eligibility: u64) {
        let member = &mut line.members[usize::from(connection)];
        member.held += 1;
        if eligibility > line.clock {
            member.used += u64::from(length) + 1;
        }
        line.rows.push_back(Row {
            connection,
            length,
            tag: 7,
            arrival,
            eligibility,
        });
    }

    #[test]
    fn a_run_stays_sound() {
        let mut line = busy();
        for _ in 0..100 {
            assert!(line.is_sound(), "at {}", line.clock());
            line.tick().expect("a tick");
        }
        assert_eq!((line.held(), line.notices_waiting()), (0, 0));
        assert!(Frames::new().is_sound());
    }

    /// What stays sound: a row that uses the rest of the units, a place more in use, older rows than any
    /// run has.
    #[test]
    fn what_is_sound_though_no_run_has_it() {
        let keeps: [fn(&mut Frames); 4] = [
            |line| add(line, 0, 3, 21, 40),
            |line| line.rows[0].arrival = 3,
            |line| line.clock += 15,
            |line| line.line = Line::Silent { ticks_to_go: 1 },
        ];
        for (place, keep) in keeps.iter().enumerate() {
            let mut line = busy();
            keep(&mut line);
            assert!(line.is_sound(), "number {place}");
        }
    }

    /// Behind each of these a sound state is not sound any more.
    #[test]
    fn what_is_broken_is_not_sound() {
        let breaks: [fn(&mut Frames); 24] = [
            |line| line.clock = CLOCK_END + 1,
            |line| line.link = None,
            |line| line.link = Some(framing(19, 4, 1)),
            |line| line.link = Some(framing(20, 4, 2)),
            |line| line.link = Some(framing(21, 5, 65)),
            |line| line.link = Some(framing(21, 4, 1)),
            |line| line.members[0].share.places = 0,
            |line| line.members[0].share.units = 0,
            |line| line.members[1].share.places = 1,
            |line| line.members[1].share.places = 2_049,
            |line| line.units += 1,
            |line| line.places -= 1,
            |line| line.members[0].held += 1,
            |line| line.members[0].used -= 1,
            |line| line.members[1].used_until += 20,
            |line| add(line, 0, 4, 21, 40),
            |line| add(line, 1, 1, 21, 40),
            |line| add(line, 2, 1, 21, 40),
            |line| add(line, 0, 1, 3, 20),
            |line| add(line, 0, 1, 22, 40),
            |line| add(line, 0, 1, 21, 41),
            |line| line.rows.swap(0, 2),
            |line| line.line = Line::Silent { ticks_to_go: 2 },
            |line| {
                line.notices.add(Notice {
                    length: 5,
                    tag: 7,
                    arrival: 21,
                });
            },
        ];
        for (place, broken) in breaks.iter().enumerate() {
            let mut line = busy();
            assert!(line.is_sound());
            if place == 17 {
                line.members.push(line.members[1]);
                broken(&mut line);
                line.members.pop();
            } else {
                broken(&mut line);
            }
            assert!(!line.is_sound(), "number {place}");
        }
    }

    #[test]
    fn what_is_in_service() {
        let serving = |sent, units_to_go| Line::Serving { sent, units_to_go };
        for (line_state, is_sound) in [
            (serving(Sent::FirstOf(()), 1), true),
            (serving(Sent::FirstOf(()), 4), true),
            (serving(Sent::FirstOf(()), 5), false),
            (serving(Sent::FirstOf(()), 0), false),
            (serving(Sent::FirstNotice, 4), true),
            (serving(Sent::FirstNotice, 5), false),
            (Line::Idle, true),
        ] {
            let mut line = busy();
            line.line = line_state;
            assert_eq!(line.is_sound(), is_sound, "{line_state:?}");
        }
        let mut line = busy();
        while line.rows.front().map(|row| row.arrival) == Some(0) {
            line.tick().expect("a tick");
        }
        line.line = serving(Sent::FirstOf(()), 1);
        assert!(!line.is_sound(), "not eligible yet");
        line.notices = Default::default();
        line.line = serving(Sent::FirstNotice, 1);
        assert!(!line.is_sound(), "no notice there");
    }

    #[test]
    fn a_line_with_no_link_is_unused() {
        let breaks: [fn(&mut Frames); 5] = [
            |line| line.clock = 1,
            |line| line.units = 1,
            |line| line.places = 1,
            |line| line.line = Line::Silent { ticks_to_go: 1 },
            |line| {
                line.notices.add(Notice {
                    length: 1,
                    tag: 7,
                    arrival: 0,
                })
            },
        ];
        for broken in breaks {
            let mut line = Frames::new();
            broken(&mut line);
            assert!(!line.is_sound());
        }
    }
}
