//! Kinds with connections by stamps (docs/RULES.md, R-9).

use super::closing::{
    close_any, close_idle, close_odd, odd_number, ticks_about, until_it_holds_nothing,
};
use super::edges::{at_the_limit, bad_admission, cross_the_end, crowd_up_to};
use super::script::Script;
use super::silence::small_link;
use super::traffic::{admit_one, admit_some, flood, modest_link, some_line, Keepers};
use crate::departure::Tick;
use crate::hub::CLOCK_END;
use crate::link::{Connection, Figures, Link, MOST_CONNECTIONS};
use crate::record::Record;
use crate::verdict::DONE;

/// Lines of both kinds; stamps on the edge of each cause of 17, offers that suit and that do not,
/// floods, notices.
pub fn mixed(script: &mut Script, size: usize) {
    ward(script);
    script.mix_in_notices(6);
    for _ in 0..size {
        match script.random.between(0, 9) {
            0..=3 => offer_on_the_edge(script),
            4 => offer_odd(script),
            5 => flood(script, 1),
            6 => script.offer_on_any(),
            7 | 8 => wait_for_one(script),
            _ => {
                let ticks = script.random.pick([0, 1, 1, 2, 5, 9, 17, 40]);
                script.tick(ticks);
            }
        }
    }
    script.drain();
}

/// Ticks to about the moment at which a line by stamps may be stamped again, at which its next packet
/// may be eligible, or some time behind; then its offers about that.
fn wait_for_one(script: &mut Script) {
    let stamped = stamped(script);
    let (number, connection) = match script.random.one_of(&stamped) {
        Some((number, connection)) => (number, connection),
        None => return,
    };
    let (first, _) = script.timely_stamps(number, &connection);
    let allowance = Tick::from(connection.allowance().unwrap_or(0));
    let behind = script.random.between(0, 9);
    let moment = script.random.pick([0, allowance, allowance + behind]);
    ticks_about(script, first + moment);
    for _ in 0..script.random.between(1, 3) {
        let stamp = edge_stamp(script, number, &connection);
        script.offer_with(number, 1, Some(stamp));
    }
}

/// Some lines by stamps, some by their gap.
fn ward(script: &mut Script) {
    modest_link(script);
    for _ in 0..script.random.between(2, 6) {
        admit_stamped(script);
    }
    let wanted = script.hub().standing().count() + script.random.place(5);
    admit_some(script, wanted);
}

pub fn admit_stamped(script: &mut Script) -> u8 {
    match script.link_set() {
        Some(link) => {
            let line = stamped_line(script, &link);
            script.admit_with(line)
        }
        None => script.admit_with(Figures::plain(1, 1, 1).by_stamps(1)),
    }
}

/// Figures of another line, with an allowance in the place of its average: none, about a gap, about a
/// bound, or the longest that leaves the places to others.
fn stamped_line(script: &mut Script, link: &Link) -> Figures {
    let Figures {
        level, gap, size, ..
    } = some_line(script, link);
    let bound = link.bound(level);
    let most = gap.saturating_mul(100);
    let near = script
        .random
        .between16(0, most.min(bound.saturating_mul(3)));
    let gaps = gap.saturating_mul(script.random.between16(1, 4));
    let allowance = script
        .random
        .pick([0, 1, gap - 1, gaps, gaps, near, near, near, bound, most]);
    Figures::plain(level, gap, size).by_stamps(allowance.min(most))
}

/// The connections by stamps that stand.
fn stamped(script: &Script) -> Vec<(u8, Connection)> {
    let mut all = script.standing();
    all.retain(|(_, connection)| connection.allowance().is_some());
    all
}

/// An offer of allowed length whose stamp is on an edge of a cause of 17 or beside it.
pub fn offer_on_the_edge(script: &mut Script) {
    let stamped = stamped(script);
    if let Some((number, connection)) = script.random.one_of(&stamped) {
        let stamp = edge_stamp(script, number, &connection);
        let length = script.random.between16(1, connection.size());
        script.offer_with(number, length, Some(stamp));
    }
}

/// The present tick and the ones beside it, the least stamp by the allowance and by the last
/// eligibility and the ones beside them, the ends of the numbers, any stamp about now.
fn edge_stamp(script: &mut Script, number: u8, connection: &Connection) -> u32 {
    let now = script.clock();
    let allowance = Tick::from(connection.allowance().unwrap_or(0));
    let gap = Tick::from(connection.gap());
    let last = script.hub().last_eligibility(number);
    let spaced = last
        .map_or(now, |last| last + gap)
        .saturating_sub(allowance);
    let oldest = now.saturating_sub(allowance);
    let any = script.random.between(oldest.saturating_sub(3), now + 3);
    let beside = script.random.pick([0, 1, 1, 1, 2]);
    let at = |moment: Tick| (moment + beside).saturating_sub(1);
    let far = script
        .random
        .pick([0, Tick::from(u32::MAX), CLOCK_END, any]);
    let (about_now, about_oldest, about_spaced) = (at(now), at(oldest), at(spaced));
    script.random.pick([
        about_now,
        about_oldest,
        about_spaced,
        about_spaced,
        spaced,
        any,
        far,
    ]) as u32
}

/// An offer that does not suit, one of a wrong length, or one to a number that does not stand.
fn offer_odd(script: &mut Script) {
    let stamp = Some(script.clock() as u32);
    let nobody = odd_number(script);
    let (number, connection) = match script.any_connection() {
        Some((number, connection)) if !script.random.once_in(6) => (number, connection),
        _ => {
            script.offer_with(nobody, 1, stamp);
            return;
        }
    };
    let suited = connection.allowance().and(stamp);
    let unsuited = stamp.xor(suited);
    let size = connection.size();
    match script.random.between(0, 4) {
        0 | 1 => script.offer_with(number, 1, unsuited),
        2 => script.offer_with(number, 0, unsuited),
        3 => script.offer_with(number, size + 1, suited),
        _ => script.offer_with(number, 0, suited),
    };
}

/// A line as a hub before lets it go: each packet is stamped at least a gap behind the one before,
/// and comes up to the allowance later.
struct Relay {
    number: u8,
    connection: Connection,
    stamp: Tick,
    due: Tick,
}

impl Relay {
    fn new(script: &mut Script, number: u8, connection: Connection) -> Relay {
        let stamp = script.clock() + script.random.between(0, u64::from(connection.gap()));
        let mut relay = Relay {
            number,
            connection,
            stamp,
            due: 0,
        };
        relay.delay(script);
        relay
    }

    /// It comes at once, as late as its allowance lets it, or some time between; never before the
    /// packet that it follows.
    fn delay(&mut self, script: &mut Script) {
        let allowance = Tick::from(self.connection.allowance().unwrap_or(0));
        let some = script.random.between(0, allowance);
        let late = script.random.pick([0, some, some, allowance, allowance]);
        self.due = self.due.max(self.stamp + late);
    }

    /// Offers now, or loses the packet, and goes on to the next.
    fn offer(&mut self, script: &mut Script) {
        if !script.random.once_in(8) {
            let length = script.random.between16(1, self.connection.size());
            script.offer_with(self.number, length, Some(self.stamp as u32));
        }
        let gap = Tick::from(self.connection.gap());
        let more = script.random.between(0, gap);
        self.stamp += gap + script.random.pick([0, 0, 0, 1, more]);
        self.delay(script);
    }
}

/// Lines by stamps whose packets come as from a hub before, beside others that keep their word or
/// flood; in between offers that are refused.
pub fn relayed(script: &mut Script, size: usize) {
    ward(script);
    let mut relays = Vec::new();
    for (number, connection) in stamped(script) {
        relays.push(Relay::new(script, number, connection));
    }
    let mut others = script.standing();
    others.retain(|(_, connection)| connection.allowance().is_none());
    let mut keepers = Keepers::of(script, others.clone());
    let floods = script.seed() % 3 == 1;
    script.mix_in_notices(8);
    for _ in 0..size {
        let due = relays
            .iter()
            .map(|relay| relay.due)
            .chain(keepers.earliest());
        script.ticks_until(due.min().unwrap_or(0));
        let now = script.clock();
        for relay in relays.iter_mut().filter(|relay| relay.due <= now) {
            relay.offer(script);
        }
        keepers.offer_due(script);
        if let Some((number, connection)) = script.random.one_of(&others).filter(|_| floods) {
            script.offer_good(number, &connection);
        }
        if script.random.once_in(8) {
            offer_odd(script);
        }
    }
    script.drain();
}

/// Few units, short bounds and single ticks; lines of both kinds are admitted, closed and followed by
/// others under their numbers.
pub fn small(script: &mut Script, size: usize) {
    let largest = script.random.between16(1, 3);
    let silence = script.random.pick([0, 0, 1, 2, 3]);
    small_link(script, largest, silence);
    for _ in 0..size {
        match script.random.between(0, 19) {
            0 => {
                admit_one(script);
            }
            1 | 2 => {
                admit_stamped(script);
            }
            3..=6 => offer_on_the_edge(script),
            7 | 8 => script.offer_on_any(),
            9 => offer_odd(script),
            10 => {
                script.notice_good();
            }
            11 | 12 => close_idle(script),
            13 => close_any(script),
            14 => close_odd(script),
            _ => {
                let ticks = script.random.pick([0, 1, 1, 1, 2, 3, 6, 20]);
                script.tick(ticks);
            }
        }
    }
    script.drain();
}

/// Lines by stamps that fill their reservation at once, since it is no more than the packets that may
/// be stamped within the allowance; then offers with and without a cause of 17, of wrong lengths and
/// without a stamp.
pub fn full(script: &mut Script, size: usize) {
    modest_link(script);
    let link = match script.link_set() {
        Some(link) => link,
        None => return,
    };
    for _ in 0..script.random.between(2, 6) {
        let line = fills_at_once(script, &link);
        script.admit_with(line);
    }
    let wanted = script.hub().standing().count() + 2;
    admit_some(script, wanted);
    let longest = script
        .hub()
        .standing()
        .filter_map(|(_, one)| one.allowance());
    let longest = longest.max().unwrap_or(0);
    script.ticks_until(Tick::from(longest));
    for _ in 0..size {
        let stamped = stamped(script);
        if let Some((number, connection)) = script.random.one_of(&stamped) {
            fill(script, number, &connection);
            script.offer_with(number, 0, Some(0));
            script.offer(number, 1);
        }
        for _ in 0..script.random.between(1, 4) {
            offer_on_the_edge(script);
        }
        script.offer_on_any();
        let ticks = script.random.pick([0, 1, 1, 2, 3, 9, 30, 200]);
        script.tick(ticks);
    }
    script.drain();
}

/// Few gaps of allowance and a rest that with d is no longer than a gap.
fn fills_at_once(script: &mut Script, link: &Link) -> Figures {
    let level = script.random.between16(1, u16::from(link.levels())) as u8;
    let bound = link.bound(level);
    let gap = bound + script.random.between16(0, 20);
    let size = script.random.between16(1, link.largest() / 3 + 1);
    let rest = script.random.between16(0, gap - bound);
    let allowance = script.random.between16(0, 6) * gap + rest;
    Figures::plain(level, gap, size).by_stamps(allowance)
}

/// The earliest stamp that is timely, and again, as long as there is one; then the same three times
/// with stamps that are not.
fn fill(script: &mut Script, number: u8, connection: &Connection) {
    for _ in 0..12 {
        let (first, last) = script.timely_stamps(number, connection);
        if first > last {
            break;
        }
        let length = script.random.between16(1, connection.size());
        script.offer_with(number, length, Some(first as u32));
    }
    for _ in 0..3 {
        let stamp = edge_stamp(script, number, connection);
        script.offer_with(number, 1, Some(stamp));
    }
}

/// Figures at their limits and past them: allowances 0, 1, 65,535 and those that leave no place or
/// just one; before a link, with room, with all connections standing.
pub fn figures(script: &mut Script, size: usize) {
    admit_stamped(script);
    let levels = script.random.between16(1, 4);
    let silence = script.some_silence().min(20);
    let bounds: Vec<u16> = (1..=levels).map(|level| 8_000 * level).collect();
    script.link(4, silence, &bounds);
    for wanted in [0, 30, MOST_CONNECTIONS - 1, MOST_CONNECTIONS] {
        crowd_up_to(script, wanted);
        for _ in 0..size / 4 {
            edge_admission(script, levels);
            bad_admission(script);
            offer_on_the_edge(script);
            offer_odd(script);
        }
        about_the_places(script);
        let ticks = script.random.pick([1, 90, 3_000, u16::MAX]);
        script.tick(ticks);
    }
    script.drain();
}

fn edge_admission(script: &mut Script, levels: u16) {
    let level = script.random.between16(0, levels + 1) as u8;
    let size = script.random.pick([1, 1, 1, 1, 1, 1, 4, 0, 5]);
    let some = script.random.between16(2_000, u16::MAX);
    let gap = script.random.pick([0, 1, 300, some, some, some, u16::MAX]);
    let any = script.random.between16(0, u16::MAX);
    let allowance = script
        .random
        .pick([0, 1, 32_768, any, u16::MAX - 1, u16::MAX]);
    script.admit_with(Figures::plain(level, gap, size).by_stamps(allowance));
}

/// An allowance that needs a place more than is left, and, where it is the last connection of all or
/// by chance, one that just does not.
fn about_the_places(script: &mut Script) {
    let link = match script.link_set() {
        Some(link) => link,
        None => return,
    };
    let left = u32::from(script.places_left(&link));
    let bound = u32::from(link.largest_bound());
    let gap = script.random.pick([40, 45, 60]).max(bound / left.max(1));
    let line = Figures::plain(link.levels(), gap as u16, 1);
    let most = (left * gap).saturating_sub(bound);
    script.admit_with(line.by_stamps((most + 1).min(65_535) as u16));
    if script.hub().counted().count() + 1 == MOST_CONNECTIONS || script.random.once_in(6) {
        script.admit_with(line.by_stamps(most.min(65_535) as u16));
    }
}

/// A number is given in turn to lines of either kind, whose gaps outlast the charge, so that the one
/// before would have had to wait.
pub fn reopened(script: &mut Script, size: usize) {
    modest_link(script);
    let link = match script.link_set() {
        Some(link) => link,
        None => return,
    };
    admit_some(script, 2);
    for _ in 0..size {
        let mut line = stamped_line(script, &link);
        line.gap = script.random.pick([line.gap, 20_000, u16::MAX]);
        for _ in 0..script.random.between(2, 4) {
            line.allowance = match line.allowance {
                Some(_) if script.random.once_in(2) => None,
                _ => Some(script.random.pick([0, 1, 20, link.largest_bound()])),
            };
            let number = script.hub().next_number().unwrap_or(0);
            if script.admit_with(line) != DONE {
                break;
            }
            send_and_close(script, number);
        }
        script.offer_on_any();
        offer_odd(script);
    }
    script.drain();
}

/// Offers that do not suit, that do, and a close; then ticks to about the end of the charge.
fn send_and_close(script: &mut Script, number: u8) {
    for _ in 0..script.random.between(1, 3) {
        if let Some(connection) = script.hub().connection(number).copied() {
            let stamp = Some(script.clock() as u32);
            let suited = connection.allowance().and(stamp);
            script.offer_with(number, 1, stamp.xor(suited));
            script.offer_good(number, &connection);
        }
        script.tick(1);
    }
    until_it_holds_nothing(script, number);
    script.close(number);
    script.offer_with(number, 1, Some(script.clock() as u32));
    let end = script.hub().charged().find(|(one, _)| *one == number);
    if let Some((_, end)) = end {
        ticks_about(script, end);
    }
}

/// Long allowances at the clock's end: eligibilities far beyond it, and, behind it, every offer that
/// would get 17 before it.
pub fn end(script: &mut Script, size: usize) {
    modest_link(script);
    let levels = script.link_set().map_or(1, |link| link.levels());
    for (gap, allowance) in [(1_000, u16::MAX), (u16::MAX, u16::MAX), (300, 299)] {
        script.admit_with(Figures::plain(levels, gap, 1).by_stamps(allowance));
    }
    admit_some(script, 6);
    for _ in 0..size {
        offer_on_the_edge(script);
        flood(script, 1);
    }
    script.drain();
    let lead = script.random.between(300, 3_000);
    script.ticks_until(CLOCK_END - lead);
    while script.clock() + 50 < CLOCK_END {
        offer_on_the_edge(script);
        flood(script, 1);
        let some = script.random.between(0, lead / 20);
        script.ticks_until((script.clock() + some).min(CLOCK_END - 3));
    }
    for (number, connection) in stamped(script) {
        fill(script, number, &connection);
    }
    cross_the_end(script);
    for _ in 0..size {
        offer_on_the_edge(script);
        offer_odd(script);
        script.offer_on_any();
        admit_stamped(script);
    }
    script.tick(1);
}

/// A `PS` at the size limit, in later turns a `CS`.
pub fn limit(script: &mut Script, size: usize) {
    ward(script);
    for _ in 0..size {
        offer_on_the_edge(script);
        flood(script, 1);
    }
    let record = match script.seed() / 3 % 2 {
        0 => Record::Packet {
            connection: 0,
            length: 1,
            tag: 7,
            stamp: Some(1),
        },
        _ => Record::Connection(Figures::plain(1, 9, 1).by_stamps(4)),
    };
    at_the_limit(script, record);
}
