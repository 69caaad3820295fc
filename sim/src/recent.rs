//! What a connection remembers: the eligibilities of its last accepted packets.

use crate::departure::Tick;
use crate::link::MOST_PER_WINDOW;

const REMEMBERED: usize = MOST_PER_WINDOW as usize;

/// The last 16 eligibilities, each in the place of the one that is 16 packets older; four bytes
/// hold one.
#[derive(Clone, Debug, Default)]
pub struct Recent {
    ring: [u32; REMEMBERED],
    accepted: u32,
}

impl Recent {
    /// The eligibility that lies so many accepted packets back, 1 for the last one; nothing if there
    /// was none or if it is forgotten.
    #[inline]
    pub fn back(&self, packets: usize) -> Option<Tick> {
        (1..=self.count())
            .contains(&packets)
            .then(|| Tick::from(self.ring[(self.accepted as usize - packets) % REMEMBERED]))
    }

    /// How many are remembered.
    pub fn count(&self) -> usize {
        (self.accepted as usize).min(REMEMBERED)
    }

    /// Whether all but the newest few lie so far behind what came so many packets before them.
    pub fn are_apart(&self, newest: usize, packets: usize, ticks: Tick) -> bool {
        let at = |back: usize| {
            let place = (self.accepted as usize).wrapping_sub(back) % REMEMBERED;
            Tick::from(self.ring[place])
        };
        let first_known = (self.count() + 1).saturating_sub(packets);
        (newest + 1..first_known).all(|back| at(back + packets) + ticks <= at(back))
    }

    /// These are remembered, newest first; at most 16.
    pub fn of(newest_first: &[u32]) -> Recent {
        let mut recent = Recent::default();
        for &eligibility in newest_first.iter().rev() {
            recent.remember(Tick::from(eligibility));
        }
        recent
    }

    #[inline]
    pub fn remember(&mut self, eligibility: Tick) {
        self.ring[self.accepted as usize % REMEMBERED] = eligibility as u32;
        self.accepted += 1;
    }
}
