//! The verdict numbers (section "Verdict numbers"; 15 by R-1, 16 by R-8, 17 by R-9, 18 by R-11, 19 by R-13).

/// A level that fails and by how many units: its sum, in which S is counted, less its bound. Level 0 is a
/// frame, with the sum of its units.
#[derive(Clone, Copy, Debug, PartialEq, Eq)]
pub struct Shortage {
    pub level: u8,
    pub units: u64,
}

/// Why a call was refused. Only a failed level test tells more than its number.
#[derive(Clone, Copy, Debug, PartialEq, Eq)]
pub enum Refusal {
    NoLink,
    LinkSetAlready,
    LinkLimit,
    NoSuchLevel,
    ConnectionLimit,
    NoNumberFree,
    LevelTest(Shortage),
    Reservations,
    NoSuchConnection,
    Length,
    ReservationFull,
    ClockEnded,
    Malformed,
    NoticesFull,
    PacketsHeld,
    Untimely,
    TooFar,
    PastItsUnits,
}

/// The verdict of a call that was done.
pub const DONE: u8 = 0;

/// The highest verdict number.
pub const HIGHEST: u8 = Refusal::PastItsUnits.number();

impl Refusal {
    pub const fn number(self) -> u8 {
        match self {
            Refusal::NoLink => 2,
            Refusal::LinkSetAlready => 3,
            Refusal::LinkLimit => 4,
            Refusal::NoSuchLevel => 5,
            Refusal::ConnectionLimit => 6,
            Refusal::NoNumberFree => 7,
            Refusal::LevelTest(_) => 8,
            Refusal::Reservations => 9,
            Refusal::NoSuchConnection => 10,
            Refusal::Length => 11,
            Refusal::ReservationFull => 12,
            Refusal::ClockEnded => 13,
            Refusal::Malformed => 14,
            Refusal::NoticesFull => 15,
            Refusal::PacketsHeld => 16,
            Refusal::Untimely => 17,
            Refusal::TooFar => 18,
            Refusal::PastItsUnits => 19,
        }
    }
}

/// The verdict number of any call's result.
pub fn number_of<T>(result: &Result<T, Refusal>) -> u8 {
    match result {
        Ok(_) => DONE,
        Err(refusal) => refusal.number(),
    }
}
