//! The trace job: records in, answers out (section "Trace and answer records").

use std::io::{self, Read, Write};

use crate::departure::{Departure, Tick};
use crate::frames::{Frames, Framing};
use crate::hub::Hub;
use crate::link::Link;
use crate::record::{Answer, Record, LONGEST_RECORD, NO_CONNECTION};
use crate::verdict::{number_of, Refusal, DONE};

/// The size limit: a record that would end beyond it is malformed.
pub const SIZE_LIMIT: u64 = 16_777_216;

/// The verdict of a discipline that has no link.
const NO_LINK: u8 = Refusal::NoLink.number();

const BLOCK: usize = 1 << 16;

/// Behind so many bytes of answers there is room for one more in a block.
const MOST_KEPT: usize = BLOCK - 32;

/// How ticks are run.
#[derive(Clone, Copy, Debug, PartialEq, Eq)]
pub enum Pace {
    /// Each tick by itself.
    Plain,
    /// Ticks in which nothing starts and nothing departs are passed over at once.
    Passing,
    /// The same, and the state is tested before each record.
    Tested,
}

/// One line with either discipline, and the way its ticks are run. The first link that is accepted
/// decides; the other discipline stays as it is when nothing has come, and answers 2.
#[derive(Clone, Debug)]
pub struct Job {
    hub: Hub,
    frames: Frames,
    pace: Pace,
}

/// What both disciplines do with a `TK`.
trait Ticking {
    fn has_link(&self) -> Result<(), Refusal>;
    fn tick(&mut self) -> Result<Option<Departure>, Refusal>;
    fn pass_over(&mut self, at_most: Tick) -> Tick;
}

impl Ticking for Hub {
    fn has_link(&self) -> Result<(), Refusal> {
        self.link().map(|_| ())
    }

    #[inline]
    fn tick(&mut self) -> Result<Option<Departure>, Refusal> {
        Hub::tick(self)
    }

    #[inline]
    fn pass_over(&mut self, at_most: Tick) -> Tick {
        Hub::pass_over(self, at_most)
    }
}

impl Ticking for Frames {
    fn has_link(&self) -> Result<(), Refusal> {
        self.link().map(|_| ())
    }

    fn tick(&mut self) -> Result<Option<Departure>, Refusal> {
        Frames::tick(self)
    }

    fn pass_over(&mut self, at_most: Tick) -> Tick {
        Frames::pass_over(self, at_most)
    }
}

impl Job {
    pub fn new(pace: Pace) -> Job {
        Job {
            hub: Hub::new(),
            frames: Frames::new(),
            pace,
        }
    }

    /// The discipline of levels.
    pub fn hub(&self) -> &Hub {
        &self.hub
    }

    /// The discipline of frames.
    pub fn frames(&self) -> &Frames {
        &self.frames
    }

    /// The clock of the discipline that is set; the other one's stays at 0.
    pub fn clock(&self) -> Tick {
        self.hub.clock().max(self.frames.clock())
    }

    /// A line whose disciplines are at hand.
    pub(crate) fn of(hub: Hub, frames: Frames) -> Job {
        Job {
            hub,
            frames,
            pace: Pace::Passing,
        }
    }

    /// Up to so many ticks, as many as it takes until a packet leaves, by the discipline that is set: the
    /// verdict of the first, how many were done, and what has left.
    pub(crate) fn ticks_to_departure(&mut self, asked: Tick) -> (u8, Tick, Option<Departure>) {
        match ticks_to_departure(&mut self.hub, asked) {
            (NO_LINK, ..) => ticks_to_departure(&mut self.frames, asked),
            told => told,
        }
    }

    /// Whether both disciplines are sound and at most one of them has a link.
    pub(crate) fn is_sound(&self) -> bool {
        self.hub.is_sound()
            && self.frames.is_sound()
            && !(self.hub.link().is_ok() && self.frames.link().is_ok())
    }

    /// Whether the state is sound, where it is tested.
    #[inline]
    pub fn stands_the_test(&self) -> bool {
        self.pace != Pace::Tested || self.is_sound()
    }

    /// Carries out one record and hands over its answers in order.
    #[inline(always)]
    pub fn carry_out<E>(
        &mut self,
        record: Record,
        hand_over: &mut impl FnMut(Answer) -> Result<(), E>,
    ) -> Result<(), E> {
        match record {
            Record::Packet {
                connection,
                length,
                tag,
                stamp,
            } => hand_over(self.offer(connection, length, tag, stamp)),
            Record::Notice { length, tag } => hand_over(self.offer_notice(length, tag)),
            Record::Ticks { asked } => {
                let answer = self.run_ticks(asked, hand_over)?;
                hand_over(answer)
            }
            rare => hand_over(self.set_up(rare)),
        }
    }

    /// The records that are rare, kept apart so that the others are carried out quickly.
    #[inline(never)]
    fn set_up(&mut self, record: Record) -> Answer {
        match record {
            Record::Link(figures) => self.set_link(figures.link()),
            Record::Framing(framing) => self.set_framing(framing),
            Record::Connection(figures) => admitted(self.hub.admit(figures)),
            Record::Share(share) => admitted(self.frames.admit(share)),
            Record::Close { connection } => self.close(connection),
            Record::Packet { .. } | Record::Notice { .. } | Record::Ticks { .. } => {
                unreachable!("carried out by itself")
            }
        }
    }

    /// A link of levels; 3 where one of frames is set.
    fn set_link(&mut self, link: Option<Link>) -> Answer {
        let result = match self.frames.link() {
            Ok(_) => Err(Refusal::LinkSetAlready),
            Err(_) => self.hub.set_link(link),
        };
        Answer::Link {
            verdict: number_of(&result),
        }
    }

    /// A link of frames; 3 where one of levels is set.
    fn set_framing(&mut self, framing: Framing) -> Answer {
        let result = match self.hub.link() {
            Ok(_) => Err(Refusal::LinkSetAlready),
            Err(_) => self.frames.set_link(framing),
        };
        Answer::Link {
            verdict: number_of(&result),
        }
    }

    fn close(&mut self, connection: u8) -> Answer {
        let result = self.hub.close(connection);
        Answer::Closed {
            verdict: number_of(&result),
        }
    }

    /// Where the discipline of levels has no link that of frames is asked, which answers 2 if it has none
    /// either; it knows no stamps.
    #[inline]
    fn offer(&mut self, connection: u8, length: u16, tag: u32, stamp: Option<u32>) -> Answer {
        let ticks = stamp.map(Tick::from);
        let result = self.hub.offer_with(connection, length, tag, ticks);
        let verdict = number_of(&result);
        if verdict == NO_LINK && stamp.is_none() {
            return self.offer_to_frames(connection, length, tag);
        }
        Answer::Packet {
            verdict,
            eligibility: result.unwrap_or(0),
        }
    }

    #[inline(never)]
    fn offer_to_frames(&mut self, connection: u8, length: u16, tag: u32) -> Answer {
        let result = self.frames.offer(connection, length, tag);
        Answer::Packet {
            verdict: number_of(&result),
            eligibility: result.unwrap_or(0),
        }
    }

    /// The same of a notice.
    #[inline]
    fn offer_notice(&mut self, length: u16, tag: u32) -> Answer {
        let result = self.hub.offer_notice(length, tag);
        let verdict = number_of(&result);
        if verdict == NO_LINK {
            return self.notice_to_frames(length, tag);
        }
        Answer::Notice {
            verdict,
            eligibility: result.unwrap_or(0),
        }
    }

    #[inline(never)]
    fn notice_to_frames(&mut self, length: u16, tag: u32) -> Answer {
        let result = self.frames.offer_notice(length, tag);
        Answer::Notice {
            verdict: number_of(&result),
            eligibility: result.unwrap_or(0),
        }
    }

    /// `TK`, by the discipline that is set.
    #[inline]
    fn run_ticks<E>(
        &mut self,
        asked: u16,
        hand_over: &mut impl FnMut(Answer) -> Result<(), E>,
    ) -> Result<Answer, E> {
        match run_ticks(&mut self.hub, self.pace, asked, hand_over)? {
            (NO_LINK, _) => self.run_frames(asked, hand_over),
            (verdict, done) => Ok(Answer::Ticks { verdict, done }),
        }
    }

    #[inline(never)]
    fn run_frames<E>(
        &mut self,
        asked: u16,
        hand_over: &mut impl FnMut(Answer) -> Result<(), E>,
    ) -> Result<Answer, E> {
        let (verdict, done) = run_ticks(&mut self.frames, self.pace, asked, hand_over)?;
        Ok(Answer::Ticks { verdict, done })
    }
}

/// The answer to an admission.
fn admitted(result: Result<u8, Refusal>) -> Answer {
    let short = match result {
        Err(Refusal::LevelTest(shortage)) => Some(shortage),
        _ => None,
    };
    Answer::Connection {
        verdict: number_of(&result),
        connection: result.unwrap_or(NO_CONNECTION),
        short,
    }
}

/// The asked ticks one by one, stopping at the first refused one: the verdict, and how many were done.
/// `TK` 0 changes nothing: 2 where it applies, else 0, even at the clock's end.
#[inline(always)]
fn run_ticks<L: Ticking, E>(
    line: &mut L,
    pace: Pace,
    asked: u16,
    hand_over: &mut impl FnMut(Answer) -> Result<(), E>,
) -> Result<(u8, u16), E> {
    if asked == 0 {
        return Ok((number_of(&line.has_link()), 0));
    }
    let mut done = 0;
    while done < asked {
        if pace != Pace::Plain {
            done += line.pass_over(Tick::from(asked - done)) as u16;
        }
        if done == asked {
            break;
        }
        match line.tick() {
            Ok(Some(departure)) => hand_over(Answer::Departed(departure))?,
            Ok(None) => {}
            Err(refusal) => return Ok((refusal.number(), done)),
        }
        done += 1;
    }
    Ok((DONE, done))
}

/// The same up to the first departure. A tick that is refused behind others that are done ends them.
fn ticks_to_departure<L: Ticking>(line: &mut L, asked: Tick) -> (u8, Tick, Option<Departure>) {
    let mut done = 0;
    let mut verdict = number_of(&line.has_link());
    while verdict == DONE && done < asked {
        done += line.pass_over(asked - done);
        if done == asked {
            break;
        }
        match line.tick() {
            Ok(Some(departure)) => return (DONE, done + 1, Some(departure)),
            Ok(None) => done += 1,
            Err(_) if done > 0 => break,
            Err(refusal) => verdict = refusal.number(),
        }
    }
    (verdict, done, None)
}

/// What the trace holds next.
enum Next {
    End,
    Record(Record),
    Malformed,
}

/// A bounded window on the trace, filled in blocks.
struct Window<R> {
    input: R,
    block: Vec<u8>,
    from: usize,
    to: usize,
    offset: u64,
    input_ended: bool,
}

impl<R: Read> Window<R> {
    fn new(input: R) -> Window<R> {
        Window {
            input,
            block: vec![0; BLOCK],
            from: 0,
            to: 0,
            offset: 0,
            input_ended: false,
        }
    }

    /// Reads on until a whole record is in sight or the input has ended.
    #[cold]
    fn fill(&mut self) -> io::Result<()> {
        self.block.copy_within(self.from..self.to, 0);
        self.to -= self.from;
        self.from = 0;
        while self.to < LONGEST_RECORD && !self.input_ended {
            match self.input.read(&mut self.block[self.to..]) {
                Ok(0) => self.input_ended = true,
                Ok(count) => self.to += count,
                Err(error) if error.kind() == io::ErrorKind::Interrupted => {}
                Err(error) => return Err(error),
            }
        }
        Ok(())
    }

    /// Takes the next record. Bytes beyond the size limit belong to no record, but one of them
    /// being there is enough for a malformed record at the limit.
    #[inline(always)]
    fn next(&mut self) -> io::Result<Next> {
        if self.to - self.from < LONGEST_RECORD && !self.input_ended {
            self.fill()?;
        }
        let in_sight = &self.block[self.from..self.to];
        if in_sight.is_empty() {
            return Ok(Next::End);
        }
        let up_to_limit = (SIZE_LIMIT - self.offset).min(in_sight.len() as u64);
        let (record, length) = match Record::read(&in_sight[..up_to_limit as usize]) {
            Some((record, length)) => (record, length),
            _ => return Ok(Next::Malformed),
        };
        self.from += length;
        self.offset += length as u64;
        Ok(Next::Record(record))
    }
}

/// Runs a trace and hands over every answer; stops after a malformed record.
pub fn walk(
    input: impl Read,
    pace: Pace,
    hand_over: &mut impl FnMut(Answer) -> io::Result<()>,
) -> io::Result<()> {
    let mut window = Window::new(input);
    let mut job = Job::new(pace);
    loop {
        match window.next()? {
            Next::End => return Ok(()),
            Next::Record(record) if job.stands_the_test() => job.carry_out(record, hand_over)?,
            Next::Record(_) => {
                return Err(io::Error::new(io::ErrorKind::Other, "not a sound state"))
            }
            Next::Malformed => {
                let offset = window.offset as u32;
                return hand_over(Answer::Malformed { offset });
            }
        }
    }
}

#[cold]
fn write_out(block: &mut Vec<u8>, output: &mut impl Write) -> io::Result<()> {
    output.write_all(block)?;
    block.clear();
    Ok(())
}

/// Runs a trace and writes its answers in blocks.
pub fn replay(input: impl Read, mut output: impl Write, pace: Pace) -> io::Result<()> {
    let mut block = Vec::with_capacity(BLOCK);
    walk(input, pace, &mut |answer| {
        answer.append_to(&mut block);
        match block.len() {
            0..=MOST_KEPT => Ok(()),
            _ => write_out(&mut block, &mut output),
        }
    })?;
    output.write_all(&block)?;
    output.flush()
}

/// The answers to a trace that lies in memory.
pub fn answers(trace: &[u8], pace: Pace) -> io::Result<Vec<u8>> {
    let mut out = Vec::new();
    replay(trace, &mut out, pace)?;
    Ok(out)
}
