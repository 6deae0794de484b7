//! The verbs of a replica. Each makes one step on one word, and may be recorded with its answer.
use crate::words::{self, Layout, Memory, Seen};

/// A verb, as a trace tells it.
#[derive(Clone, Copy)]
pub enum Verb {
    Ask(u8),
    Fence(u8),
    Min(u8),
    EnterMin(u8),
    EnterPlace(u8, u16),
    PutMin(u8, u32),
    Look(u8, u16),
    PutSlot(u8, u16, u32, u16),
    Fuo(u8),
    RaiseFuo(u8, u16),
    Head(u8),
    ReadBeat(u8),
    WriteRow(u16, u8, u64),
    ReadRow(u16, u8),
    RaiseHead(u16),
    Beat,
    ReadAsk(u8),
    Close,
    LookTarget,
    Drain,
    Grant(u8),
}

/// An answer; fences are told as their words.
#[derive(Clone, Copy, PartialEq)]
pub enum Answer {
    Done,
    Missed,
    Entered,
    Lost(u64),
    Fence(u64),
    Number(u64),
    Empty,
    Past,
    Entry(u32, u16),
}

#[derive(Clone, Copy)]
pub struct Event {
    pub by: u8,
    pub verb: Verb,
    pub answer: Answer,
}

/// What takes down the events.
pub trait Record {
    fn note(&mut self, by: u8, verb: Verb, answer: Answer);
}

/// No event is taken down.
pub struct Nothing;

impl Record for Nothing {
    fn note(&mut self, _: u8, _: Verb, _: Answer) {}
}

impl Record for Vec<Event> {
    fn note(&mut self, by: u8, verb: Verb, answer: Answer) {
        self.push(Event { by, verb, answer });
    }
}

/// The access of one replica to the words.
pub struct Port<'a, M, R> {
    pub memory: &'a M,
    pub layout: Layout,
    pub by: u8,
    pub record: &'a mut R,
}

impl<M: Memory, R: Record> Port<'_, M, R> {
    fn note(&mut self, verb: Verb, answer: Answer) {
        self.record.note(self.by, verb, answer);
    }

    /// Loads a word that tells a number.
    fn number(&mut self, verb: Verb, at: usize) -> u64 {
        let word = self.memory.load(at);
        self.note(verb, Answer::Number(word));
        word
    }

    fn put(&mut self, verb: Verb, at: usize, expected: u64, word: u64) -> bool {
        let landed = self.memory.exchange(at, expected, word).is_ok();
        self.note(verb, if landed { Answer::Done } else { Answer::Missed });
        landed
    }

    pub fn ask(&mut self, p: u8) {
        self.memory.add(self.layout.ask(p, self.by));
        self.note(Verb::Ask(p), Answer::Done);
    }

    pub fn fence(&mut self, p: u8) -> u64 {
        let word = self.memory.load(self.layout.fence(p));
        self.note(Verb::Fence(p), Answer::Fence(word));
        word
    }

    /// The word of the minimum.
    pub fn min(&mut self, p: u8) -> u64 {
        let word = self.memory.load(self.layout.minimum(p));
        self.note(Verb::Min(p), Answer::Number(words::number_in_minimum(word).into()));
        word
    }

    /// Names the target in the fence, if the fence is still the word that is expected.
    pub fn enter(&mut self, p: u8, expected: &mut u64, target: u64) -> bool {
        let verb = match target {
            words::MINIMUM => Verb::EnterMin(p),
            place => Verb::EnterPlace(p, place as u16 - 2),
        };
        let word = words::with_target(*expected, target);
        match self.memory.exchange(self.layout.fence(p), *expected, word) {
            Ok(()) => {
                *expected = word;
                self.note(verb, Answer::Entered);
                true
            }
            Err(found) => {
                self.note(verb, Answer::Lost(found));
                false
            }
        }
    }

    pub fn put_min(&mut self, p: u8, expected: &mut u64, number: u32) -> bool {
        let word = words::minimum_word(*expected, number);
        let landed = self.put(Verb::PutMin(p, number), self.layout.minimum(p), *expected, word);
        if landed {
            *expected = word;
        }
        landed
    }

    fn place(&self, i: u16) -> (usize, u64) {
        let (position, ring) = (usize::from(i), self.layout.ring);
        (position % ring, (position / ring) as u64)
    }

    /// The slot of a position, and what it shows.
    pub fn look(&mut self, p: u8, i: u16) -> (u64, Seen) {
        let (place, lap) = self.place(i);
        let word = self.memory.load(self.layout.slot(p, place));
        let seen = words::seen_in(word, lap);
        self.note(
            Verb::Look(p, i),
            match seen {
                Seen::Empty => Answer::Empty,
                Seen::Past => Answer::Past,
                Seen::Entry { number, value } => Answer::Entry(number, value),
            },
        );
        (word, seen)
    }

    pub fn enter_place(&mut self, p: u8, fence: &mut u64, i: u16) -> bool {
        let (place, _) = self.place(i);
        self.enter(p, fence, words::place_target(place))
    }

    pub fn put_slot(&mut self, p: u8, expected: u64, i: u16, number: u32, value: u16) -> bool {
        let (place, lap) = self.place(i);
        let word = words::slot_word(expected, lap, number, value);
        self.put(Verb::PutSlot(p, i, number, value), self.layout.slot(p, place), expected, word)
    }

    pub fn fuo(&mut self, p: u8) -> u16 {
        self.number(Verb::Fuo(p), self.layout.fuo(p)) as u16
    }

    pub fn raise_fuo(&mut self, p: u8, to: u16) {
        self.memory.raise(self.layout.fuo(p), to.into());
        self.note(Verb::RaiseFuo(p, to), Answer::Done);
    }

    pub fn head(&mut self, p: u8) -> u16 {
        self.number(Verb::Head(p), self.layout.head(p)) as u16
    }

    pub fn read_beat(&mut self, q: u8) -> u64 {
        self.number(Verb::ReadBeat(q), self.layout.beat(q))
    }

    pub fn write_row(&mut self, row: u16, k: u8, word: u64) {
        let value = u16::from(self.by) << 12 | row;
        self.memory.store(self.layout.row(value, k.into()), word);
        self.note(Verb::WriteRow(row, k, word), Answer::Done);
    }

    pub fn read_row(&mut self, value: u16, k: u8) -> u64 {
        self.number(Verb::ReadRow(value, k), self.layout.row(value, k.into()))
    }

    pub fn raise_head(&mut self, to: u16) {
        self.memory.raise(self.layout.head(self.by), to.into());
        self.note(Verb::RaiseHead(to), Answer::Done);
    }

    pub fn beat(&mut self) {
        self.memory.add(self.layout.beat(self.by));
        self.note(Verb::Beat, Answer::Done);
    }

    pub fn read_ask(&mut self, w: u8) -> u64 {
        self.number(Verb::ReadAsk(w), self.layout.ask(self.by, w))
    }

    /// The own fence before.
    pub fn close(&mut self) -> u64 {
        let before = self.memory.set_bits(self.layout.fence(self.by), words::CLOSING);
        self.note(Verb::Close, Answer::Fence(before));
        before
    }

    /// Where the word stands that the closed fence names.
    fn target(&self, closed: u64) -> usize {
        match words::target_of(closed) {
            words::MINIMUM => self.layout.minimum(self.by),
            place => self.layout.slot(self.by, place as usize - 2),
        }
    }

    pub fn look_target(&mut self, closed: u64) -> u64 {
        let word = self.memory.load(self.target(closed));
        self.note(Verb::LookTarget, Answer::Done);
        word
    }

    /// Raises the stamp of the word, if no put came since it was looked at.
    pub fn drain(&mut self, closed: u64, seen: u64) {
        let _ = self.memory.exchange(self.target(closed), seen, seen + words::STAMP);
        self.note(Verb::Drain, Answer::Done);
    }

    pub fn grant(&mut self, w: u8, number: u64) {
        self.memory.swap(self.layout.fence(self.by), words::fence_word(number, w));
        self.note(Verb::Grant(w), Answer::Done);
    }
}
