//! A run on threads whose events are kept in the order in which they were made: each step takes its
//! number while no other one is made. A thread yields if it reads beats that it knows.
use crate::job::Job;
use crate::port::{Answer, Event, Port, Record, Verb};
use crate::replay::layout_of;
use crate::replica::Replica;
use crate::words::{Layout, Memory, Shared};
use std::cell::Cell;
use std::sync::atomic::{AtomicBool, AtomicU64, Ordering::SeqCst};
use std::thread;

/// The words of all threads, and how many steps were made on them.
struct Counted {
    words: Shared,
    is_taken: AtomicBool,
    steps: AtomicU64,
}

/// The access of one thread: it knows the number of its last step.
struct Access<'a> {
    counted: &'a Counted,
    last: &'a Cell<u64>,
}

impl Access<'_> {
    /// Makes a step while no other one is made.
    fn step<T>(&self, make: impl FnOnce(&Shared) -> T) -> T {
        while self.counted.is_taken.swap(true, SeqCst) {
            std::hint::spin_loop();
        }
        let made = make(&self.counted.words);
        self.last.set(self.counted.steps.fetch_add(1, SeqCst));
        self.counted.is_taken.store(false, SeqCst);
        made
    }
}

impl Memory for Access<'_> {
    fn load(&self, at: usize) -> u64 {
        self.step(|words| words.load(at))
    }
    fn store(&self, at: usize, word: u64) {
        self.step(|words| words.store(at, word));
    }
    fn add(&self, at: usize) {
        self.step(|words| words.add(at));
    }
    fn raise(&self, at: usize, to: u64) {
        self.step(|words| words.raise(at, to));
    }
    fn set_bits(&self, at: usize, bits: u64) -> u64 {
        self.step(|words| words.set_bits(at, bits))
    }
    fn swap(&self, at: usize, word: u64) -> u64 {
        self.step(|words| words.swap(at, word))
    }
    fn exchange(&self, at: usize, expected: u64, word: u64) -> Result<(), u64> {
        self.step(|words| words.exchange(at, expected, word))
    }
}

/// The events of one thread, with the numbers of their steps.
struct Numbered<'a> {
    events: Vec<(u64, Event)>,
    last: &'a Cell<u64>,
}

impl Record for Numbered<'_> {
    fn note(&mut self, by: u8, verb: Verb, answer: Answer) {
        self.events.push((self.last.get(), Event { by, verb, answer }));
    }
}

/// The turns of one replica until it has ended: its events.
fn drive(mut replica: Replica, counted: &Counted, layout: Layout) -> Vec<(u64, Event)> {
    let (by, last) = (replica.id, Cell::new(0));
    let memory = Access { counted, last: &last };
    let mut record = Numbered { events: Vec::with_capacity(replica.job.budget as usize), last: &last };
    while replica.turn(&mut Port { memory: &memory, layout, by, record: &mut record }).is_none() {
        if replica.silence > 0 {
            thread::yield_now();
        }
    }
    record.events
}

/// Lets all replicas go at once, and waits until each has ended: their events in order.
pub fn events(job: &Job) -> Vec<Event> {
    let layout = layout_of(job);
    let words = Shared(layout.first_words().map(AtomicU64::new).collect());
    let counted = Counted { words, is_taken: AtomicBool::new(false), steps: AtomicU64::new(0) };
    let replicas: Vec<Replica> = (0..job.replicas).map(|id| Replica::new(job, id, true)).collect();
    let mut events = thread::scope(|scope| {
        let start = |replica| {
            let counted = &counted;
            scope.spawn(move || drive(replica, counted, layout))
        };
        let threads: Vec<_> = replicas.into_iter().map(start).collect();
        let ended = threads.into_iter().flat_map(|thread| thread.join().expect("a replica's thread ends"));
        ended.collect::<Vec<_>>()
    });
    events.sort_unstable_by_key(|&(number, _)| number);
    events.into_iter().map(|(_, event)| event).collect()
}
