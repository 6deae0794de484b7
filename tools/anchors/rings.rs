//! An anchor for `mu run`: a leader sends each command of the job to each follower through a ring of
//! its own, and goes on once a majority, itself among it, has applied it. All replicas apply all
//! commands. Nobody could take over here if the leader stopped: this is what sending alone costs.
//!
//!     rings < JOB        tells the nanoseconds from the first command to the last one applied
mod anchor;
#[allow(dead_code)]
#[path = "plain_mu/job.rs"]
mod job;
#[allow(dead_code)]
#[path = "plain_mu/store.rs"]
mod store;

use job::{Job, Row};
use std::sync::atomic::{
    AtomicU64, AtomicUsize,
    Ordering::{Acquire, Relaxed, Release},
};
use std::sync::Barrier;
use std::thread;
use store::Store;

/// How many commands a ring holds.
const PLACES: usize = 64;
/// After so many looks in a row that found nothing new a thread yields, since there may be more
/// threads than processors.
const LOOKS: u32 = 200;

/// Something on cache lines of its own.
#[repr(align(128))]
#[derive(Default)]
struct Lines<T>(T);

/// A ring of one sender and one receiver.
struct Ring {
    sent: Lines<AtomicUsize>,
    applied: Lines<AtomicUsize>,
    places: Vec<[AtomicU64; 12]>,
}

impl Ring {
    fn new() -> Ring {
        let place = || std::array::from_fn(|_| AtomicU64::new(0));
        Ring {
            sent: Lines::default(),
            applied: Lines::default(),
            places: (0..PLACES).map(|_| place()).collect(),
        }
    }

    /// Sends command number `i`, for which there has to be room.
    fn send(&self, i: usize, row: &Row) {
        for (place, word) in self.places[i % PLACES].iter().zip(row) {
            place.store(*word, Relaxed);
        }
        self.sent.0.store(i + 1, Release);
    }

    /// Waits for command number `i`.
    fn receive(&self, i: usize) -> Row {
        wait_until(|| self.sent.0.load(Acquire) > i);
        std::array::from_fn(|k| self.places[i % PLACES][k].load(Relaxed))
    }

    fn has_applied(&self, count: usize) -> bool {
        self.applied.0.load(Acquire) >= count
    }
}

fn wait_until(mut is_so: impl FnMut() -> bool) {
    let mut looks = 0;
    while !is_so() {
        looks += 1;
        if looks % LOOKS == 0 {
            thread::yield_now();
        } else {
            std::hint::spin_loop();
        }
    }
}

fn lead(commands: &[Row], rings: &[Ring]) {
    let mut store = Store::with_room(commands.len());
    for (i, row) in commands.iter().enumerate() {
        for ring in rings {
            wait_until(|| ring.has_applied((i + 1).saturating_sub(PLACES)));
            ring.send(i, row);
        }
        store.apply(row);
        let acknowledged = || rings.iter().filter(|ring| ring.has_applied(i + 1)).count();
        wait_until(|| acknowledged() >= rings.len().div_ceil(2));
    }
}

fn follow(commands: usize, ring: &Ring) {
    let mut store = Store::with_room(commands);
    for i in 0..commands {
        store.apply(&ring.receive(i));
        ring.applied.0.store(i + 1, Release);
    }
}

fn replicate(job: &Job) {
    let rings: Vec<Ring> = (1..job.replicas).map(|_| Ring::new()).collect();
    let start = Barrier::new(usize::from(job.replicas));
    let (rings, start) = (rings.as_slice(), &start);
    let times = thread::scope(|scope| {
        let mut threads: Vec<_> = Vec::new();
        for ring in rings {
            threads.push(scope.spawn(move || {
                start.wait();
                anchor::timed(|| follow(job.rows.len(), ring))
            }));
        }
        start.wait();
        let leader = anchor::timed(|| lead(&job.rows, rings));
        let followers = threads.into_iter().map(|thread| thread.join().expect("no thread panics"));
        followers.chain([leader]).collect()
    });
    anchor::tell(times);
}

fn main() -> std::process::ExitCode {
    anchor::with_job(replicate)
}
