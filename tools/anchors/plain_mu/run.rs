//! A run: each replica has its own thread, over atomic words.
use crate::job::Job;
use crate::port::{Nothing, Port};
use crate::replay::{layout_of, Result};
use crate::replica::Replica;
use crate::words::{Layout, Shared};
use std::sync::atomic::AtomicU64;
use std::thread;
use std::time::Duration;

/// Lets the other threads on for a silence and for idle cycles, as `docs/THREADS.md` tells.
fn rest(silence: u32, idle_cycles: u32) {
    if silence == 1 {
        thread::yield_now();
    }
    let for_silence = match silence {
        2..=6 => 4u64.pow(silence - 2),
        7..=14 => 512,
        _ => 0,
    };
    let for_idle_cycles = match idle_cycles {
        0..=3 => 0,
        4..=7 => 4u64.pow(idle_cycles - 2),
        _ => 2048,
    };
    let microseconds = for_idle_cycles.max(for_silence);
    if microseconds > 0 {
        thread::sleep(Duration::from_micros(microseconds));
    }
}

/// The turns of one replica until it has ended.
fn drive(mut replica: Replica, memory: &Shared, layout: Layout) -> Result {
    let by = replica.id;
    let mut pauses = replica.script().pauses.iter().peekable();
    loop {
        if let Some((_, rounds)) = pauses.next_if(|pause| pause.0 == replica.steps) {
            (0..*rounds).for_each(|_| thread::yield_now());
        }
        rest(replica.silence, replica.idle_ended);
        let mut port = Port { memory, layout, by, record: &mut Nothing };
        if let Some(end) = replica.turn(&mut port) {
            return Result::of(replica, end);
        }
    }
}

/// Lets all replicas go at once, and waits until each has ended.
pub fn run(job: &Job) -> Vec<Result> {
    let layout = layout_of(job);
    let memory = Shared(layout.first_words().map(AtomicU64::new).collect());
    let replicas: Vec<Replica> = (0..job.replicas).map(|id| Replica::new(job, id, true)).collect();
    thread::scope(|scope| {
        let start = |replica| {
            let memory = &memory;
            scope.spawn(move || drive(replica, memory, layout))
        };
        let threads: Vec<_> = replicas.into_iter().map(start).collect();
        threads.into_iter().map(|thread| thread.join().expect("a replica's thread ends")).collect()
    })
}
