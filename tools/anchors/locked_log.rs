//! An anchor for `mu run`: the replicas share one log and their stores under one lock. Replica 0
//! appends a command of the job in each of its turns, and each replica applies one in each of its own.
//! No replica could stop here without the others noticing: this is what agreement costs without Mu.
//!
//!     locked_log < JOB        tells the nanoseconds from the first command to the last one applied
mod anchor;
#[allow(dead_code)]
#[path = "plain_mu/job.rs"]
mod job;
#[allow(dead_code)]
#[path = "plain_mu/store.rs"]
mod store;

use job::{Job, Row};
use std::sync::{Barrier, Mutex};
use std::thread;
use store::Store;

/// What the lock guards.
struct Replicas {
    log: Vec<Row>,
    /// The store of each replica, and how many commands it has applied.
    stores: Vec<(Store, usize)>,
}

impl Replicas {
    /// A turn of a replica: whether it has applied a command.
    fn turn(&mut self, id: usize, commands: &[Row]) -> bool {
        if id == 0 {
            self.log.push(commands[self.log.len()]);
        }
        let (store, applied) = &mut self.stores[id];
        let Some(row) = self.log.get(*applied) else { return false };
        store.apply(row);
        *applied += 1;
        true
    }
}

fn replicate(job: &Job) {
    let count = usize::from(job.replicas);
    let store = || (Store::with_room(job.rows.len()), 0);
    let replicas = Mutex::new(Replicas {
        log: Vec::with_capacity(job.rows.len()),
        stores: (0..count).map(|_| store()).collect(),
    });
    let start = Barrier::new(count);
    let times = thread::scope(|scope| {
        let drive = |id| {
            let (replicas, start) = (&replicas, &start);
            scope.spawn(move || {
                start.wait();
                anchor::timed(|| {
                    let mut left = job.rows.len();
                    while left > 0 {
                        let applied = replicas.lock().expect("no turn panics").turn(id, &job.rows);
                        left -= usize::from(applied);
                        if !applied {
                            thread::yield_now();
                        }
                    }
                })
            })
        };
        let threads: Vec<_> = (0..count).map(drive).collect();
        threads.into_iter().map(|thread| thread.join().expect("no turn panics")).collect()
    });
    anchor::tell(times);
}

fn main() -> std::process::ExitCode {
    anchor::with_job(replicate)
}
