//! What the anchors on threads share: a job from standard input, and the time that they tell.
use crate::job::{self, Job};
use std::io::Read;
use std::process::ExitCode;
use std::time::Instant;

/// Does the work, and tells when it began and ended.
pub fn timed(work: impl FnOnce()) -> (Instant, Instant) {
    let begun = Instant::now();
    work();
    (begun, Instant::now())
}

/// Tells the time from the first beginning to the last end.
pub fn tell(times: Vec<(Instant, Instant)>) {
    let begun = times.iter().map(|time| time.0).min();
    let ended = times.iter().map(|time| time.1).max();
    if let (Some(begun), Some(ended)) = (begun, ended) {
        println!("nanoseconds {}", (ended - begun).as_nanos());
    }
}

/// Reads the job, and replicates its commands.
pub fn with_job(replicate: impl FnOnce(&Job)) -> ExitCode {
    let mut text = String::new();
    let job = match std::io::stdin().read_to_string(&mut text) {
        Ok(_) => job::read(&text),
        Err(_) => None,
    };
    match job {
        Some(job) => {
            replicate(&job);
            ExitCode::SUCCESS
        }
        None => {
            eprintln!("the input isn't a job");
            ExitCode::from(2)
        }
    }
}
