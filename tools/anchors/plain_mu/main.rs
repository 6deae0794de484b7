//! The protocol of `docs/PROTOCOL.md` in plain Rust, without proofs: a second, independent program
//! that has to print what `mu` prints of a replay, and a measure of what it costs.
//!
//!     plain_mu replay < JOB     the report of a replay
//!     plain_mu keep < JOB       the same, with all events kept in a list
//!     plain_mu trace < JOB      the trace of a replay
//!     plain_mu eager < JOB      the report of a replay with the replicas of a run
//!     plain_mu eager trace < JOB    its trace
//!     plain_mu enough < JOB     by which step it is committed and finished, or why not
//!     plain_mu run < JOB        the report of a run on threads
//!     plain_mu run-trace < JOB  the trace of a run on threads
//!     plain_mu schedule SEED RATIO WILD GOING < JOB   the trace of eager replicas by a random
//!                               schedule: after WILD turns it is fair, and the digits GOING go on
//!     plain_mu read < TRACE     how many events a trace has; nothing is judged
//!     plain_mu copy < TRACE     the trace as it was read
//!     plain_mu check < TRACE    whether each event was allowed and found what it had to find
mod enough;
mod host;
mod job;
mod judge;
mod kept_run;
mod known;
mod leader;
mod part;
mod place;
mod port;
mod reader;
mod regions;
mod replay;
mod replica;
mod report;
mod run;
mod schedule;
mod store;
mod words;

use job::Job;
use std::io::{Read, Write};
use std::process::ExitCode;

/// The statuses of `docs/FORMATS.md`.
const USAGE: u8 = 1;
const REFUSED: u8 = 2;
const READ_FAULT: u8 = 4;
const WRITE_FAULT: u8 = 5;

/// Reads and tells: the status.
fn answer(command: &str, text: &str, out: &mut Vec<u8>) -> u8 {
    if matches!(command, "read" | "copy" | "check") {
        let Some((job, job_text, events)) = reader::read(text) else { return REFUSED };
        return match command {
            "check" => report::verdict(out, events.len(), &judge::judge(&job, &events)),
            "copy" => report::trace(out, &job, job_text, &events),
            _ => report::count(out, events.len()),
        };
    }
    match job::read(text) {
        Some(job) => run(command, text, &job, out),
        None => REFUSED,
    }
}

/// Runs a job: the status.
fn run(command: &str, text: &str, job: &Job, out: &mut Vec<u8>) -> u8 {
    let room = usize::from(job.replicas) * job.budget as usize;
    match command {
        "replay" => report::report(out, job, &replay::replay(job, false, &mut port::Nothing)),
        "eager" => report::report(out, job, &replay::replay(job, true, &mut port::Nothing)),
        "run" => report::report(out, job, &run::run(job)),
        "enough" => enough::enough(out, job),
        "keep" => report::report(out, job, &replay::replay(job, false, &mut Vec::with_capacity(room))),
        "trace" | "eager trace" => {
            let mut events = Vec::with_capacity(room);
            let results = replay::replay(job, command == "eager trace", &mut events);
            report::trace(out, job, text, &events);
            report::status(job, &results)
        }
        "run-trace" => report::trace(out, job, text, &kept_run::events(job)),
        "schedule" => match schedule::Plan::read(&std::env::args().skip(2).collect::<Vec<_>>(), job) {
            Some(plan) => report::trace(out, job, text, &schedule::events(job, &plan)),
            None => USAGE,
        },
        _ => USAGE,
    }
}

fn main() -> ExitCode {
    let words = std::env::args().skip(1).collect::<Vec<_>>();
    let command = match words.first() {
        // What follows says how the turns are taken.
        Some(first) if first == "schedule" => first.clone(),
        _ => words.join(" "),
    };
    let (mut text, mut out) = (String::new(), Vec::new());
    let status = match std::io::stdin().read_to_string(&mut text) {
        Ok(_) => answer(&command, &text, &mut out),
        Err(_) => READ_FAULT,
    };
    match status {
        USAGE => eprintln!("usage: plain_mu replay | eager | keep | trace | eager trace | enough | run | read | copy | check"),
        REFUSED => eprintln!("the input isn't what the command reads"),
        READ_FAULT => eprintln!("the input can't be read as text"),
        _ => {}
    }
    match std::io::stdout().write_all(&out) {
        Ok(()) => ExitCode::from(status),
        Err(_) => ExitCode::from(WRITE_FAULT),
    }
}
