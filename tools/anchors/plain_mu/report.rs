//! The report of a run, and its trace.
use crate::job::Job;
use crate::judge::Verdict;
use crate::known::mark_of;
use crate::port::{Answer, Event, Verb};
use crate::replay::Result;
use crate::replica::{rows_of, End};
use crate::store::Reply;
use crate::words;
use std::io::Write;

/// Writes into memory, which doesn't fail.
macro_rules! tell {
    ($out:expr, $($rest:tt)*) => { drop(write!($out, $($rest)*)) };
}

/// 0 if all commands are in the longest log, else 3.
pub fn status(job: &Job, results: &[Result]) -> u8 {
    let most = results.iter().map(|result| result.replies.len()).max();
    if most == Some(job.rows.len()) {
        0
    } else {
        3
    }
}

/// Writes the report, and tells the status.
pub fn report(out: &mut Vec<u8>, job: &Job, results: &[Result]) -> u8 {
    tell!(out, "report {}\n", job.version);
    for (id, result) in results.iter().enumerate() {
        tell!(out, "log {id} entries {} commits {} ", result.log.len(), result.commits);
        match result.end {
            End::Stopped => tell!(out, "stopped\n"),
            End::Budget => tell!(out, "budget\n"),
            End::Outrun { region, position } => tell!(out, "outrun {region} {position}\n"),
            End::Finished => tell!(out, "finished\n"),
        }
        for (i, &value) in result.log.iter().enumerate() {
            entry(out, job, i, value);
        }
    }
    replies(out, job, results);
    let status = status(job, results);
    tell!(out, "status {status}\n");
    status
}

fn entry(out: &mut Vec<u8>, job: &Job, i: usize, value: u16) {
    if let Some(q) = mark_of(value) {
        tell!(out, "{i} gone {q}\n");
        return;
    }
    for row in rows_of(job, value) {
        tell!(out, "{i} ");
        sender(out, job, row);
        tell!(out, " {}\n", job.lines[usize::from(row)]);
    }
}

/// The client and the number of the command of a row.
fn sender(out: &mut Vec<u8>, job: &Job, row: u16) {
    let client = job.clients[usize::from(row)];
    tell!(out, "{client}.{}", row - job.spans[usize::from(client)].0 + 1);
}

/// The replies of the longest log, the first at a tie.
fn replies(out: &mut Vec<u8>, job: &Job, results: &[Result]) {
    let longest = results.iter().rev().max_by_key(|result| result.log.len());
    let Some(longest) = longest else { return };
    tell!(out, "replies {}\n", longest.replies.len());
    let batches = longest.log.iter().filter(|&&value| mark_of(value).is_none());
    let rows = batches.flat_map(|&value| rows_of(job, value));
    for (row, reply) in rows.zip(&longest.replies) {
        sender(out, job, row);
        match reply {
            Reply::Done => tell!(out, " done\n"),
            Reply::None => tell!(out, " none\n"),
            Reply::Value(text) | Reply::Kept(text) => {
                let name = if matches!(reply, Reply::Value(_)) { "value" } else { "kept" };
                tell!(out, " {name} ");
                text.write(out);
                out.push(b'\n');
            }
        }
    }
}

/// Tells how many events were read: status 0.
pub fn count(out: &mut Vec<u8>, events: usize) -> u8 {
    tell!(out, "read {events}\n");
    0
}

/// Writes a verdict on so many events: status 0 if they are legal, else 7.
pub fn verdict(out: &mut Vec<u8>, events: usize, verdict: &Verdict) -> u8 {
    match *verdict {
        Verdict::Legal => {
            tell!(out, "legal {events}\n");
            return 0;
        }
        Verdict::NotAllowed { index } => tell!(out, "illegal {index} not allowed\n"),
        Verdict::Expected { index, answer: expected } => {
            tell!(out, "illegal {index} expected ");
            answer(out, expected);
            out.push(b'\n');
        }
    }
    7
}

/// Writes the job as it was given, and the events: status 0.
pub fn trace(out: &mut Vec<u8>, job: &Job, text: &str, events: &[Event]) -> u8 {
    job_lines(out, job, text);
    for event in events {
        number(out, event.by.into());
        out.push(b' ');
        verb(out, event.verb);
        out.extend(b" = ");
        answer(out, event.answer);
        out.push(b'\n');
    }
    tell!(out, "end\n");
    0
}

/// Writes a number: by itself, since `write!` would be most of what a trace costs.
fn number(out: &mut Vec<u8>, of: u64) {
    let (mut digits, mut at, mut left) = ([0; 20], 20, of);
    loop {
        at -= 1;
        digits[at] = b'0' + (left % 10) as u8;
        left /= 10;
        if left == 0 {
            break;
        }
    }
    out.extend_from_slice(&digits[at..]);
}

/// Writes a name, and each number after a space.
fn named<const N: usize>(out: &mut Vec<u8>, name: &str, numbers: [u64; N]) {
    out.extend_from_slice(name.as_bytes());
    for of in numbers {
        out.push(b' ');
        number(out, of);
    }
}

/// The job in the order of its grammar: up to the last client with a command, and stops before pauses.
fn job_lines(out: &mut Vec<u8>, job: &Job, text: &str) {
    let is_head = |line: &&str| !line.starts_with("client") && *line != "script" && *line != "end";
    for line in text.lines().take_while(is_head) {
        tell!(out, "{line}\n");
    }
    for (client, &(first, after)) in job.spans[..job.sending().into()].iter().enumerate() {
        tell!(out, "client {client}\n");
        for line in &job.lines[first.into()..after.into()] {
            tell!(out, "{line}\n");
        }
    }
    if job.scripts.iter().any(|script| script.stop.is_some() || !script.pauses.is_empty()) {
        tell!(out, "script\n");
    }
    for (id, script) in job.scripts.iter().enumerate() {
        if let Some(steps) = script.stop {
            tell!(out, "stop {id} {steps}\n");
        }
    }
    for (id, script) in job.scripts.iter().enumerate() {
        for (steps, rounds) in &script.pauses {
            tell!(out, "pause {id} {steps} {rounds}\n");
        }
    }
    tell!(out, "end\n");
}

fn verb(out: &mut Vec<u8>, verb: Verb) {
    match verb {
        Verb::Ask(p) => named(out, "ask", [p.into()]),
        Verb::Fence(p) => named(out, "fence", [p.into()]),
        Verb::Min(p) => named(out, "min", [p.into()]),
        Verb::EnterMin(p) => {
            named(out, "enter", [p.into()]);
            out.extend(b" min");
        }
        Verb::EnterPlace(p, s) => {
            named(out, "enter", [p.into()]);
            named(out, " place", [s.into()]);
        }
        Verb::PutMin(p, b) => named(out, "putmin", [p.into(), b.into()]),
        Verb::Look(p, i) => named(out, "look", [p.into(), i.into()]),
        Verb::PutSlot(p, i, b, v) => named(out, "putslot", [p.into(), i.into(), b.into(), v.into()]),
        Verb::Fuo(p) => named(out, "fuo", [p.into()]),
        Verb::RaiseFuo(p, u) => named(out, "raisefuo", [p.into(), u.into()]),
        Verb::Head(p) => named(out, "head", [p.into()]),
        Verb::ReadBeat(q) => named(out, "readbeat", [q.into()]),
        Verb::WriteRow(j, k, x) => named(out, "writerow", [j.into(), k.into(), x]),
        Verb::ReadRow(v, k) => named(out, "readrow", [v.into(), k.into()]),
        Verb::RaiseHead(h) => named(out, "raisehead", [h.into()]),
        Verb::Beat => named(out, "beat", []),
        Verb::ReadAsk(w) => named(out, "readask", [w.into()]),
        Verb::Close => named(out, "close", []),
        Verb::LookTarget => named(out, "looktarget", []),
        Verb::Drain => named(out, "drain", []),
        Verb::Grant(w) => named(out, "grant", [w.into()]),
    }
}

fn answer(out: &mut Vec<u8>, answer: Answer) {
    match answer {
        Answer::Done => named(out, "done", []),
        Answer::Missed => named(out, "missed", []),
        Answer::Entered => named(out, "entered", []),
        Answer::Lost(word) => fence(out, "lost", word),
        Answer::Fence(word) => fence(out, "fence", word),
        Answer::Number(x) => number(out, x),
        Answer::Empty => named(out, "empty", []),
        Answer::Past => named(out, "past", []),
        Answer::Entry(b, v) => named(out, "entry", [b.into(), v.into()]),
    }
}

fn fence(out: &mut Vec<u8>, name: &str, word: u64) {
    tell!(out, "{name} ");
    match words::owner_of(word) {
        words::NOBODY => tell!(out, "none"),
        owner => tell!(out, "{owner}"),
    }
    let state = if words::is_closing(word) { "closing" } else { "open" };
    tell!(out, " {} {state} ", words::grant_of(word));
    match words::target_of(word) {
        words::NO_TARGET => tell!(out, "none"),
        words::MINIMUM => tell!(out, "min"),
        place => tell!(out, "place {}", place - 2),
    }
}
