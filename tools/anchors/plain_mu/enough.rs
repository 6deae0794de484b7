//! By which step a job is committed and finished, or why that isn't promised: by the table of `docs/ALIVE.md`.
use crate::job::Job;
use std::io::Write;

/// Writes into memory, which doesn't fail.
macro_rules! tell {
    ($out:expr, $($rest:tt)*) => { drop(write!($out, $($rest)*)) };
}

/// What the numbers are made of.
struct Counts {
    replicas: u64,
    width: u64,
    /// Rows, and marks.
    entries: u64,
    /// A round of the cycle.
    cycle: u64,
    /// The most that a leadership takes from one progress to the next.
    limit: u64,
}

impl Counts {
    fn of(job: &Job) -> Counts {
        let (replicas, width) = (u64::from(job.replicas), u64::from(job.width));
        Counts {
            replicas,
            width,
            entries: job.rows.len() as u64 + u64::from(job.reserve()),
            cycle: 4 * replicas + 44,
            limit: 13 * replicas + 12 * width + 8,
        }
    }
    fn asking(&self) -> u64 {
        34 * self.replicas + 2
    }
    fn calm(&self) -> u64 {
        self.limit * (self.entries + 1) + 6 * self.replicas + 8 * self.replicas * self.entries
    }
    /// Until a replica that is silent is held failed.
    fn failing(&self) -> u64 {
        15 * self.cycle
    }
    /// Until the regions are granted to replica `a`.
    fn granting(&self, a: u64) -> u64 {
        self.asking() + (a + 1) * 2 * self.cycle + 2
    }
    fn known(&self, a: u64) -> u64 {
        self.granting(a) + 2 * self.asking() + 2 * self.calm()
    }
    fn fetched(&self) -> u64 {
        (self.width * self.entries + 1) * 2 * self.cycle
    }
    /// After the last disturbance.
    fn resumed(&self) -> u64 {
        let clearing = (4 * self.replicas + 5) * self.cycle;
        let commits = self.limit * (self.entries + 3) + 18 * self.replicas;
        let waiting = 6 * self.asking() + 2 * (commits + 24 * (self.replicas + 1) * self.entries);
        self.failing() + clearing + 2 * self.cycle + 3 + self.asking() + waiting
    }
    fn paid(&self) -> u64 {
        6 * self.replicas + 8 * (self.replicas + 1) * self.entries
    }
    fn gain(&self) -> u64 {
        2 * self.cycle + 2
    }
    /// Each region is brought up.
    fn joined(&self) -> u64 {
        6 * (self.limit + self.paid()) + 8
    }
    /// In any ring, if nobody stops.
    fn any_ring(&self) -> u64 {
        let settled = self.known(0) - 2 * self.calm() + self.gain() + self.joined() + 2 * (self.limit + self.paid());
        let each = 2 * self.replicas + self.gain() + self.cycle + 2 + 2 * self.limit;
        settled + self.entries * each + (self.width + 1) * self.entries * self.gain()
    }
    /// In any ring, after the last stop, if replica `a` is the least that goes on.
    fn any_ring_after(&self, a: u64) -> u64 {
        let each = 4 * self.limit + self.gain() + self.cycle + 2;
        self.granting(a) + 2 * self.asking() + 2 * (self.replicas + 2)
            + self.entries * each
            + ((self.width + 1) * self.entries + 1) * self.gain()
            + 4 * self.paid()
    }
    /// All follow the leader.
    fn followed(&self) -> u64 {
        let learnt = ((self.width + 1) * self.entries + 1) * 2 * self.cycle;
        self.joined() + 3 * self.cycle + learnt + 2
    }
    /// The heads of all others are read.
    fn read_heads(&self) -> u64 {
        self.replicas * self.cycle
    }
}

/// What the lines of a script say.
struct Lines {
    /// Fewer than half are stopped.
    is_majority_left: bool,
    has_stop: bool,
    has_pause: bool,
    /// The least replica that no line stops.
    least: u64,
    last_stop: u64,
    /// The last stop of a replica below the least that goes on.
    last_below: u64,
    /// The round after which nothing disturbs.
    quiet: u64,
}

impl Lines {
    fn of(job: &Job) -> Lines {
        let stops: Vec<Option<u32>> = job.scripts.iter().map(|script| script.stop).collect();
        let least = stops.iter().position(Option::is_none).unwrap_or(stops.len());
        let last = |stops: &[Option<u32>]| u64::from(stops.iter().flatten().copied().max().unwrap_or(0));
        let pauses = || job.scripts.iter().map(|script| &script.pauses);
        let paused = pauses().map(|list| list.iter().map(|pause| u64::from(pause.1)).sum::<u64>()).max().unwrap_or(0);
        let last_pause = u64::from(pauses().flatten().map(|pause| pause.0).max().unwrap_or(0));
        Lines {
            is_majority_left: stops.iter().flatten().count() * 2 < stops.len(),
            has_stop: stops.iter().any(Option::is_some),
            has_pause: pauses().any(|list| !list.is_empty()),
            least: least as u64,
            last_stop: last(&stops),
            last_below: last(&stops[..least]),
            quiet: last(&stops).max(last_pause) + paused + 1,
        }
    }
}

/// Writes both lines.
pub fn enough(out: &mut Vec<u8>, job: &Job) -> u8 {
    let (counts, lines) = (Counts::of(job), Lines::of(job));
    let room = job.rows.len() as u64 + 2 * u64::from(job.reserve());
    let is_roomy = room <= u64::from(job.ring);
    let budget = u64::from(job.budget);
    let committed = committed(&counts, &lines, is_roomy, job.version);
    one(out, "committed", &committed, room, budget, budget + 1);
    let finished = finished(&counts, &lines, is_roomy, job.version);
    one(out, "finished", &finished, room, budget, budget);
    0
}

/// A number, or a text with the room that it names.
type Promise = Result<u64, &'static str>;

const HALF: &str = "lines stop half of the replicas or more";
const PAUSED: &str = "a line pauses a replica";
const PAUSED_BELOW: &str = "a line pauses a replica, and the ring is below ROOM";
const STOPPED_BELOW: &str = "a line stops a replica in version 1, and the ring is below ROOM";

fn committed(counts: &Counts, lines: &Lines, is_roomy: bool, version: u8) -> Promise {
    match (is_roomy, lines.has_pause) {
        _ if !lines.is_majority_left => Err(HALF),
        (true, true) => Ok(lines.quiet + counts.resumed() + counts.fetched()),
        (true, false) if lines.least == 0 => Ok(counts.known(0)),
        (true, false) => {
            Ok(lines.last_below + counts.failing() + counts.known(lines.least) + counts.fetched())
        }
        (false, true) => Err(PAUSED_BELOW),
        (false, false) if !lines.has_stop => Ok(counts.any_ring()),
        (false, false) if version == 1 => Err(STOPPED_BELOW),
        _ => Ok(lines.last_stop + counts.failing() + counts.any_ring_after(lines.least)),
    }
}

fn finished(counts: &Counts, lines: &Lines, is_roomy: bool, version: u8) -> Promise {
    let all = counts.followed() + counts.read_heads();
    match (is_roomy, lines.has_stop) {
        _ if !lines.is_majority_left => Err(HALF),
        _ if lines.has_pause => Err(PAUSED),
        (true, _) => {
            let failed = lines.last_stop + counts.failing();
            let led = if lines.least == 0 {
                counts.known(0) + counts.gain()
            } else {
                lines.last_below + counts.failing() + counts.known(lines.least)
            };
            Ok(failed.max(led + all))
        }
        (false, false) => Ok(counts.any_ring() + counts.gain() + all),
        (false, true) if version == 1 => Err(STOPPED_BELOW),
        _ => Ok(lines.last_stop + counts.failing() + counts.any_ring_after(lines.least) + all),
    }
}

/// Writes one line. The number is enough if it is below `end`.
fn one(out: &mut Vec<u8>, what: &str, promise: &Promise, room: u64, budget: u64, end: u64) {
    match promise {
        Ok(step) if *step < end => tell!(out, "{what} by step {step}, budget {budget} is shown to be enough\n"),
        Ok(step) => tell!(out, "{what} by step {step} with such a budget, {budget} isn't shown to be enough\n"),
        Err(cause) => {
            tell!(out, "{what}: not promised, {}\n", cause.replace("ROOM", &room.to_string()));
        }
    }
}
