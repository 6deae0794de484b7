//! A replay: the replicas take turns, in rounds.
use crate::job::Job;
use crate::port::{Port, Record};
use crate::replica::{End, Replica};
use crate::words::{Layout, Plain};
use std::cell::Cell;

/// What a replica leaves.
pub struct Result {
    pub log: Vec<u16>,
    pub commits: u16,
    pub end: End,
    pub replies: Vec<crate::store::Reply>,
}

impl Result {
    pub fn of(mut replica: Replica, end: End) -> Result {
        let log = replica.finish().to_vec();
        Result { log, commits: replica.commits, end, replies: replica.applying.replies }
    }
}

/// Where the words of a job stand.
pub fn layout_of(job: &Job) -> Layout {
    Layout { replicas: job.replicas.into(), ring: job.ring.into(), rows: job.rows.len() }
}

/// A replica in its rounds.
struct Seat<'a> {
    replica: Replica<'a>,
    /// The pauses that are still to come.
    pauses: &'a [(u32, u32)],
    waited: u32,
    end: Option<End>,
}

impl Seat<'_> {
    /// Whether the replica is passed over in this round.
    fn is_paused(&mut self) -> bool {
        match self.pauses.first() {
            Some(&(steps, rounds)) if steps == self.replica.steps => {
                self.waited += 1;
                if self.waited <= rounds {
                    return true;
                }
                (self.pauses, self.waited) = (&self.pauses[1..], 0);
                false
            }
            _ => false,
        }
    }
}

/// Lets the replicas take their turns until each has ended.
pub fn replay<R: Record>(job: &Job, eager: bool, record: &mut R) -> Vec<Result> {
    let layout = layout_of(job);
    let memory = Plain(layout.first_words().map(Cell::new).collect());
    let mut seats: Vec<Seat> = (0..job.replicas)
        .map(|id| {
            let replica = Replica::new(job, id, eager);
            Seat { pauses: &replica.script().pauses, replica, waited: 0, end: None }
        })
        .collect();
    let mut going = seats.len();
    while going > 0 {
        for seat in &mut seats {
            if seat.end.is_some() || seat.is_paused() {
                continue;
            }
            let by = seat.replica.id;
            seat.end = seat.replica.turn(&mut Port { memory: &memory, layout, by, record });
            going -= usize::from(seat.end.is_some());
        }
    }
    let end_of = |seat: Seat| seat.end.map(|end| Result::of(seat.replica, end));
    seats.into_iter().filter_map(end_of).collect()
}
