//! The host of a region, and the failure detector: two small machines of the background.
use crate::port::{Port, Record};
use crate::words::{self, Memory};

/// Whom the host lets write its region.
#[derive(Default)]
pub struct Host {
    seen: [u64; 7],
    /// The replicas that have an ask which wasn't served, the owner among them.
    waiting: u32,
    owner: Option<u8>,
    grants: u64,
    /// The fence that was closed, until the next grant.
    closed: Option<u64>,
    /// The word that the last look at the target found.
    target: Option<u64>,
}

impl Host {
    pub fn read_ask<M: Memory, R: Record>(&mut self, w: u8, port: &mut Port<M, R>) {
        let (at, count) = (usize::from(w), port.read_ask(w));
        if self.seen[at] == count {
            return;
        }
        self.seen[at] = count;
        if self.owner != Some(w) || self.closed.is_some() {
            self.waiting |= 1 << w;
        }
    }

    /// The least replica that waits, and isn't the owner.
    fn next(&self) -> Option<u8> {
        let others = match self.owner {
            Some(owner) => self.waiting & !(1 << owner),
            None => self.waiting,
        };
        if others == 0 {
            None
        } else {
            Some(others.trailing_zeros() as u8)
        }
    }

    /// Makes the verb of one of the four places of the host, if it is due.
    pub fn turn<M: Memory, R: Record>(&mut self, place: u8, port: &mut Port<M, R>) -> bool {
        let named = self.closed.filter(|&closed| words::target_of(closed) != words::NO_TARGET);
        match (place, named, self.target) {
            (0, _, _) if self.closed.is_none() && self.next().is_some() => {
                self.closed = Some(port.close());
            }
            (1, Some(closed), _) => self.target = Some(port.look_target(closed)),
            (2, Some(closed), Some(seen)) => port.drain(closed, seen),
            (3, _, _) if self.closed.is_some() => self.grant(port),
            _ => return false,
        }
        true
    }

    fn grant<M: Memory, R: Record>(&mut self, port: &mut Port<M, R>) {
        let Some(w) = self.next() else { return port.beat() };
        self.grants += 1;
        port.grant(w, self.grants);
        self.owner = Some(w);
        self.waiting &= !(1 << w);
        (self.closed, self.target) = (None, None);
    }
}

/// Scores of the other replicas. Who leads by them is kept, and changes with a score only.
pub struct Scores {
    id: u8,
    others: u32,
    counts: [u64; 7],
    scores: [u8; 7],
    /// The replicas that count as failed.
    pub failed: u32,
    /// The least replica that doesn't.
    pub leader: u8,
    /// Of each replica, how many reads in a row found the same count.
    found: [u32; 7],
}

impl Scores {
    pub fn new(replicas: u8, id: u8) -> Scores {
        let others = ((1 << replicas) - 1) & !(1 << id);
        Scores { id, others, counts: [0; 7], scores: [15; 7], failed: 0, leader: 0, found: [0; 7] }
    }

    /// Reads the beats of a replica: how many reads before, in a row, found the same count.
    pub fn read<M: Memory, R: Record>(&mut self, q: u8, port: &mut Port<M, R>) -> u32 {
        let (at, count) = (usize::from(q), port.read_beat(q));
        let (found, bit) = (&mut self.found[at], 1 << q);
        let is_new = self.counts[at] != count;
        let silence = if is_new { 0 } else { *found };
        *found = silence + 1;
        self.counts[at] = count;
        let score = &mut self.scores[at];
        *score = if is_new { (*score + 1).min(15) } else { score.saturating_sub(1) };
        let failed = match *score {
            0 | 1 => self.failed | bit,
            2..=6 => self.failed,
            _ => self.failed & !bit,
        };
        if failed != self.failed {
            self.failed = failed;
            self.leader = (self.others & !failed | 1 << self.id).trailing_zeros() as u8;
        }
        silence
    }
}
