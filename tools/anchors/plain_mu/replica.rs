//! A replica: its turns, and the cycle of its background.
use crate::host::{Host, Scores};
use crate::job::{Job, Script};
use crate::known::{mark_of, row_in, Applying, Known};
use crate::place::Leader;
use crate::port::{Port, Record};
use crate::words::{Memory, Seen};

/// How a replica ends.
#[derive(Clone, Copy, PartialEq, Eq)]
pub enum End {
    Stopped,
    Budget,
    Outrun { region: u8, position: u16 },
    Finished,
}

pub struct Replica<'a> {
    pub job: &'a Job,
    pub id: u8,
    pub steps: u32,
    /// After how many steps it stops or has spent its budget.
    last_step: u32,
    /// The place in the cycle of the background.
    place: u8,
    pub eager: bool,
    /// One more than the greatest client that has a command, or 1.
    pub sending: u16,
    pub known: Known<'a>,
    pub applying: Applying<'a>,
    pub lead: Leader,
    pub scores: Scores,
    host: Host,
    /// The greatest FUO of each region that was read.
    pub fuos: [u16; 7],
    /// The greatest own FUO that was read or raised.
    pub own_fuo: u16,
    /// One more than the greatest position at which the own log showed an entry.
    shown: u16,
    /// Positions that were put at the own region as known, or learnt there.
    pub filled: Vec<bool>,
    filled_to: u16,
    own_head: u16,
    /// The heads that were read last, and of whom one was read.
    heads: [u16; 7],
    heads_read: u32,
    /// Whose head is read next.
    next_head: u8,
    /// The row that is being read: its last word isn't read yet.
    reading: Option<u16>,
    /// Up to where the entries are whole, as far as an eager replica has seen.
    whole: u16,
    /// How many reads of the beats of another, in a row before the last step, found what it found.
    pub silence: u32,
    /// In how many cycles, in a row, it got nothing done: each ends when the asks of replica 0 are read.
    pub idle_cycles: u32,
    /// How many of these the last step ended: all of them, or none.
    pub idle_ended: u32,
    pub outrun: Option<(u8, u16)>,
    pub commits: u16,
}

impl<'a> Replica<'a> {
    pub fn new(job: &'a Job, id: u8, eager: bool) -> Replica<'a> {
        let stop = job.scripts[usize::from(id)].stop.unwrap_or(u32::MAX);
        Replica {
            job,
            id,
            steps: 0,
            last_step: stop.min(job.budget),
            place: 0,
            eager,
            sending: job.sending().max(1),
            known: Known::new(job),
            applying: Applying::new(job, id),
            lead: Leader::default(),
            scores: Scores::new(job.replicas, id),
            host: Host::default(),
            fuos: [0; 7],
            own_fuo: 0,
            shown: 0,
            filled: vec![false; job.rows.len() + usize::from(job.reserve())],
            filled_to: 0,
            own_head: 0,
            heads: [0; 7],
            heads_read: 0,
            next_head: if id == 0 { 1 } else { 0 },
            reading: None,
            whole: 0,
            silence: 0,
            idle_cycles: 0,
            idle_ended: 0,
            outrun: None,
            commits: 0,
        }
    }

    pub fn script(&self) -> &'a Script {
        &self.job.scripts[usize::from(self.id)]
    }

    /// How the replica has ended, if it has.
    fn end(&self) -> Option<End> {
        if self.steps == self.last_step {
            let stops = self.script().stop == Some(self.steps);
            return Some(if stops { End::Stopped } else { End::Budget });
        }
        if let Some((region, position)) = self.outrun {
            return Some(End::Outrun { region, position });
        }
        match self.known.full {
            Some(full) if self.own_head >= full && self.others_have(full) => Some(End::Finished),
            _ => None,
        }
    }

    fn others_have(&self, full: u16) -> bool {
        (0..self.job.replicas).filter(|&q| q != self.id).all(|q| {
            let has = self.heads_read & 1 << q != 0 && self.heads[usize::from(q)] >= full;
            has || self.scores.failed & 1 << q != 0
        })
    }

    /// Makes one step, or tells how the replica has ended.
    pub fn turn<M: Memory, R: Record>(&mut self, port: &mut Port<M, R>) -> Option<End> {
        if let Some(end) = self.end() {
            return Some(end);
        }
        let is_background = self.steps & 1 == 0;
        self.steps += 1;
        self.silence = 0;
        self.idle_ended = 0;
        if is_background {
            let place = self.place;
            let places = 2 * self.job.replicas + 22;
            self.place = if place + 1 == places { 0 } else { place + 1 };
            self.background(place, port);
        } else {
            self.replicate(port);
        }
        None
    }

    fn background<M: Memory, R: Record>(&mut self, place: u8, port: &mut Port<M, R>) {
        let n = self.job.replicas;
        if place == 0 {
            return port.beat();
        }
        if place < n {
            let q = if place <= self.id { place - 1 } else { place };
            self.silence = self.scores.read(q, port);
            return;
        }
        if place == n {
            self.idle_cycles += 1;
            self.idle_ended = self.idle_cycles;
        }
        if place < 2 * n {
            return self.host.read_ask(place - n, port);
        }
        let place = place - 2 * n;
        let made = if place < 4 { self.host.turn(place, port) } else { self.follow(place - 4, port) };
        if !made {
            self.idle_background(port);
        }
    }

    /// A place of the replayer: whether something was due.
    fn follow<M: Memory, R: Record>(&mut self, place: u8, port: &mut Port<M, R>) -> bool {
        let (end, leads) = (self.known.len(), self.lead.leads);
        match place {
            0 if !leads => {
                self.read_fuo(self.id, port);
            }
            1 if !leads && usize::from(end) + 1 < self.filled.len() => {
                self.look(self.id, end + 1, port);
            }
            2 if !leads && self.is_decided(end) => {
                self.look(self.id, end, port);
            }
            3 => {
                let next = self.known.values.get(usize::from(self.applying.applied));
                let row = next.and_then(|&value| self.applying.lacking(value));
                return row.is_some_and(|row| self.read_word(row, 0, port));
            }
            4..=14 => return self.reading.is_some_and(|row| self.read_word(row, place - 3, port)),
            15 => return self.raise_own_fuo(port),
            16 => return self.raise_own_head(port),
            17 if self.job.replicas > 1 => self.read_next_head(port),
            _ => return false,
        }
        true
    }

    pub fn read_fuo<M: Memory, R: Record>(&mut self, p: u8, port: &mut Port<M, R>) -> u16 {
        let (fuo, greatest) = (port.fuo(p), &mut self.fuos[usize::from(p)]);
        *greatest = fuo.max(*greatest);
        if p == self.id {
            self.own_fuo = self.own_fuo.max(fuo);
        }
        fuo
    }

    /// Whether the own log has a decided entry at the position, as far as was read.
    pub fn is_decided(&self, i: u16) -> bool {
        self.fuos[usize::from(self.id)] > i || self.shown > i + 1
    }

    /// Looks at a position: the word, and what it shows. An entry that is decided is learnt.
    pub fn look<M: Memory, R: Record>(&mut self, p: u8, i: u16, port: &mut Port<M, R>) -> (u64, Seen) {
        let (word, seen) = port.look(p, i);
        match seen {
            Seen::Entry { value, .. } => {
                let is_next = i == self.known.len();
                let is_own = p == self.id;
                if is_next && (self.fuos[usize::from(p)] > i || is_own && self.shown > i + 1) {
                    self.known.learn(value);
                    self.filled[usize::from(i)] = is_own;
                }
                if is_own {
                    self.shown = self.shown.max(i + 1);
                }
            }
            Seen::Past if i >= self.known.len() && self.outrun.is_none() => self.outrun = Some((p, i)),
            _ => {}
        }
        (word, seen)
    }

    /// Reads word `k` of a row, which was due.
    fn read_word<M: Memory, R: Record>(&mut self, row: u16, k: u8, port: &mut Port<M, R>) -> bool {
        let word = port.read_row(row, k);
        self.idle_cycles = 0;
        self.applying.take(row, k, word);
        self.reading = if k < 11 { Some(row) } else { None };
        true
    }

    /// Raises the own FUO to where the own log is filled.
    fn raise_own_fuo<M: Memory, R: Record>(&mut self, port: &mut Port<M, R>) -> bool {
        let (end, read) = (self.known.len(), self.fuos[usize::from(self.id)]);
        self.filled_to = self.filled_to.max(read.min(end));
        while self.filled_to < end && self.filled[usize::from(self.filled_to)] {
            self.filled_to += 1;
        }
        if self.filled_to <= self.own_fuo {
            return false;
        }
        self.own_fuo = self.filled_to;
        self.idle_cycles = 0;
        port.raise_fuo(self.id, self.filled_to);
        true
    }

    /// Applies what is whole, and raises the own head to it.
    fn raise_own_head<M: Memory, R: Record>(&mut self, port: &mut Port<M, R>) -> bool {
        self.applying.apply(&self.known);
        let head = self.applying.applied.min(self.own_fuo);
        if head <= self.own_head {
            return false;
        }
        self.own_head = head;
        self.idle_cycles = 0;
        port.raise_head(head);
        true
    }

    /// Reads the head of the next other replica, round.
    fn read_next_head<M: Memory, R: Record>(&mut self, port: &mut Port<M, R>) {
        let q = self.next_head;
        self.read_head(q, port);
        let others = [q + 1, q + 2, 0, 1];
        let is_other = |p: &u8| *p < self.job.replicas && *p != self.id;
        self.next_head = others.into_iter().find(is_other).unwrap_or(q);
    }

    pub fn read_head<M: Memory, R: Record>(&mut self, q: u8, port: &mut Port<M, R>) -> u16 {
        let (head, last) = (port.head(q), &mut self.heads[usize::from(q)]);
        if head > *last {
            self.idle_cycles = 0;
        }
        *last = head;
        self.heads_read |= 1 << q;
        head
    }

    /// A turn of the background in which nothing is due: an eager leader writes ahead.
    fn idle_background<M: Memory, R: Record>(&mut self, port: &mut Port<M, R>) {
        let ahead = if self.eager && self.lead.leads { self.row_ahead() } else { None };
        match ahead {
            Some(row) => self.write_word(row, port),
            None => port.beat(),
        }
    }

    pub fn write_word<M: Memory, R: Record>(&mut self, row: u16, port: &mut Port<M, R>) {
        let (k, word) = self.applying.write(row);
        self.idle_cycles = 0;
        port.write_row(row, k, word);
    }

    /// The next row to write ahead: of the own batch after the one that is offered, or known last.
    fn row_ahead(&self) -> Option<u16> {
        let before = self.lead.offered().or(self.known.values.last().copied())?;
        if before >> 12 != u16::from(self.id) || mark_of(before).is_some() {
            return None;
        }
        let first = rows_of(self.job, before).end() + 1;
        if usize::from(first) == self.job.rows.len() {
            return None;
        }
        rows_of(self.job, first).find(|&row| self.applying.written[usize::from(row)] < 12)
    }

    /// A turn of replication of a replica that isn't named: an eager one that didn't lead reads on.
    pub fn idle_replication<M: Memory, R: Record>(&mut self, led: bool, port: &mut Port<M, R>) {
        if !self.eager || led {
            return port.beat();
        }
        if let Some(row) = self.reading {
            let k = self.applying.first_lacking(row);
            if k < 12 {
                self.read_word(row, k, port);
                return;
            }
        }
        while let Some(&value) = self.known.values.get(usize::from(self.whole)) {
            if let Some(row) = self.applying.lacking(value) {
                self.read_word(row, 0, port);
                return;
            }
            self.whole += 1;
        }
        let end = self.known.len();
        if self.is_decided(end) {
            self.look(self.id, end, port);
        } else {
            port.beat();
        }
    }

    /// The entries whose rows all stand here, though perhaps not yet applied in the cycle.
    pub fn finish(&mut self) -> &[u16] {
        self.applying.apply(&self.known);
        &self.known.values[..usize::from(self.applying.applied)]
    }
}

/// The rows of an entry of the log.
pub fn rows_of(job: &Job, value: u16) -> std::ops::RangeInclusive<u16> {
    row_in(value)..=row_in(value) + job.rest(row_in(value))
}
