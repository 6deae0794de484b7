//! What one replica's own events come to, as far as what it may do next depends on it.
use crate::job::Job;
use crate::known::{mark_of, row_in, Known};
use crate::port::{Answer, Event, Verb};
use crate::replica::rows_of;
use crate::words;

/// What was done at a region. Steps are the replica's own, counted from 1; 0 is never.
#[derive(Clone, Default)]
pub struct Notes {
    /// The grant of the last fence, if that is open and names the replica.
    pub noted: Option<u64>,
    /// The grant of the last fence, and whether a minimum was read since the first fence with it.
    seen_grant: Option<u64>,
    pub min_read: bool,
    pub last_min: u64,
    /// The grant noted when the region became a member, and when that was.
    joined: Option<Option<u64>>,
    joined_at: u32,
    /// The target entered, if no put came since, and when.
    pub entered: Option<u64>,
    pub entered_at: u32,
    /// The greatest FUO that was read, and that was read or raised in this leadership.
    fuo: u16,
    pub reach: Option<u16>,
    /// Of each position: the first look since the last put there or the joining, the last look and what
    /// it showed, the last look that was past, and what was put in this leadership and when.
    looked: Vec<u32>,
    last_look: Vec<(u32, Option<(u32, u16)>)>,
    past: Vec<u32>,
    put: Vec<(u32, u16)>,
    /// Of each place of the ring, the last put there.
    put_at: Vec<u32>,
    /// Positions at which a look ever showed an entry.
    shown: Vec<bool>,
    /// Positions that are filled for good, and up to where all are; up to where they are in this
    /// leadership.
    filled: Vec<bool>,
    pub filled_to: u16,
    reached_to: u16,
}

pub struct Part<'a> {
    pub job: &'a Job,
    pub id: u8,
    pub steps: u32,
    pub known: Known<'a>,
    pub notes: Vec<Notes>,
    // the leadership
    pub begun_at: u32,
    pub asked: u8,
    pub over: bool,
    pub number: Option<u32>,
    pub greatest_min: u64,
    pub greatest_put: u32,
    pub members: u32,
    pub last_join: u32,
    /// Of each position, the first put in a leadership: when, and the value.
    first_put: Vec<(u32, u16)>,
    /// The least head of each replica that counted as failed when it was read, in this leadership.
    pub failed_heads: [Option<u64>; 7],
    pub heads: [u64; 7],
    // the host
    pub seen: [u64; 7],
    pub served: [u64; 7],
    pub owner: Option<u8>,
    pub closed: Option<u64>,
    pub target_looked: bool,
    pub drained: bool,
    // the scores
    counts: [u64; 7],
    scores: [u8; 7],
    failed: u32,
    // rows
    pub written: Vec<u16>,
    read: Vec<u16>,
    pub applied: u16,
    pub fuo_known: Option<u16>,
}

impl<'a> Part<'a> {
    pub fn new(job: &'a Job, id: u8) -> Part<'a> {
        let (rows, positions) = (job.rows.len(), job.rows.len() + usize::from(job.reserve()) + 1);
        let notes = Notes {
            looked: vec![0; positions],
            last_look: vec![(0, None); positions],
            past: vec![0; positions],
            put: vec![(0, 0); positions],
            put_at: vec![0; job.ring.into()],
            shown: vec![false; positions],
            filled: vec![false; positions],
            ..Notes::default()
        };
        Part {
            job,
            id,
            steps: 0,
            known: Known::new(job),
            notes: vec![notes; job.replicas.into()],
            begun_at: 0,
            asked: 0,
            over: false,
            number: None,
            greatest_min: 0,
            greatest_put: 0,
            members: 0,
            last_join: 0,
            first_put: vec![(0, 0); positions],
            failed_heads: [None; 7],
            heads: [0; 7],
            seen: [0; 7],
            served: [0; 7],
            owner: None,
            closed: None,
            target_looked: false,
            drained: false,
            counts: [0; 7],
            scores: [15; 7],
            failed: 0,
            written: vec![0; rows],
            read: vec![0; rows * usize::from(job.replicas)],
            applied: 0,
            fuo_known: None,
        }
    }

    pub fn at(&self, p: u8) -> &Notes {
        &self.notes[usize::from(p)]
    }

    pub fn is_member(&self, p: u8) -> bool {
        self.members & 1 << p != 0
    }

    pub fn is_majority(&self, regions: u32) -> bool {
        regions & 1 << self.id != 0 && regions.count_ones() > u32::from(self.job.replicas) / 2
    }

    /// The members, with their notes.
    pub fn member_notes(&self) -> impl Iterator<Item = &Notes> {
        self.notes.iter().enumerate().filter(|(p, _)| self.members & 1 << p != 0).map(|(_, notes)| notes)
    }

    /// The first put at the position in this leadership: when, and the value.
    pub fn put_first(&self, i: u16) -> Option<(u32, u16)> {
        Some(self.first_put[usize::from(i)]).filter(|put| put.0 > self.begun_at)
    }

    /// The last looks of the members at the position since the last joining, if there are all.
    pub fn last_looks(&self, i: u16) -> impl Iterator<Item = Option<Option<(u32, u16)>>> + '_ {
        let since = self.last_join;
        self.member_notes().map(move |notes| {
            let look = notes.last_look[usize::from(i)];
            Some(look.1).filter(|_| look.0 > since)
        })
    }

    pub fn was_past(&self, i: u16) -> bool {
        self.member_notes().any(|notes| notes.past[usize::from(i)] > self.begun_at)
    }

    /// Whether the place was looked at for position i, after the joining and the last put there, and
    /// before the entering.
    pub fn has_looked(&self, p: u8, i: u16) -> bool {
        let (notes, place) = (self.at(p), usize::from(i % self.job.ring));
        let looked = notes.looked[usize::from(i)];
        looked > notes.joined_at && looked > notes.put_at[place] && looked < notes.entered_at
    }

    /// Whether all positions below i were brought to the region in this leadership.
    pub fn is_brought(&mut self, p: u8, i: u16) -> bool {
        let (notes, begun) = (&mut self.notes[usize::from(p)], self.begun_at);
        while notes.reached_to < i {
            let at = usize::from(notes.reached_to);
            let is_put = notes.put[at].0 > begun && self.known.values.get(at) == Some(&notes.put[at].1);
            if !is_put {
                return false;
            }
            notes.reached_to += 1;
        }
        true
    }

    fn row_at(&self, value: u16) -> usize {
        usize::from(value >> 12) * self.job.rows.len() + usize::from(row_in(value))
    }

    fn has_row(&self, value: u16) -> bool {
        let own = value >> 12 == u16::from(self.id);
        let written = if own { self.written[usize::from(row_in(value))] } else { 0 };
        written | self.read[self.row_at(value)] == 0xfff
    }

    fn apply(&mut self) {
        while let Some(&value) = self.known.values.get(usize::from(self.applied)) {
            let replica = value & 0xf000;
            let is_whole = || rows_of(self.job, value).all(|row| self.has_row(replica | row));
            if mark_of(value).is_none() && !is_whole() {
                break;
            }
            self.applied += 1;
        }
    }

    fn learn(&mut self, value: u16) {
        self.known.learn(value);
        self.apply();
    }

    /// Takes an event that is allowed, with its answer.
    pub fn take(&mut self, event: &Event) {
        self.steps += 1;
        let answer = event.answer;
        match (event.verb, answer) {
            (Verb::Ask(p), _) => self.take_ask(p),
            (Verb::Fence(p), Answer::Fence(fence)) => self.take_fence(p, fence),
            (Verb::Min(p), Answer::Number(x)) => self.take_min(p, x),
            (Verb::EnterMin(p), _) => self.take_enter(p, words::MINIMUM, answer),
            (Verb::EnterPlace(p, s), _) => self.take_enter(p, words::place_target(s.into()), answer),
            (Verb::PutMin(p, b), _) => self.take_put_min(p, b, answer),
            (Verb::Look(p, i), _) => self.take_look(p, i, answer),
            (Verb::PutSlot(p, i, _, v), _) => self.take_put(p, i, v, answer),
            (Verb::Fuo(p), Answer::Number(u)) => self.take_fuo(p, u as u16),
            (Verb::RaiseFuo(p, u), _) => self.take_raise(p, u),
            (Verb::Head(q), Answer::Number(h)) => self.take_head(usize::from(q), h),
            (Verb::ReadBeat(q), Answer::Number(count)) => self.take_beats(usize::from(q), count),
            (Verb::WriteRow(j, k, _), _) => {
                self.written[usize::from(j)] |= 1 << k;
                self.apply();
            }
            (Verb::ReadRow(v, k), _) => {
                let row = self.row_at(v);
                self.read[row] |= 1 << k;
                self.apply();
            }
            (Verb::ReadAsk(w), Answer::Number(count)) => {
                self.seen[usize::from(w)] = count;
                if self.owner == Some(w) && self.closed.is_none() {
                    self.served[usize::from(w)] = self.served[usize::from(w)].max(count);
                }
            }
            (Verb::Close, Answer::Fence(fence)) => {
                (self.closed, self.target_looked, self.drained) = (Some(fence), false, false);
            }
            (Verb::LookTarget, _) => self.target_looked = true,
            (Verb::Drain, _) => self.drained = true,
            (Verb::Grant(w), _) => {
                (self.closed, self.owner) = (None, Some(w));
                self.served[usize::from(w)] = self.served[usize::from(w)].max(self.seen[usize::from(w)]);
            }
            _ => {}
        }
    }

    fn take_ask(&mut self, p: u8) {
        self.asked = p;
        if p > 0 {
            return;
        }
        (self.begun_at, self.over, self.number) = (self.steps, false, None);
        (self.greatest_min, self.members, self.last_join) = (0, 0, 0);
        self.failed_heads = [None; 7];
        for notes in &mut self.notes {
            (notes.noted, notes.joined, notes.entered, notes.reach) = (None, None, None, None);
            notes.reached_to = 0;
        }
    }

    fn take_fence(&mut self, p: u8, fence: u64) {
        let grant = words::grant_of(fence);
        let notes = &mut self.notes[usize::from(p)];
        if notes.seen_grant != Some(grant) {
            (notes.seen_grant, notes.min_read) = (Some(grant), false);
        }
        notes.noted = Some(grant).filter(|_| words::is_granted(fence, self.id));
        if let Some(joined) = notes.joined {
            self.over |= words::is_closing(fence) || joined != Some(grant);
        }
    }

    fn take_min(&mut self, p: u8, x: u64) {
        let notes = &mut self.notes[usize::from(p)];
        (notes.min_read, notes.last_min) = (true, x);
        self.greatest_min = self.greatest_min.max(x);
        self.over |= self.number.is_some_and(|number| x > number.into());
    }

    fn take_enter(&mut self, p: u8, target: u64, answer: Answer) {
        let is_lost = matches!(answer, Answer::Lost(_));
        let notes = &mut self.notes[usize::from(p)];
        notes.entered = Some(target).filter(|_| !is_lost);
        notes.entered_at = self.steps;
        self.over |= is_lost;
    }

    fn take_put_min(&mut self, p: u8, b: u32, answer: Answer) {
        self.number = self.number.or(Some(b));
        self.greatest_put = self.greatest_put.max(b);
        let notes = &mut self.notes[usize::from(p)];
        notes.entered = None;
        if matches!(answer, Answer::Missed) {
            self.over = true;
        } else if notes.joined.is_none() {
            (notes.joined, notes.joined_at) = (Some(notes.noted), self.steps);
            self.members |= 1 << p;
            self.last_join = self.steps;
        }
    }

    fn take_look(&mut self, p: u8, i: u16, answer: Answer) {
        let (steps, own, at) = (self.steps, p == self.id, usize::from(i));
        let notes = &mut self.notes[usize::from(p)];
        if matches!(answer, Answer::Past) {
            notes.past[at] = steps;
            notes.last_look[at] = (steps, None);
            return;
        }
        if notes.looked[at] <= notes.joined_at.max(notes.put_at[usize::from(i % self.job.ring)]) {
            notes.looked[at] = steps;
        }
        notes.last_look[at] = (steps, None);
        if let Answer::Entry(number, value) = answer {
            notes.last_look[at].1 = Some((number, value));
            let decided = notes.fuo > i || own && notes.shown.get(at + 1) == Some(&true);
            notes.shown[at] = true;
            if i == self.known.len() && decided {
                notes.filled[at] |= own;
                self.learn(value);
                self.fill(p);
            }
        }
    }

    fn take_put(&mut self, p: u8, i: u16, v: u16, answer: Answer) {
        let (at, steps) = (usize::from(i), self.steps);
        if self.put_first(i).is_none() {
            self.first_put[at] = (steps, v);
        }
        let was_known = self.known.values.get(at) == Some(&v);
        let notes = &mut self.notes[usize::from(p)];
        notes.entered = None;
        notes.put_at[usize::from(i % self.job.ring)] = steps;
        if matches!(answer, Answer::Missed) {
            self.over = true;
            return;
        }
        notes.put[at] = (steps, v);
        notes.filled[at] |= was_known;
        if i == self.known.len() && !self.over && self.is_majority(self.members) {
            let begun = self.begun_at;
            if self.member_notes().all(|notes| notes.put[at].0 > begun) {
                self.notes
                    .iter_mut()
                    .filter(|notes| notes.put[at].0 > begun)
                    .for_each(|notes| notes.filled[at] = true);
                self.learn(v);
            }
        }
        (0..self.job.replicas).for_each(|q| self.fill(q));
    }

    fn take_fuo(&mut self, p: u8, u: u16) {
        let notes = &mut self.notes[usize::from(p)];
        notes.fuo = notes.fuo.max(u);
        if self.begun_at > 0 {
            notes.reached_to = notes.reached_to.max(u);
            notes.reach = notes.reach.max(Some(u));
        }
        if p == self.id {
            self.fuo_known = self.fuo_known.max(Some(u));
        }
        self.fill(p);
    }

    fn take_raise(&mut self, p: u8, u: u16) {
        let notes = &mut self.notes[usize::from(p)];
        notes.reach = notes.reach.max(Some(u));
        if p == self.id {
            self.fuo_known = self.fuo_known.max(Some(u));
        }
    }

    /// Moves up to where the region is filled.
    fn fill(&mut self, p: u8) {
        let notes = &mut self.notes[usize::from(p)];
        notes.filled_to = notes.filled_to.max(notes.fuo);
        while notes.filled.get(usize::from(notes.filled_to)) == Some(&true) {
            notes.filled_to += 1;
        }
    }

    fn take_head(&mut self, q: usize, h: u64) {
        self.heads[q] = h;
        if self.begun_at > 0 && self.failed & 1 << q != 0 {
            let least = &mut self.failed_heads[q];
            *least = Some(least.map_or(h, |before| before.min(h)));
        }
    }

    fn take_beats(&mut self, q: usize, count: u64) {
        let is_new = self.counts[q] != count;
        self.counts[q] = count;
        let score = &mut self.scores[q];
        *score = if is_new { (*score + 1).min(15) } else { score.saturating_sub(1) };
        match *score {
            0 | 1 => self.failed |= 1 << q,
            2..=6 => {}
            _ => self.failed &= !(1 << q),
        }
    }
}
