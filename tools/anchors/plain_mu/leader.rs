//! The leader: at each place of its listing one verb, and the place that follows by the answer.
use crate::known::{own_mark, own_value};
use crate::place::{next_in, Place, Then};
use crate::port::{Port, Record};
use crate::replica::Replica;
use crate::words::{self, Memory, Seen};

impl Replica<'_> {
    /// A turn of replication.
    pub fn replicate<M: Memory, R: Record>(&mut self, port: &mut Port<M, R>) {
        if self.scores.leader != self.id {
            let led = self.lead.leads;
            self.give_up();
            return self.idle_replication(led, port);
        }
        if self.eager && self.lead.leads && self.has_astray() {
            self.give_up();
        }
        self.lead.place = match self.lead.place {
            Place::Ask(p) => self.ask(p, port),
            Place::Confirm(round, p) => self.confirm(round, p, port),
            Place::ReadMin(p) => self.read_min(p, port),
            Place::EnterMin(p) => self.enter_min(p, Place::PutMin(p), port),
            Place::PutMin(p) => self.put_min(p, port),
            Place::ReadFuo(p) => self.read_fuo_of(p, port),
            Place::Learn => self.learn(port),
            Place::WidenBehind(p, then) => {
                self.raise(p, self.lead.up[usize::from(p)], port);
                Place::LookBehind(p, then)
            }
            Place::LookBehind(p, then) => self.look_behind(p, then, port),
            Place::EnterBehind(p, then) => {
                self.enter_place(p, self.lead.up[usize::from(p)], Place::PutBehind(p, then), port)
            }
            Place::PutBehind(p, then) => self.put_behind(p, then, port),
            Place::RaiseBehind(p, then) => {
                self.raise(p, self.lead.up[usize::from(p)], port);
                if then == Then::Joined {
                    self.late_from(p + 1)
                } else {
                    self.bring_up_from(p + 1, then)
                }
            }
            Place::FenceBehind(p, then) => self.fence_behind(p, then, port),
            Place::LateFence(p) => {
                self.read_fence(p, port);
                let noted = self.lead.noted & 1 << p != 0;
                if noted {
                    Place::LateMin(p)
                } else {
                    self.late_from(p + 1)
                }
            }
            Place::LateMin(p) => self.late_min(p, port),
            Place::LateFuo(p) => {
                let fuo = self.read_member_fuo(p, port);
                if fuo > self.known.len() {
                    self.late_from(p + 1)
                } else {
                    Place::LateEnter(p)
                }
            }
            Place::LateEnter(p) => self.enter_min(p, Place::LatePut(p), port),
            Place::LatePut(p) => self.late_put(p, port),
            Place::ReadHead(q) => self.read_low_head(q, port),
            Place::Look(p) => self.look_at_next(p, port),
            Place::Write(row, last) => {
                self.write_word(row, port);
                self.write_from(row, last)
            }
            Place::Enter(p) => self.enter_place(p, self.known.len(), Place::Put(p), port),
            Place::Put(p) => self.put(p, port),
            Place::Raise(p) => {
                self.raise(p, self.known.len(), port);
                self.lead.up[usize::from(p)] = self.known.len();
                match next_in(self.lead.members, p + 1) {
                    Some(q) => Place::Raise(q),
                    None => self.late_from(0),
                }
            }
            Place::Evidence(p) => {
                port.fence(p);
                Place::Ask(0)
            }
            Place::Rest => {
                port.beat();
                Place::Rest
            }
        };
    }

    /// Whether a region has gone astray: it is no member, its host isn't held to be failed, and it
    /// was seen open to another 16 times in a row.
    fn has_astray(&self) -> bool {
        (0..self.job.replicas).any(|p| {
            self.lead.foreign[usize::from(p)] == 16
                && self.lead.members & 1 << p == 0
                && self.scores.failed & 1 << p == 0
        })
    }

    fn give_up(&mut self) {
        self.lead.leads = false;
        self.lead.place = Place::Ask(0);
    }

    /// The leadership is over.
    fn over(&mut self, place: Place) -> Place {
        self.lead.leads = false;
        place
    }

    fn ask<M: Memory, R: Record>(&mut self, p: u8, port: &mut Port<M, R>) -> Place {
        if p == 0 {
            self.lead.noted = 0;
            self.lead.members = 0;
            self.lead.foreign = [0; 7];
            self.lead.is_numbered = false;
            self.lead.above = self.lead.greatest_put;
        }
        port.ask(p);
        if p + 1 < self.job.replicas {
            Place::Ask(p + 1)
        } else {
            Place::Confirm(0, 0)
        }
    }

    /// Reads a fence, and notes whether it names this replica.
    fn read_fence<M: Memory, R: Record>(&mut self, p: u8, port: &mut Port<M, R>) {
        let word = port.fence(p);
        if words::is_granted(word, self.id) {
            self.lead.noted |= 1 << p;
            self.lead.fences[usize::from(p)] = word;
        } else {
            self.lead.noted &= !(1 << p);
        }
        if self.lead.is_numbered {
            let foreign = &mut self.lead.foreign[usize::from(p)];
            *foreign = if words::is_foreign(word, self.id) { 16.min(*foreign + 1) } else { 0 };
        }
    }

    fn confirm<M: Memory, R: Record>(&mut self, round: u8, p: u8, port: &mut Port<M, R>) -> Place {
        self.read_fence(p, port);
        if p + 1 < self.job.replicas {
            return Place::Confirm(round, p + 1);
        }
        let noted = self.lead.noted;
        let is_majority = noted.count_ones() > u32::from(self.job.replicas) / 2;
        if is_majority && noted & 1 << self.id != 0 {
            self.lead.leads = true;
            Place::ReadMin(noted.trailing_zeros() as u8)
        } else if round < 15 {
            Place::Confirm(round + 1, 0)
        } else {
            Place::Ask(0)
        }
    }

    /// Reads a minimum: the number there.
    fn min<M: Memory, R: Record>(&mut self, p: u8, port: &mut Port<M, R>) -> u32 {
        let word = port.min(p);
        self.lead.minima[usize::from(p)] = word;
        words::number_in_minimum(word)
    }

    fn read_min<M: Memory, R: Record>(&mut self, p: u8, port: &mut Port<M, R>) -> Place {
        let number = self.min(p, port);
        self.lead.above = self.lead.above.max(number);
        if let Some(q) = next_in(self.lead.noted, p + 1) {
            return Place::ReadMin(q);
        }
        let (above, id) = (self.lead.above, u32::from(self.id));
        let same_round = above / 8 * 8 + id;
        let least = if same_round > above { same_round } else { same_round + 8 };
        self.lead.number = least.max(8 + id);
        Place::EnterMin(self.lead.noted.trailing_zeros() as u8)
    }

    fn enter_min<M: Memory, R: Record>(&mut self, p: u8, then: Place, port: &mut Port<M, R>) -> Place {
        if port.enter(p, &mut self.lead.fences[usize::from(p)], words::MINIMUM) {
            then
        } else {
            self.over(Place::Ask(0))
        }
    }

    fn enter_place<M: Memory, R: Record>(
        &mut self,
        p: u8,
        i: u16,
        then: Place,
        port: &mut Port<M, R>,
    ) -> Place {
        if port.enter_place(p, &mut self.lead.fences[usize::from(p)], i) {
            then
        } else {
            self.over(Place::Ask(0))
        }
    }

    /// Puts the number: whether the region is a member now.
    fn join<M: Memory, R: Record>(&mut self, p: u8, port: &mut Port<M, R>) -> bool {
        let number = self.lead.number;
        self.lead.greatest_put = number;
        self.lead.is_numbered = true;
        let landed = port.put_min(p, &mut self.lead.minima[usize::from(p)], number);
        if landed {
            self.lead.members |= 1 << p;
        }
        landed
    }

    fn put_min<M: Memory, R: Record>(&mut self, p: u8, port: &mut Port<M, R>) -> Place {
        if !self.join(p, port) {
            return self.over(Place::Evidence(p));
        }
        match next_in(self.lead.noted, p + 1) {
            Some(q) => Place::EnterMin(q),
            None => Place::ReadFuo(self.lead.members.trailing_zeros() as u8),
        }
    }

    fn read_member_fuo<M: Memory, R: Record>(&mut self, p: u8, port: &mut Port<M, R>) -> u16 {
        let fuo = self.read_fuo(p, port);
        self.lead.up[usize::from(p)] = fuo;
        self.lead.reach[usize::from(p)] = fuo;
        fuo
    }

    fn read_fuo_of<M: Memory, R: Record>(&mut self, p: u8, port: &mut Port<M, R>) -> Place {
        let fuo = self.read_member_fuo(p, port);
        let is_first = p == self.lead.members.trailing_zeros() as u8;
        if is_first || fuo > self.lead.up[usize::from(self.lead.source)] {
            self.lead.source = p;
        }
        match next_in(self.lead.members, p + 1) {
            Some(q) => Place::ReadFuo(q),
            None => self.learn_from(),
        }
    }

    /// What is known elsewhere is learnt first, then the members are brought up.
    fn learn_from(&mut self) -> Place {
        if self.known.len() < self.lead.up[usize::from(self.lead.source)] {
            Place::Learn
        } else {
            self.bring_up_from(0, Then::Late)
        }
    }

    fn learn<M: Memory, R: Record>(&mut self, port: &mut Port<M, R>) -> Place {
        let (source, end) = (self.lead.source, self.known.len());
        self.look(source, end, port);
        self.learn_from()
    }

    /// The first member from p on that lacks something known.
    fn bring_up_from(&mut self, p: u8, then: Then) -> Place {
        let end = self.known.len();
        let mut next = next_in(self.lead.members, p);
        while let Some(q) = next {
            if self.lead.up[usize::from(q)] < end {
                return self.bring_up(q, then);
            }
            next = next_in(self.lead.members, q + 1);
        }
        if then == Then::Late {
            self.late_from(0)
        } else {
            self.next_position()
        }
    }

    fn bring_up(&mut self, p: u8, then: Then) -> Place {
        let at = usize::from(p);
        let is_far = self.lead.up[at] >= self.lead.reach[at] + self.job.ring;
        if self.job.version == 2 && is_far {
            Place::WidenBehind(p, then)
        } else {
            Place::LookBehind(p, then)
        }
    }

    fn look_behind<M: Memory, R: Record>(&mut self, p: u8, then: Then, port: &mut Port<M, R>) -> Place {
        let (slot, seen) = self.look(p, self.lead.up[usize::from(p)], port);
        self.lead.slots[usize::from(p)] = slot;
        match seen {
            Seen::Past => Place::FenceBehind(p, then),
            _ => Place::EnterBehind(p, then),
        }
    }

    fn put_behind<M: Memory, R: Record>(&mut self, p: u8, then: Then, port: &mut Port<M, R>) -> Place {
        let (at, i) = (usize::from(p), self.lead.up[usize::from(p)]);
        let value = self.known.values[usize::from(i)];
        if !port.put_slot(p, self.lead.slots[at], i, self.lead.number, value) {
            return self.over(Place::Evidence(p));
        }
        if p == self.id {
            self.filled[usize::from(i)] = true;
        }
        self.lead.up[at] = i + 1;
        if i + 1 < self.known.len() {
            self.bring_up(p, then)
        } else {
            Place::RaiseBehind(p, then)
        }
    }

    fn raise<M: Memory, R: Record>(&mut self, p: u8, to: u16, port: &mut Port<M, R>) {
        let reach = &mut self.lead.reach[usize::from(p)];
        *reach = to.max(*reach);
        if p == self.id {
            self.own_fuo = self.own_fuo.max(to);
        }
        self.idle_cycles = 0;
        port.raise_fuo(p, to);
    }

    fn fence_behind<M: Memory, R: Record>(&mut self, p: u8, then: Then, port: &mut Port<M, R>) -> Place {
        let (word, noted) = (port.fence(p), self.lead.fences[usize::from(p)]);
        if words::is_closing(word) || words::grant_of(word) != words::grant_of(noted) {
            self.over(Place::Ask(0))
        } else {
            Place::LookBehind(p, then)
        }
    }

    /// The next late follower from p on, and after the last one the next position.
    fn late_from(&mut self, p: u8) -> Place {
        let strangers = !self.lead.members & ((1 << self.job.replicas) - 1);
        match next_in(strangers, p) {
            Some(q) => Place::LateFence(q),
            None => self.next_position(),
        }
    }

    fn late_min<M: Memory, R: Record>(&mut self, p: u8, port: &mut Port<M, R>) -> Place {
        if self.min(p, port) > self.lead.number {
            self.over(Place::Ask(0))
        } else {
            Place::LateFuo(p)
        }
    }

    fn late_put<M: Memory, R: Record>(&mut self, p: u8, port: &mut Port<M, R>) -> Place {
        if !self.join(p, port) {
            self.over(Place::Evidence(p))
        } else if self.lead.up[usize::from(p)] < self.known.len() {
            self.bring_up(p, Then::Joined)
        } else {
            self.late_from(p + 1)
        }
    }

    /// The next position; if all commands are known, the first late follower, or nothing.
    fn next_position(&mut self) -> Place {
        if self.known.full.is_some() {
            let strangers = !self.lead.members & ((1 << self.job.replicas) - 1);
            return next_in(strangers, 0).map_or(Place::Rest, Place::LateFence);
        }
        if usize::from(self.known.len()) >= self.filled.len() {
            return Place::Rest;
        }
        self.lead.candidate = None;
        self.heads_from(0)
    }

    /// Whether the head leaves room for a batch at the next position.
    fn leaves_room(&self, head: u16) -> bool {
        head + self.job.ring > self.known.len() + self.job.reserve()
    }

    /// The heads that are too low are read, and then the position is looked at.
    fn heads_from(&mut self, from: u8) -> Place {
        for q in from..self.job.replicas {
            if self.known.marked & 1 << q == 0 && !self.leaves_room(self.lead.heads[usize::from(q)]) {
                return Place::ReadHead(q);
            }
        }
        self.lead.best = None;
        Place::Look(self.lead.members.trailing_zeros() as u8)
    }

    fn read_low_head<M: Memory, R: Record>(&mut self, q: u8, port: &mut Port<M, R>) -> Place {
        let head = self.read_head(q, port);
        self.lead.heads[usize::from(q)] = head;
        if self.leaves_room(head) {
            return self.heads_from(q + 1);
        }
        let is_failed = q != self.id && self.scores.failed & 1 << q != 0;
        if is_failed && head + self.job.ring > self.known.len() {
            self.lead.candidate = self.lead.candidate.or(Some(q));
            self.heads_from(q + 1)
        } else {
            self.late_from(0)
        }
    }

    fn look_at_next<M: Memory, R: Record>(&mut self, p: u8, port: &mut Port<M, R>) -> Place {
        let i = self.known.len();
        let (slot, seen) = self.look(p, i, port);
        self.lead.slots[usize::from(p)] = slot;
        if let Seen::Entry { number, value } = seen {
            if self.lead.best.is_none_or(|best| best.0 < number) {
                self.lead.best = Some((number, value));
            }
        }
        if i < self.known.len() {
            return self.bring_up_from(0, Then::Position);
        }
        match next_in(self.lead.members, p + 1) {
            Some(q) => Place::Look(q),
            None => self.pick(),
        }
    }

    /// The value is picked: the entry of the largest number, else the mark of the candidate, else an
    /// own batch.
    fn pick(&mut self) -> Place {
        if let Some((_, value)) = self.lead.best {
            return self.offer(value);
        }
        if let Some(q) = self.lead.candidate {
            return self.offer(own_mark(self.id, q));
        }
        let first = self.first_client(self.known.len());
        let Some(row) = self.known.offer(first) else { return Place::Rest };
        self.lead.value = own_value(self.id, row);
        self.write_from(row, row + self.job.rest(row))
    }

    /// The client whose batch is offered first at a position.
    pub fn first_client(&self, i: u16) -> u16 {
        (u16::from(self.id) + i) % self.sending
    }

    fn offer(&mut self, value: u16) -> Place {
        self.lead.value = value;
        Place::Enter(self.lead.members.trailing_zeros() as u8)
    }

    fn write_from(&mut self, row: u16, last: u16) -> Place {
        let lacking = (row..=last).find(|&row| self.applying.written[usize::from(row)] < 12);
        match lacking {
            Some(row) => Place::Write(row, last),
            None => Place::Enter(self.lead.members.trailing_zeros() as u8),
        }
    }

    fn put<M: Memory, R: Record>(&mut self, p: u8, port: &mut Port<M, R>) -> Place {
        let (i, value) = (self.known.len(), self.lead.value);
        if !port.put_slot(p, self.lead.slots[usize::from(p)], i, self.lead.number, value) {
            return self.over(Place::Evidence(p));
        }
        if let Some(q) = next_in(self.lead.members, p + 1) {
            return Place::Enter(q);
        }
        self.known.learn(value);
        self.filled[usize::from(i)] = true;
        self.commits += 1;
        Place::Raise(self.lead.members.trailing_zeros() as u8)
    }
}
