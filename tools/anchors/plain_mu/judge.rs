//! Judges a list of events: whether each step was allowed, and found what it had to find. The rules are
//! those of `docs/PROTOCOL.md`, by running states.
use crate::job::Job;
use crate::known::{mark_of, row_in};
use crate::part::Part;
use crate::port::{Answer, Event, Verb};
use crate::regions::Regions;
use crate::words;

pub enum Verdict {
    Legal,
    NotAllowed { index: usize },
    Expected { index: usize, answer: Answer },
}

/// The first event that breaks the list, if one does.
pub fn judge(job: &Job, events: &[Event]) -> Verdict {
    let mut regions = Regions::new(job);
    let mut parts: Vec<Part> = (0..job.replicas).map(|id| Part::new(job, id)).collect();
    for (index, event) in events.iter().enumerate() {
        let part = &mut parts[usize::from(event.by)];
        if !is_allowed(part, event.verb) {
            return Verdict::NotAllowed { index };
        }
        let noted = match event.verb {
            Verb::EnterMin(p) | Verb::EnterPlace(p, _) => part.at(p).noted,
            _ => None,
        };
        let answer = regions.answer(event.by, event.verb, noted);
        if answer != event.answer {
            return Verdict::Expected { index, answer };
        }
        part.take(event);
        regions.take(event);
    }
    Verdict::Legal
}

/// Whether the replicas, regions and positions that the verb names are there.
fn is_within(part: &Part, verb: Verb) -> bool {
    let most = part.job.rows.len() + usize::from(part.job.reserve());
    let (region, position) = match verb {
        Verb::Ask(p) | Verb::Fence(p) | Verb::Min(p) | Verb::EnterMin(p) | Verb::EnterPlace(p, _) => {
            (p, 0)
        }
        Verb::PutMin(p, _) | Verb::Fuo(p) | Verb::Head(p) | Verb::ReadBeat(p) => (p, 0),
        Verb::ReadAsk(p) | Verb::Grant(p) => (p, 0),
        Verb::Look(p, i) | Verb::PutSlot(p, i, ..) | Verb::RaiseFuo(p, i) => (p, i),
        Verb::RaiseHead(h) => (0, h),
        _ => (0, 0),
    };
    region < part.job.replicas && usize::from(position) <= most && part.steps < part.job.budget
}

fn is_allowed(part: &mut Part, verb: Verb) -> bool {
    if !is_within(part, verb) {
        return false;
    }
    let (rows, goes_on) = (part.job.rows.len(), part.begun_at > 0 && !part.over);
    match verb {
        Verb::Ask(p) => p == 0 || part.begun_at > 0 && part.asked + 1 == p,
        Verb::Fence(_) => part.begun_at > 0,
        Verb::Min(p) => part.at(p).noted.is_some() && goes_on,
        Verb::EnterMin(p) => goes_on && may_enter_min(part, p),
        Verb::EnterPlace(p, s) => goes_on && part.is_member(p) && s < part.job.ring,
        Verb::PutMin(p, b) => goes_on && may_put_min(part, p, b),
        Verb::PutSlot(p, i, b, v) => goes_on && may_put(part, p, i, b, v),
        Verb::Look(p, _) => p == part.id || part.at(p).noted.is_some(),
        Verb::Fuo(_) | Verb::Head(_) | Verb::Beat | Verb::ReadAsk(_) => true,
        Verb::ReadBeat(q) => q != part.id,
        Verb::RaiseFuo(p, u) => u <= part.at(p).filled_to && u <= part.known.len(),
        Verb::RaiseHead(h) => h <= part.applied && part.fuo_known.is_some_and(|fuo| fuo >= h),
        Verb::WriteRow(j, k, x) => {
            let row = part.job.rows.get(usize::from(j));
            let word = row.and_then(|row| row.get(usize::from(k)));
            word == Some(&x) && part.written[usize::from(j)] & 1 << k == 0
        }
        Verb::ReadRow(v, k) => {
            v >> 12 < part.job.replicas.into() && usize::from(row_in(v)) < rows && k < 12
        }
        Verb::Close => part.closed.is_none() && waiting(part).is_some(),
        Verb::LookTarget => names_target(part) && !part.target_looked,
        Verb::Drain => part.closed.is_some() && part.target_looked && !part.drained,
        Verb::Grant(w) => {
            let is_drained = part.drained || !names_target(part);
            part.closed.is_some() && is_drained && waiting(part) == Some(w)
        }
    }
}

/// The least replica with an unserved ask, but for the owner.
fn waiting(part: &Part) -> Option<u8> {
    let has_asked = |w: &u8| part.seen[usize::from(*w)] > part.served[usize::from(*w)];
    (0..part.job.replicas).filter(|&w| part.owner != Some(w)).find(has_asked)
}

fn names_target(part: &Part) -> bool {
    part.closed.is_some_and(|fence| words::target_of(fence) != words::NO_TARGET)
}

fn may_enter_min(part: &Part, p: u8) -> bool {
    let is_read = |p: &u8| part.at(*p).noted.is_some() && part.at(*p).min_read;
    let all = || (0..part.job.replicas).filter(is_read).fold(0, |all, p| all | 1 << p);
    is_read(&p) && (part.number.is_some() || part.is_majority(all()))
}

fn may_put_min(part: &Part, p: u8, b: u32) -> bool {
    let above = part.greatest_min.max(part.greatest_put.into());
    let is_least = || {
        let (b, id) = (u64::from(b), u64::from(part.id));
        b % 8 == id && b >= 8 && b > above && (b < 16 || b - 8 <= above)
    };
    let is_number = part.number.map_or_else(is_least, |number| number == b);
    part.at(p).entered == Some(words::MINIMUM) && part.at(p).last_min <= b.into() && is_number
}

fn may_put(part: &mut Part, p: u8, i: u16, b: u32, v: u16) -> bool {
    let (ring, version) = (part.job.ring, part.job.version);
    let place = words::place_target(usize::from(i % ring));
    let is_entered = part.number == Some(b) && part.is_member(p) && part.at(p).entered == Some(place);
    let is_near = version == 1 || part.at(p).reach.is_some_and(|reach| i < reach + ring);
    is_entered
        && is_near
        && part.is_majority(part.members)
        && part.has_looked(p, i)
        && part.is_brought(p, i)
        && match part.known.values.get(usize::from(i)) {
            Some(&known) => v == known,
            None => i == part.known.len() && may_put_new(part, i, v),
        }
}

/// Whether the value may be put at the first position that isn't known.
fn may_put_new(part: &Part, i: u16, v: u16) -> bool {
    let is_empty = part.last_looks(i).all(|look| look.is_none_or(|shown| shown.is_none()));
    let is_batch = mark_of(v).is_none();
    let reserve = if is_batch && is_empty { part.job.reserve() } else { 0 };
    let has_room = |q: u8| {
        let is_marked = part.known.marked & 1 << q != 0;
        is_marked || part.heads[usize::from(q)] + u64::from(part.job.ring) > u64::from(i + reserve)
    };
    if part.was_past(i) || !(0..part.job.replicas).all(has_room) {
        return false;
    }
    match part.put_first(i) {
        Some((put_at, first)) => v == first && part.last_join < put_at,
        None => part.last_looks(i).all(|look| look.is_some()) && may_pick(part, i, v),
    }
}

/// Whether the value is that of the largest number that the looks showed, or an own offer.
fn may_pick(part: &Part, i: u16, v: u16) -> bool {
    let mut best: Option<(u32, u16)> = None;
    for (number, value) in part.last_looks(i).flatten().flatten() {
        if best.is_none_or(|best| best.0 < number) {
            best = Some((number, value));
        }
    }
    match (best, mark_of(v)) {
        (Some(best), _) => v == best.1,
        _ if v >> 12 != u16::from(part.id) => false,
        (None, None) => usize::from(row_in(v)) < part.job.rows.len() && may_offer(part, row_in(v)),
        (None, Some(q)) => part.job.version == 2 && may_mark(part, q),
    }
}

fn may_offer(part: &Part, row: u16) -> bool {
    let client = part.job.clients[usize::from(row)];
    let mut rows = row..=row + part.job.rest(row);
    part.known.next_row(client) == row && rows.all(|row| part.written[usize::from(row)] == 0xfff)
}

fn may_mark(part: &Part, q: u8) -> bool {
    let is_other = q < part.job.replicas && q != part.id && part.known.marked & 1 << q == 0;
    let limit = u64::from(part.known.len() + part.job.reserve());
    is_other
        && part.failed_heads[usize::from(q)].is_some_and(|head| head + u64::from(part.job.ring) <= limit)
}
