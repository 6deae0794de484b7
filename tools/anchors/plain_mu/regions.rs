//! What the regions hold after a list of events, and the right answer to the next verb.
use crate::job::Job;
use crate::port::{Answer, Event, Verb};
use crate::words;

#[derive(Clone, Default)]
struct Region {
    fence: u64,
    minimum: u32,
    log: Vec<(u32, u16)>,
    fuo: u16,
    head: u16,
    beats: u64,
    asks: [u64; 7],
    /// The replicas whose last entering here was drained since.
    drained: u8,
}

pub struct Regions {
    ring: usize,
    rows: usize,
    regions: Vec<Region>,
    /// The words that were written, of the rows of all replicas.
    words: Vec<[u64; 12]>,
}

impl Regions {
    pub fn new(job: &Job) -> Regions {
        let fence = words::NOBODY << 11;
        let count = usize::from(job.replicas);
        Regions {
            ring: job.ring.into(),
            rows: job.rows.len(),
            regions: vec![Region { fence, ..Region::default() }; count],
            words: vec![[0; 12]; count * job.rows.len()],
        }
    }

    fn row(&self, value: u16) -> usize {
        usize::from(value >> 12) * self.rows + usize::from(value & 4095)
    }

    /// The right answer to an allowed verb. `noted` is the grant that the replica noted at the region.
    pub fn answer(&self, by: u8, verb: Verb, noted: Option<u64>) -> Answer {
        let at = |p: u8| &self.regions[usize::from(p)];
        match verb {
            Verb::Fence(p) => Answer::Fence(at(p).fence),
            Verb::Min(p) => Answer::Number(at(p).minimum.into()),
            Verb::EnterMin(p) | Verb::EnterPlace(p, _) => {
                let fence = at(p).fence;
                let is_open = !words::is_closing(fence) && noted == Some(words::grant_of(fence));
                if is_open {
                    Answer::Entered
                } else {
                    Answer::Lost(fence)
                }
            }
            Verb::PutMin(p, _) | Verb::PutSlot(p, ..) if at(p).drained & 1 << by != 0 => Answer::Missed,
            Verb::Look(p, i) => {
                let (log, i) = (&at(p).log, usize::from(i));
                match log.get(i) {
                    _ if log.len() > i + self.ring => Answer::Past,
                    Some(&(number, value)) => Answer::Entry(number, value),
                    None => Answer::Empty,
                }
            }
            Verb::Fuo(p) => Answer::Number(at(p).fuo.into()),
            Verb::Head(p) => Answer::Number(at(p).head.into()),
            Verb::ReadBeat(q) => Answer::Number(at(q).beats),
            Verb::ReadRow(v, k) => Answer::Number(self.words[self.row(v)][usize::from(k)]),
            Verb::ReadAsk(w) => Answer::Number(at(by).asks[usize::from(w)]),
            Verb::Close => Answer::Fence(at(by).fence),
            _ => Answer::Done,
        }
    }

    /// Takes an event that is allowed and has its right answer.
    pub fn take(&mut self, event: &Event) {
        let Event { by, verb, answer } = *event;
        if let Verb::WriteRow(j, k, x) = verb {
            let row = self.row(u16::from(by) << 12 | j);
            self.words[row][usize::from(k)] = x;
            return;
        }
        let at = match verb {
            Verb::Ask(p) | Verb::EnterMin(p) | Verb::EnterPlace(p, _) => p,
            Verb::PutMin(p, _) | Verb::PutSlot(p, ..) | Verb::RaiseFuo(p, _) => p,
            _ => by,
        };
        let region = &mut self.regions[usize::from(at)];
        match (verb, answer) {
            (Verb::Ask(_), _) => region.asks[usize::from(by)] += 1,
            (Verb::EnterMin(_), Answer::Entered) => {
                region.fence = words::with_target(region.fence, words::MINIMUM);
            }
            (Verb::EnterPlace(_, place), Answer::Entered) => {
                region.fence = words::with_target(region.fence, words::place_target(place.into()));
            }
            (Verb::PutMin(_, b), Answer::Done) => region.minimum = b,
            (Verb::PutSlot(_, i, b, v), Answer::Done) => {
                if usize::from(i) == region.log.len() {
                    region.log.push((b, v));
                } else {
                    region.log[usize::from(i)] = (b, v);
                }
            }
            (Verb::RaiseFuo(_, u), _) => region.fuo = region.fuo.max(u),
            (Verb::RaiseHead(h), _) => region.head = region.head.max(h),
            (Verb::Beat, _) => region.beats += 1,
            (Verb::Close, _) => region.fence |= words::CLOSING,
            (Verb::Drain, _) => region.drained = u8::MAX,
            (Verb::Grant(w), _) => {
                region.fence = words::fence_word(words::grant_of(region.fence) + 1, w)
            }
            _ => {}
        }
        if matches!(verb, Verb::EnterMin(_) | Verb::EnterPlace(..)) {
            region.drained &= !(1 << by);
        }
    }
}
