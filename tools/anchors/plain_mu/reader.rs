//! Reads a trace: a job, and a line for each event. Each byte of an event is looked at once.
use crate::job::{self, Job};
use crate::port::{Answer, Event, Verb};
use crate::words;

/// What is left of the lines of the events.
struct Reader<'a>(&'a [u8]);

impl<'a> Reader<'a> {
    fn peek(&self) -> u8 {
        self.0.first().copied().unwrap_or(b'\n')
    }

    /// The bytes up to a space or the end of the line.
    fn word(&mut self) -> &'a [u8] {
        let end = self.0.iter().position(|&byte| byte <= b' ').unwrap_or(self.0.len());
        let (word, rest) = self.0.split_at(end);
        self.0 = rest;
        word
    }

    fn takes(&mut self, bytes: &[u8]) -> Option<()> {
        self.0 = self.0.strip_prefix(bytes)?;
        Some(())
    }

    /// A number that fits, without a leading zero.
    fn number<N: TryFrom<u64>>(&mut self) -> Option<N> {
        let (mut sum, mut rest) = (0u64, self.0);
        while let [byte @ b'0'..=b'9', after @ ..] = rest {
            sum = sum.wrapping_mul(10).wrapping_add(u64::from(byte - b'0'));
            rest = after;
        }
        let (digits, rest) = self.0.split_at(self.0.len() - rest.len());
        self.0 = rest;
        match digits {
            [] | [b'0', _, ..] => None,
            // more than 19 digits may not fit
            _ if digits.len() > 19 => N::try_from(std::str::from_utf8(digits).ok()?.parse().ok()?).ok(),
            _ => N::try_from(sum).ok(),
        }
    }

    /// A number after a space.
    fn next<N: TryFrom<u64>>(&mut self) -> Option<N> {
        self.takes(b" ")?;
        self.number()
    }

    /// A word after a space.
    fn next_word(&mut self) -> Option<&'a [u8]> {
        self.takes(b" ")?;
        Some(self.word())
    }

    fn verb(&mut self) -> Option<Verb> {
        Some(match self.next_word()? {
            b"beat" => Verb::Beat,
            b"readrow" => Verb::ReadRow(self.next()?, self.next()?),
            b"readask" => Verb::ReadAsk(self.next()?),
            b"readbeat" => Verb::ReadBeat(self.next()?),
            b"look" => Verb::Look(self.next()?, self.next()?),
            b"writerow" => Verb::WriteRow(self.next()?, self.next()?, self.next()?),
            b"head" => Verb::Head(self.next()?),
            b"enter" => self.enter()?,
            b"putslot" => Verb::PutSlot(self.next()?, self.next()?, self.next()?, self.next()?),
            b"fuo" => Verb::Fuo(self.next()?),
            b"raisefuo" => Verb::RaiseFuo(self.next()?, self.next()?),
            b"raisehead" => Verb::RaiseHead(self.next()?),
            b"ask" => Verb::Ask(self.next()?),
            b"fence" => Verb::Fence(self.next()?),
            b"min" => Verb::Min(self.next()?),
            b"putmin" => Verb::PutMin(self.next()?, self.next()?),
            b"close" => Verb::Close,
            b"looktarget" => Verb::LookTarget,
            b"drain" => Verb::Drain,
            b"grant" => Verb::Grant(self.next()?),
            _ => return None,
        })
    }

    fn enter(&mut self) -> Option<Verb> {
        let p = self.next()?;
        match self.next_word()? {
            b"min" => Some(Verb::EnterMin(p)),
            b"place" => Some(Verb::EnterPlace(p, self.next()?)),
            _ => None,
        }
    }

    fn answer(&mut self) -> Option<Answer> {
        if self.peek().is_ascii_digit() {
            return self.number().map(Answer::Number);
        }
        Some(match self.word() {
            b"done" => Answer::Done,
            b"empty" => Answer::Empty,
            b"entry" => Answer::Entry(self.next()?, self.next()?),
            b"entered" => Answer::Entered,
            b"missed" => Answer::Missed,
            b"past" => Answer::Past,
            b"fence" => Answer::Fence(self.fence()?),
            b"lost" => Answer::Lost(self.fence()?),
            _ => return None,
        })
    }

    /// The word of a fence.
    fn fence(&mut self) -> Option<u64> {
        self.takes(b" ")?;
        let owner = if self.peek().is_ascii_digit() {
            self.number().filter(|&owner: &u8| u64::from(owner) < words::NOBODY)?
        } else if self.word() == b"none" {
            words::NOBODY as u8
        } else {
            return None;
        };
        let grant: u32 = self.next()?;
        let closing = match self.next_word()? {
            b"open" => 0,
            b"closing" => words::CLOSING,
            _ => return None,
        };
        let target = match self.next_word()? {
            b"none" => words::NO_TARGET,
            b"min" => words::MINIMUM,
            b"place" => words::place_target(self.next::<u16>()?.into()),
            _ => return None,
        };
        Some(words::with_target(words::fence_word(grant.into(), owner) | closing, target))
    }

    fn event(&mut self, replicas: u8) -> Option<Event> {
        let by = self.number().filter(|&by| by < replicas)?;
        let verb = self.verb()?;
        self.takes(b" = ")?;
        let answer = self.answer()?;
        self.takes(b"\n")?;
        Some(Event { by, verb, answer })
    }
}

/// Reads a trace that ends with the text: its job, the text of the job, and the events.
pub fn read(text: &str) -> Option<(Job, &str, Vec<Event>)> {
    let (job_text, rest) = text.split_at(text.find("\nend\n")? + "\nend\n".len());
    let job = job::read(job_text)?;
    let mut events = Vec::with_capacity(rest.len() / 16);
    let mut reader = Reader(rest.as_bytes());
    while reader.peek().is_ascii_digit() {
        events.push(reader.event(job.replicas)?);
    }
    if matches!(reader.0, b"end" | b"end\n") {
        Some((job, job_text, events))
    } else {
        None
    }
}
