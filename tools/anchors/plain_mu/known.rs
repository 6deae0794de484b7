//! What a replica knows of the log, and what it has applied of it.
use crate::job::{Job, Row};
use crate::store::{Reply, Store};

/// From here on payload numbers are marks.
const MARKS: u16 = 4080;
/// The row of a payload number.
pub fn row_in(value: u16) -> u16 {
    value & 4095
}
/// The replica that a mark is of.
pub fn mark_of(value: u16) -> Option<u8> {
    row_in(value).checked_sub(MARKS).map(|q| q as u8)
}
pub fn own_value(id: u8, row: u16) -> u16 {
    u16::from(id) << 12 | row
}
/// The mark of a replica.
pub fn own_mark(id: u8, q: u8) -> u16 {
    own_value(id, MARKS + u16::from(q))
}

pub struct Known<'a> {
    job: &'a Job,
    pub values: Vec<u16>,
    /// Of each client, its first row that isn't known.
    next_rows: Vec<u16>,
    /// The clients that have such a row.
    waiting: u32,
    /// How many rows aren't known.
    left: usize,
    /// The length by which all commands are known, if they are.
    pub full: Option<u16>,
    /// The replicas whose mark is known.
    pub marked: u32,
}

impl<'a> Known<'a> {
    pub fn new(job: &'a Job) -> Known<'a> {
        let waiting = job.spans.iter().enumerate().filter(|(_, span)| span.0 < span.1);
        Known {
            job,
            values: Vec::with_capacity(job.rows.len() + usize::from(job.reserve())),
            next_rows: job.spans.iter().map(|span| span.0).collect(),
            waiting: waiting.fold(0, |all, (client, _)| all | 1 << client),
            left: job.rows.len(),
            full: if job.rows.is_empty() { Some(0) } else { None },
            marked: 0,
        }
    }

    /// How many entries are known.
    pub fn len(&self) -> u16 {
        self.values.len() as u16
    }

    pub fn learn(&mut self, value: u16) {
        self.values.push(value);
        if let Some(q) = mark_of(value) {
            self.marked |= 1 << q;
            return;
        }
        let row = row_in(value);
        let (client, rows) = (usize::from(self.job.clients[usize::from(row)]), self.job.rest(row) + 1);
        self.next_rows[client] = row + rows;
        if row + rows == self.job.spans[client].1 {
            self.waiting &= !(1 << client);
        }
        self.left -= usize::from(rows);
        if self.left == 0 {
            self.full = Some(self.len());
        }
    }

    /// The first row of a client that isn't known; the one after its last if all are.
    pub fn next_row(&self, client: u8) -> u16 {
        self.next_rows[usize::from(client)]
    }

    /// The first row of the batch to offer next: of the first client with one, from the given one on
    /// and round.
    pub fn offer(&self, from: u16) -> Option<u16> {
        let later = self.waiting & (u32::MAX << from);
        let of = if later != 0 { later } else { self.waiting };
        self.next_rows.get(of.trailing_zeros() as usize).copied()
    }
}

/// The words of rows that a replica wrote or read, and the store of what it applied.
pub struct Applying<'a> {
    job: &'a Job,
    id: u8,
    /// How many words of each own row are written.
    pub written: Vec<u8>,
    /// Which words of each row of another replica were read: a bit for each.
    read: Vec<u16>,
    words: Vec<Row>,
    store: Store,
    pub replies: Vec<Reply>,
    /// How many entries are applied.
    pub applied: u16,
}

impl<'a> Applying<'a> {
    pub fn new(job: &'a Job, id: u8) -> Applying<'a> {
        let rows = job.rows.len();
        Applying {
            job,
            id,
            written: vec![0; rows],
            read: vec![0; rows],
            words: vec![[0; 12]; rows],
            store: Store::with_room(rows),
            replies: Vec::with_capacity(rows),
            applied: 0,
        }
    }

    /// The next word of an own row: its place in the row, and what it says.
    pub fn write(&mut self, row: u16) -> (u8, u64) {
        let (at, k) = (usize::from(row), self.written[usize::from(row)]);
        let word = self.job.rows[at][usize::from(k)];
        self.words[at][usize::from(k)] = word;
        self.written[at] = k + 1;
        (k, word)
    }

    /// Takes word `k` of the row.
    pub fn take(&mut self, value: u16, k: u8, word: u64) {
        let at = usize::from(row_in(value));
        self.words[at][usize::from(k)] = word;
        self.read[at] |= 1 << k;
    }

    /// The first word of the row that doesn't stand here, 12 if all do.
    pub fn first_lacking(&self, value: u16) -> u8 {
        let at = usize::from(row_in(value));
        if value >> 12 == u16::from(self.id) {
            self.written[at]
        } else {
            self.read[at].trailing_ones() as u8
        }
    }

    /// The first row of an entry that isn't whole.
    pub fn lacking(&self, value: u16) -> Option<u16> {
        if mark_of(value).is_some() {
            return None;
        }
        (value..=value + self.job.rest(row_in(value))).find(|&row| self.first_lacking(row) < 12)
    }

    /// Applies the entries that are whole, in order.
    pub fn apply(&mut self, known: &Known) {
        while let Some(&value) = known.values.get(usize::from(self.applied)) {
            if self.lacking(value).is_some() {
                break;
            }
            self.applied += 1;
            if mark_of(value).is_none() {
                let first = usize::from(row_in(value));
                for row in &self.words[first..=first + usize::from(self.job.rest(row_in(value)))] {
                    self.replies.push(self.store.apply(row));
                }
            }
        }
    }
}
