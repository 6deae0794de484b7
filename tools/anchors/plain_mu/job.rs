//! A job as it stands in `docs/FORMATS.md`. What isn't a job is refused without a cause.

/// A row: the twelve words of a command.
pub type Row = [u64; 12];

/// The last steps and pauses that the script has for a replica.
#[derive(Clone, Default)]
pub struct Script {
    pub stop: Option<u32>,
    /// After how many steps, and for how many rounds.
    pub pauses: Vec<(u32, u32)>,
}

pub struct Job {
    pub version: u8,
    pub replicas: u8,
    pub ring: u16,
    pub budget: u32,
    pub width: u8,
    pub rows: Vec<Row>,
    /// The lines of the commands, in the order of the rows.
    pub lines: Vec<String>,
    /// The client of each row.
    pub clients: Vec<u8>,
    /// The first row of each client, and the one after its last.
    pub spans: Vec<(u16, u16)>,
    pub scripts: Vec<Script>,
}

impl Job {
    /// How many places marks need at the end of the ring.
    pub fn reserve(&self) -> u16 {
        if self.version == 2 {
            u16::from(self.replicas)
        } else {
            0
        }
    }
    /// How many rows of the same batch follow.
    pub fn rest(&self, row: u16) -> u16 {
        (self.rows[usize::from(row)][0] >> 56) as u16
    }
    /// One more than the greatest client that has a command.
    pub fn sending(&self) -> u16 {
        self.spans.iter().rposition(|span| span.0 < span.1).map_or(0, |last| last as u16 + 1)
    }
}

/// The number after the name, if the line has both.
fn field(line: Option<&str>, name: &str) -> Option<u32> {
    number(line?.strip_prefix(name)?.strip_prefix(' ')?)
}

fn number(word: &str) -> Option<u32> {
    let is_number = word.len() <= 7 && word.bytes().all(|byte| byte.is_ascii_digit());
    let is_short = word == "0" || !word.starts_with('0');
    if is_number && is_short {
        word.parse().ok()
    } else {
        None
    }
}

/// The number if it lies within the bounds.
fn within(number: Option<u32>, least: u32, most: u32) -> Option<u32> {
    number.filter(|number| (least..=most).contains(number))
}

/// Reads a job that ends with the text.
pub fn read(text: &str) -> Option<Job> {
    let mut lines = text.strip_suffix('\n').unwrap_or(text).split('\n');
    let job = read_lines(&mut lines)?;
    if lines.next().is_none() {
        Some(job)
    } else {
        None
    }
}

/// Reads the lines of a job, and leaves those after it.
pub fn read_lines<'a>(lines: &mut impl Iterator<Item = &'a str>) -> Option<Job> {
    let version = within(field(lines.next(), "mu"), 1, 2)? as u8;
    let replicas = within(field(lines.next(), "replicas"), 1, 7)? as u8;
    let ring = within(field(lines.next(), "ring"), 8, 1024)? as u16;
    let budget = within(field(lines.next(), "budget"), 1, 131_071)?;
    let width = if version == 2 { within(field(lines.next(), "batch"), 1, 4)? as u8 } else { 1 };
    let mut job = Job {
        version,
        replicas,
        ring,
        budget,
        width,
        rows: Vec::new(),
        lines: Vec::new(),
        clients: Vec::new(),
        spans: Vec::new(),
        scripts: vec![Script::default(); usize::from(replicas)],
    };
    loop {
        let line = lines.next()?;
        match line {
            "end" => break,
            "script" => {
                read_script(&mut job, lines)?;
                break;
            }
            _ => read_command(&mut job, line)?,
        }
    }
    tell_rests(&mut job);
    Some(job)
}

/// Takes a `client` line or a command.
fn read_command(job: &mut Job, line: &str) -> Option<()> {
    let rows = job.rows.len() as u16;
    if let Some(client) = field(Some(line), "client") {
        if client as usize != job.spans.len() || client > 15 {
            return None;
        }
        job.spans.push((rows, rows));
        return Some(());
    }
    let client = job.spans.len().checked_sub(1)?;
    if rows == 1500 {
        return None;
    }
    let span = &mut job.spans[client];
    let row = row_of(line, client as u64, u64::from(rows - span.0) + 1)?;
    span.1 = rows + 1;
    job.rows.push(row);
    job.lines.push(line.to_string());
    job.clients.push(client as u8);
    Some(())
}

/// Takes the lines of the script, up to its end.
fn read_script<'a>(job: &mut Job, lines: &mut impl Iterator<Item = &'a str>) -> Option<()> {
    for count in 0.. {
        let line = lines.next()?;
        if line == "end" {
            return Some(());
        }
        let words: Vec<&str> = line.split(' ').collect();
        let numbers: Vec<u32> = words[1..].iter().map(|word| number(word)).collect::<Option<_>>()?;
        let script = job.scripts.get_mut(*numbers.first()? as usize)?;
        match (words[0], &numbers[1..]) {
            ("stop", &[steps]) if script.stop.is_none() && steps <= 131_071 => {
                script.stop = Some(steps);
            }
            ("pause", &[steps, rounds]) => {
                let rises = script.pauses.last().is_none_or(|last| last.0 < steps);
                if !rises || steps > 131_071 || !(1..=10_000).contains(&rounds) {
                    return None;
                }
                script.pauses.push((steps, rounds));
            }
            _ => return None,
        }
        if count == 100 {
            return None;
        }
    }
    None
}

/// Writes into the head of each row how many rows of its batch follow.
fn tell_rests(job: &mut Job) {
    let width = u16::from(job.width);
    for &(first, after) in &job.spans {
        for row in first..after {
            let batch_end = (first + ((row - first) / width + 1) * width).min(after);
            job.rows[usize::from(row)][0] |= u64::from(batch_end - 1 - row) << 56;
        }
    }
}

fn is_text(word: &str, most: usize) -> bool {
    (1..=most).contains(&word.len()) && word.bytes().all(|byte| (33..=126).contains(&byte))
}

/// The row of a command, as the first of its batch that no row follows.
fn row_of(line: &str, client: u64, number: u64) -> Option<Row> {
    let words: Vec<&str> = line.split(' ').collect();
    let (operation, most) = match (words[0], words.len()) {
        ("put", 3) => (1, 64),
        ("get", 2) => (2, 64),
        ("del", 2) => (3, 64),
        ("swap", 3) => (4, 64),
        ("cas", 4) => (5, 32),
        _ => return None,
    };
    if !is_text(words[1], 24) || !words[2..].iter().all(|word| is_text(word, most)) {
        return None;
    }
    let length = |k: usize| words.get(k).map_or(0, |word| word.len() as u64);
    let mut row = [0; 12];
    row[0] =
        operation | client << 8 | number << 16 | length(1) << 32 | length(2) << 40 | length(3) << 48;
    fill(&mut row[1..4], words[1]);
    if let Some(text) = words.get(2) {
        fill(&mut row[4..12], text);
    }
    if let Some(text) = words.get(3) {
        fill(&mut row[8..12], text);
    }
    Some(row)
}

/// Eight bytes stand in a word, the first in the lowest place.
fn fill(words: &mut [u64], text: &str) {
    for (k, byte) in text.bytes().enumerate() {
        words[k / 8] |= u64::from(byte) << (8 * (k % 8));
    }
}
