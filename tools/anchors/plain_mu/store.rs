//! The key-value store, which takes commands as the words of their rows.
use crate::job::Row;
use std::collections::HashMap;
use std::hash::{BuildHasherDefault, Hasher};

/// A key: three words and its length.
#[derive(Clone, Copy, PartialEq, Eq)]
struct Key([u64; 3], u8);

/// A text: its words and its length.
#[derive(Clone, Copy, PartialEq, Eq)]
pub struct Text([u64; 8], u8);

#[derive(Clone, Copy)]
pub enum Reply {
    Done,
    Value(Text),
    None,
    Kept(Text),
}

impl std::hash::Hash for Key {
    fn hash<H: Hasher>(&self, state: &mut H) {
        self.0.iter().for_each(|&word| state.write_u64(word));
    }
}

/// A product for each word: keys come from a job, and nobody attacks this table.
#[derive(Default)]
pub struct Products(u64);

impl Hasher for Products {
    fn write(&mut self, bytes: &[u8]) {
        bytes.iter().for_each(|&byte| self.write_u64(u64::from(byte)));
    }
    fn write_u64(&mut self, word: u64) {
        self.0 = (self.0.rotate_left(5) ^ word).wrapping_mul(0x517c_c1b7_2722_0a95);
    }
    fn finish(&self) -> u64 {
        self.0 ^ self.0 >> 32
    }
}

#[derive(Default)]
pub struct Store(HashMap<Key, Text, BuildHasherDefault<Products>>);

impl Store {
    pub fn with_room(commands: usize) -> Store {
        Store(HashMap::with_capacity_and_hasher(commands, BuildHasherDefault::default()))
    }

    /// Applies the command of a row.
    pub fn apply(&mut self, row: &Row) -> Reply {
        let length = |shift: u32| (row[0] >> shift) as u8;
        let key = Key([row[1], row[2], row[3]], length(32));
        match row[0] as u8 {
            1 => {
                self.0.insert(key, whole_text(row));
                Reply::Done
            }
            2 => self.0.get(&key).map_or(Reply::None, |&text| Reply::Value(text)),
            3 => self.0.remove(&key).map_or(Reply::None, |_| Reply::Done),
            4 => self.0.insert(key, whole_text(row)).map_or(Reply::None, Reply::Value),
            _ => match self.0.get_mut(&key) {
                None => Reply::None,
                Some(text) if *text == half_text(&row[4..8], length(40)) => {
                    *text = half_text(&row[8..12], length(48));
                    Reply::Done
                }
                Some(text) => Reply::Kept(*text),
            },
        }
    }
}

fn whole_text(row: &Row) -> Text {
    let mut words = [0; 8];
    words.copy_from_slice(&row[4..12]);
    Text(words, (row[0] >> 40) as u8)
}

fn half_text(half: &[u64], length: u8) -> Text {
    let mut words = [0; 8];
    words[..4].copy_from_slice(half);
    Text(words, length)
}

impl Text {
    /// Writes the bytes at the end of a list.
    pub fn write(&self, out: &mut Vec<u8>) {
        let bytes = self.0.iter().flat_map(|word| word.to_le_bytes());
        out.extend(bytes.take(usize::from(self.1)));
    }
}
