//! The words of shared memory: where each stands, and what its bits say.
use std::cell::Cell;
use std::sync::atomic::{AtomicU64, Ordering::SeqCst};

/// Memory that is changed by one step on one word at a time.
pub trait Memory {
    fn load(&self, at: usize) -> u64;
    fn store(&self, at: usize, word: u64);
    /// Adds one.
    fn add(&self, at: usize);
    /// The greater of two.
    fn raise(&self, at: usize, to: u64);
    /// Sets bits, and tells the word before.
    fn set_bits(&self, at: usize, bits: u64) -> u64;
    fn swap(&self, at: usize, word: u64) -> u64;
    /// Writes the word if the expected one stands; else tells the one that does.
    fn exchange(&self, at: usize, expected: u64, word: u64) -> Result<(), u64>;
}

/// Memory of one thread.
pub struct Plain(pub Vec<Cell<u64>>);

/// Memory of several threads: each step is sequentially consistent.
pub struct Shared(pub Vec<AtomicU64>);

impl Memory for Plain {
    fn load(&self, at: usize) -> u64 {
        self.0[at].get()
    }
    fn store(&self, at: usize, word: u64) {
        self.0[at].set(word);
    }
    fn add(&self, at: usize) {
        self.0[at].set(self.0[at].get() + 1);
    }
    fn raise(&self, at: usize, to: u64) {
        self.0[at].set(self.0[at].get().max(to));
    }
    fn set_bits(&self, at: usize, bits: u64) -> u64 {
        self.0[at].replace(self.0[at].get() | bits)
    }
    fn swap(&self, at: usize, word: u64) -> u64 {
        self.0[at].replace(word)
    }
    fn exchange(&self, at: usize, expected: u64, word: u64) -> Result<(), u64> {
        let found = self.0[at].get();
        if found == expected {
            self.0[at].set(word);
            Ok(())
        } else {
            Err(found)
        }
    }
}

impl Memory for Shared {
    fn load(&self, at: usize) -> u64 {
        self.0[at].load(SeqCst)
    }
    fn store(&self, at: usize, word: u64) {
        self.0[at].store(word, SeqCst);
    }
    fn add(&self, at: usize) {
        self.0[at].fetch_add(1, SeqCst);
    }
    fn raise(&self, at: usize, to: u64) {
        self.0[at].fetch_max(to, SeqCst);
    }
    fn set_bits(&self, at: usize, bits: u64) -> u64 {
        self.0[at].fetch_or(bits, SeqCst)
    }
    fn swap(&self, at: usize, word: u64) -> u64 {
        self.0[at].swap(word, SeqCst)
    }
    fn exchange(&self, at: usize, expected: u64, word: u64) -> Result<(), u64> {
        self.0[at].compare_exchange(expected, word, SeqCst, SeqCst).map(|_| ())
    }
}

/// Where the words stand. A region has its fence, minimum, FUO, head, beat, an ask for each replica,
/// and the slots of its ring; the rows of all replicas follow the last region.
#[derive(Clone, Copy)]
pub struct Layout {
    pub replicas: usize,
    pub ring: usize,
    pub rows: usize,
}

impl Layout {
    fn region(&self, p: u8) -> usize {
        usize::from(p) * (5 + self.replicas + self.ring)
    }
    pub fn fence(&self, p: u8) -> usize {
        self.region(p)
    }
    pub fn minimum(&self, p: u8) -> usize {
        self.region(p) + 1
    }
    pub fn fuo(&self, p: u8) -> usize {
        self.region(p) + 2
    }
    pub fn head(&self, p: u8) -> usize {
        self.region(p) + 3
    }
    pub fn beat(&self, p: u8) -> usize {
        self.region(p) + 4
    }
    pub fn ask(&self, p: u8, w: u8) -> usize {
        self.region(p) + 5 + usize::from(w)
    }
    pub fn slot(&self, p: u8, place: usize) -> usize {
        self.region(p) + 5 + self.replicas + place
    }
    pub fn row(&self, value: u16, k: usize) -> usize {
        let (replica, row) = (usize::from(value >> 12), usize::from(value & 4095));
        self.replicas * (5 + self.replicas + self.ring) + (replica * self.rows + row) * 12 + k
    }
    /// How many words there are.
    pub fn words(&self) -> usize {
        self.replicas * (5 + self.replicas + self.ring) + self.replicas * self.rows * 12
    }

    /// The words as a run begins: no region has an owner.
    pub fn first_words(&self) -> impl Iterator<Item = u64> {
        let layout = *self;
        let region = 5 + layout.replicas + layout.ring;
        (0..layout.words()).map(move |at| {
            let is_fence = at < layout.replicas * region && at % region == 0;
            if is_fence {
                NOBODY << OWNER_SHIFT
            } else {
                0
            }
        })
    }
}

pub const NOBODY: u64 = 7;
pub const CLOSING: u64 = 1 << 14;
pub const NO_TARGET: u64 = 0;
pub const MINIMUM: u64 = 1;
/// The least stamp above none, in a slot or a minimum.
pub const STAMP: u64 = 1 << 47;
const OWNER_SHIFT: u64 = 11;
const GRANT_SHIFT: u64 = 15;
const TARGET_BITS: u64 = (1 << OWNER_SHIFT) - 1;

/// The target that names a place of the ring.
pub fn place_target(place: usize) -> u64 {
    place as u64 + 2
}
pub fn fence_word(grant: u64, owner: u8) -> u64 {
    grant << GRANT_SHIFT | u64::from(owner) << OWNER_SHIFT
}
pub fn grant_of(fence: u64) -> u64 {
    fence >> GRANT_SHIFT
}
pub fn owner_of(fence: u64) -> u64 {
    fence >> OWNER_SHIFT & 7
}
pub fn target_of(fence: u64) -> u64 {
    fence & TARGET_BITS
}
pub fn with_target(fence: u64, target: u64) -> u64 {
    fence & !TARGET_BITS | target
}
pub fn is_closing(fence: u64) -> bool {
    fence & CLOSING != 0
}
/// Whether the fence is open and names the replica.
pub fn is_granted(fence: u64, to: u8) -> bool {
    fence & (CLOSING | 7 << OWNER_SHIFT) == u64::from(to) << OWNER_SHIFT
}

/// Whether the fence is open, and granted to another than the replica.
pub fn is_foreign(fence: u64, than: u8) -> bool {
    let owner = owner_of(fence);
    !is_closing(fence) && owner != 7 && owner != u64::from(than)
}

/// What a slot shows of a position.
#[derive(Clone, Copy)]
pub enum Seen {
    Empty,
    Past,
    Entry { number: u32, value: u16 },
}

pub fn seen_in(slot: u64, lap: u64) -> Seen {
    let (stands, number) = (slot >> 38 & 511, (slot >> 15) as u32 & 0x7f_ffff);
    if stands > lap {
        Seen::Past
    } else if stands == lap && number > 0 {
        Seen::Entry { number, value: slot as u16 & 0x7fff }
    } else {
        Seen::Empty
    }
}
/// A slot with this entry in it, with the stamp of the word.
pub fn slot_word(before: u64, lap: u64, number: u32, value: u16) -> u64 {
    before & !(STAMP - 1) | lap << 38 | u64::from(number) << 15 | u64::from(value)
}
pub fn number_in_minimum(word: u64) -> u32 {
    word as u32 & 0x7f_ffff
}
pub fn minimum_word(before: u64, number: u32) -> u64 {
    before & !(STAMP - 1) | u64::from(number)
}
