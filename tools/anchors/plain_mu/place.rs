//! The places of the leader's listing, and what a leader keeps.

/// What follows once a region, or all members, were brought up.
#[derive(Clone, Copy, PartialEq, Eq)]
pub enum Then {
    /// The late followers.
    Late,
    /// The next position.
    Position,
    /// The next late follower: this one has just joined.
    Joined,
}

#[derive(Clone, Copy)]
pub enum Place {
    Ask(u8),
    Confirm(u8, u8),
    ReadMin(u8),
    EnterMin(u8),
    PutMin(u8),
    ReadFuo(u8),
    Learn,
    WidenBehind(u8, Then),
    LookBehind(u8, Then),
    EnterBehind(u8, Then),
    PutBehind(u8, Then),
    RaiseBehind(u8, Then),
    FenceBehind(u8, Then),
    LateFence(u8),
    LateMin(u8),
    LateFuo(u8),
    LateEnter(u8),
    LatePut(u8),
    ReadHead(u8),
    Look(u8),
    Write(u16, u16),
    Enter(u8),
    Put(u8),
    Raise(u8),
    Evidence(u8),
    Rest,
}

/// What a leader keeps. Sets of regions have a bit for each.
pub struct Leader {
    pub place: Place,
    /// Confirmed, and neither over nor given up since.
    pub leads: bool,
    pub number: u32,
    /// The greatest number that was read in this leadership or put in any.
    pub above: u32,
    pub noted: u32,
    pub members: u32,
    /// The words of fences and minima as they were seen or written last, and the slots looked at.
    pub fences: [u64; 7],
    pub minima: [u64; 7],
    pub slots: [u64; 7],
    /// Up to which position each region has what is known, and its greatest FUO read or raised.
    pub up: [u16; 7],
    pub reach: [u16; 7],
    /// The region of the greatest FUO.
    pub source: u8,
    pub heads: [u16; 7],
    pub candidate: Option<u8>,
    /// The entry of the largest number that the looks at this position showed.
    pub best: Option<(u32, u16)>,
    /// The value that is put.
    pub value: u16,
    pub greatest_put: u32,
    /// How many times in a row each region was seen open to another under the number, up to 16.
    pub foreign: [u8; 7],
    /// Whether the leadership has its number.
    pub is_numbered: bool,
}

impl Default for Leader {
    fn default() -> Leader {
        Leader {
            place: Place::Ask(0),
            leads: false,
            number: 0,
            above: 0,
            noted: 0,
            members: 0,
            fences: [0; 7],
            minima: [0; 7],
            slots: [0; 7],
            up: [0; 7],
            reach: [0; 7],
            source: 0,
            heads: [0; 7],
            candidate: None,
            best: None,
            value: 0,
            greatest_put: 0,
            foreign: [0; 7],
            is_numbered: false,
        }
    }
}

impl Leader {
    /// The value that is being written or put, if one is.
    pub fn offered(&self) -> Option<u16> {
        let is_offered = matches!(self.place, Place::Write(..) | Place::Enter(_) | Place::Put(_));
        if is_offered {
            Some(self.value)
        } else {
            None
        }
    }
}

/// The least of the set from p on.
pub fn next_in(set: u32, p: u8) -> Option<u8> {
    let later = set & (u32::MAX << p);
    if later == 0 {
        None
    } else {
        Some(later.trailing_zeros() as u8)
    }
}
