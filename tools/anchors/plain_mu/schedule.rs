//! Eager replicas that take their turns by a random schedule: wild up to some moment, and fair from
//! there on.
use crate::job::Job;
use crate::port::{Event, Port};
use crate::replay::layout_of;
use crate::replica::Replica;
use crate::words::Plain;
use std::cell::Cell;

/// The longest row of turns that one replica takes in the wild part is two to this power.
const MOST_DOUBLINGS: u64 = 10;
/// Speeds are drawn from two to the power 0 up to this.
const SPEED_DOUBLINGS: u64 = 6;
/// After how many turns at most new speeds are drawn.
const MOST_TURNS: u64 = 2_000;

/// What a schedule goes by.
pub struct Plan {
    seed: u64,
    /// In any so many turns of the least that goes on each other one that does takes one: 2 or more.
    ratio: u32,
    /// How many turns are taken before that.
    wild: usize,
    /// Those that go on: a bit for each.
    going: u32,
}

impl Plan {
    /// `SEED RATIO WILD GOING`, with the ids of those that go on as digits.
    pub fn read(words: &[String], job: &Job) -> Option<Plan> {
        let [seed, ratio, wild, going] = words else { return None };
        let ids = going.bytes().map(|digit| digit.wrapping_sub(b'0'));
        let are_ids = !going.is_empty() && ids.clone().all(|id| id < job.replicas);
        let ratio = ratio.parse().ok().filter(|&ratio| ratio > 1)?;
        let (seed, wild) = (seed.parse().ok()?, wild.parse().ok()?);
        are_ids.then(|| Plan { seed, ratio, wild, going: ids.fold(0, |all, id| all | 1 << id) })
    }
}

/// Random numbers: the same for the same seed.
struct Chance(u64);

impl Chance {
    fn new(seed: u64) -> Chance {
        Chance(seed.wrapping_mul(0x9e37_79b9_7f4a_7c15) | 1)
    }

    /// One below a number above 0.
    fn below(&mut self, number: u64) -> u64 {
        self.0 ^= self.0 >> 12;
        self.0 ^= self.0 << 25;
        self.0 ^= self.0 >> 27;
        (self.0.wrapping_mul(0x2545_f491_4f6c_dd1d) >> 33) % number
    }

    /// One of a set with a member, each as often as its weight says.
    fn one_of(&mut self, set: u32, weights: &[u64; 7]) -> u8 {
        let members = || (0..7u8).filter(move |&id| set & 1 << id != 0);
        let mut left = self.below(members().map(|id| weights[usize::from(id)]).sum());
        for id in members() {
            match left.checked_sub(weights[usize::from(id)]) {
                Some(less) => left = less,
                None => return id,
            }
        }
        unreachable!("a number below the sum of the weights")
    }

    fn speeds(&mut self) -> [u64; 7] {
        [(); 7].map(|()| 1 << self.below(SPEED_DOUBLINGS + 1))
    }
}

/// The replicas, and their memory.
struct Turns<'a> {
    job: &'a Job,
    replicas: Vec<Replica<'a>>,
    memory: Plain,
    /// Those that have not ended.
    left: u32,
    events: Vec<Event>,
}

impl<'a> Turns<'a> {
    fn new(job: &'a Job) -> Turns<'a> {
        Turns {
            job,
            replicas: (0..job.replicas).map(|id| Replica::new(job, id, true)).collect(),
            memory: Plain(layout_of(job).first_words().map(Cell::new).collect()),
            left: (1 << job.replicas) - 1,
            events: Vec::new(),
        }
    }

    /// Lets a replica take its turn: whether it goes on.
    fn take(&mut self, by: u8) -> bool {
        let (memory, record) = (&self.memory, &mut self.events);
        let port = &mut Port { memory, layout: layout_of(self.job), by, record };
        if self.replicas[usize::from(by)].turn(port).is_some() {
            self.left &= !(1 << by);
        }
        self.left & 1 << by != 0
    }

    /// Turns in any order: one replica after another takes a few or many in a row.
    fn go_wild(&mut self, turns: usize, chance: &mut Chance) {
        let even = [1; 7];
        while self.events.len() < turns && self.left != 0 {
            let by = chance.one_of(self.left, &even);
            let doublings = chance.below(MOST_DOUBLINGS + 1);
            for _ in 0..1 + chance.below(1 << doublings) {
                if self.events.len() == turns || !self.take(by) {
                    break;
                }
            }
        }
    }

    /// Turns of those that go on, until one of them has ended. Speeds are random and change, but no
    /// other one is passed over for as many turns of the least as the ratio says.
    fn go_fairly(&mut self, plan: &Plan, chance: &mut Chance) {
        let least = plan.going.trailing_zeros() as u8;
        let (mut speeds, mut changes, mut passed) = (chance.speeds(), chance.below(MOST_TURNS), [0; 7]);
        while self.left & plan.going == plan.going {
            if changes == 0 {
                (speeds, changes) = (chance.speeds(), 1 + chance.below(MOST_TURNS));
            }
            changes -= 1;
            let drawn = chance.one_of(plan.going, &speeds);
            let is_due = |&id: &u8| {
                id != least && plan.going & 1 << id != 0 && passed[usize::from(id)] + 1 >= plan.ratio
            };
            let due = if drawn == least { (0..7).find(is_due) } else { None };
            let by = due.unwrap_or(drawn);
            if by == least {
                passed.iter_mut().for_each(|turns| *turns += 1);
            }
            passed[usize::from(by)] = 0;
            self.take(by);
        }
    }
}

/// The events of a schedule: it ends with the first that goes on and has ended.
pub fn events(job: &Job, plan: &Plan) -> Vec<Event> {
    let (mut turns, mut chance) = (Turns::new(job), Chance::new(plan.seed));
    turns.go_wild(plan.wild, &mut chance);
    turns.go_fairly(plan, &mut chance);
    turns.events
}
