//! Random numbers, plans and maps for tests and benchmarks, the same for one seed on every machine.

use crate::model::ORDER_LIMIT;
use crate::reference::DROPOUT;
use mulzhegat::{Pass, Plan, DOWN, UP};
use std::collections::{BTreeMap, BTreeSet};
use std::{fmt::Debug, io::Write, iter::repeat_with, sync::Once};

/// The seed of a default run.
pub const DEFAULT_SEED: u64 = 20240229;

/// Words of a map of words that look like a dropout: its number in 64 bits, its 32 bits, and the least number of 64
/// bits.
pub const LIKE_DROPOUTS: [u64; 3] = [0xFFFFFFFF80000000, 0x80000000, 0x8000000000000000];

/// A SplitMix64 generator.
pub struct Random(u64);

impl Random {
    /// A generator that begins at a seed.
    pub fn new(seed: u64) -> Random {
        Random(seed)
    }

    /// The next word.
    pub fn word(&mut self) -> u64 {
        self.0 = self.0.wrapping_add(0x9E3779B97F4A7C15);
        let mut word = self.0;
        word = (word ^ word >> 30).wrapping_mul(0xBF58476D1CE4E5B9);
        word = (word ^ word >> 27).wrapping_mul(0x94D049BB133111EB);
        word ^ word >> 31
    }

    /// A number below a limit.
    pub fn below(&mut self, limit: usize) -> usize {
        (self.word() % limit as u64) as usize
    }

    /// A number from one end to the other, both included.
    pub fn between(&mut self, low: usize, high: usize) -> usize {
        low + self.below(high - low + 1)
    }

    /// True once in `chances` times.
    pub fn once_in(&mut self, chances: usize) -> bool {
        self.below(chances) == 0
    }

    /// One of a list.
    pub fn pick<T: Copy>(&mut self, list: &[T]) -> T {
        list[self.below(list.len())]
    }

    /// Shuffles a list.
    pub fn shuffle<T>(&mut self, list: &mut [T]) {
        for last in (1..list.len()).rev() {
            list.swap(last, self.below(last + 1));
        }
    }

    /// A signed 28-bit number: small, at an end, or any.
    pub fn coefficient(&mut self) -> i64 {
        match self.below(4) {
            0 => self.between(0, 6) as i64 - 3,
            1 => self.pick(&[-134217728, -134217727, 134217726, 134217727]),
            _ => (self.word() >> 36) as i64 - 134217728,
        }
    }

    /// A pass of an order.
    pub fn pass(&mut self, order: usize) -> Pass {
        let coefficients: Vec<i64> = (0..order).map(|_| self.coefficient()).collect();
        Pass::new(self.coefficient(), &coefficients)
    }

    /// Four orders, each at most `most`; now and then all of them are as large.
    pub fn orders(&mut self, most: usize) -> [usize; 4] {
        let most = most.min(ORDER_LIMIT);
        let least = if self.once_in(8) { most } else { 0 };
        [0; 4].map(|_| self.between(least, most))
    }

    /// A plan of given size and orders.
    pub fn plan(&mut self, rows: usize, columns: usize, side: usize, orders: [usize; 4]) -> Plan {
        Plan { passes: orders.map(|order| self.pass(order)), ..Plan::plain(rows, columns, side) }
    }

    /// A plan of any side from 1 to 32 and of at most `most_pixels` pixels, often with narrow last blocks.
    pub fn small_plan(&mut self, most_pixels: usize) -> Plan {
        let side = match self.below(3) {
            0 => self.between(1, 4),
            1 => self.between(1, 10),
            _ => self.between(1, 32),
        };
        let most_rows = most_pixels.min(3 * side + self.below(8)).min(4096);
        let rows = self.between(1, most_rows);
        let most_columns = (most_pixels / rows).min(3 * side + self.below(8)).clamp(1, 4096);
        let columns = self.between(1, most_columns);
        let orders = self.orders(side);
        self.plan(rows, columns, side, orders)
    }

    /// A height that is no dropout: small, at an end, or any.
    pub fn height(&mut self) -> i32 {
        match self.below(4) {
            0 => self.between(0, 20) as i32 - 10,
            1 => self.pick(&[-i32::MAX, i32::MAX]),
            _ => (self.word() as i32).max(-i32::MAX),
        }
    }

    /// A source of the heights of one map, of which none, some or all are dropouts.
    pub fn heights_of_a_map(&mut self) -> impl FnMut() -> i32 + '_ {
        // So many of eight: often none, now and then all.
        let dropouts = self.pick(&[0, 0, 0, 1, 1, 2, 4, 8]);
        move || if self.below(8) < dropouts { DROPOUT } else { self.height() }
    }

    /// Heights of a map, of which none, some or all are dropouts.
    pub fn heights(&mut self, length: usize) -> Vec<i32> {
        repeat_with(self.heights_of_a_map()).take(length).collect()
    }

    /// Heights of a map, and the same with 0 in the place of each dropout.
    pub fn holes_and_zeros(&mut self, length: usize) -> [Vec<i32>; 2] {
        let holes = self.heights(length);
        let zeros = holes.iter().map(|&height| if height == DROPOUT { 0 } else { height }).collect();
        [holes, zeros]
    }

    /// A rectangle of a map of this size, which may be empty: top, left, bottom, right.
    pub fn rectangle(&mut self, rows: usize, columns: usize) -> [usize; 4] {
        let [[top, bottom], [left, right]] = [rows, columns].map(|most| {
            let mut edges = [self.between(0, most), self.between(0, most)];
            edges.sort();
            edges
        });
        [top, left, bottom, right]
    }

    /// A word of a map of words: small or just below 2^64, one that looks like a dropout, or any.
    pub fn word_of_a_map(&mut self) -> u64 {
        match self.below(4) {
            0 => (self.between(0, 20) as u64).wrapping_sub(10),
            1 => self.pick(&LIKE_DROPOUTS),
            _ => self.word(),
        }
    }

    /// Words of any value.
    pub fn words(&mut self, length: usize) -> Vec<u64> {
        (0..length).map(|_| self.word()).collect()
    }
}

/// How often plans had each order in each pass, and how often the last of several blocks along the pass was shorter
/// than the order.
#[derive(Debug, Default)]
pub struct Reached {
    orders: [[usize; ORDER_LIMIT + 1]; 4],
    with_short_blocks: [[usize; ORDER_LIMIT + 1]; 4],
}

impl Reached {
    /// Counts a plan.
    pub fn note(&mut self, plan: &Plan) {
        for (number, pass) in plan.passes.iter().enumerate() {
            let length = if number == DOWN || number == UP { plan.rows } else { plan.columns };
            let last_block = (length - 1) % plan.side + 1;
            let is_short = length > plan.side && last_block < pass.order;
            self.orders[number][pass.order as usize] += 1;
            self.with_short_blocks[number][pass.order as usize] += usize::from(is_short);
        }
    }

    /// Every order stood in every pass.
    pub fn expect_all_orders(&self) {
        assert!(self.orders.iter().flatten().all(|&times| times > 0), "{self:?}");
    }

    /// Every order that a block can be shorter than, 2 and up, stood in every pass with such a last block.
    pub fn expect_all_short_blocks(&self) {
        assert!(self.with_short_blocks.iter().flat_map(|times| &times[2..]).all(|&times| times > 0), "{self:?}");
    }
}

/// How many maps had no dropout, some, and nothing else.
#[derive(Debug, Default)]
pub struct MapsSeen([usize; 3]);

impl MapsSeen {
    /// Counts a map.
    pub fn note(&mut self, map: &[i32]) {
        let has = |dropout: bool| map.iter().any(|&height| (height == DROPOUT) == dropout);
        let kind = match (has(true), has(false)) {
            (false, _) => 0,
            (true, true) => 1,
            (true, false) => 2,
        };
        self.0[kind] += 1;
    }

    /// Each of the three kinds came up so many times at least.
    pub fn expect_each(&self, times: usize) {
        assert!(self.0.iter().all(|&seen| seen >= times), "{self:?}");
    }
}

/// How often each of some things came up.
#[derive(Debug, Default)]
pub struct Seen<T>(BTreeMap<T, usize>);

impl<T: Ord + Copy + Debug> Seen<T> {
    /// Nothing yet.
    pub fn new() -> Seen<T> {
        Seen(BTreeMap::new())
    }

    /// Counts a thing.
    pub fn note(&mut self, thing: T) {
        *self.0.entry(thing).or_insert(0) += 1;
    }

    /// Just these things came up, each so many times at least.
    #[track_caller]
    pub fn expect(&self, things: impl IntoIterator<Item = T>, times: usize) {
        assert_eq!(BTreeSet::from_iter(self.0.keys().copied()), BTreeSet::from_iter(things));
        assert!(self.0.values().all(|&seen| seen >= times), "{:?}", self.0);
    }
}

fn number_from(variable: &str, default: u64) -> u64 {
    match std::env::var(variable) {
        Ok(text) => text.trim().parse().unwrap_or_else(|_| panic!("{variable} is not a number: {text}")),
        Err(_) => default,
    }
}

/// The generator of a named test, seeded by `MULZHEGAT_SEED` (or [`DEFAULT_SEED`]) and the name. The seed is printed
/// once in a test program, past the capture of the test harness, so that a passing run shows it too.
pub fn of_test(name: &str) -> Random {
    static PRINTED: Once = Once::new();
    let seed = number_from("MULZHEGAT_SEED", DEFAULT_SEED);
    PRINTED.call_once(|| {
        let line = format!("random tests: MULZHEGAT_SEED={seed} MULZHEGAT_ROUNDS={}\n", rounds());
        let _ = std::io::stderr().write_all(line.as_bytes());
    });
    Random::new(name.bytes().fold(seed, |mixed, byte| Random::new(mixed ^ u64::from(byte)).word()))
}

/// How many times as long a random test is to run: `MULZHEGAT_ROUNDS`, at least and usually 1.
pub fn rounds() -> usize {
    number_from("MULZHEGAT_ROUNDS", 1).max(1) as usize
}
