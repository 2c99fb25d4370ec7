//! The serial passes over maps of heights and over maps of words, and what is tried of both alike.

use crate::lent::Lent;
use crate::random::{self, Random};
use crate::records::{all_orders, broken_record};
use crate::short::ShortBuffers;
use crate::{model, reference};
use mulzhegat::{serial, Plan, Refusal};
use std::iter::repeat_with;

/// A call of the passes: plan, map and output.
pub type Call<T> = fn(&Plan, &[T], &mut [u64]) -> Result<(), Refusal>;

/// What a map has for a pixel: a height or a word.
pub trait Pixel: Copy + PartialEq {
    /// The library's call over such maps, and the model's.
    const CALLS: [Call<Self>; 2];

    /// A source of the pixels of one map.
    fn source(random: &mut Random) -> impl FnMut() -> Self;

    /// The words over which the passes run.
    fn words_of(map: &[Self]) -> Vec<u64>;

    /// A map of so many pixels.
    fn map(random: &mut Random, length: usize) -> Vec<Self> {
        repeat_with(Self::source(random)).take(length).collect()
    }
}

impl Pixel for i32 {
    const CALLS: [Call<i32>; 2] = [serial::run, model::serial];

    fn source(random: &mut Random) -> impl FnMut() -> i32 {
        random.heights_of_a_map()
    }

    fn words_of(map: &[i32]) -> Vec<u64> {
        reference::readings(map)
    }
}

impl Pixel for u64 {
    const CALLS: [Call<u64>; 2] = [serial::run_words, model::serial_words];

    fn source(random: &mut Random) -> impl FnMut() -> u64 {
        || random.word_of_a_map()
    }

    fn words_of(map: &[u64]) -> Vec<u64> {
        map.to_vec()
    }
}

/// How many pixels a map of a plan has.
pub fn pixels(plan: &Plan) -> usize {
    (plan.rows * plan.columns) as usize
}

/// Runs a plan over a random map, by the library and by the model, with words around the buffers and past the needed
/// lengths watched; gives the map.
pub fn run_and_compare<T: Pixel>(plan: &Plan, random: &mut Random) -> Lent<T> {
    let [map, output] = [0; 2].map(|_| pixels(plan) + random.below(3));
    let map = Lent::new(map, T::source(random));
    let output = Lent::new(output, || random.word());
    let map_before = map.clone();
    let [library, modelled] = T::CALLS.map(|call| {
        let mut output = output.clone();
        assert_eq!(call(plan, map.get(), output.get_mut()), Ok(()), "{plan:?}");
        output
    });
    assert!(map == map_before, "the map changed for {plan:?}");
    assert!(library == modelled, "the output differs for {plan:?}");
    map
}

/// Plans of all orders, on maps of fewer, as many and more lines than the order, and than a few lines worked on
/// together: one size for each choice of orders.
pub fn plans_of_all_orders(random: &mut Random) -> Vec<Plan> {
    let plan_of = |(number, orders)| {
        let any = (random.between(1, 40), random.between(1, 40));
        let sizes = [
            (1, 1),
            (1, 11),
            (12, 1),
            (2, 3),
            (3, 2),
            (5, 9),
            (9, 5),
            (7, 8),
            (8, 7),
            (15, 4),
            (16, 6),
            (17, 13),
            any,
            any,
        ];
        let (rows, columns) = sizes[number % sizes.len()];
        random.plan(rows, columns, 8, orders)
    };
    all_orders().enumerate().map(plan_of).collect()
}

/// Every set of short buffers refuses a call by 15, then 16, and a broken record refuses it by 6 before them.
pub fn expect_15_then_16<T: Pixel>(random: &mut Random) {
    let mut short = ShortBuffers::new([15, 16]);
    for _ in 0..500 * random::rounds() {
        let plan = random.small_plan(100);
        let broken = broken_record(random, &plan);
        let pixels = pixels(&plan);
        let map = Lent::new(pixels, T::source(random));
        let output = Lent::new(pixels, || random.word());
        let lend = |lengths: [usize; 2]| (map.shortened(lengths[0]), output.shortened(lengths[1]));
        let calls = T::CALLS.map(|call| {
            move |plan: &Plan, (map, output): &mut (Lent<T>, Lent<u64>)| call(plan, map.get(), output.get_mut())
        });
        short.try_all([&plan, &broken], [pixels, pixels], lend, calls);
    }
    short.expect_all(3, &[0]);
}
