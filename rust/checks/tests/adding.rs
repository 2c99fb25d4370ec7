//! Adding maps, and rows first: the passes over maps of words against the second program, outputs of sums and
//! differences of maps, and the passes run in other orders by several calls.

use checks::passes::{expect_15_then_16, pixels, plans_of_all_orders, run_and_compare, Pixel};
use checks::random::{self, MapsSeen, Random, Reached, Seen, LIKE_DROPOUTS};
use checks::reference::{self, reading, DROPOUT, ROWS_FIRST};
use checks::serial_output;
use mulzhegat::{Pass, Plan, DOWN, LEFT, RIGHT, UP};
use std::array::from_fn;
use std::ops::{Add, Sub};

/// What makes one word or number of two.
type Operation<T> = fn(T, T) -> T;

/// Sum and difference: of words modulo 2^64, and of numbers, where those of heights stay far from the ends of 64 bits.
const SUM_AND_DIFFERENCE: [(Operation<u64>, Operation<i64>); 2] =
    [(u64::wrapping_add, Add::add), (u64::wrapping_sub, Sub::sub)];

/// What an operation gives at each pixel of two maps.
fn pixelwise<T: Copy>(operation: impl Fn(T, T) -> u64, first: &[T], second: &[T]) -> Vec<u64> {
    first.iter().zip(second).map(|(&first, &second)| operation(first, second)).collect()
}

/// Two random maps for a plan.
fn two_maps<T: Pixel>(plan: &Plan, random: &mut Random) -> [Vec<T>; 2] {
    [0; 2].map(|_| T::map(random, pixels(plan)))
}

/// The plan with some of its passes; the others change nothing.
fn with_only(plan: &Plan, kept: &[usize]) -> Plan {
    let pass = |pass| if kept.contains(&pass) { plan.passes[pass] } else { Pass::new(1, &[]) };
    Plan { passes: from_fn(pass), ..*plan }
}

/// The output of several calls, each with some passes of the plan: the first over the map, every other over the output
/// of the one before.
fn output_by_calls<T: Pixel>(plan: &Plan, calls: &[&[usize]], map: &[T]) -> Vec<u64> {
    let first = serial_output(&with_only(plan, calls[0]), map);
    calls[1..].iter().fold(first, |words, passes| serial_output(&with_only(plan, passes), &words))
}

/// Right and left in one call, then down and up in another, give the words of all four in one, and so does the second
/// program in that order.
fn expect_the_same_rows_first<T: Pixel>(plan: &Plan, map: &[T]) {
    let output = serial_output(plan, map);
    assert!(output == output_by_calls(plan, &[&[RIGHT, LEFT], &[DOWN, UP]], map), "two calls differ for {plan:?}");
    let second = reference::serial_in_order(plan, ROWS_FIRST, &T::words_of(map));
    assert!(output == second, "the second program differs, rows first, for {plan:?}");
}

/// All 24 orders of the four passes.
fn orders_of_passes() -> impl Iterator<Item = [usize; 4]> {
    let choices = (0..4usize.pow(4)).map(|number| [0, 1, 2, 3].map(|place| number / 4usize.pow(place) % 4));
    choices.filter(|order| (0..4).all(|pass| order.contains(&pass)))
}

/// Whether one of two passes stands before the other in an order.
fn runs_before(order: &[usize; 4], one: usize, other: usize) -> bool {
    order.iter().position(|&pass| pass == one) < order.iter().position(|&pass| pass == other)
}

#[test]
fn example_difference_of_two_faces_with_a_dropout() {
    // Today's 5 stays, since yesterday there was no height; the others are less by 1.
    let plan = Plan::summed(2, 3, 2);
    let (today, yesterday) = ([1, 2, 3, 4, 5, 6], [1, 1, 1, 1, DROPOUT, 1]);
    let (today, yesterday) = (serial_output(&plan, &today), serial_output(&plan, &yesterday));
    let expected = [0, 1, 3, 3, 9, 16];
    assert_eq!(pixelwise(u64::wrapping_sub, &today, &yesterday), expected);
    assert_eq!(serial_output::<u64>(&plan, &[0, 1, 2, 3, 5, 5]), expected);
}

#[test]
fn example_rows_first() {
    // The second program's own test has these words, worked out by hand.
    let plan = Plan::plain(2, 2, 1).with(DOWN, 1, &[-1]).with(UP, 1, &[2]).with(RIGHT, 3, &[1]).with(LEFT, 1, &[-1]);
    let (map, output) = ([1, 2, 3, 5], [-36, -15, 21, 9].map(|number: i64| number as u64));
    assert_eq!(serial_output::<u64>(&plan, &map), output);
    let after_rows = serial_output::<u64>(&with_only(&plan, &[RIGHT, LEFT]), &map);
    assert_eq!(after_rows, [6, 3, 15, 6]);
    assert_eq!(serial_output(&with_only(&plan, &[DOWN, UP]), &after_rows), output);
    let up_first = [-24, -9, -9, -3].map(|number: i64| number as u64);
    assert_eq!(output_by_calls::<u64>(&plan, &[&[UP], &[DOWN, RIGHT, LEFT]], &map), up_first);
}

#[test]
fn words_that_look_like_dropouts_are_taken_as_they_are() {
    let mut random = random::of_test("words_that_look_like_dropouts_are_taken_as_they_are");
    let (plain, least) = (Plan::plain(1, 1, 1), Plan::plain(1, 1, 1).with(UP, -134217728, &[]));
    // -2^31 times -2^27, 2^31 times -2^27, and 2^63 times an even number.
    for (word, times_least) in LIKE_DROPOUTS.into_iter().zip([288230376151711744, 18158513697557839872, 0]) {
        assert_eq!(serial_output(&plain, &[word]), [word]);
        assert_eq!(serial_output(&least, &[word]), [times_least]);
    }
    assert_eq!(serial_output(&least, &[DROPOUT]), [0]);

    for _ in 0..300 * random::rounds() {
        let mut plan = random.small_plan(100);
        // With odd gains no two maps have the same output.
        plan.passes.iter_mut().for_each(|pass| pass.gain |= 1);
        let (mut map, word) = (random.words(pixels(&plan)), random.pick(&LIKE_DROPOUTS));
        let pixel = random.below(map.len());
        let [with_zero, output] = [0, word].map(|word| {
            map[pixel] = word;
            serial_output(&plan, &map)
        });
        assert!(output != with_zero, "{word:x} at {pixel} is taken for a dropout by {plan:?}");
        assert!(output == reference::serial_words(&plan, &map), "{word:x} at {pixel} for {plan:?}");
    }
}

#[test]
fn random_maps_of_words_against_the_second_program() {
    let mut random = random::of_test("random_maps_of_words_against_the_second_program");
    let mut reached = Reached::default();
    for _ in 0..4_000 * random::rounds() {
        let plan = random.small_plan(600);
        reached.note(&plan);
        run_and_compare::<u64>(&plan, &mut random);
    }
    reached.expect_all_orders();
}

#[test]
fn all_orders_over_maps_of_words_against_the_second_program() {
    let mut random = random::of_test("all_orders_over_maps_of_words_against_the_second_program");
    for plan in plans_of_all_orders(&mut random) {
        run_and_compare::<u64>(&plan, &mut random);
    }
}

#[test]
fn every_set_of_short_buffers_refuses_the_passes_over_words_by_15_then_16() {
    let mut random = random::of_test("every_set_of_short_buffers_refuses_the_passes_over_words_by_15_then_16");
    expect_15_then_16::<u64>(&mut random);
}

#[test]
fn large_maps_of_words() {
    let mut random = random::of_test("large_maps_of_words");
    for (rows, columns) in [(4096, 1), (1, 4096), (4096, 33), (700, 900)] {
        let orders = random.orders(32);
        let plan = random.plan(rows, columns, 32, orders);
        let map = run_and_compare::<u64>(&plan, &mut random);
        expect_the_same_rows_first(&plan, &map.get()[..pixels(&plan)]);
    }
}

#[test]
fn heights_and_the_words_of_their_readings_have_the_same_output() {
    let mut random = random::of_test("heights_and_the_words_of_their_readings_have_the_same_output");
    let (mut maps, mut others) = (MapsSeen::default(), 0);
    for _ in 0..500 * random::rounds() {
        let plan = random.small_plan(300);
        let map = random.heights(pixels(&plan));
        maps.note(&map);
        let output = serial_output(&plan, &map);
        assert!(output == serial_output(&plan, &reference::readings(&map)), "{plan:?} on {map:?}");
        let unread = Vec::from_iter(map.iter().map(|&height| i64::from(height) as u64));
        others += usize::from(output != serial_output(&plan, &unread));
    }
    maps.expect_each(30);
    assert!(others > 150, "the words of the heights themselves have another output in {others} cases");
}

#[test]
fn sums_and_differences_of_maps_of_words_have_those_of_the_outputs() {
    let mut random = random::of_test("sums_and_differences_of_maps_of_words_have_those_of_the_outputs");
    let mut reached = Reached::default();
    for _ in 0..1_500 * random::rounds() {
        let plan = random.small_plan(300);
        reached.note(&plan);
        let [first, second] = two_maps::<u64>(&plan, &mut random);
        let outputs = [&first, &second].map(|map| serial_output(&plan, map));
        for (of_words, _) in SUM_AND_DIFFERENCE {
            let output = serial_output(&plan, &pixelwise(of_words, &first, &second));
            assert!(output == pixelwise(of_words, &outputs[0], &outputs[1]), "{plan:?} on {first:?} and {second:?}");
        }
    }
    reached.expect_all_orders();
}

#[test]
fn sums_and_differences_of_maps_of_heights_are_those_of_the_replaced_heights() {
    let mut random = random::of_test("sums_and_differences_of_maps_of_heights_are_those_of_the_replaced_heights");
    let (mut reached, mut maps, mut others, mut like_dropouts) = (Reached::default(), MapsSeen::default(), [0; 2], 0);
    for _ in 0..1_500 * random::rounds() {
        let plan = random.small_plan(300);
        reached.note(&plan);
        let [first, second] = two_maps(&plan, &mut random);
        let outputs = [&first, &second].map(|map| {
            maps.note(map);
            serial_output(&plan, map)
        });
        for ((of_words, of_numbers), others) in SUM_AND_DIFFERENCE.into_iter().zip(&mut others) {
            let expected = pixelwise(of_words, &outputs[0], &outputs[1]);
            let added = pixelwise(|a, b| of_numbers(reading(a), reading(b)) as u64, &first, &second);
            assert!(serial_output(&plan, &added) == expected, "{plan:?} on {first:?} and {second:?}");
            let unread = pixelwise(|a, b| of_numbers(a.into(), b.into()) as u64, &first, &second);
            *others += usize::from(serial_output(&plan, &unread) != expected);
            like_dropouts += usize::from(added.contains(&(i64::from(DROPOUT) as u64)));
        }
    }
    reached.expect_all_orders();
    maps.expect_each(200);
    assert!(others.iter().all(|&times| times > 600), "heights not replaced have other outputs: {others:?}");
    assert!(like_dropouts > 100, "{like_dropouts} sums and differences have a word that looks like a dropout");
}

#[test]
fn a_difference_turned_round_has_the_output_negated() {
    let mut random = random::of_test("a_difference_turned_round_has_the_output_negated");
    let mut others = 0;
    for _ in 0..500 * random::rounds() {
        let plan = random.small_plan(300);
        let [first, second] = two_maps::<u64>(&plan, &mut random);
        let difference = |from: &[u64], less: &[u64]| serial_output(&plan, &pixelwise(u64::wrapping_sub, from, less));
        let [output, turned] = [difference(&first, &second), difference(&second, &first)];
        assert!(output.iter().zip(&turned).all(|(word, turned)| word.wrapping_add(*turned) == 0), "{plan:?}");
        others += usize::from(output != turned);
    }
    assert!(others > 350, "{others} of the differences turned round have another output");
}

#[test]
fn rows_first_over_maps_of_words_gives_the_same_words() {
    let mut random = random::of_test("rows_first_over_maps_of_words_gives_the_same_words");
    for plan in plans_of_all_orders(&mut random) {
        expect_the_same_rows_first(&plan, &u64::map(&mut random, pixels(&plan)));
    }
}

#[test]
fn rows_first_over_maps_of_heights_gives_the_same_words() {
    let mut random = random::of_test("rows_first_over_maps_of_heights_gives_the_same_words");
    let mut maps = MapsSeen::default();
    for plan in plans_of_all_orders(&mut random) {
        let map = random.heights(pixels(&plan));
        maps.note(&map);
        expect_the_same_rows_first(&plan, &map);
    }
    maps.expect_each(500);
}

/// Each pass has a call of its own.
#[test]
fn of_24_orders_those_with_up_before_down_or_left_before_right_give_other_words() {
    let name = "of_24_orders_those_with_up_before_down_or_left_before_right_give_other_words";
    let (mut random, mut others) = (random::of_test(name), Seen::new());
    for _ in 0..200 * random::rounds() {
        let plan = random.small_plan(100);
        let map = u64::map(&mut random, pixels(&plan));
        let output = serial_output(&plan, &map);
        for order in orders_of_passes() {
            let by_calls = output_by_calls(&plan, &Vec::from_iter(order.chunks(1)), &map);
            assert!(by_calls == reference::serial_in_order(&plan, order, &map), "{order:?} of {plan:?}");
            if by_calls != output {
                others.note(order);
            }
        }
    }
    let exchanged = |order: &[usize; 4]| runs_before(order, UP, DOWN) || runs_before(order, LEFT, RIGHT);
    others.expect(orders_of_passes().filter(exchanged), 50);
}
