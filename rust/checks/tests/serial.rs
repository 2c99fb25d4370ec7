//! The serial passes and the rectangle sum: the examples of the paper, and the library against the second program.

use checks::lent::Lent;
use checks::passes::{expect_15_then_16, plans_of_all_orders, run_and_compare};
use checks::random::{self, MapsSeen, Reached};
use checks::records::{all_orders, broken_record};
use checks::short::ShortBuffers;
use checks::{model, rectangles, reference, serial_output};
use mulzhegat::serial::{self, Rectangle};
use mulzhegat::{Pass, Plan, Refusal, DOWN, LEFT, RIGHT, UP};

fn modulo(words: &[i64]) -> Vec<u64> {
    words.iter().map(|&word| word as u64).collect()
}

#[test]
fn example_summed_table_of_six_heights() {
    assert_eq!(serial_output(&Plan::summed(2, 3, 2), &[1, 2, 3, 4, 5, 6]), [1, 3, 6, 5, 12, 21]);
}

#[test]
fn example_rectangles_of_the_summed_table() {
    let (plan, table) = (Plan::summed(2, 3, 2), [1, 3, 6, 5, 12, 21]);
    assert_eq!(serial::rectangle(&plan, Rectangle::new(0, 1, 2, 3), &table), Ok(16));
    assert_eq!(serial::rectangle(&plan, Rectangle::new(1, 0, 2, 1), &table), Ok(4));
}

#[test]
fn example_rectangle_below_the_datum() {
    let plan = Plan::summed(2, 3, 2);
    let table = serial_output(&plan, &[1, -2, 3, -4, 5, -6]);
    assert_eq!(serial::rectangle(&plan, Rectangle::new(1, 0, 2, 3), &table), Ok(-5));
    assert_eq!(serial::rectangle(&plan, Rectangle::new(0, 1, 2, 3), &table), Ok(0));
    assert_eq!(serial::rectangle(&plan, Rectangle::new(0, 0, 2, 3), &table), Ok(-3));
}

#[test]
fn example_rectangle_with_nothing_in_it() {
    let (plan, table) = (Plan::summed(2, 3, 2), [1, 3, 6, 5, 12, 21]);
    assert_eq!(sum(&plan, [0, 0, 0, 3], &table), Ok(0));
    // At the map's far corner, and past it.
    assert_eq!(sum(&plan, [2, 3, 2, 3], &table), Ok(0));
    let refusal = sum(&plan, [3, 4, 3, 4], &table).unwrap_err();
    assert_eq!((refusal.number(), refusal.place()), (12, 0));
}

#[test]
fn example_column_down_with_gain_6() {
    assert_eq!(serial_output(&Plan::plain(3, 1, 1).with(DOWN, 6, &[2]), &[1, 0, 0]), modulo(&[6, -12, 24]));
}

#[test]
fn example_column_down_then_up() {
    for side in [1, 2, 3] {
        let plan = Plan::plain(3, 1, side).with(DOWN, 6, &[2]).with(UP, -1, &[2]);
        assert_eq!(serial_output(&plan, &[1, 0, 0]), modulo(&[-126, 60, -24]));
    }
}

#[test]
fn example_row_right_and_left() {
    let plan = Plan::plain(1, 3, 1).with(RIGHT, 1, &[-1]).with(LEFT, 1, &[-1]);
    assert_eq!(serial_output(&plan, &[1, 0, 0]), [3, 2, 1]);
}

#[test]
fn example_one_height_of_minus_one() {
    assert_eq!(serial_output(&Plan::plain(1, 1, 1), &[-1]), [18446744073709551615]);
}

#[test]
fn example_four_gains_of_65536() {
    let plan = Plan { passes: [Pass::new(65536, &[]); 4], ..Plan::plain(1, 1, 1) };
    assert_eq!(serial_output(&plan, &[1]), [0]);
}

#[test]
fn example_dropout_and_least_height_with_the_least_gain() {
    for pass in [DOWN, UP, RIGHT, LEFT] {
        let plan = Plan::plain(1, 1, 1).with(pass, -134217728, &[]);
        assert_eq!(serial_output(&plan, &[-2147483648]), [0]);
        assert_eq!(serial_output(&plan, &[-2147483647]), [288230376017494016]);
    }
}

#[test]
fn random_maps_against_the_second_program() {
    let mut random = random::of_test("random_maps_against_the_second_program");
    let (mut reached, mut maps) = (Reached::default(), MapsSeen::default());
    for _ in 0..4_000 * random::rounds() {
        let plan = random.small_plan(600);
        reached.note(&plan);
        maps.note(run_and_compare(&plan, &mut random).get());
    }
    reached.expect_all_orders();
    maps.expect_each(300);
}

#[test]
fn all_orders_against_the_second_program() {
    let mut random = random::of_test("all_orders_against_the_second_program");
    for plan in plans_of_all_orders(&mut random) {
        run_and_compare::<i32>(&plan, &mut random);
    }
}

#[test]
fn maps_of_4096_rows_or_columns() {
    let mut random = random::of_test("maps_of_4096_rows_or_columns");
    let mut reached = Reached::default();
    for orders in all_orders().step_by(31) {
        for (rows, columns) in [(4096, 1), (1, 4096)] {
            let plan = random.plan(rows, columns, 8, orders);
            reached.note(&plan);
            run_and_compare::<i32>(&plan, &mut random);
        }
    }
    reached.expect_all_orders();
    for (rows, columns) in [(4096, 2), (2, 4096), (4096, 33), (35, 4096), (700, 900)] {
        let orders = random.orders(32);
        let plan = random.plan(rows, columns, 32, orders);
        run_and_compare::<i32>(&plan, &mut random);
    }
}

#[test]
fn every_set_of_short_buffers_refuses_the_serial_passes_by_15_then_16() {
    let mut random = random::of_test("every_set_of_short_buffers_refuses_the_serial_passes_by_15_then_16");
    expect_15_then_16::<i32>(&mut random);
}

/// The library's sum over a rectangle, which is 0 beside a refusal.
fn sum(plan: &Plan, corners: [usize; 4], table: &[u64]) -> Result<i64, Refusal> {
    let mut sum = 0x7777;
    let answer = serial::rectangle_into(plan, rectangles::of(corners), table, &mut sum);
    assert!(answer.is_ok() || sum == 0, "{sum} beside {answer:?}");
    answer.map(|()| sum)
}

/// Sums over a rectangle and compares with the model.
fn sum_and_compare(plan: &Plan, corners: [usize; 4], table: &[u64]) -> Result<i64, Refusal> {
    let expected = model::rectangle(plan, corners, table);
    assert_eq!(sum(plan, corners, table), expected, "{corners:?} of {plan:?}");
    expected
}

#[test]
fn all_rectangles_of_small_tables() {
    let mut random = random::of_test("all_rectangles_of_small_tables");
    rectangles::all_of_small_maps(
        |rows, columns| (random.plan(rows, columns, 4, [1, 0, 2, 4]), random.words(rows * columns + 1)),
        |(plan, table), corners| sum_and_compare(plan, corners, table),
    );
}

#[test]
fn all_rectangles_of_small_summed_maps() {
    let (mut random, mut maps) = (random::of_test("all_rectangles_of_small_summed_maps"), MapsSeen::default());
    for _ in 0..8 {
        rectangles::all_of_small_maps(
            |rows, columns| {
                let (plan, map) = (Plan::summed(rows, columns, 2), random.heights(rows * columns));
                maps.note(&map);
                let table = serial_output(&plan, &map);
                (plan, map, table)
            },
            |(plan, map, table), corners| {
                let sum = sum_and_compare(plan, corners, table)?;
                let added = reference::total(map, plan.columns as usize, corners);
                assert_eq!(i128::from(sum), added, "{corners:?} of {map:?}");
                Ok(sum)
            },
        );
    }
    maps.expect_each(8);
}

#[test]
fn rectangles_of_summed_tables_are_sums_of_heights() {
    let mut random = random::of_test("rectangles_of_summed_tables_are_sums_of_heights");
    let (mut below, mut above, mut empty, mut maps) = (0, 0, 0, MapsSeen::default());
    for _ in 0..300 * random::rounds() {
        let (rows, columns) = (random.between(1, 40), random.between(1, 40));
        let plan = Plan::summed(rows, columns, random.between(1, 32));
        let map = random.heights(rows * columns);
        maps.note(&map);
        let table = serial_output(&plan, &map);
        for _ in 0..20 {
            let corners = random.rectangle(rows, columns);
            let expected = reference::total(&map, columns, corners);
            assert_eq!(sum_and_compare(&plan, corners, &table).map(i128::from), Ok(expected));
            below += usize::from(expected < 0);
            above += usize::from(expected > 0);
            empty += usize::from(rectangles::is_empty(corners));
        }
    }
    assert!(
        below > 1_000 && above > 1_000 && empty > 500,
        "{below} sums below 0, {above} above, {empty} of empty rectangles"
    );
    maps.expect_each(20);
}

/// All heights the least, all the greatest: no allowed map has a lower or a higher total. With dropouts alone it is 0.
#[test]
fn totals_of_the_largest_maps_are_exact() {
    let plan = Plan::summed(4096, 4096, 32);
    let mut table = vec![0; 1 << 24];
    let most = (1 << 55) - (1 << 24);
    for (height, total) in [(-2147483647, -most), (2147483647, most), (-2147483648, 0)] {
        serial::run(&plan, &vec![height; 1 << 24], &mut table).unwrap();
        let corners = [[0, 0, 4096, 4096], [1, 2, 4096, 4095], [4095, 0, 4096, 4096], [17, 18, 2049, 1026]];
        assert_eq!(sum_and_compare(&plan, corners[0], &table), Ok(total));
        for [top, left, bottom, right] in corners {
            let pixels = ((bottom - top) * (right - left)) as i128;
            let sum = sum_and_compare(&plan, [top, left, bottom, right], &table).map(i128::from);
            assert_eq!(sum, Ok(pixels * i128::from(reference::reading(height))));
        }
    }
}

/// Words that are no sums of heights: the sum is the word read as signed.
#[test]
fn totals_of_other_tables_at_zero_and_at_both_ends() {
    let words = [(0, 0), ((1 << 63) - 1, i64::MAX), (1 << 63, i64::MIN), (u64::MAX, -1), (1 << 62, 1 << 62)];
    for (word, sum) in words {
        for (plan, corners, table) in rectangles::tables_of(word) {
            assert_eq!(sum_and_compare(&plan, corners, &table), Ok(sum));
        }
    }
}

#[test]
fn rectangles_with_huge_numbers_are_refused_12() {
    let mut random = random::of_test("rectangles_with_huge_numbers_are_refused_12");
    let (plan, table) = (Plan::summed(4, 5, 2), random.words(20));
    for corners in rectangles::with_huge_numbers() {
        assert_eq!(sum_and_compare(&plan, corners, &table), Err(Refusal::RectangleOutside));
    }
}

#[test]
fn rectangle_refuses_6_then_7_then_12() {
    let mut random = random::of_test("rectangle_refuses_6_then_7_then_12");
    let mut short = ShortBuffers::new([7]);
    for _ in 0..1_000 * random::rounds() {
        let plan = random.small_plan(60);
        let broken = broken_record(&mut random, &plan);
        let (rows, columns) = (plan.rows as usize, plan.columns as usize);
        let table = Lent::new(rows * columns, || random.word());
        let lend = |[length]: [usize; 1]| table.shortened(length);
        for corners in rectangles::some_refused(&mut random, rows, columns) {
            let calls = [sum, model::rectangle]
                .map(|sum| move |plan: &Plan, table: &mut Lent<u64>| sum(plan, corners, table.get()));
            short.try_all([&plan, &broken], [rows * columns], lend, calls);
        }
    }
    short.expect_all(1, &[0, 12]);
}
