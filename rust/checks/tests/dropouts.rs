//! Dropouts: the count of them against the model, and what a map with dropouts gives in every call.

use checks::lent::Lent;
use checks::random::{self, MapsSeen};
use checks::records::broken_record;
use checks::reference::DROPOUT;
use checks::short::ShortBuffers;
use checks::{model, rectangles, serial_output};
use mulzhegat::macros::{self, Macro, MacroPair};
use mulzhegat::serial::{self, Rectangle};
use mulzhegat::{dropouts, job, Plan, Refusal, RIGHT};

/// The library's count of a rectangle, which is 0 beside a refusal.
fn count(plan: &Plan, corners: [usize; 4], map: &[i32]) -> Result<u64, Refusal> {
    let mut count = 0x7777;
    let answer = dropouts::count_into(plan, rectangles::of(corners), map, &mut count);
    assert!(answer.is_ok() || count == 0, "{count} beside {answer:?}");
    assert_eq!(dropouts::count(plan, rectangles::of(corners), map), answer.map(|()| count));
    answer.map(|()| count)
}

/// Counts in a rectangle and compares with the model.
fn count_and_compare(plan: &Plan, corners: [usize; 4], map: &[i32]) -> Result<u64, Refusal> {
    let expected = model::dropouts(plan, corners, map);
    assert_eq!(count(plan, corners, map), expected, "{corners:?} of {plan:?}");
    expected
}

#[test]
fn a_map_with_two_holes() {
    let (plan, map) = (Plan::summed(2, 3, 2), [1, -2147483648, 3, -4, 5, -2147483648]);
    for (corners, expected) in [
        ([0, 0, 2, 3], 2),
        ([0, 1, 1, 2], 1),
        ([0, 1, 2, 2], 1),
        ([0, 0, 2, 1], 0),
        ([0, 1, 0, 2], 0),
        ([2, 3, 2, 3], 0),
    ] {
        assert_eq!(count_and_compare(&plan, corners, &map), Ok(expected), "{corners:?}");
    }
    assert_eq!(count_and_compare(&plan, [1, 1, 0, 2], &map), Err(Refusal::RectangleOutside));
    assert_eq!(dropouts::DROPOUT, -2147483648);
}

/// A dropout is 0 and any other height is itself, in collect, finish, the serial passes, totals and macro variables, on
/// a map of two blocks of one pixel.
fn expect_read_as(height: i32, read: i64, dropouts: u64) {
    let (map, word) = ([height; 2], read as u64);
    // A right pass that keeps the words, and keeps one in its strips: block 0 has a lone and a linked one of a word.
    let plan = Plan::plain(1, 2, 1).with(RIGHT, 1, &[0]);
    assert_eq!(serial_output(&plan, &map), [word; 2], "{height}");
    let (mut marks, mut strips, mut output) = ([0; 2], [9; 4], [9; 2]);
    job::start(&plan, &mut marks, &mut strips).unwrap();
    job::perform(&plan, 0, 0, &map, &mut marks, &mut strips, &mut output).unwrap();
    assert_eq!(strips, [word, 0, 0, 0], "{height}");
    for (task, block) in [(0, 1), (3, 0), (4, 1), (5, 0), (5, 1)] {
        job::perform(&plan, task, block, &map, &mut marks, &mut strips, &mut output).unwrap();
    }
    assert_eq!((strips, output), ([word, word, 0, 0], [word; 2]), "{height}");

    let (summed, both) = (Plan::summed(1, 2, 1), Rectangle::new(0, 0, 1, 2));
    let table = serial_output(&summed, &map);
    assert_eq!(serial::rectangle(&summed, both, &table), Ok(2 * read));
    let (total, pixels) = (Macro::Total((2 * read) as f64), Macro::Pixels(2.0));
    assert_eq!(macros::pair(&summed, both, &table), Ok(MacroPair { total, pixels }));
    assert_eq!(count_and_compare(&plan, [0, 0, 1, 2], &map), Ok(dropouts), "{height}");
}

#[test]
fn a_dropout_is_0_and_its_neighbours_are_themselves_in_every_call() {
    expect_read_as(-2147483648, 0, 2);
    for height in [-2147483647, -2147483646, 2147483647, 2147483646, 0, 1, -1] {
        expect_read_as(height, i64::from(height), 0);
    }
    // All heights that a single bit tells from a dropout.
    for height in (0..32).map(|bit| DROPOUT ^ 1 << bit) {
        expect_read_as(height, i64::from(height), 0);
    }
}

/// The pixels of a rectangle.
fn pixels_of([top, left, bottom, right]: [usize; 4], columns: usize) -> impl Iterator<Item = usize> {
    (top..bottom).flat_map(move |row| (left..right).map(move |column| row * columns + column))
}

#[test]
fn counts_of_all_rectangles_of_small_maps() {
    let mut random = random::of_test("counts_of_all_rectangles_of_small_maps");
    // Bit p is set for a dropout at pixel p: at none, at all, at each alone, and at any.
    let mut patterns = vec![0, u64::MAX];
    patterns.extend((0..16).map(|pixel| 1 << pixel));
    patterns.extend(random.words(10));
    for holes in patterns {
        let is_hole = |pixel: &usize| holes >> pixel & 1 == 1;
        rectangles::all_of_small_maps(
            |rows, columns| {
                let plan = random.plan(rows, columns, 4, [1, 0, 2, 4]);
                let height = |pixel| if is_hole(&pixel) { DROPOUT } else { random.height() };
                (plan, (0..rows * columns).map(height).collect::<Vec<i32>>())
            },
            |(plan, map), corners| {
                let counted = count_and_compare(plan, corners, map)?;
                let held = pixels_of(corners, plan.columns as usize).filter(is_hole).count();
                assert_eq!(counted, held as u64, "{corners:?} of {map:?}");
                Ok(counted)
            },
        );
    }
}

/// Beside any plan; words around the map and past it may be dropouts too.
#[test]
fn random_counts_against_the_model() {
    let (mut random, mut maps) = (random::of_test("random_counts_against_the_model"), MapsSeen::default());
    for _ in 0..1_000 * random::rounds() {
        let plan = random.small_plan(600);
        let (rows, columns) = (plan.rows as usize, plan.columns as usize);
        let spare = random.below(3);
        let map = Lent::new(rows * columns + spare, random.heights_of_a_map());
        maps.note(map.get());
        for _ in 0..10 {
            count_and_compare(&plan, random.rectangle(rows, columns), map.get()).unwrap();
        }
    }
    maps.expect_each(80);
}

#[test]
fn counts_of_the_largest_maps() {
    let mut random = random::of_test("counts_of_the_largest_maps");
    for (rows, columns) in [(4096, 4096), (1, 4096), (4096, 1)] {
        let plan = Plan::plain(rows, columns, 32);
        let mut map = vec![DROPOUT; rows * columns];
        let edges = [[0, 0, rows, columns], [rows - 1, 0, rows, columns], [0, columns - 1, rows, columns]];
        let random_ones: Vec<[usize; 4]> = (0..60).map(|_| random.rectangle(rows, columns)).collect();
        let corners = || edges.iter().chain(&random_ones).copied();
        for [top, left, bottom, right] in corners() {
            let area = (bottom - top) * (right - left);
            assert_eq!(count(&plan, [top, left, bottom, right], &map), Ok(area as u64));
        }
        map.iter_mut().filter(|_| random.once_in(2)).for_each(|height| *height = 0);
        for corners in corners() {
            count_and_compare(&plan, corners, &map).unwrap();
        }
        for corners in [[0, 0, rows + 1, columns], [0, 0, rows, columns + 1], [0, 0, usize::MAX, usize::MAX]] {
            assert_eq!(count_and_compare(&plan, corners, &map), Err(Refusal::RectangleOutside));
        }
    }
}

#[test]
fn counts_with_huge_numbers_are_refused_12() {
    let (plan, map) = (Plan::plain(4, 5, 2), [DROPOUT; 20]);
    for corners in rectangles::with_huge_numbers() {
        assert_eq!(count_and_compare(&plan, corners, &map), Err(Refusal::RectangleOutside));
    }
}

#[test]
fn counts_refuse_6_then_15_then_12_with_0_beside() {
    let mut random = random::of_test("counts_refuse_6_then_15_then_12_with_0_beside");
    let mut short = ShortBuffers::new([15]);
    for _ in 0..1_000 * random::rounds() {
        let plan = random.small_plan(60);
        let broken = broken_record(&mut random, &plan);
        let (rows, columns) = (plan.rows as usize, plan.columns as usize);
        let map = Lent::new(rows * columns, random.heights_of_a_map());
        let lend = |[length]: [usize; 1]| map.shortened(length);
        for corners in rectangles::some_refused(&mut random, rows, columns) {
            let calls = [count, model::dropouts]
                .map(|count| move |plan: &Plan, map: &mut Lent<i32>| count(plan, corners, map.get()));
            short.try_all([&plan, &broken], [rows * columns], lend, calls);
        }
    }
    short.expect_all(1, &[0, 12]);
}

/// `job.rs` has the same of a job's buffers.
#[test]
fn dropouts_replaced_by_0_change_no_output_and_no_total_and_are_not_counted() {
    let mut random = random::of_test("dropouts_replaced_by_0_change_no_output_and_no_total_and_are_not_counted");
    let mut maps = MapsSeen::default();
    for _ in 0..500 * random::rounds() {
        let plan = random.small_plan(600);
        let (rows, columns) = (plan.rows as usize, plan.columns as usize);
        let [holes, zeros] = random.holes_and_zeros(rows * columns);
        maps.note(&holes);
        assert!(serial_output(&plan, &holes) == serial_output(&plan, &zeros), "{plan:?} on {holes:?}");
        let summed = Plan::summed(rows, columns, 1);
        let table = serial_output(&summed, &holes);
        for corners in [[0; 4]; 10].map(|_| random.rectangle(rows, columns)) {
            let added = pixels_of(corners, columns).map(|pixel| i64::from(zeros[pixel])).sum();
            assert_eq!(serial::rectangle(&summed, rectangles::of(corners), &table), Ok(added));
            let replaced = pixels_of(corners, columns).filter(|&pixel| holes[pixel] != zeros[pixel]).count();
            assert_eq!(count(&plan, corners, &holes), Ok(replaced as u64));
            assert_eq!(count(&plan, corners, &zeros), Ok(0));
        }
    }
    maps.expect_each(40);
}
