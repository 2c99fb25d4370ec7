//! Macro variables: the library against the model, totals and pixel counts compared by the bits of their floats.

use checks::lent::Lent;
use checks::random::{self, MapsSeen};
use checks::records::broken_record;
use checks::short::ShortBuffers;
use checks::{model, rectangles, reference, reference::DROPOUT, serial_output};
use mulzhegat::macros::{self, Macro, MacroPair, MacroWords, Quantity};
use mulzhegat::{Plan, Refusal};

const QUANTITIES: [Quantity; 2] = [Quantity::Total, Quantity::Pixels];

/// Words that no call leaves.
const UNWRITTEN: MacroWords = MacroWords { state: 0x7777, value: f64::NAN };

/// A macro variable as the state and the bits of the float that C has of it.
type Bits = (u64, u64);

fn bits(variable: Macro) -> Bits {
    match variable {
        Macro::Vacant => (0, 0),
        Macro::Total(value) => (1, value.to_bits()),
        Macro::Pixels(value) => (2, value.to_bits()),
    }
}

/// The library's quantity of a rectangle. Beside a refusal it is to be vacant, with no bit of its float set.
fn library(plan: &Plan, quantity: Quantity, corners: [usize; 4], table: &[u64]) -> Result<Bits, Refusal> {
    let mut words = UNWRITTEN;
    let answer = macros::value_into(plan, quantity, rectangles::of(corners), table, &mut words);
    let written = (words.state, words.value.to_bits());
    assert!(answer.is_ok() || written == (0, 0), "{words:?} beside {answer:?}");
    assert_eq!(macros::value(plan, quantity, rectangles::of(corners), table).map(bits), answer.map(|()| written));
    answer.map(|()| written)
}

/// The library's pair, total first, under the same conditions.
fn library_pair(plan: &Plan, corners: [usize; 4], table: &[u64]) -> Result<[Bits; 2], Refusal> {
    let mut words = [UNWRITTEN; 2];
    let answer = macros::pair_into(plan, rectangles::of(corners), table, &mut words);
    let written = words.map(|words| (words.state, words.value.to_bits()));
    assert!(answer.is_ok() || written == [(0, 0); 2], "{words:?} beside {answer:?}");
    let read = macros::pair(plan, rectangles::of(corners), table);
    assert_eq!(read.map(|MacroPair { total, pixels }| [total, pixels].map(bits)), answer.map(|()| written));
    answer.map(|()| written)
}

fn modelled(plan: &Plan, quantity: Quantity, corners: [usize; 4], table: &[u64]) -> Result<Bits, Refusal> {
    model::macro_value(plan, quantity, corners, table).map(bits)
}

fn modelled_pair(plan: &Plan, corners: [usize; 4], table: &[u64]) -> Result<[Bits; 2], Refusal> {
    let [total, pixels] = QUANTITIES.map(|quantity| modelled(plan, quantity, corners, table));
    Ok([total?, pixels?])
}

/// Both quantities by the library, one by one and together, compared with the model: total, then pixels.
fn read_and_compare(plan: &Plan, corners: [usize; 4], table: &[u64]) -> Result<[Bits; 2], Refusal> {
    for quantity in QUANTITIES {
        let expected = modelled(plan, quantity, corners, table);
        assert_eq!(library(plan, quantity, corners, table), expected, "{quantity:?} {corners:?} of {plan:?}");
    }
    let expected = modelled_pair(plan, corners, table);
    assert_eq!(library_pair(plan, corners, table), expected, "{corners:?} of {plan:?}");
    expected
}

const VACANT: Bits = (0, 0);

fn total(value: f64) -> Bits {
    (1, value.to_bits())
}

fn pixels(value: f64) -> Bits {
    (2, value.to_bits())
}

#[test]
fn quantities_of_the_example_map() {
    let (plan, table) = (Plan::summed(2, 3, 2), [1, 3, 6, 5, 12, 21]);
    assert_eq!(read_and_compare(&plan, [0, 1, 2, 3], &table), Ok([total(16.0), pixels(4.0)]));
    assert_eq!(read_and_compare(&plan, [1, 0, 2, 1], &table), Ok([total(4.0), pixels(1.0)]));
    // A macro loop that shrinks a rectangle until it closes.
    assert_eq!(read_and_compare(&plan, [0, 0, 2, 3], &table), Ok([total(21.0), pixels(6.0)]));
    assert_eq!(read_and_compare(&plan, [0, 0, 1, 3], &table), Ok([total(6.0), pixels(3.0)]));
    assert_eq!(read_and_compare(&plan, [0, 0, 0, 3], &table), Ok([VACANT, VACANT]));
    assert_eq!(read_and_compare(&plan, [1, 0, 0, 3], &table), Err(Refusal::RectangleOutside));
}

#[test]
fn quantities_below_the_datum_and_a_total_of_0() {
    let plan = Plan::summed(2, 3, 2);
    let table = serial_output(&plan, &[1, -2, 3, -4, 5, -6]);
    assert_eq!(read_and_compare(&plan, [1, 0, 2, 3], &table), Ok([total(-5.0), pixels(3.0)]));
    // Positive zero: no bit is set.
    assert_eq!(read_and_compare(&plan, [0, 1, 2, 3], &table), Ok([(1, 0), pixels(4.0)]));
}

/// The total of tables that make a sum: given, as the bits of its float, or vacant. The bits are those of `as f64`, and
/// the float is the sum when it is taken back.
fn total_of(sum: i64) -> Option<u64> {
    let [one, four] = rectangles::tables_of(sum as u64).map(|(plan, corners, table)| {
        let [total, count] = read_and_compare(&plan, corners, &table).unwrap();
        assert_eq!(count, pixels(1.0));
        total
    });
    assert_eq!(one, four);
    if one == VACANT {
        return None;
    }
    assert_eq!(one, total(sum as f64));
    assert_eq!(f64::from_bits(one.1) as i128, i128::from(sum));
    Some(one.1)
}

#[test]
fn totals_at_0_and_around_both_ends() {
    let end = 1i64 << 53;
    for sum in [0, 1, 2, end - 2, end - 1, end] {
        assert!(total_of(sum).is_some() && total_of(-sum).is_some(), "{sum}");
    }
    assert_eq!(total_of(0), Some(0));
    assert_eq!(total_of(end), Some(0x4340000000000000));
    assert_eq!(total_of(-end), Some(0xC340000000000000));
    // Past the ends some whole numbers are floats and some are not; all are vacant.
    for sum in [end + 1, end + 2, end + 3, 1 << 54, (1 << 55) - (1 << 24), 1 << 55, 1 << 62, i64::MAX] {
        assert!(total_of(sum).is_none() && total_of(-sum).is_none(), "{sum}");
    }
    assert_eq!(total_of(i64::MIN), None);
}

#[test]
fn random_totals_are_exact_or_vacant() {
    let mut random = random::of_test("random_totals_are_exact_or_vacant");
    let (mut given, mut vacant, mut at_53_bits) = (0, 0, 0);
    for _ in 0..20_000 * random::rounds() {
        // A number of up to so many bits, near a power of two half of the time.
        let bits = random.between(0, 63);
        let sum = match random.below(2) {
            0 => (random.word() as i64) >> (63 - bits),
            _ => (1i64 << bits.min(62)) + random.between(0, 6) as i64 - 3,
        };
        let sum = if random.once_in(2) { sum } else { sum.wrapping_neg() };
        let exact = (-(1i64 << 53)..=1 << 53).contains(&sum);
        assert_eq!(total_of(sum).is_some(), exact, "{sum}");
        given += usize::from(exact);
        vacant += usize::from(!exact);
        at_53_bits += usize::from(exact && sum.unsigned_abs() >= 1 << 52);
    }
    assert!(given > 10_000 && vacant > 1_000 && at_53_bits > 200, "{given} given, {vacant} vacant, {at_53_bits} large");
}

#[test]
fn quantities_of_all_rectangles_of_small_maps() {
    let mut random = random::of_test("quantities_of_all_rectangles_of_small_maps");
    let mut maps = MapsSeen::default();
    for (rows, columns) in (0..8).flat_map(|_| rectangles::pairs(1..=4)) {
        let (plan, map) = (Plan::summed(rows, columns, 2), random.heights(rows * columns));
        maps.note(&map);
        let table = serial_output(&plan, &map);
        for corners in rectangles::around(rows, columns) {
            let answer = read_and_compare(&plan, corners, &table);
            if !rectangles::is_inside(corners, rows, columns) {
                assert_eq!(answer, Err(Refusal::RectangleOutside));
            } else if rectangles::is_empty(corners) {
                assert_eq!(answer, Ok([VACANT, VACANT]));
            } else {
                let [top, left, bottom, right] = corners;
                let added = reference::total(&map, columns, corners);
                let counted = (top..bottom).map(|_| (left..right).count()).sum::<usize>();
                assert_eq!(answer, Ok([total(added as f64), pixels(counted as f64)]), "{corners:?} of {map:?}");
            }
        }
    }
    maps.expect_each(8);
}

/// On any words, not only summed-area tables, and beside any plan.
#[test]
fn random_rectangles_of_any_tables() {
    let mut random = random::of_test("random_rectangles_of_any_tables");
    let mut states = [[0; 3]; 2];
    for _ in 0..1_000 * random::rounds() {
        let plan = random.small_plan(400);
        let (rows, columns) = (plan.rows as usize, plan.columns as usize);
        let bits = random.between(1, 64);
        let table: Vec<u64> = random.words(rows * columns).iter().map(|word| word >> (64 - bits)).collect();
        for _ in 0..10 {
            let answer = read_and_compare(&plan, random.rectangle(rows, columns), &table).unwrap();
            for (half, (state, _)) in answer.into_iter().enumerate() {
                states[half][state as usize] += 1;
            }
        }
    }
    let [[vacant_totals, totals, none], [vacant_pixels, neither, counts]] = states;
    assert_eq!((none, neither), (0, 0));
    assert!([vacant_totals, totals, vacant_pixels, counts].into_iter().all(|times| times > 500), "{states:?}");
    assert!(vacant_totals > vacant_pixels, "{states:?}");
}

/// Rectangles of the largest map, up to 2^24 pixels, with all heights the least and all the greatest. Of both, totals
/// of up to 2^22 pixels are given, and those of more pixels are vacant. With dropouts alone the total is 0.
#[test]
fn totals_and_pixel_counts_of_the_largest_map() {
    let plan = Plan::summed(4096, 4096, 32);
    let mut random = random::of_test("totals_and_pixel_counts_of_the_largest_map");
    for (height, largest) in [(-2147483647, -9007199250546688.0), (2147483647, 9007199250546688.0)] {
        let table = serial_output(&plan, &vec![height; 1 << 24]);
        assert_eq!(read_and_compare(&plan, [0, 0, 4096, 1024], &table), Ok([total(largest), pixels(4194304.0)]));
        assert_eq!(read_and_compare(&plan, [0, 0, 4096, 1025], &table), Ok([VACANT, pixels(4198400.0)]));
        assert_eq!(read_and_compare(&plan, [0, 0, 4096, 4096], &table), Ok([VACANT, pixels(16777216.0)]));
        for _ in 0..1_000 * random::rounds() {
            let corners = random.rectangle(4096, 4096);
            let [top, left, bottom, right] = corners;
            let count = ((bottom - top) * (right - left)) as i64;
            let [total, pixels] = read_and_compare(&plan, corners, &table).unwrap();
            assert_eq!(total.0 == 1, (1..=1 << 22).contains(&count));
            assert_eq!(f64::from_bits(total.1) as i64, if total.0 == 1 { count * i64::from(height) } else { 0 });
            assert_eq!(pixels.0 == 2, count > 0);
            assert_eq!(f64::from_bits(pixels.1) as i64, count);
        }
    }
    let table = serial_output(&plan, &vec![DROPOUT; 1 << 24]);
    assert_eq!(read_and_compare(&plan, [0, 0, 4096, 4096], &table), Ok([total(0.0), pixels(16777216.0)]));
}

#[test]
fn macro_variables_refuse_6_then_7_then_12_with_vacant_beside() {
    let mut random = random::of_test("macro_variables_refuse_6_then_7_then_12_with_vacant_beside");
    let (mut one, mut pair) = (ShortBuffers::new([7]), ShortBuffers::new([7]));
    for _ in 0..500 * random::rounds() {
        let plan = random.small_plan(60);
        let broken = broken_record(&mut random, &plan);
        let (rows, columns) = (plan.rows as usize, plan.columns as usize);
        let table = Lent::new(rows * columns, || random.word());
        let lend = |[length]: [usize; 1]| table.shortened(length);
        for corners in rectangles::some_refused(&mut random, rows, columns) {
            for quantity in QUANTITIES {
                let calls = [library, modelled]
                    .map(|read| move |plan: &Plan, table: &mut Lent<u64>| read(plan, quantity, corners, table.get()));
                one.try_all([&plan, &broken], [rows * columns], lend, calls);
            }
            let calls = [library_pair, modelled_pair]
                .map(|read| move |plan: &Plan, table: &mut Lent<u64>| read(plan, corners, table.get()));
            pair.try_all([&plan, &broken], [rows * columns], lend, calls);
        }
    }
    one.expect_all(1, &[0, 12]);
    pair.expect_all(1, &[0, 12]);
}
