//! A second serial program, written from the definition of the four passes: plain loops in wrapping 64-bit arithmetic.
//! The passes run over words; a map of heights enters as the words of its readings.
//!
//! It takes records that keep the rules of [`Plan`]; it does not check them.

use mulzhegat::{Pass, Plan, DOWN, LEFT, RIGHT, UP};

/// What the head writes where the beam gets no return, from the paper and not from the crate.
pub const DROPOUT: i32 = -2147483648;

/// The reading of one pixel: 0 for a dropout, and the height otherwise.
pub fn reading(height: i32) -> i64 {
    match height {
        DROPOUT => 0,
        _ => i64::from(height),
    }
}

/// The readings of heights modulo 2^64.
pub fn readings(heights: &[i32]) -> Vec<u64> {
    heights.iter().map(|&height| reading(height) as u64).collect()
}

/// One output: the gain times the input, less each coefficient times the output that many steps back. `earlier` gives
/// the output `steps` back, or none outside the map, where it counts as 0.
fn output(pass: &Pass, input: u64, earlier: impl Fn(usize) -> Option<u64>) -> u64 {
    let mut sum = (pass.gain as u64).wrapping_mul(input);
    for steps in 1..=pass.order as usize {
        let coefficient = pass.coefficients[steps - 1] as u64;
        sum = sum.wrapping_sub(coefficient.wrapping_mul(earlier(steps).unwrap_or(0)));
    }
    sum
}

/// Down: each column by itself, rows rising.
pub fn down(pass: &Pass, words: &mut [u64], rows: usize, columns: usize) {
    for column in 0..columns {
        for row in 0..rows {
            let at = row * columns + column;
            words[at] = output(pass, words[at], |steps| (steps <= row).then(|| words[at - steps * columns]));
        }
    }
}

/// Up: each column by itself, rows falling.
pub fn up(pass: &Pass, words: &mut [u64], rows: usize, columns: usize) {
    for column in 0..columns {
        for row in (0..rows).rev() {
            let at = row * columns + column;
            words[at] = output(pass, words[at], |steps| (row + steps < rows).then(|| words[at + steps * columns]));
        }
    }
}

/// Right: each row by itself, columns rising.
pub fn right(pass: &Pass, words: &mut [u64], rows: usize, columns: usize) {
    for row in 0..rows {
        for column in 0..columns {
            let at = row * columns + column;
            words[at] = output(pass, words[at], |steps| (steps <= column).then(|| words[at - steps]));
        }
    }
}

/// Left: each row by itself, columns falling.
pub fn left(pass: &Pass, words: &mut [u64], rows: usize, columns: usize) {
    for row in 0..rows {
        for column in (0..columns).rev() {
            let at = row * columns + column;
            words[at] = output(pass, words[at], |steps| (column + steps < columns).then(|| words[at + steps]));
        }
    }
}

/// The order in which the four passes run.
pub const COLUMNS_FIRST: [usize; 4] = [DOWN, UP, RIGHT, LEFT];

/// The order with the two pairs exchanged, which is to give the same output.
pub const ROWS_FIRST: [usize; 4] = [RIGHT, LEFT, DOWN, UP];

/// The results of the passes in an order, each run on the one before; the first on a map of words.
pub fn results_in_order(plan: &Plan, order: [usize; 4], map: &[u64]) -> [Vec<u64>; 4] {
    let (rows, columns) = (plan.rows as usize, plan.columns as usize);
    let mut words = map[..rows * columns].to_vec();
    order.map(|pass| {
        let run = match pass {
            DOWN => down,
            UP => up,
            RIGHT => right,
            _ => left,
        };
        run(&plan.passes[pass], &mut words, rows, columns);
        words.clone()
    })
}

/// The results of down, up, right and left over a map of heights.
pub fn results(plan: &Plan, map: &[i32]) -> [Vec<u64>; 4] {
    results_in_order(plan, COLUMNS_FIRST, &readings(map))
}

/// The result of all four passes over a map of heights.
pub fn serial(plan: &Plan, map: &[i32]) -> Vec<u64> {
    serial_words(plan, &readings(map))
}

/// The result of all four passes over a map of words, none of them taken for a dropout.
pub fn serial_words(plan: &Plan, map: &[u64]) -> Vec<u64> {
    serial_in_order(plan, COLUMNS_FIRST, map)
}

/// The result of all four passes in an order over a map of words.
pub fn serial_in_order(plan: &Plan, order: [usize; 4], map: &[u64]) -> Vec<u64> {
    let [.., last] = results_in_order(plan, order, map);
    last
}

/// The heights in a rectangle (top, left, bottom, right), row by row.
fn heights_in(map: &[i32], columns: usize, rectangle: [usize; 4]) -> impl Iterator<Item = i32> + '_ {
    let [top, left, bottom, right] = rectangle;
    (top..bottom).flat_map(move |row| &map[row * columns..][left..right]).copied()
}

/// The readings in a rectangle added one by one, in numbers that cannot wrap.
pub fn total(map: &[i32], columns: usize, rectangle: [usize; 4]) -> i128 {
    heights_in(map, columns, rectangle).map(|height| i128::from(reading(height))).sum()
}

/// The dropouts in a rectangle, counted one by one.
pub fn dropouts(map: &[i32], columns: usize, rectangle: [usize; 4]) -> u64 {
    heights_in(map, columns, rectangle).filter(|&height| height == DROPOUT).count() as u64
}

#[cfg(test)]
mod tests {
    use super::*;

    #[test]
    fn the_examples_of_the_paper() {
        assert_eq!(serial(&Plan::summed(2, 3, 2), &[1, 2, 3, 4, 5, 6]), [1, 3, 6, 5, 12, 21]);
        let column = Plan::plain(3, 1, 1).with(DOWN, 6, &[2]);
        assert_eq!(serial(&column, &[1, 0, 0]), [6, -12i64 as u64, 24]);
        let column = column.with(UP, -1, &[2]);
        assert_eq!(serial(&column, &[1, 0, 0]), [-126i64 as u64, 60, -24i64 as u64]);
        let row = Plan::plain(1, 3, 1).with(RIGHT, 1, &[-1]).with(LEFT, 1, &[-1]);
        assert_eq!(serial(&row, &[1, 0, 0]), [3, 2, 1]);
        assert_eq!(serial(&Plan::plain(1, 1, 1), &[-1]), [18446744073709551615]);
        let large = Plan { passes: [Pass::new(65536, &[]); 4], ..Plan::plain(1, 1, 1) };
        assert_eq!(serial(&large, &[1]), [0]);
        let ends = Plan::plain(1, 1, 1).with(UP, -134217728, &[]);
        assert_eq!(serial(&ends, &[-2147483648]), [0]);
        assert_eq!(serial(&ends, &[-2147483647]), [288230376017494016]);
    }

    #[test]
    fn a_map_with_two_holes_worked_out_by_hand() {
        let map = [1, -2147483648, 3, -4, 5, -2147483648];
        assert_eq!(serial(&Plan::summed(2, 3, 2), &map), [1, 1, 4, -3i64 as u64, 2, 5]);
        assert_eq!((total(&map, 3, [0, 0, 2, 3]), dropouts(&map, 3, [0, 0, 2, 3])), (5, 2));
        assert_eq!((total(&map, 3, [0, 1, 1, 3]), dropouts(&map, 3, [0, 1, 1, 3])), (3, 1));
        assert_eq!((total(&map, 3, [1, 0, 2, 2]), dropouts(&map, 3, [1, 0, 2, 2])), (1, 0));
    }

    #[test]
    fn the_word_of_a_dropouts_number_is_taken_as_it_is() {
        // -2^31 modulo 2^64: times -2^27 it is 2^58, and in a summed table it counts as -2^31.
        let word = 18446744071562067968;
        assert_eq!(readings(&[-2147483648, -2147483647]), [0, word + 1]);
        let least = Plan::plain(1, 1, 1).with(UP, -134217728, &[]);
        assert_eq!(serial_words(&least, &[word]), [288230376151711744]);
        let numbers = [1, 1 - 2147483648, 4 - 2147483648, 5, 10 - 2147483648, 13 - 2 * 2147483648];
        let table = numbers.map(|number: i64| number as u64);
        assert_eq!(serial_words(&Plan::summed(2, 3, 2), &[1, word, 3, 4, 5, word]), table);
    }

    #[test]
    fn rows_first_is_worked_out_by_hand() {
        let plan =
            Plan::plain(2, 2, 1).with(DOWN, 1, &[-1]).with(UP, 1, &[2]).with(RIGHT, 3, &[1]).with(LEFT, 1, &[-1]);
        let results = |order| {
            let results = results_in_order(&plan, order, &[1, 2, 3, 5]);
            results.map(|words| Vec::from_iter(words.iter().map(|&word| word as i64)))
        };
        assert_eq!(results(COLUMNS_FIRST), [[1, 2, 4, 7], [-7, -12, 4, 7], [-21, -15, 12, 9], [-36, -15, 21, 9]]);
        assert_eq!(results(ROWS_FIRST), [[3, 3, 9, 6], [6, 3, 15, 6], [6, 3, 21, 9], [-36, -15, 21, 9]]);
        // Up before down is another filter.
        let up_first = [[-5, -8, 3, 5], [-5, -8, -2, -3], [-15, -9, -6, -3], [-24, -9, -9, -3]];
        assert_eq!(results([UP, DOWN, RIGHT, LEFT]), up_first);
    }

    #[test]
    fn a_feedback_of_order_two_is_worked_out_by_hand() {
        // 2, 2 x 3 - 5 x 2 = -4, 2 x 7 - 5 x -4 - 11 x 2 = 12
        let plan = Plan::plain(1, 3, 2).with(RIGHT, 2, &[5, 11]);
        assert_eq!(serial(&plan, &[1, 3, 7]), [2, -4i64 as u64, 12]);
        // From the right: 14, 6 - 70 = -64, 2 + 320 - 154 = 168
        let plan = Plan::plain(1, 3, 2).with(LEFT, 2, &[5, 11]);
        assert_eq!(serial(&plan, &[1, 3, 7]), [168, -64i64 as u64, 14]);
    }
}
