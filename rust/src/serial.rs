//! The four passes over a whole map, of heights or of words, and sums over rectangles.

use crate::{Plan, Refusal};

extern "C" {
    fn mzg_serial(plan: *const Plan, map: *const i32, map_len: usize, output: *mut u64, output_len: usize) -> u64;
    fn mzg_serial_words(plan: *const Plan, map: *const u64, map_len: usize, output: *mut u64, output_len: usize)
        -> u64;
    fn mzg_rectangle(
        plan: *const Plan,
        top: usize,
        left: usize,
        bottom: usize,
        right: usize,
        table: *const u64,
        table_len: usize,
        sum: *mut i64,
    ) -> u64;
}

/// Runs the four passes over the whole map, with dropouts read as 0. Map and output need rows * columns words.
///
/// # Errors
/// 6, 15 (map), 16 (output).
///
/// # Example
/// ```
/// use mulzhegat::{serial, Plan};
/// let mut output = [0; 6];
/// serial::run(&Plan::summed(2, 3, 2), &[1, 2, 3, 4, 5, 6], &mut output).unwrap();
/// assert_eq!(output, [1, 3, 6, 5, 12, 21]);
/// ```
pub fn run(plan: &Plan, map: &[i32], output: &mut [u64]) -> Result<(), Refusal> {
    // SAFETY: the record and the map are readable, the output is writable, each for its length; borrowed mutably, it
    // overlaps nothing.
    Refusal::check(unsafe { mzg_serial(plan, map.as_ptr(), map.len(), output.as_mut_ptr(), output.len()) })
}

/// Runs the four passes over a map of 64-bit words, which may be a sum or a difference of maps, or an output. No word
/// is taken for a dropout, not even that of the number -2147483648. Map and output need rows * columns words.
///
/// Two facts hold modulo 2^64 for every plan:
///
/// - The output of the wordwise sum or difference of two maps is the sum or difference of their outputs. For maps of
///   heights, sum and difference are those of the replaced heights: put 0 for each
///   [`DROPOUT`](crate::dropouts::DROPOUT), add or subtract as `i64`, and take the results as `u64`.
/// - Running right and left before down and up gives the same output: one call with a plan whose down and up have order
///   0 and gain 1, then another over that output with a plan whose right and left have. The two pairs may be
///   exchanged, but not up with down, nor left with right.
///
/// # Errors
/// 6, 15 (map), 16 (output).
///
/// # Example
/// Yesterday's output subtracted from today's, and the passes over the difference of the two faces:
/// ```
/// use mulzhegat::dropouts::DROPOUT;
/// use mulzhegat::{serial, Plan, RIGHT};
/// use std::array::from_fn;
/// let plan = Plan::plain(1, 4, 1).with(RIGHT, 1, &[-1]);
/// let (yesterday, today) = ([4, 7, 7, 5], [3, DROPOUT, 9, 5]);
/// let (mut before, mut after) = ([0; 4], [0; 4]);
/// serial::run(&plan, &yesterday, &mut before).unwrap();
/// serial::run(&plan, &today, &mut after).unwrap();
/// let of_outputs: [u64; 4] = from_fn(|pixel| after[pixel].wrapping_sub(before[pixel]));
///
/// let reading = |height| if height == DROPOUT { 0 } else { i64::from(height) };
/// let difference: [u64; 4] = from_fn(|pixel| (reading(today[pixel]) - reading(yesterday[pixel])) as u64);
/// let mut filtered = [0; 4];
/// serial::run_words(&plan, &difference, &mut filtered).unwrap();
/// assert_eq!(filtered, of_outputs);
/// assert_eq!(filtered.map(|word| word as i64), [-1, -8, -6, -6]);
/// ```
pub fn run_words(plan: &Plan, map: &[u64], output: &mut [u64]) -> Result<(), Refusal> {
    // SAFETY: as in `run`.
    Refusal::check(unsafe { mzg_serial_words(plan, map.as_ptr(), map.len(), output.as_mut_ptr(), output.len()) })
}

/// A rectangle of the map: rows `top` to `bottom - 1`, columns `left` to `right - 1`. With `top` equal to `bottom`, or
/// `left` equal to `right`, it is empty.
#[derive(Clone, Copy, Debug, PartialEq, Eq)]
pub struct Rectangle {
    /// The first row.
    pub top: usize,
    /// The first column.
    pub left: usize,
    /// The row after the last.
    pub bottom: usize,
    /// The column after the last.
    pub right: usize,
}

impl Rectangle {
    /// The rectangle with these four numbers, in the order in which calls take them.
    pub fn new(top: usize, left: usize, bottom: usize, right: usize) -> Rectangle {
        Rectangle { top, left, bottom, right }
    }
}

/// Gives the sum over a rectangle of a finished summed-area table: the exact sum of the heights in it, below 0 where
/// the heights below the datum outweigh those above. A dropout counts as 0;
/// [`dropouts::count`](crate::dropouts::count) says how many there are. On any other table the sum is the word that the
/// four corners make modulo 2^64, read as signed. Of an empty rectangle it is 0, on any table and up to the map's far
/// edges (`top` and `bottom` both the number of rows, say). The table needs rows * columns words.
///
/// # Errors
/// 6, 7 (table), 12 (top > bottom, left > right, bottom > rows or right > columns).
///
/// # Example
/// ```
/// use mulzhegat::serial::{self, Rectangle};
/// use mulzhegat::Plan;
/// let plan = Plan::summed(2, 3, 2);
/// let mut table = [0; 6];
/// serial::run(&plan, &[1, -2, 3, -4, 5, -6], &mut table).unwrap();
/// assert_eq!(serial::rectangle(&plan, Rectangle::new(1, 0, 2, 3), &table), Ok(-5));
/// assert_eq!(serial::rectangle(&plan, Rectangle::new(1, 0, 1, 3), &table), Ok(0));
/// ```
pub fn rectangle(plan: &Plan, rectangle: Rectangle, table: &[u64]) -> Result<i64, Refusal> {
    let mut sum = 0;
    rectangle_into(plan, rectangle, table, &mut sum)?;
    Ok(sum)
}

/// Writes the sum over a rectangle to `sum`, 0 beside a refusal.
///
/// # Errors
/// As [`rectangle`].
pub fn rectangle_into(plan: &Plan, rectangle: Rectangle, table: &[u64], sum: &mut i64) -> Result<(), Refusal> {
    let Rectangle { top, left, bottom, right } = rectangle;
    // SAFETY: the record and the table are readable, the table for its length, and the sum is writable; borrowed
    // mutably, it overlaps nothing.
    Refusal::check(unsafe { mzg_rectangle(plan, top, left, bottom, right, table.as_ptr(), table.len(), sum) })
}
