//! Rectangles as four numbers: top, left, bottom, right; and tables for them.

use crate::random::Random;
use mulzhegat::{serial::Rectangle, Plan, Refusal};
use std::array::from_fn;
use std::ops::RangeInclusive;

/// The rectangle that calls take.
pub fn of([top, left, bottom, right]: [usize; 4]) -> Rectangle {
    Rectangle::new(top, left, bottom, right)
}

/// All pairs of two numbers of a range.
pub fn pairs(range: RangeInclusive<usize>) -> impl Iterator<Item = (usize, usize)> {
    range.clone().flat_map(move |first| range.clone().map(move |second| (first, second)))
}

/// Every top, left, bottom and right from 0 to two past the size of a map.
pub fn around(rows: usize, columns: usize) -> impl Iterator<Item = [usize; 4]> {
    pairs(0..=rows + 2)
        .flat_map(move |(top, bottom)| pairs(0..=columns + 2).map(move |(left, right)| [top, left, bottom, right]))
}

/// Whether four numbers are a rectangle of a map of this size.
pub fn is_inside([top, left, bottom, right]: [usize; 4], rows: usize, columns: usize) -> bool {
    top <= bottom && left <= right && bottom <= rows && right <= columns
}

/// Whether there is nothing in a rectangle.
pub fn is_empty([top, left, bottom, right]: [usize; 4]) -> bool {
    top == bottom || left == right
}

/// Every top, left, bottom and right from 0 to two past the size, on maps of 1 to 4 rows and columns: the rectangles of
/// the map are to be accepted and no others, and of these the empty ones are to give 0. `prepare` makes what belongs to
/// a map of so many rows and columns, and `answer` says what four numbers of it gave.
pub fn all_of_small_maps<T, N: Default + PartialEq>(
    mut prepare: impl FnMut(usize, usize) -> T,
    answer: impl Fn(&T, [usize; 4]) -> Result<N, Refusal>,
) {
    for (rows, columns) in pairs(1..=4) {
        let map = prepare(rows, columns);
        for corners in around(rows, columns) {
            let inside = is_inside(corners, rows, columns);
            let fits = match answer(&map, corners) {
                Ok(number) => inside && (number == N::default() || !is_empty(corners)),
                Err(refusal) => !inside && refusal == Refusal::RectangleOutside,
            };
            assert!(fits, "{corners:?} of {rows} by {columns}");
        }
    }
}

/// Four numbers that are no rectangle of a map of 4 by 5, since one or more of them are huge: every choice. Cut to fewer
/// bits, most of the huge ones lie in the map.
pub fn with_huge_numbers() -> impl Iterator<Item = [usize; 4]> {
    let huge = [usize::MAX, usize::MAX - 3, 1 << 63, (1 << 63) + 2, 1 << 32, (1 << 32) + 3, 4096, 4097, 65536 + 3];
    let kinds = huge.len() + 1;
    (1..kinds.pow(4)).map(move |choice| {
        from_fn(|place| match choice / kinds.pow(place as u32) % kinds {
            0 => [1, 2, 3, 4][place],
            kind => huge[kind - 1],
        })
    })
}

/// For a map of this size: a rectangle, an empty one, one with crossed edges, one past the map and one of huge numbers.
/// The last three are refused.
pub fn some_refused(random: &mut Random, rows: usize, columns: usize) -> [[usize; 4]; 5] {
    let huge = random.pick(&[usize::MAX, 1 << 63, (1 << 32) + 1]);
    [random.rectangle(rows, columns), [1, 0, 1, 1], [1, 0, 0, 1], [0, 0, rows + 1, columns], [0, 0, 1, huge]]
}

/// A table of one word and one of four words, each with its plan and a rectangle whose corners make that word.
pub fn tables_of(word: u64) -> [(Plan, [usize; 4], Vec<u64>); 2] {
    // Of the four corners the last is 5 + 7 + word - 3.
    let four = vec![3, 5, 7, word.wrapping_add(9)];
    [(Plan::summed(1, 1, 1), [0, 0, 1, 1], vec![word]), (Plan::summed(2, 2, 1), [1, 1, 2, 2], four)]
}
