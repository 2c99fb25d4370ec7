//! Dropouts of the laser: pixels for which the head has no height.
//!
//! The passes over heights, serial or in a job, read a dropout as 0, so that a total alone does not tell a hole from a
//! face at the datum. The count does: a rectangle's pixels less its dropouts are those that the head has seen.

use crate::serial::Rectangle;
use crate::{Plan, Refusal};

/// What the head writes for a height where the beam gets no return.
pub const DROPOUT: i32 = i32::MIN;

extern "C" {
    fn mzg_dropouts(
        plan: *const Plan,
        top: usize,
        left: usize,
        bottom: usize,
        right: usize,
        map: *const i32,
        map_len: usize,
        count: *mut u64,
    ) -> u64;
}

/// Counts the dropouts in a rectangle of a map; an empty one has none. The map needs rows * columns heights.
///
/// # Errors
/// 6, 15 (map), 12 (top > bottom, left > right, bottom > rows or right > columns).
///
/// # Example
/// ```
/// use mulzhegat::dropouts::{self, DROPOUT};
/// use mulzhegat::serial::{self, Rectangle};
/// use mulzhegat::Plan;
/// let plan = Plan::summed(2, 3, 2);
/// let map = [4, DROPOUT, 2, 0, 5, 4];
/// let mut table = [0; 6];
/// serial::run(&plan, &map, &mut table).unwrap();
/// let total = |rectangle| serial::rectangle(&plan, rectangle, &table).unwrap();
/// let dropouts = |rectangle| dropouts::count(&plan, rectangle, &map).unwrap();
/// // A hole and a height of 0 have the same total.
/// let [hole, zero] = [Rectangle::new(0, 1, 1, 2), Rectangle::new(1, 0, 2, 1)];
/// assert_eq!([total(hole), total(zero)], [0, 0]);
/// assert_eq!([dropouts(hole), dropouts(zero)], [1, 0]);
/// // Of the 6 pixels 5 were seen, and these have the total; a mean is over them, where there are any.
/// let (whole, pixels) = (Rectangle::new(0, 0, 2, 3), 6);
/// let seen = pixels - dropouts(whole);
/// let mean = (seen > 0).then(|| total(whole) as f64 / seen as f64);
/// assert_eq!((total(whole), seen, mean), (15, 5, Some(3.0)));
/// ```
pub fn count(plan: &Plan, rectangle: Rectangle, map: &[i32]) -> Result<u64, Refusal> {
    let mut count = 0;
    count_into(plan, rectangle, map, &mut count)?;
    Ok(count)
}

/// Writes how many dropouts there are in a rectangle to `count`, 0 beside a refusal.
///
/// # Errors
/// As [`count`].
pub fn count_into(plan: &Plan, rectangle: Rectangle, map: &[i32], count: &mut u64) -> Result<(), Refusal> {
    let Rectangle { top, left, bottom, right } = rectangle;
    // SAFETY: the record and the map are readable, the map for its length, and the count is writable; borrowed mutably,
    // it overlaps nothing.
    Refusal::check(unsafe { mzg_dropouts(plan, top, left, bottom, right, map.as_ptr(), map.len(), count) })
}
