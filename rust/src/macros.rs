//! Total and number of pixels of a rectangle, as macro variables of a control.
//!
//! A control keeps macro variables as 64-bit floats, with a state called vacant for no value. A quantity is a float
//! that equals the whole number, or it is vacant; it is never rounded.

use crate::serial::Rectangle;
use crate::{Plan, Refusal};

extern "C" {
    fn mzg_macro_total(
        plan: *const Plan,
        top: usize,
        left: usize,
        bottom: usize,
        right: usize,
        table: *const u64,
        table_len: usize,
        state: *mut u64,
        value: *mut f64,
    ) -> u64;
    fn mzg_macro_pixels(
        plan: *const Plan,
        top: usize,
        left: usize,
        bottom: usize,
        right: usize,
        table: *const u64,
        table_len: usize,
        state: *mut u64,
        value: *mut f64,
    ) -> u64;
    fn mzg_macro_pair(
        plan: *const Plan,
        top: usize,
        left: usize,
        bottom: usize,
        right: usize,
        table: *const u64,
        table_len: usize,
        states: *mut [u64; 2],
        values: *mut [f64; 2],
    ) -> u64;
}

/// Which quantity of a rectangle is wanted.
#[derive(Clone, Copy, Debug, PartialEq, Eq)]
pub enum Quantity {
    /// The sum of its heights, by a summed-area table; a dropout counts as 0.
    Total,
    /// How many pixels it has, dropouts among them.
    Pixels,
}

/// A macro variable.
#[derive(Clone, Copy, Debug, PartialEq)]
pub enum Macro {
    /// No value: the rectangle is empty, or, of a total, it lies below -2^53 or above 2^53.
    Vacant,
    /// A total, which equals the rectangle's sum.
    Total(f64),
    /// A number of pixels.
    Pixels(f64),
}

impl Macro {
    /// The value, or none where the variable is vacant.
    pub fn value(self) -> Option<f64> {
        match self {
            Macro::Vacant => None,
            Macro::Total(value) | Macro::Pixels(value) => Some(value),
        }
    }
}

/// Both quantities of one rectangle.
#[derive(Clone, Copy, Debug, PartialEq)]
pub struct MacroPair {
    /// The total.
    pub total: Macro,
    /// The number of pixels.
    pub pixels: Macro,
}

/// A macro variable as `mulzhegat.h` has it: its state and its value.
#[derive(Clone, Copy, Debug, Default, PartialEq)]
pub struct MacroWords {
    /// 0 vacant, 1 total, 2 pixels; the calls write no other.
    pub state: u64,
    /// The float; +0.0 beside vacant.
    pub value: f64,
}

/// A state that is neither 1 nor 2 is read as vacant.
impl From<MacroWords> for Macro {
    fn from(words: MacroWords) -> Macro {
        match words.state {
            1 => Macro::Total(words.value),
            2 => Macro::Pixels(words.value),
            _ => Macro::Vacant,
        }
    }
}

/// Gives one quantity of a rectangle. A total is read off a finished summed-area table, as by
/// [`serial::rectangle`](crate::serial::rectangle); the table needs rows * columns words, also for the number of
/// pixels. Either quantity of an empty rectangle is vacant, and so is a total below -2^53 or above 2^53; nothing else
/// is. A total of 0 is +0.0.
///
/// # Errors
/// Those of [`serial::rectangle`](crate::serial::rectangle): 6, 7 (table), 12.
///
/// # Example
/// ```
/// use mulzhegat::macros::{self, Macro, Quantity};
/// use mulzhegat::serial::{self, Rectangle};
/// use mulzhegat::Plan;
/// let plan = Plan::summed(2, 3, 2);
/// let mut table = [0; 6];
/// serial::run(&plan, &[1, -2, 3, -4, 5, -6], &mut table).unwrap();
/// let value = |quantity, rectangle| macros::value(&plan, quantity, rectangle, &table).unwrap();
/// assert_eq!(value(Quantity::Total, Rectangle::new(1, 0, 2, 3)), Macro::Total(-5.0));
/// assert_eq!(value(Quantity::Pixels, Rectangle::new(1, 0, 2, 3)), Macro::Pixels(3.0));
/// assert_eq!(value(Quantity::Total, Rectangle::new(1, 0, 1, 3)), Macro::Vacant);
/// ```
pub fn value(plan: &Plan, quantity: Quantity, rectangle: Rectangle, table: &[u64]) -> Result<Macro, Refusal> {
    let mut words = MacroWords::default();
    value_into(plan, quantity, rectangle, table, &mut words)?;
    Ok(words.into())
}

/// Writes one quantity of a rectangle to `words`, vacant beside a refusal.
///
/// # Errors
/// As [`value`].
pub fn value_into(
    plan: &Plan,
    quantity: Quantity,
    rectangle: Rectangle,
    table: &[u64],
    words: &mut MacroWords,
) -> Result<(), Refusal> {
    let Rectangle { top, left, bottom, right } = rectangle;
    let MacroWords { state, value } = words;
    let (table, length) = (table.as_ptr(), table.len());
    // SAFETY: the record and the table are readable, the table for its length, and both words are writable; borrowed
    // mutably, they overlap nothing.
    Refusal::check(unsafe {
        match quantity {
            Quantity::Total => mzg_macro_total(plan, top, left, bottom, right, table, length, state, value),
            Quantity::Pixels => mzg_macro_pixels(plan, top, left, bottom, right, table, length, state, value),
        }
    })
}

/// Gives total and number of pixels of a rectangle, each as [`value`] does. Where the map has dropouts, a mean of the
/// heights seen divides by the pixels less [`dropouts::count`](crate::dropouts::count), which is 0 where nothing was
/// seen: then the total is 0, not vacant.
///
/// # Errors
/// As [`value`].
///
/// # Example
/// ```
/// use mulzhegat::macros;
/// use mulzhegat::serial::{self, Rectangle};
/// use mulzhegat::Plan;
/// let plan = Plan::summed(2, 3, 2);
/// let mut table = [0; 6];
/// serial::run(&plan, &[1, 2, 3, 4, 5, 6], &mut table).unwrap();
/// let pair = macros::pair(&plan, Rectangle::new(0, 1, 2, 3), &table).unwrap();
/// let mean = pair.total.value().zip(pair.pixels.value()).map(|(total, pixels)| total / pixels);
/// assert_eq!(mean, Some(4.0));
/// ```
pub fn pair(plan: &Plan, rectangle: Rectangle, table: &[u64]) -> Result<MacroPair, Refusal> {
    let mut words = [MacroWords::default(); 2];
    pair_into(plan, rectangle, table, &mut words)?;
    let [total, pixels] = words.map(Macro::from);
    Ok(MacroPair { total, pixels })
}

/// Writes the total of a rectangle to `words[0]` and its number of pixels to `words[1]`, both vacant beside a refusal.
///
/// # Errors
/// As [`value`].
pub fn pair_into(plan: &Plan, rectangle: Rectangle, table: &[u64], words: &mut [MacroWords; 2]) -> Result<(), Refusal> {
    let Rectangle { top, left, bottom, right } = rectangle;
    let (mut states, mut values) = (words.map(|word| word.state), words.map(|word| word.value));
    // SAFETY: the record and the table are readable, the table for its length, and both arrays are writable; borrowed
    // mutably, they overlap nothing.
    let answer = unsafe {
        mzg_macro_pair(plan, top, left, bottom, right, table.as_ptr(), table.len(), &mut states, &mut values)
    };
    *words = [0, 1].map(|half| MacroWords { state: states[half], value: values[half] });
    Refusal::check(answer)
}
