//! Plan words, plan records and the lengths that a plan needs.

use crate::{Plan, Refusal, Sizes};

extern "C" {
    fn mzg_plan_read(words: *const u32, words_len: usize, plan: *mut Plan) -> u64;
    fn mzg_plan_write(plan: *const Plan, words: *mut u32, words_len: usize) -> u64;
    fn mzg_plan_sizes(plan: *const Plan, sizes: *mut Sizes) -> u64;
}

/// Reads a plan from its words.
///
/// # Errors
/// 1, 2 and 3 from left to right (2 before 3 at one word), then 5, then 4.
///
/// # Example
/// ```
/// use mulzhegat::{plan, Plan, Refusal};
/// let words = [
///     0x10004003, 0x20000002, 0x30000001, 0x40000001, 0x5FFFFFFF, 0x30000010, 0x40000001, 0x30000021, 0x40000001,
///     0x5FFFFFFF, 0x30000030, 0x40000001, 0x60000000,
/// ];
/// assert_eq!(plan::read(&words), Ok(Plan::summed(2, 3, 2)));
/// assert_eq!(plan::read(&words[..4]), Err(Refusal::WordsEndEarly(4)));
/// ```
pub fn read(words: &[u32]) -> Result<Plan, Refusal> {
    let mut plan = Plan::default();
    read_into(words, &mut plan)?;
    Ok(plan)
}

/// Reads a plan from its words into a record, which is all zeros beside a refusal.
///
/// # Errors
/// As [`read`].
pub fn read_into(words: &[u32], plan: &mut Plan) -> Result<(), Refusal> {
    // SAFETY: the slice is readable for its length and the record is writable; borrowed mutably, it overlaps nothing.
    Refusal::check(unsafe { mzg_plan_read(words.as_ptr(), words.len(), plan) })
}

/// Writes the words of a plan at the start of `words`, which needs [`Sizes::words`] words.
///
/// # Errors
/// 6, 7 (words).
pub fn write(plan: &Plan, words: &mut [u32]) -> Result<(), Refusal> {
    // SAFETY: the record is readable and the slice is writable for its length; borrowed mutably, it overlaps nothing.
    Refusal::check(unsafe { mzg_plan_write(plan, words.as_mut_ptr(), words.len()) })
}

/// Gives the lengths that a plan needs.
///
/// # Errors
/// 6.
pub fn sizes(plan: &Plan) -> Result<Sizes, Refusal> {
    let mut sizes = Sizes::default();
    sizes_into(plan, &mut sizes)?;
    Ok(sizes)
}

/// Gives the lengths that a plan needs in a record, which is all zeros beside a refusal.
///
/// # Errors
/// As [`sizes`].
pub fn sizes_into(plan: &Plan, sizes: &mut Sizes) -> Result<(), Refusal> {
    // SAFETY: the plan is readable and the sizes are writable; borrowed mutably, they overlap nothing.
    Refusal::check(unsafe { mzg_plan_sizes(plan, sizes) })
}
