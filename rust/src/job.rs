//! Jobs: start, tasks, report, recall.

#[cfg(doc)]
use crate::Sizes;
use crate::{Plan, Progress, Refusal};

extern "C" {
    fn mzg_start(plan: *const Plan, marks: *mut u32, marks_len: usize, strips: *mut u64, strips_len: usize) -> u64;
    fn mzg_task(
        plan: *const Plan,
        task: usize,
        block: usize,
        map: *const i32,
        map_len: usize,
        marks: *mut u32,
        marks_len: usize,
        strips: *mut u64,
        strips_len: usize,
        output: *mut u64,
        output_len: usize,
    ) -> u64;
    fn mzg_report(plan: *const Plan, marks: *const u32, marks_len: usize, progress: *mut Progress) -> u64;
    fn mzg_recall(plan: *const Plan, block: usize, marks: *mut u32, marks_len: usize) -> u64;
}

/// Starts a job: no task is marked, and all strips, lone and linked, are 0. Needs [`Sizes::marks`] marks and
/// [`Sizes::strips`] strip words.
///
/// # Errors
/// 6, 7 (marks), 14 (strips).
pub fn start(plan: &Plan, marks: &mut [u32], strips: &mut [u64]) -> Result<(), Refusal> {
    // SAFETY: the record is readable and both slices are writable for their lengths; borrowed mutably, they overlap
    // nothing.
    Refusal::check(unsafe { mzg_start(plan, marks.as_mut_ptr(), marks.len(), strips.as_mut_ptr(), strips.len()) })
}

/// Performs one task on one block; collect and finish read dropouts as 0. Needs the lengths of [`Sizes`]: `pixels` map
/// and output words, `marks`, `strips`. All calls of a job are lent one map; a block of it that changes after its
/// collect has to be recalled ([`recall`]).
///
/// # Errors
/// 6, then 7 (marks), 14 (strips), 15 (map) and 16 (output), also where the task does not read or write that buffer;
/// then 8, 9 (the marks of the block and of the neighbours in its needs are looked at), 10, 11.
///
/// # Order
/// A small job can perform what the report names, as here. The report looks at all marks, so a large one goes through
/// the tasks in an order of its own (`mulzhegat.h` names one that is never refused for a need).
///
/// ```
/// use mulzhegat::{job, plan, Plan};
/// let plan = Plan::summed(2, 3, 2);
/// let sizes = plan::sizes(&plan).unwrap();
/// let mut marks = vec![0; sizes.marks as usize];
/// let mut strips = vec![0; sizes.strips as usize];
/// let mut output = vec![0; sizes.pixels as usize];
/// job::start(&plan, &mut marks, &mut strips).unwrap();
/// while let Some((task, block)) = job::report(&plan, &marks).unwrap().ready_task() {
///     job::perform(&plan, task.number(), block, &[1, 2, 3, 4, 5, 6], &mut marks, &mut strips, &mut output).unwrap();
/// }
/// assert_eq!(output, [1, 3, 6, 5, 12, 21]);
/// ```
pub fn perform(
    plan: &Plan,
    task: usize,
    block: usize,
    map: &[i32],
    marks: &mut [u32],
    strips: &mut [u64],
    output: &mut [u64],
) -> Result<(), Refusal> {
    // SAFETY: the record and the map are readable and the other slices are writable, each for its length; these three
    // are borrowed mutably and overlap nothing.
    Refusal::check(unsafe {
        mzg_task(
            plan,
            task,
            block,
            map.as_ptr(),
            map.len(),
            marks.as_mut_ptr(),
            marks.len(),
            strips.as_mut_ptr(),
            strips.len(),
            output.as_mut_ptr(),
            output.len(),
        )
    })
}

/// Reports how far a job is and names a ready task, or none. Needs [`Sizes::marks`] marks, and looks at all of them.
///
/// # Errors
/// 6, 7 (marks), 9.
pub fn report(plan: &Plan, marks: &[u32]) -> Result<Progress, Refusal> {
    let mut progress = Progress::default();
    report_into(plan, marks, &mut progress)?;
    Ok(progress)
}

/// Reports in a record, which is all zeros beside a refusal.
///
/// # Errors
/// As [`report`].
pub fn report_into(plan: &Plan, marks: &[u32], progress: &mut Progress) -> Result<(), Refusal> {
    // SAFETY: the record and the marks are readable, the marks for their length, and the progress is writable; borrowed
    // mutably, it overlaps nothing.
    Refusal::check(unsafe { mzg_report(plan, marks.as_ptr(), marks.len(), progress) })
}

/// Recalls a block that is scanned again: clears the bits of its tasks and of every task that needs one of them,
/// directly or through others, and no other bit. Of block (m, n) these are its collect, the down links of column n from
/// row m on, all up links of column n, all right links from column n on, all left links and all finishes. Strips and
/// output are not lent: what a cleared task wrote stays until it is done again. Needs [`Sizes::marks`] marks, and looks
/// at all of them.
///
/// # Errors
/// 6, 7 (marks), 8 (no such block), 9, 17 (the block is not collected: no done task needs it, and it may be scanned all
/// the same).
///
/// # One block rescanned
/// Recall the block, scan it again, and perform what the report names until it names none. Marks, strips and output are
/// then those of a fresh job on the new map. Several blocks are recalled by one call each; scan all of them before a
/// task is performed: the marks do not know that a scan is due. Where heights of a block have changed since its last
/// collect, even for a time, no call notices: recall it.
///
/// ```
/// use mulzhegat::{job, plan, Plan};
/// let plan = Plan::summed(2, 3, 2);
/// let sizes = plan::sizes(&plan).unwrap();
/// let mut marks = vec![0; sizes.marks as usize];
/// let mut strips = vec![0; sizes.strips as usize];
/// let mut output = vec![0; sizes.pixels as usize];
/// job::start(&plan, &mut marks, &mut strips).unwrap();
/// let mut perform_all = |map: &[i32], marks: &mut [u32]| {
///     while let Some((task, block)) = job::report(&plan, marks).unwrap().ready_task() {
///         job::perform(&plan, task.number(), block, map, marks, &mut strips, &mut output).unwrap();
///     }
///     output.clone()
/// };
/// // A chip lies on the last column, which is block 1.
/// let mut map = [1, 2, 903, 4, 5, 906];
/// assert_eq!(perform_all(&map, &mut marks), [1, 3, 906, 5, 12, 1821]);
/// job::recall(&plan, 1, &mut marks).unwrap();
/// (map[2], map[5]) = (3, 6);
/// assert_eq!(perform_all(&map, &mut marks), [1, 3, 6, 5, 12, 21]);
/// ```
pub fn recall(plan: &Plan, block: usize, marks: &mut [u32]) -> Result<(), Refusal> {
    // SAFETY: the record is readable and the marks are writable for their length; borrowed mutably, they overlap
    // nothing.
    Refusal::check(unsafe { mzg_recall(plan, block, marks.as_mut_ptr(), marks.len()) })
}
