//! Several jobs on one control, which take turns.
//!
//! The jobs, eight at most, stand in a list of records, each with the sizes of its plan and the start of its marks in
//! one list of marks that all of them share. A job's own calls ([`job`](crate::job)) are lent its part of that list.

#[cfg(doc)]
use crate::Sizes;
use crate::{Plan, Refusal};
use std::ops::Range;

extern "C" {
    fn mzg_dispatch(
        jobs: *const Job,
        jobs_len: usize,
        last: usize,
        marks: *const u32,
        marks_len: usize,
        turn: *mut [u64; 4],
    ) -> u64;
}

/// The record of one job. Its marks are [`Sizes::marks`] words of the common list, from `marks_start` on.
#[repr(C)]
#[derive(Clone, Copy, Debug, Default, PartialEq, Eq)]
pub struct Job {
    /// Rows of the map, 1 to 4,096.
    pub rows: u64,
    /// Columns of the map, 1 to 4,096.
    pub columns: u64,
    /// Block side, 1 to 32.
    pub side: u64,
    /// The index of the job's first mark in the common list.
    pub marks_start: u64,
}

impl Job {
    /// The record of a job of this plan, with its marks from an index of the common list on. A negative size becomes a
    /// large one, which breaks the rules as well.
    pub fn new(plan: &Plan, marks_start: usize) -> Job {
        let [rows, columns, side] = [plan.rows, plan.columns, plan.side].map(|size| size as u64);
        Job { rows, columns, side, marks_start: marks_start as u64 }
    }

    /// The job's marks in the common list, which its own calls are lent; `marks` is their number, [`Sizes::marks`].
    pub fn part(&self, marks: u64) -> Range<usize> {
        let start = self.marks_start as usize;
        start..start.saturating_add(marks as usize)
    }
}

/// Whose turn it is, and which task is to be performed.
#[derive(Clone, Copy, Debug, PartialEq, Eq)]
pub struct Turn {
    /// The job's index in the list.
    pub job: usize,
    /// The number of its ready task.
    pub task: usize,
    /// The block of that task.
    pub block: usize,
}

/// Names the next job after `last`, going round, that has unmarked tasks, with its first ready task, as
/// [`job::report`](crate::job::report) names it; or none, exactly where every job is done or the list is empty. `last`
/// is the job that was named last; from the length of the list on it means none yet, and job 0 comes first. All marks
/// of all jobs are looked at, so that a turn takes about as long as a report on each; marks that belong to no job do
/// not matter.
///
/// It is fair, as long as each turn gets the job named before it and the list stays the same: of as many accepted turns
/// as there are jobs, one names any job that has unmarked tasks at each of them, whatever changes marks in between; and
/// if marks change only by performing tasks that these turns name, one names any job that has unmarked tasks at the
/// first. Nothing is kept between calls: until the named task is done, the job's turn names it again, or one that a
/// recall has cleared. A task that is performed twice is refused by 10, and one named before a recall can be by 11.
///
/// # Errors
/// 6 (a size breaks a rule, or there are more than eight records), 18 (with the least job whose marks run past the
/// common list or overlap another's), 9 (with the least index in the common list; from `u32::MAX` on, `u32::MAX`). That
/// a record has the sizes of the job's plan is not tested.
///
/// # Example
/// ```
/// use mulzhegat::dispatch::{self, Job};
/// use mulzhegat::{job, plan, Plan};
/// // Job 0 has two blocks and six tasks, job 1 a block and two tasks. The marks of job 1 come first.
/// let plans = [Plan::summed(2, 3, 2), Plan::summed(1, 2, 2)];
/// let jobs = [Job::new(&plans[0], 1), Job::new(&plans[1], 0)];
/// let parts = [0, 1].map(|i| jobs[i].part(plan::sizes(&plans[i]).unwrap().marks));
/// let maps = [vec![1, 2, 3, 4, 5, 6], vec![7, 8]];
/// let (mut marks, mut strips) = ([0; 3], [vec![0; 16], vec![0; 8]]);
/// let mut outputs = [vec![0; 6], vec![0; 2]];
/// for i in 0..2 {
///     job::start(&plans[i], &mut marks[parts[i].clone()], &mut strips[i]).unwrap();
/// }
/// let (mut last, mut named) = (jobs.len(), Vec::new());
/// while let Some(turn) = dispatch::next_turn(&jobs, last, &marks).unwrap() {
///     last = turn.job;
///     let own = &mut marks[parts[last].clone()];
///     let (strips, output) = (&mut strips[last], &mut outputs[last]);
///     job::perform(&plans[last], turn.task, turn.block, &maps[last], own, strips, output).unwrap();
///     named.push(last);
/// }
/// assert_eq!(named, [0, 1, 0, 1, 0, 0, 0, 0]);
/// assert_eq!(outputs, [vec![1, 3, 6, 5, 12, 21], vec![7, 15]]);
/// ```
pub fn next_turn(jobs: &[Job], last: usize, marks: &[u32]) -> Result<Option<Turn>, Refusal> {
    let mut words = [0; 4];
    next_turn_into(jobs, last, marks, &mut words)?;
    let [named, job, task, block] = words.map(|word| word as usize);
    Ok((named == 1).then_some(Turn { job, task, block }))
}

/// Writes the turn to four words: 1, job, task and block, or four zeros where none is named and beside a refusal.
///
/// # Errors
/// As [`next_turn`].
pub fn next_turn_into(jobs: &[Job], last: usize, marks: &[u32], turn: &mut [u64; 4]) -> Result<(), Refusal> {
    // SAFETY: records and marks are readable, each for their length, and the turn is writable; borrowed mutably, it
    // overlaps nothing.
    Refusal::check(unsafe { mzg_dispatch(jobs.as_ptr(), jobs.len(), last, marks.as_ptr(), marks.len(), turn) })
}
