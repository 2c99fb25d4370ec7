//! Several jobs that share a list of marks: their parts of it, and the library's turns beside those of the model.

use crate::dispatcher;
use crate::lent::Lent;
use crate::model::NOTHING_DONE;
use crate::needs::Grid;
use mulzhegat::dispatch::{self, Job, Turn};
use mulzhegat::Refusal;
use std::ops::Range;

/// What the dispatcher answers.
pub type Answer = Result<Option<Turn>, Refusal>;

/// The library's turn. All four words are written on every call: zeros beside a refusal, and where none is named.
pub fn turn_of(jobs: &[Job], last: usize, marks: &[u32]) -> Answer {
    let answer = dispatch::next_turn(jobs, last, marks);
    let expected = match answer {
        Ok(Some(Turn { job, task, block })) => [1, job as u64, task as u64, block as u64],
        _ => [0; 4],
    };
    for before in [0x7777, u64::MAX] {
        let mut words = [before; 4];
        assert_eq!(dispatch::next_turn_into(jobs, last, marks, &mut words), answer.map(|_| ()));
        assert_eq!(words, expected, "beside {answer:?}");
    }
    answer
}

/// What a control lends.
#[derive(Clone, Debug, PartialEq)]
pub struct Control {
    pub jobs: Lent<Job>,
    pub marks: Lent<u32>,
}

impl Control {
    /// Lends jobs and marks; the records and the marks around them would be refused.
    pub fn new(jobs: &[Job], marks: &[u32]) -> Control {
        Control { jobs: Lent::of(jobs, Job::default), marks: Lent::of(marks, || 0) }
    }

    /// The library's answer, which has to be that of the model, with everything lent left as it was.
    #[track_caller]
    pub fn answer(&self, last: usize) -> Answer {
        let before = self.clone();
        let (jobs, marks) = (self.jobs.get(), self.marks.get());
        let answer = turn_of(jobs, last, marks);
        assert!(self == &before, "a turn wrote to jobs or marks, last {last}, of {before:x?}");
        assert_eq!(answer, dispatcher::next_turn(jobs, last, marks), "last {last}, {marks:x?} of {jobs:?}");
        answer
    }
}

/// A job of blocks of one pixel in a row, which has as many marks.
pub fn line(marks: u64, marks_start: u64) -> Job {
    Job { rows: 1, columns: marks, side: 1, marks_start }
}

/// The blocks of a job that has its sizes in range.
pub fn grid_of(job: &Job) -> Grid {
    Grid::new(job.rows.div_ceil(job.side) as usize, job.columns.div_ceil(job.side) as usize)
}

/// The job's part of the common list, in numbers that cannot overflow.
pub fn part_of(job: &Job) -> Range<u128> {
    let start = u128::from(job.marks_start);
    start..start + grid_of(job).blocks() as u128
}

/// Whether two jobs have a mark in common.
pub fn overlap(one: &Job, other: &Job) -> bool {
    let (one, other) = (part_of(one), part_of(other));
    one.start < other.end && other.start < one.end
}

/// The tasks of a block, one bit each.
pub fn tasks_of(job: &Job, block: usize) -> u32 {
    (0..6).filter(|&task| grid_of(job).has((task, block))).map(|task| 1 << task).sum()
}

/// The mark of a block of which all tasks are done.
pub fn done_mark(job: &Job, block: usize) -> u32 {
    NOTHING_DONE | tasks_of(job, block)
}

/// The numbers of all jobs of a list, and numbers from past it, also such that are in it if cut to 32 bits.
pub fn lasts(jobs: usize) -> Vec<usize> {
    let past = [jobs, jobs + 1, 8, 9, 1 << 32, 1 << 32 | 1, 1 << 63, usize::MAX - 1, usize::MAX];
    (0..jobs).chain(past).collect()
}
