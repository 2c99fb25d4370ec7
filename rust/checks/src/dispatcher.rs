//! A model of the dispatcher, written from the paper that defines it: simple rather than fast, and apart from the
//! library. What a single job's marks say is told by [`model`]; sizes are all that they depend on.

use crate::model;
use mulzhegat::dispatch::{Job, Turn};
use mulzhegat::{Plan, Progress, Refusal};

/// The most jobs that a control may run, from the paper.
pub const MOST_JOBS: usize = 8;

/// Whether the sizes of a job are in the paper's ranges.
pub fn is_sized(job: &Job) -> bool {
    let fits = |length| (1..=4096).contains(&length);
    fits(job.rows) && fits(job.columns) && (1..=32).contains(&job.side)
}

/// A job with sizes in range: a plan of these sizes, and the job's part of the common list, in numbers that cannot
/// overflow.
struct Part {
    plan: Plan,
    start: u128,
    end: u128,
}

impl Part {
    fn of(job: &Job) -> Part {
        let plan = Plan::plain(job.rows as usize, job.columns as usize, job.side as usize);
        let marks = model::sizes(&plan).expect("the sizes are in range").marks;
        let start = u128::from(job.marks_start);
        Part { plan, start, end: start + u128::from(marks) }
    }

    /// Whether two parts have a mark in common. No part is empty.
    fn overlaps(&self, other: &Part) -> bool {
        self.start < other.end && other.start < self.end
    }

    /// The report on the part, or the least index in the common list of a mark in it that is broken.
    fn report(&self, marks: &[u32]) -> Result<Progress, u128> {
        let own = &marks[self.start as usize..self.end as usize];
        model::report(&self.plan, own).map_err(|refusal| self.start + u128::from(refusal.place()))
    }

    /// Whether a task is not marked, by the number of all tasks.
    fn has_unmarked_tasks(&self, progress: &Progress) -> bool {
        progress.marked < model::sizes(&self.plan).expect("the sizes are in range").tasks
    }
}

/// The turn after a job, or none.
///
/// # Panics
/// If a job has unmarked tasks and none of them is ready, which no marks bring about.
pub fn next_turn(jobs: &[Job], last: usize, marks: &[u32]) -> Result<Option<Turn>, Refusal> {
    if jobs.len() > MOST_JOBS || !jobs.iter().all(is_sized) {
        return Err(Refusal::RecordBreaksRule);
    }
    let parts = Vec::from_iter(jobs.iter().map(Part::of));
    let is_misplaced = |&job: &usize| {
        let others = (0..jobs.len()).filter(|&other| other != job);
        parts[job].end > marks.len() as u128 || others.into_iter().any(|other| parts[job].overlaps(&parts[other]))
    };
    if let Some(job) = (0..jobs.len()).find(is_misplaced) {
        return Err(Refusal::JobMisplaced(job));
    }
    let reports = Vec::from_iter(parts.iter().map(|part| part.report(marks)));
    if let Some(&place) = reports.iter().filter_map(|report| report.as_ref().err()).min() {
        // A place that does not fit in 32 bits is answered as the largest that does.
        return Err(Refusal::MarkBroken(u32::try_from(place).unwrap_or(u32::MAX)));
    }
    let first = if last < jobs.len() { last + 1 } else { 0 };
    let mut round = (first..first + jobs.len()).map(|number| number % jobs.len());
    let named = round.find_map(|job| {
        let progress = reports[job].as_ref().ok().filter(|progress| parts[job].has_unmarked_tasks(progress))?;
        assert_eq!(progress.ready, 1, "job {job} of {jobs:?} has unmarked tasks, and none is ready");
        Some(Turn { job, task: progress.task as usize, block: progress.block as usize })
    });
    Ok(named)
}

#[cfg(test)]
mod tests {
    use super::*;
    use crate::model::NOTHING_DONE;

    /// Two blocks beside each other, with six tasks; and one block, with two.
    const PAIR: Job = Job { rows: 2, columns: 3, side: 2, marks_start: 1 };
    const SINGLE: Job = Job { rows: 1, columns: 2, side: 2, marks_start: 0 };
    const PAIR_DONE: [u32; 2] = [0x70000029, 0x70000031];
    const SINGLE_DONE: u32 = 0x70000021;

    fn turn(job: usize, task: usize, block: usize) -> Result<Option<Turn>, Refusal> {
        Ok(Some(Turn { job, task, block }))
    }

    #[test]
    fn turns_of_two_jobs_worked_out_by_hand() {
        let jobs = [PAIR, SINGLE];
        let marks = [NOTHING_DONE; 3];
        assert_eq!(next_turn(&jobs, 0, &marks), turn(1, 0, 0));
        for last in [1, 2, 8, usize::MAX] {
            assert_eq!(next_turn(&jobs, last, &marks), turn(0, 0, 0));
        }
        // Block 0 of the pair is collected: its right link waits until the other collect is named.
        let marks = [SINGLE_DONE, NOTHING_DONE | 1, NOTHING_DONE];
        assert_eq!(next_turn(&jobs, 0, &marks), turn(0, 0, 1));
        // With both collected and linked, the finishes are left.
        let marks = [NOTHING_DONE | 1, 0x70000009, 0x70000011];
        assert_eq!(next_turn(&jobs, 0, &marks), turn(1, 5, 0));
        assert_eq!(next_turn(&jobs, 1, &marks), turn(0, 5, 0));
        for last in [0, 1, 2] {
            assert_eq!(next_turn(&jobs, last, &[SINGLE_DONE, PAIR_DONE[0], PAIR_DONE[1]]), Ok(None));
            assert_eq!(next_turn(&[], last, &[0, 1, 2]), Ok(None));
        }
    }

    #[test]
    fn refusals_of_two_jobs_worked_out_by_hand() {
        let marks = [NOTHING_DONE; 3];
        let at = |job: Job, marks_start: u64| Job { marks_start, ..job };
        let answer = |jobs: &[Job], marks: &[u32]| next_turn(jobs, 0, marks).unwrap_err();
        assert_eq!(answer(&[PAIR; 9], &marks), Refusal::RecordBreaksRule);
        for broken in [Job { rows: 0, ..PAIR }, Job { columns: 4097, ..PAIR }, Job { side: 33, ..PAIR }] {
            assert_eq!(answer(&[at(SINGLE, 9), broken], &marks), Refusal::RecordBreaksRule);
        }
        // Past the list by one; with an end of 2^64, and past it; on the other's second mark.
        assert_eq!(answer(&[SINGLE, at(PAIR, 2)], &marks), Refusal::JobMisplaced(1));
        assert_eq!(answer(&[at(PAIR, u64::MAX - 1), SINGLE], &marks), Refusal::JobMisplaced(0));
        assert_eq!(answer(&[SINGLE, at(PAIR, u64::MAX)], &marks), Refusal::JobMisplaced(1));
        assert_eq!(answer(&[at(SINGLE, 2), PAIR], &marks), Refusal::JobMisplaced(0));
        // The last block has no right link; the mark before has a wrong kind. That of no job does not matter.
        assert_eq!(answer(&[PAIR, SINGLE], &[NOTHING_DONE, NOTHING_DONE, 0x70000008]), Refusal::MarkBroken(2));
        assert_eq!(answer(&[PAIR, SINGLE], &[0x60000000, NOTHING_DONE, 0x70000008]), Refusal::MarkBroken(0));
        assert_eq!(next_turn(&[PAIR], 0, &[0x60000000, NOTHING_DONE, NOTHING_DONE, 5]), turn(0, 0, 0));
    }
}
