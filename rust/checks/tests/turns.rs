//! Runs of several jobs by turns, in which the jobs' own calls are lent their parts of the common marks: which job is
//! named after which, and the outputs at the end.

use checks::control::{done_mark, grid_of, lasts, part_of, turn_of, Control};
use checks::lent::Lent;
use checks::random::{self, Random, Seen};
use checks::{reference, serial_output};
use mulzhegat::dispatch::{Job, Turn};
use mulzhegat::{job, plan, Plan};
use std::collections::BTreeSet;
use std::ops::Range;

/// Jobs that take turns on one control, all started, each with a plan, a map and buffers of its own.
struct Heads {
    plans: Vec<Plan>,
    maps: Vec<Vec<i32>>,
    strips: Vec<Vec<u64>>,
    outputs: Vec<Vec<u64>>,
    control: Control,
    /// The common marks as they are when all jobs are done; those of no job are any words, which stay.
    done: Lent<u32>,
}

impl Heads {
    /// Starts jobs of these plans, whose marks stand in any order with gaps between them.
    fn of(plans: Vec<Plan>, random: &mut Random) -> Heads {
        let mut jobs = Vec::from_iter(plans.iter().map(|plan| Job::new(plan, 0)));
        let mut order = Vec::from_iter(0..plans.len());
        random.shuffle(&mut order);
        let mut end = 0;
        for job in order {
            end += random.pick(&[0, 0, 1, 3]);
            jobs[job].marks_start = end as u64;
            end += grid_of(&jobs[job]).blocks();
        }
        let marks = Vec::from_iter((0..end + random.below(3)).map(|_| random.word() as u32));
        let (control, mut done) = (Control::new(&jobs, &marks), Lent::of(&marks, || 0));
        for job in &jobs {
            let own = done.get_mut()[job.marks_start as usize..].iter_mut().take(grid_of(job).blocks());
            own.enumerate().for_each(|(block, mark)| *mark = done_mark(job, block));
        }
        let sizes = Vec::from_iter(plans.iter().map(|plan| plan::sizes(plan).unwrap()));
        let maps = sizes.iter().map(|sizes| random.heights(sizes.pixels as usize)).collect();
        let strips = sizes.iter().map(|sizes| random.words(sizes.strips as usize)).collect();
        let outputs = sizes.iter().map(|sizes| random.words(sizes.pixels as usize)).collect();
        let mut heads = Heads { plans, maps, strips, outputs, control, done };
        (0..jobs.len()).for_each(|job| heads.start(job, random));
        heads
    }

    /// Some jobs of small maps.
    fn any(count: usize, random: &mut Random) -> Heads {
        let plans = (0..count).map(|_| random.small_plan(50)).collect();
        Heads::of(plans, random)
    }

    fn part(&self, job: usize) -> Range<usize> {
        let part = part_of(&self.control.jobs.get()[job]);
        part.start as usize..part.end as usize
    }

    /// The marks that a job's own call is lent: its part, or all from its start on.
    fn lent(&self, job: usize, random: &mut Random) -> Range<usize> {
        let part = self.part(job);
        part.start..if random.once_in(2) { part.end } else { self.done.get().len() }
    }

    fn start(&mut self, job: usize, random: &mut Random) {
        let lent = self.lent(job, random);
        job::start(&self.plans[job], &mut self.control.marks.get_mut()[lent], &mut self.strips[job]).unwrap();
    }

    /// The next turn, whose task is the one that the report on the job's part names. Which job it is the runs judge by
    /// themselves, not by the model.
    fn turn(&self, last: usize) -> Option<Turn> {
        let (jobs, marks) = (self.control.jobs.get(), self.control.marks.get());
        let turn = turn_of(jobs, last, marks).expect("the jobs are well placed and their marks right")?;
        let report = job::report(&self.plans[turn.job], &marks[self.part(turn.job)]).unwrap();
        assert_eq!(report.ready_task().map(|(task, block)| (task.number(), block)), Some((turn.task, turn.block)));
        Some(turn)
    }

    /// Performs a named task, which has to be accepted: it was ready, and is not done yet.
    fn perform(&mut self, Turn { job, task, block }: Turn, random: &mut Random) {
        let lent = self.lent(job, random);
        let marks = &mut self.control.marks.get_mut()[lent];
        let (strips, output) = (&mut self.strips[job], &mut self.outputs[job]);
        job::perform(&self.plans[job], task, block, &self.maps[job], marks, strips, output).unwrap();
    }

    fn is_unfinished(&self, job: usize) -> bool {
        self.control.marks.get()[self.part(job)] != self.done.get()[self.part(job)]
    }

    /// The tasks of all jobs.
    fn tasks(&self) -> Vec<usize> {
        self.plans.iter().map(|plan| plan::sizes(plan).unwrap().tasks as usize).collect()
    }

    /// All jobs are done, and have the outputs of the serial passes over their maps; no other mark has changed.
    fn expect_done(&self) {
        assert!(self.control.marks == self.done);
        for (job, plan) in self.plans.iter().enumerate() {
            assert!(self.outputs[job] == reference::serial(plan, &self.maps[job]), "job {job} of {:?}", self.plans);
            assert!(self.outputs[job] == serial_output(plan, &self.maps[job]), "job {job} of {:?}", self.plans);
        }
        for last in lasts(self.plans.len()) {
            assert_eq!(self.turn(last), None);
        }
    }
}

/// For each job the jobs that were named since it was, or since the run began.
struct Fairness(Vec<BTreeSet<usize>>);

impl Fairness {
    fn new(jobs: usize) -> Fairness {
        Fairness(vec![BTreeSet::new(); jobs])
    }

    /// Notes a turn. No job is named twice while another waits that is not done: so that is named within as many turns
    /// as there are jobs.
    fn note(&mut self, named: usize, is_unfinished: impl Fn(usize) -> bool) {
        for (job, since) in self.0.iter_mut().enumerate() {
            let is_fair = job == named || !is_unfinished(job) || since.insert(named);
            assert!(is_fair, "job {named} is named twice while job {job} waits");
        }
        self.0[named].clear();
    }
}

/// Performs each named task at once until none is named, and gives the turns of each job.
fn run_at_once(heads: &mut Heads, mut last: usize, random: &mut Random) -> Vec<usize> {
    let jobs = heads.plans.len();
    let (mut fairness, mut turns) = (Fairness::new(jobs), vec![0; jobs]);
    while let Some(turn) = heads.turn(last) {
        fairness.note(turn.job, |job| heads.is_unfinished(job));
        heads.perform(turn, random);
        turns[turn.job] += 1;
        last = turn.job;
    }
    turns
}

#[test]
fn example_of_two_jobs_turn_by_turn() {
    let plans = vec![Plan::summed(2, 3, 2), Plan::summed(1, 2, 2)];
    let mut random = Random::new(1);
    let mut heads = Heads::of(plans, &mut random);
    heads.maps = vec![vec![1, 2, 3, 4, 5, 6], vec![7, 8]];
    let turns = [(0, 0, 0), (1, 0, 0), (0, 0, 1), (1, 5, 0), (0, 3, 0), (0, 4, 1), (0, 5, 0), (0, 5, 1)];
    let mut last = 2;
    for (job, task, block) in turns {
        let turn = Turn { job, task, block };
        assert_eq!(heads.turn(last), Some(turn));
        heads.perform(turn, &mut random);
        last = job;
    }
    assert_eq!(heads.turn(last), None);
    assert_eq!(heads.outputs, [vec![1, 3, 6, 5, 12, 21], vec![7, 15]]);
    heads.expect_done();
}

#[test]
fn jobs_by_turns_have_fair_shares_and_the_outputs_of_the_serial_passes() {
    let mut random = random::of_test("jobs_by_turns_have_fair_shares_and_the_outputs_of_the_serial_passes");
    let (mut counts, mut recalled) = (Seen::new(), 0);
    for _ in 0..400 * random::rounds() {
        let mut heads = Heads::any(random.between(1, 8), &mut random);
        let jobs = heads.plans.len();
        counts.note(jobs);
        let last = random.pick(&lasts(jobs));
        let turns = run_at_once(&mut heads, last, &mut random);
        assert_eq!(turns, heads.tasks());
        heads.expect_done();
        // A block of one job is scanned again: this job is named until it is done, and no other.
        let job = random.below(jobs);
        let (part, block) = (heads.part(job), random.below(heads.part(job).len()));
        job::recall(&heads.plans[job], block, &mut heads.control.marks.get_mut()[part]).unwrap();
        let corner = first_pixel(&heads.plans[job], block);
        heads.maps[job][corner] = random.height();
        let last = random.pick(&lasts(jobs));
        let turns = run_at_once(&mut heads, last, &mut random);
        assert!((0..jobs).all(|other| (turns[other] > 0) == (other == job)), "{turns:?}, job {job}");
        recalled += turns[job];
        heads.expect_done();
    }
    counts.expect(1..=8, 20);
    assert!(recalled > 2_000, "{recalled}");
}

/// The pixel of a map at which a block starts.
fn first_pixel(plan: &Plan, block: usize) -> usize {
    let [columns, side] = [plan.columns, plan.side].map(|size| size as usize);
    let across = columns.div_ceil(side);
    block / across * side * columns + block % across * side
}

#[test]
fn jobs_whose_tasks_are_performed_late_are_named_in_fair_turns_and_come_to_their_end() {
    let mut random =
        random::of_test("jobs_whose_tasks_are_performed_late_are_named_in_fair_turns_and_come_to_their_end");
    let (mut named_again, mut under_way) = (0, Seen::new());
    for _ in 0..400 * random::rounds() {
        let mut heads = Heads::any(random.between(1, 8), &mut random);
        let (jobs, most) = (heads.plans.len(), random.between(1, 3));
        let (mut last, mut fairness, mut waiting) = (random.pick(&lasts(jobs)), Fairness::new(jobs), Vec::new());
        while let Some(turn) = heads.turn(last) {
            fairness.note(turn.job, |job| heads.is_unfinished(job));
            last = turn.job;
            let is_again = waiting.contains(&turn);
            named_again += usize::from(is_again);
            if !is_again {
                waiting.push(turn);
            }
            under_way.note(waiting.len());
            // Any of those that wait is performed, or none as long as few wait; so the run comes to its end.
            if is_again || waiting.len() > most || random.once_in(4) {
                let performed = waiting.swap_remove(random.below(waiting.len()));
                heads.perform(performed, &mut random);
            }
        }
        assert!(waiting.is_empty(), "none is named although {waiting:?} are not done");
        heads.expect_done();
    }
    under_way.expect(1..=4, 500);
    assert!(named_again > 2_000, "{named_again}");
}

#[test]
fn a_job_that_stands_still_is_named_in_its_turns_and_holds_up_no_other() {
    let mut random = random::of_test("a_job_that_stands_still_is_named_in_its_turns_and_holds_up_no_other");
    for _ in 0..200 * random::rounds() {
        let mut heads = Heads::any(random.between(2, 8), &mut random);
        let jobs = heads.plans.len();
        let (still, mut last, mut fairness) = (random.below(jobs), usize::MAX, Fairness::new(jobs));
        let first = Turn { job: still, task: 0, block: 0 };
        let mut turns = vec![0; jobs];
        while (0..jobs).any(|job| job != still && heads.is_unfinished(job)) {
            let turn = heads.turn(last).expect("jobs are not done");
            fairness.note(turn.job, |job| heads.is_unfinished(job));
            match turn.job == still {
                true => assert_eq!(turn, first),
                false => heads.perform(turn, &mut random),
            }
            turns[turn.job] += 1;
            last = turn.job;
        }
        // It had a turn in each round of the job that took longest, but for the last perhaps.
        let most = turns.iter().enumerate().filter(|&(job, _)| job != still).map(|(_, &turns)| turns).max();
        assert!(most.is_some_and(|most| turns[still] + 1 >= most && turns[still] <= most), "{turns:?}, job {still}");
        for last in lasts(jobs) {
            assert_eq!(heads.turn(last), Some(first));
        }
        let turns = run_at_once(&mut heads, still, &mut random);
        assert_eq!(turns[still], heads.tasks()[still]);
        heads.expect_done();
    }
}
