//! Recalls of blocks that are scanned again: the marks that go, by the table of needs told apart from the model; jobs
//! with recalls on maps that change, against the model, against fresh jobs on the new map and against the serial
//! passes.

use checks::lent::Lent;
use checks::model::{self, Block, Job, NOTHING_DONE};
use checks::needs::{BlocksNeeded, Call, Grid};
use checks::random::{self, MapsSeen, Random, Reached};
use checks::records::broken_record;
use checks::reference;
use checks::short::ShortBuffers;
use checks::trial::{any_task_and_block, no_blocks, Buffers, Trial};
use checks::{rectangles, serial_output};
use mulzhegat::{job, Plan, Refusal, DOWN, UP};
use std::array::from_fn;
use std::collections::{BTreeMap, BTreeSet};

/// A job with recalls on a map that changes, run by the library and by the model.
struct History<'a> {
    trial: Trial<'a>,
    grid: Grid,
    needed: BlocksNeeded,
    /// The buffers as they were lent, before start.
    lent: Buffers,
    /// The accepted calls of tasks, in their order.
    accepted: Vec<Call>,
    /// The tasks done: accepted, and not cleared since.
    done: BTreeSet<Call>,
    /// The tasks cleared and not done again, each with the words that it had written.
    cleared: BTreeMap<Call, Vec<u64>>,
    /// The blocks now collected of which a height has changed since that collect, even for a time.
    changed: BTreeSet<usize>,
}

impl<'a> History<'a> {
    /// Starts a job in buffers of any words.
    fn new(plan: &'a Plan, random: &mut Random) -> History<'a> {
        let mut trial = Trial::new(plan, random);
        let grid = Grid::new(trial.job.block_rows, trial.job.block_columns);
        let lent = trial.library.clone();
        trial.start();
        History {
            trial,
            grid,
            needed: grid.blocks_needed(),
            lent,
            accepted: Vec::new(),
            done: BTreeSet::new(),
            cleared: BTreeMap::new(),
            changed: BTreeSet::new(),
        }
    }

    /// Notes what an accepted call has done, and gives the answer back.
    fn note(&mut self, task: usize, block: usize, answer: Result<(), Refusal>) -> Result<(), Refusal> {
        if answer.is_ok() {
            self.accepted.push((task, block));
            self.done.insert((task, block));
            self.cleared.remove(&(task, block));
        }
        answer
    }

    fn perform(&mut self, task: usize, block: usize) -> Result<(), Refusal> {
        let answer = self.trial.perform(task, block);
        self.note(task, block, answer)
    }

    /// Recalls a block; an accepted recall takes away the tasks that need it, by the table of needs.
    fn recall(&mut self, block: usize) -> Result<(), Refusal> {
        self.trial.recall(block)?;
        let needing: Vec<Call> = self.done.iter().copied().filter(|&call| self.needed.is_needed(block, call)).collect();
        for call in needing {
            self.done.remove(&call);
            self.cleared.insert(call, self.words_of(call, &self.trial.library));
        }
        self.changed.remove(&block);
        Ok(())
    }

    fn is_collected(&self, block: usize) -> bool {
        self.done.contains(&(0, block))
    }

    /// Changes heights of a block.
    fn set_heights(&mut self, block: usize, heights: &[(usize, i32)]) {
        let mut differ = false;
        for &(pixel, height) in heights {
            differ |= self.trial.set_height(pixel, height);
        }
        if differ && self.is_collected(block) {
            self.changed.insert(block);
        }
    }

    /// Gives all pixels of a block, or one of them, other heights, and gives those back that they had.
    fn rescan(&mut self, block: usize, random: &mut Random) -> Vec<(usize, i32)> {
        let mut pixels = pixels_of(&self.trial.job, &self.trial.job.block(block));
        if random.once_in(2) {
            pixels = vec![random.pick(&pixels)];
        }
        let before = Vec::from_iter(pixels.iter().map(|&pixel| (pixel, self.trial.map.get()[pixel])));
        let heights = random.heights(pixels.len());
        self.set_heights(block, &Vec::from_iter(pixels.into_iter().zip(heights)));
        before
    }

    /// The words at the place that a task writes. The layout is told again without the model.
    fn words_of(&self, (task, block): Call, buffers: &Buffers) -> Vec<u64> {
        let job = &self.trial.job;
        let orders = self.trial.plan.passes.map(|pass| pass.order as usize);
        let half = job.side * orders.iter().sum::<usize>();
        let (lone, linked) = (block * 2 * half, block * 2 * half + half);
        match task {
            0 => buffers.strips.get()[lone..][..half].to_vec(),
            5 => pixels_of(job, &job.block(block)).iter().map(|&pixel| buffers.output.get()[pixel]).collect(),
            _ => {
                let before = job.side * orders[..task - 1].iter().sum::<usize>();
                buffers.strips.get()[linked + before..][..job.side * orders[task - 1]].to_vec()
            }
        }
    }

    /// After every step: the library did what the model did, just the tasks of the list are marked, the report says the
    /// same, and cleared tasks have kept their words.
    fn check(&mut self) {
        self.trial.compare();
        self.trial.report();
        for block in 0..self.grid.blocks() {
            let bits: u32 = (0..6).map(|task| u32::from(self.done.contains(&(task, block))) << task).sum();
            assert_eq!(self.trial.mark(block), NOTHING_DONE | bits, "block {block} of {:?}", self.trial.plan);
        }
        for (call, words) in &self.cleared {
            assert!(&self.words_of(*call, &self.trial.library) == words, "{call:?} of {:?}", self.trial.plan);
        }
    }

    /// The tasks that are ready: not done, with all needs done.
    fn ready(&self) -> Vec<Call> {
        let is_done = |call: Call| self.done.contains(&call);
        let is_ready = |&call: &Call| !is_done(call) && self.grid.needs(call).all(is_done);
        self.grid.tasks().into_iter().filter(is_ready).collect()
    }

    /// Performs a ready task, if there is one that is fit.
    fn perform_one_of(&mut self, random: &mut Random, is_fit: impl Fn(&History, Call) -> bool) -> Option<Call> {
        let fit: Vec<Call> = self.ready().into_iter().filter(|&call| is_fit(self, call)).collect();
        if fit.is_empty() {
            return None;
        }
        let (task, block) = random.pick(&fit);
        assert_eq!(self.perform(task, block), Ok(()));
        Some((task, block))
    }

    fn perform_ready(&mut self, random: &mut Random) -> Option<Call> {
        self.perform_one_of(random, |_, _| true)
    }

    /// Performs cleared tasks until all are done again; other tasks may be done, and blocks that are not collected may
    /// change, in between.
    fn mend(&mut self, random: &mut Random) {
        while self.perform_one_of(random, |history, call| history.cleared.contains_key(&call)).is_some() {
            if random.once_in(8) {
                self.perform_ready(random);
            }
            if random.once_in(8) {
                self.rescan_uncollected(random);
            }
        }
        assert!(self.cleared.is_empty(), "the cleared tasks are ready one after the other");
    }

    /// Changes heights of a block that is not collected, if there is one.
    fn rescan_uncollected(&mut self, random: &mut Random) {
        let free = Vec::from_iter((0..self.grid.blocks()).filter(|&block| !self.is_collected(block)));
        if !free.is_empty() {
            self.rescan(random.pick(&free), random);
        }
    }

    /// Blocks now collected.
    fn collected(&self) -> Vec<usize> {
        (0..self.grid.blocks()).filter(|&block| self.is_collected(block)).collect()
    }

    /// The library's buffers after a fresh job on the present map, begun on the words that were lent, with these calls.
    fn fresh(&self, calls: &[Call]) -> Buffers {
        let (plan, map) = (self.trial.plan, self.trial.map.get());
        let mut buffers = self.lent.clone();
        let Buffers { marks, strips, output } = &mut buffers;
        job::start(plan, marks.get_mut(), strips.get_mut()).unwrap();
        for &(task, block) in calls {
            let answer = job::perform(plan, task, block, map, marks.get_mut(), strips.get_mut(), output.get_mut());
            // What was done, cleared and done again stands in the list more than once.
            assert!(matches!(answer, Ok(()) | Err(Refusal::AlreadyMarked)), "{answer:?}");
        }
        buffers
    }

    /// The tasks done, in another order that needs allow.
    fn another_order(&self, random: &mut Random) -> Vec<Call> {
        any_order(self.grid, self.done.clone(), random)
    }
}

/// The pixels of a block in the map, row by row.
fn pixels_of(job: &Job, block: &Block) -> Vec<usize> {
    let rows = block.top..block.top + block.height;
    rows.flat_map(|row| (0..block.width).map(move |column| row * job.columns + block.left + column)).collect()
}

/// Tasks that have their needs among them, in a random order that needs allow.
fn any_order(grid: Grid, tasks: BTreeSet<Call>, random: &mut Random) -> Vec<Call> {
    let (mut left, mut order) = (tasks, Vec::new());
    while !left.is_empty() {
        let is_next = |&call: &Call| grid.needs(call).all(|need| !left.contains(&need));
        let next = random.pick(&left.iter().copied().filter(is_next).collect::<Vec<Call>>());
        left.remove(&next);
        order.push(next);
    }
    order
}

/// The number of an answer, 0 if accepted.
fn number_of(answer: Result<(), Refusal>) -> usize {
    answer.map_or_else(|refusal| refusal.number() as usize, |()| 0)
}

fn modulo<const N: usize>(numbers: [i64; N]) -> [u64; N] {
    numbers.map(|number| number as u64)
}

#[test]
fn example_column_with_its_last_block_rescanned() {
    // The column of the paper in blocks of two: block 1 has the last height alone, which is 0 and then 1.
    let plan = Plan::plain(3, 1, 2).with(DOWN, 6, &[2]).with(UP, -1, &[2]);
    let mut trial = Trial::new(&plan, &mut Random::new(1)).on(&[1, 0, 0]);
    let (first, again) = ([(0, 0), (0, 1), (1, 0), (2, 1), (5, 0), (5, 1)], [(0, 1), (2, 1), (5, 0), (5, 1)]);
    trial.start();
    first.iter().for_each(|&(task, block)| trial.perform(task, block).unwrap());
    // A slot has two halves of 2 x 2 words, in each a row of down and a row of up.
    let strips = modulo([-12, 0, 0, 0, -12, 0, 0, 0, 0, 0, 0, 0, 0, 0, -24, 0]);
    assert_eq!(trial.library.strips.get()[..16], strips);
    assert_eq!(trial.library.output.get()[..3], modulo([-126, 60, -24]));
    trial.recall(1).unwrap();
    trial.set_height(2, 1);
    assert_eq!(trial.library.marks.get()[..2], [0x70000003, 0x70000000]);
    assert_eq!(trial.library.strips.get()[..16], strips);
    assert_eq!(trial.library.output.get()[..3], modulo([-126, 60, -24]));
    again.iter().for_each(|&(task, block)| trial.perform(task, block).unwrap());
    // Down gives 6, -12, 30; up of block 1 alone gives -6.
    let strips = modulo([-12, 0, 0, 0, -12, 0, 0, 0, 0, 0, -6, 0, 0, 0, -30, 0]);
    assert_eq!(trial.library.strips.get()[..16], strips);
    assert_eq!(trial.library.output.get()[..3], modulo([-150, 72, -30]));
    assert_eq!(trial.library.marks.get()[..2], [0x70000023, 0x70000025]);
    trial.compare();
}

#[test]
fn example_recalls_in_a_square_of_nine_blocks() {
    // Blocks 0 1 2 / 3 4 5 / 6 7 8, all done. No need leads to a block from collect of the others, down above it, down
    // and up in the other columns, and right to the left of it.
    let middle = (4, [0b1011, 0b0011, 0b0011, 0b1111, 0, 0b0111, 0b1101, 0b0001, 0b0101]);
    let edge = (5, [0b1011, 0b1011, 0b0011, 0b1111, 0b1111, 0, 0b1101, 0b1101, 0b0001]);
    let plan = Plan::summed(9, 9, 3);
    let job = Job::of(&plan).unwrap();
    for (block, left) in [middle, edge] {
        let left = left.map(|bits| 0x70000000 | bits);
        let mut marks: [u32; 9] = from_fn(|block| 0x70000000 | job.tasks_of(block));
        assert_eq!(job::recall(&plan, block, &mut marks), Ok(()));
        assert_eq!(marks, left);
        assert_eq!(job::recall(&plan, block, &mut marks), Err(Refusal::BlockNotCollected));
        assert_eq!(marks, left);
    }
}

/// What came up in random histories.
#[derive(Debug, Default)]
struct Seen {
    /// Answers of tasks and of recalls, by their numbers.
    tasks: [usize; 18],
    recalls: [usize; 18],
    /// Tasks done again after they were cleared, by their kind.
    done_again: [usize; 6],
    /// Cleared tasks that kept their words over an accepted call of another task.
    kept: usize,
    /// Changes of heights: of blocks that are not collected, and of blocks that are.
    changes: [usize; 2],
}

impl History<'_> {
    /// A step of any kind.
    fn step(&mut self, random: &mut Random, calm: usize, put_back: &mut Option<PutBack>, seen: &mut Seen) {
        match random.below(8) {
            _ if random.once_in(calm) => seen.recalls[number_of(self.recall_anything(random))] += 1,
            0..=4 => self.perform_and_note(random, seen),
            5 => seen.tasks[number_of(self.perform_anything(random))] += 1,
            6 => seen.tasks[number_of(self.perform_on_a_short_map(random))] += 1,
            _ => self.change_or_put_back(random, put_back, seen),
        }
    }

    fn perform_and_note(&mut self, random: &mut Random, seen: &mut Seen) {
        let cleared = Vec::from_iter(self.cleared.keys().copied());
        let Some((task, block)) = self.perform_ready(random) else { return };
        seen.tasks[0] += 1;
        seen.kept += self.cleared.len();
        seen.done_again[task] += usize::from(cleared.contains(&(task, block)));
    }

    /// A recall that may be refused: of any block, or of none that there is.
    fn recall_anything(&mut self, random: &mut Random) -> Result<(), Refusal> {
        let block = match random.once_in(6) {
            true => random.pick(&no_blocks(&self.trial.job)),
            false => random.below(self.grid.blocks()),
        };
        self.recall(block)
    }

    fn perform_anything(&mut self, random: &mut Random) -> Result<(), Refusal> {
        let (task, block) = any_task_and_block(&self.trial.job, random);
        self.perform(task, block)
    }

    /// A task, often a ready one, that is lent too few heights.
    fn perform_on_a_short_map(&mut self, random: &mut Random) -> Result<(), Refusal> {
        let heights = random.below(self.trial.job.pixels());
        let ready = self.ready();
        let (task, block) = match ready.is_empty() || random.once_in(3) {
            true => any_task_and_block(&self.trial.job, random),
            false => random.pick(&ready),
        };
        let answer = self.trial.perform_lending(task, block, heights);
        self.note(task, block, answer)
    }

    /// Changes a block, collected or not, or puts back what a change for a time has changed.
    fn change_or_put_back(&mut self, random: &mut Random, put_back: &mut Option<PutBack>, seen: &mut Seen) {
        match put_back.take() {
            Some((block, heights)) => self.set_heights(block, &heights),
            None => {
                let block = random.below(self.grid.blocks());
                seen.changes[usize::from(self.is_collected(block))] += 1;
                let heights = self.rescan(block, random);
                *put_back = random.once_in(2).then_some((block, heights));
            }
        }
    }
}

/// A block and the heights that it had before a change for a time.
type PutBack = (usize, Vec<(usize, i32)>);

#[test]
fn random_histories_are_those_of_the_model_and_cleared_tasks_keep_their_words() {
    let mut random = random::of_test("random_histories_are_those_of_the_model_and_cleared_tasks_keep_their_words");
    let (mut seen, mut reached, mut maps) = (Seen::default(), Reached::default(), MapsSeen::default());
    for _ in 0..1_500 * random::rounds() {
        let plan = plan_of_a_history(&mut random);
        reached.note(&plan);
        let mut history = History::new(&plan, &mut random);
        maps.note(history.trial.map.get());
        // Each recall undoes much work: with many of them few jobs come to their finishes.
        let (calm, mut put_back) = (random.pick(&[4, 16, 64]), None);
        for _ in 0..random.between(1, 3 * history.grid.tasks().len() + 20) {
            history.step(&mut random, calm, &mut put_back, &mut seen);
            history.check();
        }
    }
    let Seen { tasks, recalls, done_again, kept, changes } = &seen;
    assert!([0, 8, 10, 11, 15].iter().all(|&number| tasks[number] > 500), "{seen:?}");
    assert!([0, 8, 17].iter().all(|&number| recalls[number] > 500), "{seen:?}");
    assert!(done_again.iter().all(|&times| times > 200) && *kept > 50_000, "{seen:?}");
    assert!(changes.iter().all(|&times| times > 500), "{seen:?}");
    reached.expect_all_orders();
    reached.expect_all_short_blocks();
    maps.expect_each(40);
}

/// How often jobs were compared with fresh ones.
#[derive(Debug, Default)]
struct Compared {
    /// With tasks done again, and equal to fresh jobs: whole jobs, and jobs of which some tasks are not done.
    equal: [usize; 2],
    /// With cleared tasks that are not done again: strips that differ from those of a fresh job, outputs that differ.
    unmended: [usize; 2],
    /// With heights changed in a block that is collected: likewise.
    changed: [usize; 2],
}

impl History<'_> {
    /// Marks, strips and output, with all words past the needed ones, are those of fresh jobs on the present map: with
    /// the accepted calls in their order, and with the same tasks in another order.
    fn expect_fresh(&mut self, random: &mut Random, seen: &mut Compared) {
        assert!(self.cleared.is_empty() && self.changed.is_empty());
        self.check();
        let order = self.another_order(random);
        for calls in [&self.accepted, &order] {
            assert!(self.fresh(calls) == self.trial.library, "{calls:?} of {:?}", self.trial.plan);
        }
        let is_whole = self.done.len() == self.grid.tasks().len();
        let is_mended = self.accepted.len() > self.done.len();
        seen.equal[usize::from(!is_whole)] += usize::from(is_mended);
    }

    /// Which of strips and output differ from those of a fresh job with the same tasks done.
    fn differences(&self, random: &mut Random) -> [usize; 2] {
        let fresh = self.fresh(&self.another_order(random));
        assert!(fresh.marks == self.trial.library.marks);
        let Buffers { strips, output, .. } = &self.trial.library;
        [usize::from(strips != &fresh.strips), usize::from(output != &fresh.output)]
    }

    /// Performs some ready tasks, at most one in `parts` of the whole job; blocks that are not collected change in
    /// between.
    fn perform_some(&mut self, random: &mut Random, parts: usize) {
        for _ in 0..random.between(0, self.grid.tasks().len() / parts) {
            self.perform_ready(random);
            if random.once_in(8) {
                self.rescan_uncollected(random);
            }
        }
    }

    /// Recalls some blocks that are collected and changes their heights.
    fn recall_and_rescan(&mut self, random: &mut Random) {
        for _ in 0..random.between(1, 3) {
            let collected = self.collected();
            if collected.is_empty() {
                return;
            }
            let block = random.pick(&collected);
            assert_eq!(self.recall(block), Ok(()));
            self.rescan(block, random);
        }
    }
}

fn add(sum: &mut [usize; 2], more: [usize; 2]) {
    *sum = [sum[0] + more[0], sum[1] + more[1]];
}

#[test]
fn rescanned_jobs_equal_fresh_jobs_on_the_new_map() {
    let mut random = random::of_test("rescanned_jobs_equal_fresh_jobs_on_the_new_map");
    let mut seen = Compared::default();
    for _ in 0..500 * random::rounds() {
        let plan = plan_of_a_history(&mut random);
        let mut history = History::new(&plan, &mut random);
        let parts = random.pick(&[1, 1, 2, 4, 8]);
        for _ in 0..random.between(1, 4) {
            history.perform_some(&mut random, parts);
            history.recall_and_rescan(&mut random);
            add(&mut seen.unmended, history.differences(&mut random));
            history.mend(&mut random);
            history.expect_fresh(&mut random, &mut seen);
        }
        // A change that comes before its recall spoils the words, and the recall mends them.
        let collected = history.collected();
        if !collected.is_empty() {
            let block = random.pick(&collected);
            history.rescan(block, &mut random);
            history.perform_some(&mut random, parts);
            add(&mut seen.changed, history.differences(&mut random));
            history.recall(block).unwrap();
            history.mend(&mut random);
            history.expect_fresh(&mut random, &mut seen);
        }
        while history.perform_ready(&mut random).is_some() {}
        let pixels = history.trial.job.pixels();
        let serial = serial_output(&plan, &history.trial.map.get()[..pixels]);
        assert!(history.trial.library.output.get()[..pixels] == serial, "{plan:?}");
    }
    assert!(seen.equal.iter().all(|&times| times > 100), "{seen:?}");
    assert!(seen.unmended.iter().chain(&seen.changed).all(|&times| times > 50), "{seen:?}");
}

/// How many done tasks were judged by the present map while a block that is collected had changed.
#[derive(Debug, Default)]
struct Judged {
    /// Tasks that do not need the changed block, by their kind: their words are true.
    apart: [usize; 6],
    /// Tasks that need it, by their kind: those whose words are no longer true.
    spoiled: [usize; 6],
}

impl History<'_> {
    /// Each done task that needs no changed block has the words of a fresh job on the present map, which are those of
    /// the serial passes; also while cleared tasks are not done again.
    fn judge(&self, seen: &mut Judged) {
        let fresh = self.fresh(&self.accepted);
        let results = reference::results(self.trial.plan, self.trial.map.get());
        for &(task, block) in &self.done {
            let call = (task, block);
            let is_true = self.trial.are_words_true(task, &self.trial.job.block(block), &results);
            let is_fresh = self.words_of(call, &self.trial.library) == self.words_of(call, &fresh);
            assert_eq!(is_true, is_fresh, "{call:?} of {:?}", self.trial.plan);
            let needs_changed = self.changed.iter().any(|&changed| self.needed.is_needed(changed, call));
            assert!(is_true || needs_changed, "{call:?} of {:?}", self.trial.plan);
            seen.apart[task] += usize::from(!needs_changed && !self.changed.is_empty());
            seen.spoiled[task] += usize::from(!is_true);
        }
    }
}

#[test]
fn tasks_that_need_no_changed_block_have_the_words_of_the_new_map() {
    let mut random = random::of_test("tasks_that_need_no_changed_block_have_the_words_of_the_new_map");
    let mut seen = Judged::default();
    for _ in 0..500 * random::rounds() {
        let plan = plan_of_a_history(&mut random);
        let mut history = History::new(&plan, &mut random);
        // The one block that changes whether it is collected or not, now and then back to what it was.
        let (spoiled, mut before) = (random.below(history.grid.blocks()), None::<Vec<_>>);
        let calm = random.pick(&[8, 32, 128]);
        for _ in 0..3 * history.grid.tasks().len() {
            match random.below(16) {
                _ if random.once_in(calm) => drop(history.recall_anything(&mut random)),
                0 => history.rescan_uncollected(&mut random),
                1 => match before.take() {
                    Some(heights) => history.set_heights(spoiled, &heights),
                    None => before = Some(history.rescan(spoiled, &mut random)),
                },
                2 => history.judge(&mut seen),
                _ => drop(history.perform_ready(&mut random)),
            }
        }
        history.check();
        history.judge(&mut seen);
    }
    // Left links and finishes need every block.
    assert_eq!(seen.apart[4..], [0, 0]);
    assert!(seen.apart[..4].iter().chain(&seen.spoiled).all(|&times| times > 300), "{seen:?}");
}

/// A plan whose map has so many rows and columns of blocks, the last of them often narrower.
fn plan_of_blocks(rows: usize, columns: usize, random: &mut Random) -> Plan {
    let side = random.between(1, 10);
    let [rows, columns] = [rows, columns].map(|blocks| blocks * side - random.below(side));
    let orders = random.orders(side);
    random.plan(rows, columns, side, orders)
}

/// A plan of any side with few blocks, or of smaller ones with more.
fn plan_of_a_history(random: &mut Random) -> Plan {
    match random.once_in(2) {
        true => random.small_plan(150),
        false => {
            let (rows, columns) = (random.between(1, 5), random.between(1, 5));
            plan_of_blocks(rows, columns, random)
        }
    }
}

/// Marks with a bit for each of these tasks.
fn marks_of(grid: Grid, tasks: impl IntoIterator<Item = Call>) -> Vec<u32> {
    let mut marks = vec![NOTHING_DONE; grid.blocks()];
    for (task, block) in tasks {
        marks[block] |= 1 << task;
    }
    marks
}

/// Marks to recall a block from: all tasks done; tasks done with their needs; any tasks; all but one; one alone, and
/// with the block's collect.
fn patterns(grid: Grid, block: usize, random: &mut Random) -> Vec<Vec<u32>> {
    let tasks = grid.tasks();
    let mut patterns = vec![marks_of(grid, tasks.clone())];
    for _ in 0..8 {
        let sound = any_order(grid, BTreeSet::from_iter(tasks.clone()), random);
        patterns.push(marks_of(grid, sound[..random.below(tasks.len())].iter().copied()));
        let density = random.between(1, 4);
        let any = Vec::from_iter(tasks.iter().copied().filter(|_| !random.once_in(density)));
        patterns.push(marks_of(grid, any.iter().copied()));
        patterns.push(marks_of(grid, any.into_iter().chain([(0, block)])));
    }
    for &one in &tasks {
        patterns.push(marks_of(grid, tasks.iter().copied().filter(|&task| task != one)));
        patterns.push(marks_of(grid, [one]));
        patterns.push(marks_of(grid, [one, (0, block)]));
    }
    patterns
}

/// Recalls a block from these marks: those tasks that need it go and all other words stay, or 17 where it is not
/// collected. Gives the number of bits that went.
fn recall_from(plan: &Plan, block: usize, marks: &[u32], needed: &BlocksNeeded, random: &mut Random) -> u32 {
    let mut trial = Trial::new(plan, random);
    for (block, &mark) in marks.iter().enumerate() {
        trial.set_mark(block, mark);
    }
    let mut expected = trial.library.clone();
    let is_collected = marks[block] & 1 == 1;
    if is_collected {
        for (own, mark) in expected.marks.get_mut()[..marks.len()].iter_mut().enumerate() {
            let needing = (0..6).filter(|&task| needed.is_needed(block, (task, own)));
            *mark &= !needing.map(|task| 1 << task).sum::<u32>();
        }
    }
    let answer = if is_collected { Ok(()) } else { Err(Refusal::BlockNotCollected) };
    assert_eq!(trial.recall(block), answer, "block {block}, marks {marks:x?} of {plan:?}");
    assert!(trial.library == expected, "block {block}, marks {marks:x?} of {plan:?}");
    trial.compare();
    let bits = |marks: &[u32]| marks.iter().map(|mark| mark.count_ones()).sum::<u32>();
    bits(marks) - bits(&trial.library.marks.get()[..marks.len()])
}

#[test]
fn recalls_of_every_block_of_grids_up_to_4_by_4_clear_what_needs_it_and_nothing_else() {
    let mut random =
        random::of_test("recalls_of_every_block_of_grids_up_to_4_by_4_clear_what_needs_it_and_nothing_else");
    let (mut recalls, mut unmarked_between) = (0, 0);
    for (rows, columns) in rectangles::pairs(1..=4) {
        let (plan, grid) = (plan_of_blocks(rows, columns, &mut random), Grid::new(rows, columns));
        let needed = grid.blocks_needed();
        for block in 0..grid.blocks() {
            for marks in patterns(grid, block, &mut random) {
                let went = recall_from(&plan, block, &marks, &needed, &mut random);
                // Of a collect and a task that needs it only through others, both go.
                let alone = marks.iter().map(|mark| (mark ^ NOTHING_DONE).count_ones()).sum::<u32>() == 2;
                recalls += 1;
                unmarked_between += usize::from(alone && went == 2);
            }
        }
    }
    assert!(recalls > 10_000 && unmarked_between > 1_000, "{recalls} recalls, {unmarked_between}");
}

#[test]
fn recalls_in_lines_of_4096_blocks_and_in_large_squares() {
    let mut random = random::of_test("recalls_in_lines_of_4096_blocks_and_in_large_squares");
    for (rows, columns, side) in [(4096, 1, 1), (1, 4096, 1), (4096, 4096, 32), (4000, 2, 3), (3, 4001, 2)] {
        let plan = Plan::summed(rows, columns, side);
        let job = Job::of(&plan).unwrap();
        let all_done = Vec::from_iter((0..job.marks()).map(|block| NOTHING_DONE | job.tasks_of(block)));
        for block in [0, job.marks() / 2, job.marks() - 1, random.below(job.marks())] {
            let mut marks = all_done.clone();
            for mark in marks.iter_mut() {
                *mark &= NOTHING_DONE | if random.once_in(3) { random.word() as u32 } else { 0x3F };
            }
            marks[block] |= 1;
            let (mut recalled, mut expected) = (marks.clone(), marks);
            assert_eq!(model::recall(&plan, block, &mut expected), Ok(()));
            assert_eq!(job::recall(&plan, block, &mut recalled), Ok(()));
            assert!(recalled == expected, "block {block} of {plan:?}");
        }
    }
}

#[test]
fn a_block_recalled_before_is_refused_17_until_it_is_collected_again() {
    let mut random = random::of_test("a_block_recalled_before_is_refused_17_until_it_is_collected_again");
    for _ in 0..100 * random::rounds() {
        let plan = random.small_plan(100);
        let mut history = History::new(&plan, &mut random);
        let block = random.below(history.grid.blocks());
        assert_eq!(history.recall(block), Err(Refusal::BlockNotCollected));
        history.perform_some(&mut random, 1);
        if !history.is_collected(block) {
            history.perform(0, block).unwrap();
        }
        assert_eq!(history.recall(block), Ok(()));
        assert_eq!(history.recall(block), Err(Refusal::BlockNotCollected));
        // The recall of another block leaves it as it is.
        if let Some(&other) = history.collected().first() {
            assert_eq!(history.recall(other), Ok(()));
            assert_eq!(history.recall(block), Err(Refusal::BlockNotCollected));
        }
        history.check();
        history.perform(0, block).unwrap();
        assert_eq!(history.recall(block), Ok(()));
        history.check();
    }
}

#[test]
fn short_marks_refuse_a_recall_by_7_and_then_8_9_and_17_do() {
    let mut random = random::of_test("short_marks_refuse_a_recall_by_7_and_then_8_9_and_17_do");
    let mut short = ShortBuffers::new([7]);
    for _ in 0..300 * random::rounds() {
        let plan = random.small_plan(150);
        let broken = broken_record(&mut random, &plan);
        let trial = Trial::with_any_marks(&plan, &mut random);
        let lend = |[length]: [usize; 1]| trial.library.marks.shortened(length);
        for block in [random.below(trial.job.marks()), random.pick(&no_blocks(&trial.job))] {
            let calls = [job::recall, model::recall]
                .map(|recall| move |plan: &Plan, marks: &mut Lent<u32>| recall(plan, block, marks.get_mut()));
            short.try_all([&plan, &broken], [trial.job.marks()], lend, calls);
        }
    }
    short.expect_all(1, &[0, 8, 9, 17]);
    assert_eq!(job::recall(&Plan::plain(1, 1, 1), 0, &mut []), Err(Refusal::BufferTooShort));
}

#[test]
fn of_every_set_of_causes_the_first_of_6_7_8_9_17_refuses_a_recall() {
    let mut random = random::of_test("of_every_set_of_causes_the_first_of_6_7_8_9_17_refuses_a_recall");
    let mut seen = BTreeMap::new();
    for set in (0..32).cycle().take(32 * 60 * random::rounds()) {
        let [breaks_rule, too_short, no_block, mark_broken, not_collected] = from_fn(|cause| set >> cause & 1 == 1);
        // Two blocks at least: where one is not collected, another may have any mark.
        let (rows, columns) = random.pick(&[(1, 2), (3, 1), (2, 2), (3, 4)]);
        let mut plan = plan_of_blocks(rows, columns, &mut random);
        let mut trial = Trial::new(&plan, &mut random);
        trial.mark_at_random(&mut random);
        let least = mark_broken.then(|| (0..random.between(1, 3)).map(|_| trial.break_a_mark(&mut random)).min());
        let block = random.below(rows * columns);
        let collected = trial.mark(block) & !1 | u32::from(!not_collected);
        trial.set_mark(block, collected);
        let number = if no_block { random.pick(&no_blocks(&trial.job)) } else { block };
        let length = trial.job.marks() - if too_short { random.between(1, rows * columns) } else { 0 };
        let before = trial.library.marks.shortened(length);
        let mut marks = before.clone();
        if breaks_rule {
            plan = broken_record(&mut random, &plan);
        }
        let expected = match least.flatten() {
            _ if breaks_rule => Err(Refusal::RecordBreaksRule),
            _ if too_short => Err(Refusal::BufferTooShort),
            _ if no_block => Err(Refusal::NoSuchTask),
            Some(least) => Err(Refusal::MarkBroken(least as u32)),
            None if not_collected => Err(Refusal::BlockNotCollected),
            None => Ok(()),
        };
        assert_eq!(job::recall(&plan, number, marks.get_mut()), expected, "block {number} of {plan:?}");
        assert!(expected.is_ok() || marks == before, "a refused recall wrote, block {number} of {plan:?}");
        *seen.entry(number_of(expected)).or_insert(0) += 1;
    }
    assert!(seen.keys().eq(&[0, 6, 7, 8, 9, 17]) && seen.values().all(|&times| times >= 60), "{seen:?}");
}

#[test]
fn broken_marks_refuse_every_recall_by_9_with_the_least_of_all_blocks() {
    let mut random = random::of_test("broken_marks_refuse_every_recall_by_9_with_the_least_of_all_blocks");
    // The broken mark before the recalled block, in it, and after it; and far from it.
    let mut places = [0; 4];
    for _ in 0..2_000 * random::rounds() {
        let plan = plan_of_a_history(&mut random);
        let mut trial = Trial::new(&plan, &mut random);
        trial.mark_at_random(&mut random);
        let least = (0..random.between(1, 3)).map(|_| trial.break_a_mark(&mut random)).min().unwrap();
        let before = trial.library.clone();
        for block in [random.below(trial.job.marks()), least] {
            assert_eq!(trial.recall(block), Err(Refusal::MarkBroken(least as u32)), "block {block} of {plan:?}");
            places[if least < block { 0 } else { 1 + usize::from(least > block) }] += 1;
            places[3] += usize::from(least.abs_diff(block) > trial.job.block_columns + 1);
        }
        trial.compare();
        assert!(trial.library == before);
    }
    assert!(places.iter().all(|&times| times > 200), "{places:?}");
}

#[test]
fn every_spare_bit_and_kind_refuses_the_recall_of_every_block() {
    for plan in [Plan::summed(4, 4, 2), Plan::summed(1, 6, 2), Plan::summed(6, 1, 2), Plan::summed(2, 2, 2)] {
        let job = Job::of(&plan).unwrap();
        for (broken, block) in rectangles::pairs(0..=job.marks() - 1) {
            for mark in (0..32).map(|bit| NOTHING_DONE ^ 1 << bit).chain((0..16).map(|kind| kind << 28)) {
                let mut marks = vec![NOTHING_DONE; job.marks()];
                marks[broken] = mark;
                let right = mark >> 28 == 7 && mark & 0xFFFFFFF & !job.tasks_of(broken) == 0;
                let expected = match right {
                    false => Err(Refusal::MarkBroken(broken as u32)),
                    true if broken == block && mark & 1 == 1 => Ok(()),
                    true => Err(Refusal::BlockNotCollected),
                };
                assert_eq!(job::recall(&plan, block, &mut marks), expected, "{mark:x} at {broken}, recall of {block}");
                assert_eq!(marks[broken], if expected.is_ok() { NOTHING_DONE } else { mark });
            }
        }
    }
}

#[test]
fn marks_past_the_needed_ones_are_neither_looked_at_nor_altered() {
    let mut random = random::of_test("marks_past_the_needed_ones_are_neither_looked_at_nor_altered");
    for _ in 0..300 * random::rounds() {
        let plan = random.small_plan(150);
        let job = Job::of(&plan).unwrap();
        let all_done = Vec::from_iter((0..job.marks()).map(|block| NOTHING_DONE | job.tasks_of(block)));
        let block = random.below(job.marks());
        let mut needed = all_done.clone();
        assert_eq!(job::recall(&plan, block, &mut needed), Ok(()));
        // Broken marks, marks of nothing and of everything, and any words.
        for past in [0, NOTHING_DONE, NOTHING_DONE | 0x3F, u32::MAX, random.word() as u32] {
            let more = vec![past; random.between(1, 5)];
            let mut marks = [all_done.clone(), more.clone()].concat();
            assert_eq!(job::recall(&plan, block, &mut marks), Ok(()));
            assert_eq!(marks, [needed.clone(), more].concat());
            // The first block past the map has a mark there, and is none.
            let before = marks.clone();
            assert_eq!(job::recall(&plan, job.marks(), &mut marks), Err(Refusal::NoSuchTask));
            assert_eq!(marks, before);
        }
    }
}
