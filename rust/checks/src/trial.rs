//! One job run by the library and by the model side by side, on the same map and on copies of the same buffers.

use crate::lent::Lent;
use crate::model::{self, Block, Job, NOTHING_DONE};
use crate::random::Random;
use mulzhegat::{job, Plan, Progress, Refusal, LEFT};

/// The three buffers that calls may write, with the words around them.
#[derive(Clone, PartialEq)]
pub struct Buffers {
    pub marks: Lent<u32>,
    pub strips: Lent<u64>,
    pub output: Lent<u64>,
}

/// One job run by the library and by the model side by side.
pub struct Trial<'a> {
    pub plan: &'a Plan,
    pub job: Job<'a>,
    pub map: Lent<i32>,
    map_before: Lent<i32>,
    pub library: Buffers,
    pub model: Buffers,
    /// Calls made.
    pub calls: usize,
}

impl<'a> Trial<'a> {
    /// Lends buffers of any words, often longer than needed. No job is started.
    pub fn new(plan: &'a Plan, random: &mut Random) -> Trial<'a> {
        let job = Job::of(plan).expect("the plan keeps the rules");
        let lengths = [job.pixels(), job.marks(), job.strips(), job.pixels()];
        let [map, marks, strips, output] = lengths.map(|length| length + random.pick(&[0, 0, 1, 2, 7]));
        let map = Lent::new(map, random.heights_of_a_map());
        let library = Buffers {
            marks: Lent::new(marks, || random.word() as u32),
            strips: Lent::new(strips, || random.word()),
            output: Lent::new(output, || random.word()),
        };
        Trial { plan, job, map_before: map.clone(), map, model: library.clone(), library, calls: 0 }
    }

    /// The same job on another map.
    pub fn on(mut self, map: &[i32]) -> Trial<'a> {
        self.map = Lent::of(map, || 0);
        self.map_before = self.map.clone();
        self
    }

    /// Changes the height of a pixel, and says whether it was another.
    pub fn set_height(&mut self, pixel: usize, height: i32) -> bool {
        let before = std::mem::replace(&mut self.map.get_mut()[pixel], height);
        self.map_before.get_mut()[pixel] = height;
        before != height
    }

    /// Starts the job on both sides.
    pub fn start(&mut self) {
        let answer = job::start(self.plan, self.library.marks.get_mut(), self.library.strips.get_mut());
        let expected = model::start(self.plan, self.model.marks.get_mut(), self.model.strips.get_mut());
        assert_eq!(answer, expected, "start of {:?}", self.plan);
        self.calls += 1;
    }

    /// Performs a task on both sides and compares the answers.
    pub fn perform(&mut self, task: usize, block: usize) -> Result<(), Refusal> {
        self.perform_lending(task, block, self.map.get().len())
    }

    /// Performs a task as [`Trial::perform`] does, lending so many heights of the map.
    pub fn perform_lending(&mut self, task: usize, block: usize, heights: usize) -> Result<(), Refusal> {
        let Trial { plan, map, library, model, .. } = self;
        let map = &map.get()[..heights];
        let Buffers { marks, strips, output } = library;
        let answer = job::perform(plan, task, block, map, marks.get_mut(), strips.get_mut(), output.get_mut());
        let Buffers { marks, strips, output } = model;
        let expected = model::perform(plan, task, block, map, marks.get_mut(), strips.get_mut(), output.get_mut());
        assert_eq!(answer, expected, "task {task} of block {block} of {:?}", self.plan);
        self.calls += 1;
        answer
    }

    /// Recalls a block on both sides and compares the answers.
    pub fn recall(&mut self, block: usize) -> Result<(), Refusal> {
        let answer = job::recall(self.plan, block, self.library.marks.get_mut());
        let expected = model::recall(self.plan, block, self.model.marks.get_mut());
        assert_eq!(answer, expected, "recall of block {block} of {:?}", self.plan);
        self.calls += 1;
        answer
    }

    /// Reports on both sides, compares, and gives the library's report.
    pub fn report(&mut self) -> Progress {
        let progress = report_and_compare(self.plan, self.library.marks.get()).expect("the marks are right");
        self.calls += 1;
        progress
    }

    /// Compares all words of all buffers.
    pub fn compare(&self) {
        let Buffers { marks, strips, output } = &self.library;
        assert_eq!(marks, &self.model.marks, "marks of {:?}", self.plan);
        assert!(strips == &self.model.strips, "the strips differ for {:?}", self.plan);
        assert!(output == &self.model.output, "the output differs for {:?}", self.plan);
        assert!(self.map == self.map_before, "the map changed for {:?}", self.plan);
    }

    /// A call that may be refused: a task that may not exist there, may be early or done, or numbers out of range.
    pub fn perform_anything(&mut self, random: &mut Random) -> Result<(), Refusal> {
        let (task, block) = any_task_and_block(&self.job, random);
        self.perform(task, block)
    }

    /// The library's mark of a block.
    pub fn mark(&self, block: usize) -> u32 {
        self.library.marks.get()[block]
    }

    /// Puts a mark on both sides.
    pub fn set_mark(&mut self, block: usize, mark: u32) {
        self.library.marks.get_mut()[block] = mark;
        self.model.marks.get_mut()[block] = mark;
    }

    /// Marks all tasks of two blocks in three, and any tasks of the others.
    pub fn mark_at_random(&mut self, random: &mut Random) {
        for block in 0..self.job.marks() {
            let bits = if random.once_in(3) { random.word() as u32 } else { 0x3F };
            self.set_mark(block, NOTHING_DONE | self.job.tasks_of(block) & bits);
        }
    }

    /// Breaks the mark of a block, by a wrong kind or a spare bit, and gives the number of the block.
    pub fn break_a_mark(&mut self, random: &mut Random) -> usize {
        let block = random.below(self.job.marks());
        let right = NOTHING_DONE | self.job.tasks_of(block);
        let spare = (0..28).map(|bit| 1 << bit).filter(|bit| right & bit == 0).collect::<Vec<u32>>();
        let mark = match random.below(3) {
            0 => right & 0xFFFFFFF | random.pick(&[0, 1, 2, 3, 4, 5, 6, 8, 9, 10, 11, 12, 13, 14, 15]) << 28,
            _ => right | random.pick(&spare),
        };
        self.set_mark(block, mark);
        block
    }

    /// A job with any marks, of which one is broken now and then.
    pub fn with_any_marks(plan: &'a Plan, random: &mut Random) -> Trial<'a> {
        let mut trial = Trial::new(plan, random);
        trial.mark_at_random(random);
        if random.once_in(3) {
            trial.break_a_mark(random);
        }
        trial
    }

    /// What a done task promises of the library's words, judged by the serial passes over the present map, which have
    /// these results: collect the lone strips of its block, a link its matching strip, finish the result of left.
    pub fn are_words_true(&self, task: usize, block: &Block, results: &[Vec<u64>; 4]) -> bool {
        let strips = self.library.strips.get();
        match task {
            0 => holds(strips, &self.job.lone_strips(block, self.map.get())),
            5 => (block.top..block.top + block.height).all(|row| {
                let start = row * self.job.columns + block.left;
                let range = start..start + block.width;
                self.library.output.get()[range.clone()] == results[LEFT][range]
            }),
            _ => holds(strips, &self.job.matching_strip(block, task - 1, results)),
        }
    }
}

/// Whether each place of a list has its word.
fn holds(words: &[u64], expected: &[(usize, u64)]) -> bool {
    expected.iter().all(|&(place, word)| words[place] == word)
}

/// Numbers that no block of a job has: just past the last one, and huge ones.
pub fn no_blocks(job: &Job) -> [usize; 7] {
    let blocks = job.marks();
    [blocks, blocks + 1, 4096 * 4096, 1 << 32, 1 << 63, usize::MAX - 1, usize::MAX]
}

/// A task that the block may not have, or numbers out of range.
pub fn any_task_and_block(job: &Job, random: &mut Random) -> (usize, usize) {
    let blocks = job.marks();
    match random.below(6) {
        0 => (random.below(6), random.pick(&no_blocks(job))),
        1 => (random.pick(&[6, 7, 8, 28, 32, 64, 1 << 32, 1 << 63, usize::MAX]), random.below(blocks)),
        2 => (random.pick(&[6, usize::MAX]), random.pick(&no_blocks(job))),
        _ => (random.below(6), random.below(blocks)),
    }
}

/// The library's report, which is all zeros beside a refusal.
pub fn report(plan: &Plan, marks: &[u32]) -> Result<Progress, Refusal> {
    let mut progress = Progress { marked: 77, tally: 77, ready: 77, task: 77, block: 77 };
    let answer = job::report_into(plan, marks, &mut progress);
    assert!(answer.is_ok() || progress == Progress::default(), "{progress:?} beside {answer:?}");
    answer.map(|()| progress)
}

/// Reports and compares with the model.
pub fn report_and_compare(plan: &Plan, marks: &[u32]) -> Result<Progress, Refusal> {
    let expected = model::report(plan, marks);
    assert_eq!(report(plan, marks), expected, "marks {marks:x?} of {plan:?}");
    expected
}
