//! Whole block jobs by the library, in natural and in shuffled order, and one block of them rescanned: for benchmarks.

use crate::model::is_marked;
use crate::random::Random;
use mulzhegat::{job, plan, Plan, Task};
use std::time::{Duration, Instant};

/// A task and its block.
type Step = (u8, u32);

/// How long it took to finish a job again after a recall.
pub struct Rescan {
    /// The recall alone.
    pub recall: Duration,
    /// The recall, and all tasks that it cleared done again.
    pub all: Duration,
    /// How many tasks that were.
    pub tasks: usize,
}

/// The buffers of a job and its two orders.
pub struct BlockJob {
    plan: Plan,
    marks: Vec<u32>,
    strips: Vec<u64>,
    natural: Vec<Step>,
    shuffled: Vec<Step>,
}

impl BlockJob {
    /// A job of a plan, with its orders worked out beforehand.
    pub fn new(plan: &Plan) -> BlockJob {
        let sizes = plan::sizes(plan).expect("the plan keeps the rules");
        let grid = Grid { rows: sizes.block_rows as usize, columns: sizes.block_columns as usize };
        let (natural, shuffled) = (grid.natural_order(), grid.shuffled_order(&mut Random::new(1)));
        assert_eq!((natural.len() as u64, shuffled.len() as u64), (sizes.tasks, sizes.tasks));
        BlockJob {
            plan: *plan,
            marks: vec![0; sizes.marks as usize],
            strips: vec![0; sizes.strips as usize],
            natural,
            shuffled,
        }
    }

    /// How many tasks of a kind the job has.
    pub fn count(&self, task: Task) -> usize {
        self.natural.iter().filter(|step| usize::from(step.0) == task.number()).count()
    }

    /// Starts the job and performs all tasks kind after kind; gives the time of each kind.
    pub fn run_natural(&mut self, map: &[i32], output: &mut [u64]) -> [Duration; 6] {
        job::start(&self.plan, &mut self.marks, &mut self.strips).expect("start is accepted");
        let mut times = [Duration::ZERO; 6];
        for kind in self.natural.chunk_by(|one, next| one.0 == next.0) {
            let began = Instant::now();
            perform(&self.plan, kind, map, &mut self.marks, &mut self.strips, output);
            times[usize::from(kind[0].0)] = began.elapsed();
        }
        times
    }

    /// Starts the job and performs all tasks in shuffled order.
    pub fn run_shuffled(&mut self, map: &[i32], output: &mut [u64]) {
        job::start(&self.plan, &mut self.marks, &mut self.strips).expect("start is accepted");
        perform(&self.plan, &self.shuffled, map, &mut self.marks, &mut self.strips, output);
    }
}

impl BlockJob {
    /// The block in the middle of the map.
    pub fn middle(&self) -> usize {
        let sizes = plan::sizes(&self.plan).expect("the plan keeps the rules");
        (sizes.block_rows / 2 * sizes.block_columns + sizes.block_columns / 2) as usize
    }

    /// Recalls a block of a job that is done, and performs all tasks again that are no longer marked, in natural order.
    /// The map may have other heights in that block.
    pub fn rescan(&mut self, block: usize, map: &[i32], output: &mut [u64]) -> Rescan {
        let began = Instant::now();
        job::recall(&self.plan, block, &mut self.marks).expect("the block is collected");
        let recall = began.elapsed();
        let mut tasks = 0;
        for step in &self.natural {
            if !is_marked(self.marks[step.1 as usize], usize::from(step.0)) {
                perform(&self.plan, &[*step], map, &mut self.marks, &mut self.strips, output);
                tasks += 1;
            }
        }
        Rescan { recall, all: began.elapsed(), tasks }
    }
}

fn perform(plan: &Plan, steps: &[Step], map: &[i32], marks: &mut [u32], strips: &mut [u64], output: &mut [u64]) {
    for &(task, block) in steps {
        job::perform(plan, usize::from(task), block as usize, map, marks, strips, output).expect("the task is ready");
    }
}

/// The rows and columns of blocks.
struct Grid {
    rows: usize,
    columns: usize,
}

impl Grid {
    /// The neighbour above (0), below (1), left (2) or right (3) of a block.
    fn neighbour(&self, block: usize, side: usize) -> Option<usize> {
        let (row, column) = (block / self.columns, block % self.columns);
        match side {
            0 => (row > 0).then(|| block - self.columns),
            1 => (row + 1 < self.rows).then(|| block + self.columns),
            2 => (column > 0).then(|| block - 1),
            _ => (column + 1 < self.columns).then(|| block + 1),
        }
    }

    /// A link exists where the neighbour that reads its strip does: below for down, above for up, and so on.
    fn has_task(&self, block: usize, task: usize) -> bool {
        task == 0 || task == 5 || self.neighbour(block, (task - 1) ^ 1).is_some()
    }

    /// Kind after kind, row by row, each link in the direction of its pass.
    fn natural_order(&self) -> Vec<Step> {
        let mut steps = Vec::new();
        for task in 0..6 {
            for position in 0..self.rows * self.columns {
                let (row, column) = (position / self.columns, position % self.columns);
                let row = if task == 2 { self.rows - 1 - row } else { row };
                let column = if task == 4 { self.columns - 1 - column } else { column };
                let block = row * self.columns + column;
                if self.has_task(block, task) {
                    steps.push((task as u8, block as u32));
                }
            }
        }
        steps
    }

    /// An order in which each next task is drawn from all that are ready.
    fn shuffled_order(&self, random: &mut Random) -> Vec<Step> {
        let blocks = self.rows * self.columns;
        // A link or finish waits for its own collect and for one link of each of the first neighbours.
        let neighbours_needed = |task: usize| if task == 5 { 4 } else { task };
        let mut waiting = vec![[0u8; 6]; blocks];
        for (block, waiting) in waiting.iter_mut().enumerate() {
            for (task, waiting) in waiting.iter_mut().enumerate().skip(1) {
                let linked = (0..neighbours_needed(task)).filter(|&side| self.neighbour(block, side).is_some()).count();
                *waiting = if self.has_task(block, task) { 1 + linked as u8 } else { u8::MAX };
            }
        }
        let mut ready: Vec<Step> = (0..blocks).map(|block| (0, block as u32)).collect();
        let mut steps = Vec::new();
        while !ready.is_empty() {
            let step = ready.swap_remove(random.below(ready.len()));
            steps.push(step);
            let (task, block) = (usize::from(step.0), step.1 as usize);
            let reader = match task {
                0 => Some(block),
                5 => None,
                _ => self.neighbour(block, (task - 1) ^ 1),
            };
            let Some(reader) = reader else { continue };
            for (reading, waiting) in waiting[reader].iter_mut().enumerate().skip(task.max(1)) {
                if self.has_task(reader, reading) {
                    *waiting -= 1;
                    if *waiting == 0 {
                        ready.push((reading as u8, reader as u32));
                    }
                }
            }
        }
        steps
    }
}
