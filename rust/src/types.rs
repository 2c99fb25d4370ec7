//! The records that calls take and answer, laid out as in `include/mulzhegat.h`.

/// The largest order of a pass, `MZG_ORDER_LIMIT` in `mulzhegat.h`.
pub const MAX_ORDER: usize = 8;

/// The place of the down pass in [`Plan::passes`].
pub const DOWN: usize = 0;
/// The place of the up pass in [`Plan::passes`].
pub const UP: usize = 1;
/// The place of the right pass in [`Plan::passes`].
pub const RIGHT: usize = 2;
/// The place of the left pass in [`Plan::passes`].
pub const LEFT: usize = 3;

/// One pass: `y[i] = gain * x[i] - d1 * y[i-1] - ... - dr * y[i-r]` modulo 2^64.
#[repr(C)]
#[derive(Clone, Copy, Debug, Default, PartialEq, Eq)]
pub struct Pass {
    /// The order r, 0 to [`MAX_ORDER`].
    pub order: i64,
    /// Signed 28 bits.
    pub gain: i64,
    /// d1 to dr, signed 28 bits each; the places past the order are 0.
    pub coefficients: [i64; MAX_ORDER],
}

impl Pass {
    /// A pass of the order that the coefficients have.
    ///
    /// # Panics
    /// If there are more than [`MAX_ORDER`] coefficients.
    pub fn new(gain: i64, coefficients: &[i64]) -> Pass {
        assert!(coefficients.len() <= MAX_ORDER, "a pass has at most {MAX_ORDER} coefficients");
        let mut pass = Pass { order: coefficients.len() as i64, gain, ..Pass::default() };
        pass.coefficients[..coefficients.len()].copy_from_slice(coefficients);
        pass
    }
}

/// A plan record: 3 + 4 * (2 + [`MAX_ORDER`]) = 43 words of 64 bits.
#[repr(C)]
#[derive(Clone, Copy, Debug, Default, PartialEq, Eq)]
pub struct Plan {
    /// Rows of the map, 1 to 4,096.
    pub rows: i64,
    /// Columns of the map, 1 to 4,096.
    pub columns: i64,
    /// Block side, 1 to 32 and at least the largest order.
    pub side: i64,
    /// Down, up, right, left.
    pub passes: [Pass; 4],
}

impl Plan {
    /// A plan that changes nothing: all passes have order 0 and gain 1.
    pub fn plain(rows: usize, columns: usize, side: usize) -> Plan {
        Plan { rows: rows as i64, columns: columns as i64, side: side as i64, passes: [Pass::new(1, &[]); 4] }
    }

    /// The plan of a summed-area table: down and right have order 1, gain 1, coefficient -1.
    pub fn summed(rows: usize, columns: usize, side: usize) -> Plan {
        Plan::plain(rows, columns, side).with(DOWN, 1, &[-1]).with(RIGHT, 1, &[-1])
    }

    /// The same plan with another pass at a place.
    ///
    /// # Panics
    /// If there is no such pass, or there are more than [`MAX_ORDER`] coefficients.
    pub fn with(mut self, pass: usize, gain: i64, coefficients: &[i64]) -> Plan {
        self.passes[pass] = Pass::new(gain, coefficients);
        self
    }
}

/// The lengths that a plan needs.
#[repr(C)]
#[derive(Clone, Copy, Debug, Default, PartialEq, Eq)]
pub struct Sizes {
    /// Plan words.
    pub words: u64,
    /// Rows of blocks.
    pub block_rows: u64,
    /// Columns of blocks.
    pub block_columns: u64,
    /// Marks: one for each block.
    pub marks: u64,
    /// Strip words: for each block, side * (sum of the orders) for its lone strips and as many for its linked ones.
    pub strips: u64,
    /// Words of map, output and table.
    pub pixels: u64,
    /// Tasks of a whole job.
    pub tasks: u64,
}

/// How far a job is.
#[repr(C)]
#[derive(Clone, Copy, Debug, Default, PartialEq, Eq)]
pub struct Progress {
    /// Tasks marked.
    pub marked: u64,
    /// Pixels collected plus pixels finished.
    pub tally: u64,
    /// 1 if `task` and `block` name a ready task, else 0.
    pub ready: u64,
    /// The ready task's number; 0 if none is ready.
    pub task: u64,
    /// The ready task's block; 0 if none is ready.
    pub block: u64,
}

impl Progress {
    /// The ready task and its block, or none.
    pub fn ready_task(&self) -> Option<(Task, usize)> {
        let task = *Task::ALL.get(self.task as usize)?;
        (self.ready == 1).then_some((task, self.block as usize))
    }
}

/// The six kinds of task.
#[derive(Clone, Copy, Debug, PartialEq, Eq)]
pub enum Task {
    /// Writes the block's four lone strips: those of the block filtered alone.
    Collect = 0,
    /// Writes the linked down strip, which is true for the whole map.
    DownLink = 1,
    /// Writes the linked up strip, which is true for the whole map.
    UpLink = 2,
    /// Writes the linked right strip, which is true for the whole map.
    RightLink = 3,
    /// Writes the linked left strip, which is true for the whole map.
    LeftLink = 4,
    /// Writes the block's output words.
    Finish = 5,
}

impl Task {
    /// All tasks, in the order of their numbers.
    pub const ALL: [Task; 6] =
        [Task::Collect, Task::DownLink, Task::UpLink, Task::RightLink, Task::LeftLink, Task::Finish];

    /// The number that calls take.
    pub fn number(self) -> usize {
        self as usize
    }
}
