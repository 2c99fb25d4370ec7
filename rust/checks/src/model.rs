//! A model of all calls on one plan, written from the paper that defines them: simple rather than fast, and apart from
//! the library.
//!
//! Each call has the answer and leaves the buffers as the library's call of the same name should. Block results come
//! from the passes over one block with words standing around it ([`Job::filter`]), strip places from one formula
//! ([`Job::strip_place`]); nothing else knows the layout.

use crate::reference;
use mulzhegat::macros::{Macro, Quantity};
use mulzhegat::{Pass, Plan, Progress, Refusal, Sizes, DOWN, RIGHT, UP};

/// The largest order of a pass, from the paper and not from the crate.
pub const ORDER_LIMIT: usize = 8;

/// Whether a number fits in signed 28 bits.
fn fits_28_bits(number: i64) -> bool {
    (-134217728..=134217727).contains(&number)
}

/// Whether a plan record keeps all rules.
pub fn keeps_rules(plan: &Plan) -> bool {
    let sized = |length| (1..=4096).contains(&length);
    let pass_keeps_rules = |pass: &Pass| {
        (0..=ORDER_LIMIT as i64).contains(&pass.order)
            && fits_28_bits(pass.gain)
            && pass.coefficients.iter().all(|&coefficient| fits_28_bits(coefficient))
            && pass.coefficients.iter().skip(pass.order as usize).all(|&coefficient| coefficient == 0)
            && pass.order <= plan.side
    };
    sized(plan.rows) && sized(plan.columns) && (1..=32).contains(&plan.side) && plan.passes.iter().all(pass_keeps_rules)
}

/// The words that are left of a plan, taken one after the other.
struct Words<'a> {
    words: &'a [u32],
    place: usize,
}

impl Words<'_> {
    /// The payload of the next word, which is to have a kind and a payload in range.
    fn take(&mut self, kind: u32, in_range: impl Fn(u32) -> bool) -> Result<u32, Refusal> {
        let place = self.place as u32;
        let Some(&word) = self.words.get(self.place) else { return Err(Refusal::WordsEndEarly(place)) };
        if word >> 28 != kind {
            return Err(Refusal::AnotherKindDue(place));
        }
        let payload = word % (1 << 28);
        if !in_range(payload) {
            return Err(Refusal::OutOfRange(place));
        }
        self.place += 1;
        Ok(payload)
    }

    /// The next word's payload as a signed number of 28 bits.
    fn take_signed(&mut self, kind: u32) -> Result<i64, Refusal> {
        let payload = i64::from(self.take(kind, |_| true)?);
        Ok(if payload < 1 << 27 { payload } else { payload - (1 << 28) })
    }
}

/// The plan that words say.
pub fn read(words: &[u32]) -> Result<Plan, Refusal> {
    let mut words = Words { words, place: 0 };
    let (rows, columns) = (|payload: u32| payload >> 13, |payload: u32| payload % (1 << 13));
    // Bits 26 and 27 above the rows would make them more than 4,096.
    let size =
        words.take(1, |payload| (1..=4096).contains(&rows(payload)) && (1..=4096).contains(&columns(payload)))?;
    let side = words.take(2, |payload| (1..=32).contains(&payload))?;
    let mut plan = Plan::plain(rows(size) as usize, columns(size) as usize, side as usize);
    for (number, pass) in plan.passes.iter_mut().enumerate() {
        let order = words.take(3, |payload| payload % 16 <= ORDER_LIMIT as u32 && payload >> 4 == number as u32)? % 16;
        let gain = words.take_signed(4)?;
        let coefficients = (0..order).map(|_| words.take_signed(5)).collect::<Result<Vec<i64>, Refusal>>()?;
        *pass = Pass::new(gain, &coefficients);
    }
    words.take(6, |payload| payload == 0)?;
    if words.place < words.words.len() {
        return Err(Refusal::WordsAfterEnd(words.place as u32));
    }
    if plan.passes.iter().any(|pass| pass.order > plan.side) {
        return Err(Refusal::SideBelowOrder);
    }
    Ok(plan)
}

/// The words of a plan that keeps all rules.
pub fn words_of(plan: &Plan) -> Vec<u32> {
    let signed = |number: i64| (number.rem_euclid(1 << 28)) as u32;
    let mut words = vec![1 << 28 | (plan.rows as u32) << 13 | plan.columns as u32, 2 << 28 | plan.side as u32];
    for (number, pass) in plan.passes.iter().enumerate() {
        words.push(3 << 28 | (number as u32) << 4 | pass.order as u32);
        words.push(4 << 28 | signed(pass.gain));
        words.extend(pass.coefficients.iter().take(pass.order as usize).map(|&number| 5 << 28 | signed(number)));
    }
    words.push(6 << 28);
    words
}

/// Writes the words of a plan.
pub fn write(plan: &Plan, words: &mut [u32]) -> Result<(), Refusal> {
    Job::of(plan)?.check_lengths(&[Buffer::Words(words.len())])?;
    let written = words_of(plan);
    words[..written.len()].copy_from_slice(&written);
    Ok(())
}

/// The lengths that a plan needs.
pub fn sizes(plan: &Plan) -> Result<Sizes, Refusal> {
    let job = Job::of(plan)?;
    let (m, n) = (job.block_rows as u64, job.block_columns as u64);
    let (collect_and_finish, down_and_up_links, right_and_left_links) = (2 * m * n, 2 * (m - 1) * n, 2 * m * (n - 1));
    Ok(Sizes {
        words: words_of(plan).len() as u64,
        block_rows: job.block_rows as u64,
        block_columns: job.block_columns as u64,
        marks: job.marks() as u64,
        strips: job.strips() as u64,
        pixels: job.pixels() as u64,
        tasks: collect_and_finish + down_and_up_links + right_and_left_links,
    })
}

/// Starts a job.
pub fn start(plan: &Plan, marks: &mut [u32], strips: &mut [u64]) -> Result<(), Refusal> {
    let job = Job::of(plan)?;
    job.check_lengths(&[Buffer::Marks(marks.len()), Buffer::Strips(strips.len())])?;
    marks[..job.marks()].fill(NOTHING_DONE);
    strips[..job.strips()].fill(0);
    Ok(())
}

/// Performs a task.
pub fn perform(
    plan: &Plan,
    task: usize,
    block: usize,
    map: &[i32],
    marks: &mut [u32],
    strips: &mut [u64],
    output: &mut [u64],
) -> Result<(), Refusal> {
    let job = Job::of(plan)?;
    job.check_lengths(&[
        Buffer::Marks(marks.len()),
        Buffer::Strips(strips.len()),
        Buffer::Map(map.len()),
        Buffer::Output(output.len()),
    ])?;
    if block >= job.marks() || !job.has_task(&job.block(block), task) {
        return Err(Refusal::NoSuchTask);
    }
    let block = job.block(block);
    let needs = job.needs(&block, task);
    job.check_marks(marks, needs.iter().map(|&(number, _)| number).chain([block.number]))?;
    if is_marked(marks[block.number], task) {
        return Err(Refusal::AlreadyMarked);
    }
    if needs.iter().any(|&(number, need)| !is_marked(marks[number], need)) {
        return Err(Refusal::NeedUnmarked);
    }
    match task {
        0 => job.collect(&block, map, strips),
        5 => job.finish(&block, map, strips, output),
        _ => job.link(&block, task - 1, strips),
    }
    marks[block.number] |= 1 << task;
    Ok(())
}

/// Reports on a job.
pub fn report(plan: &Plan, marks: &[u32]) -> Result<Progress, Refusal> {
    let job = Job::of(plan)?;
    job.check_lengths(&[Buffer::Marks(marks.len())])?;
    job.check_marks(marks, 0..job.marks())?;
    let mut progress = Progress::default();
    for block in job.blocks() {
        for task in 0..6 {
            if is_marked(marks[block.number], task) {
                progress.marked += 1;
                progress.tally += if task == 0 || task == 5 { block.height * block.width } else { 0 } as u64;
            }
        }
    }
    let pairs = (0..6).flat_map(|task| job.blocks().map(move |block| (task, block)));
    if let Some((task, block)) = pairs.into_iter().find(|(task, block)| job.is_ready(marks, block, *task)) {
        progress = Progress { ready: 1, task: task as u64, block: block.number as u64, ..progress };
    }
    Ok(progress)
}

/// Recalls a block. Strips and output are not lent to it.
pub fn recall(plan: &Plan, block: usize, marks: &mut [u32]) -> Result<(), Refusal> {
    let job = Job::of(plan)?;
    job.check_lengths(&[Buffer::Marks(marks.len())])?;
    if block >= job.marks() {
        return Err(Refusal::NoSuchTask);
    }
    job.check_marks(marks, 0..job.marks())?;
    if !is_marked(marks[block], 0) {
        return Err(Refusal::BlockNotCollected);
    }
    for (mark, needing) in marks.iter_mut().zip(job.tasks_needing(block)) {
        *mark &= !needing;
    }
    Ok(())
}

/// Runs the four passes over the whole map: over the words of its readings.
pub fn serial(plan: &Plan, map: &[i32], output: &mut [u64]) -> Result<(), Refusal> {
    serial_words(plan, &reference::readings(map), output)
}

/// Runs the four passes over a map of words, by the second serial program.
pub fn serial_words(plan: &Plan, map: &[u64], output: &mut [u64]) -> Result<(), Refusal> {
    let job = Job::of(plan)?;
    job.check_lengths(&[Buffer::Map(map.len()), Buffer::Output(output.len())])?;
    output[..job.pixels()].copy_from_slice(&reference::serial_words(plan, map));
    Ok(())
}

/// Sums over a rectangle, given as top, left, bottom, right; a sum is from -2^63 to 2^63 - 1, 0 of an empty rectangle.
pub fn rectangle(plan: &Plan, rectangle: [usize; 4], table: &[u64]) -> Result<i64, Refusal> {
    let [top, left, bottom, right] = rectangle;
    let job = Job::of(plan)?;
    job.check_lengths(&[Buffer::Table(table.len())])?;
    job.check_rectangle(rectangle)?;
    if top == bottom || left == right {
        return Ok(0);
    }
    // The table at the row and the column before, each counted from 1; 0 for row or column -1.
    let before = |row: usize, column: usize| match (row, column) {
        (0, _) | (_, 0) => 0,
        _ => i128::from(table[(row - 1) * job.columns + column - 1]),
    };
    let sum = before(bottom, right) - before(top, right) - before(bottom, left) + before(top, left);
    let word = sum.rem_euclid(1 << 64);
    Ok(if word < 1 << 63 { word as i64 } else { (word - (1 << 64)) as i64 })
}

/// A quantity of a rectangle as a macro variable, vacant where the paper says so.
pub fn macro_value(plan: &Plan, quantity: Quantity, corners: [usize; 4], table: &[u64]) -> Result<Macro, Refusal> {
    let sum = rectangle(plan, corners, table)?;
    let [top, left, bottom, right] = corners;
    Ok(match quantity {
        _ if top == bottom || left == right => Macro::Vacant,
        Quantity::Total if !(-(1 << 53)..=1 << 53).contains(&sum) => Macro::Vacant,
        Quantity::Total => Macro::Total(sum as f64),
        Quantity::Pixels => Macro::Pixels(((bottom - top) * (right - left)) as f64),
    })
}

/// Counts the dropouts in a rectangle of the map.
pub fn dropouts(plan: &Plan, rectangle: [usize; 4], map: &[i32]) -> Result<u64, Refusal> {
    let job = Job::of(plan)?;
    job.check_lengths(&[Buffer::Map(map.len())])?;
    job.check_rectangle(rectangle)?;
    Ok(reference::dropouts(map, job.columns, rectangle))
}

/// The mark of a block of which nothing is done.
pub const NOTHING_DONE: u32 = 7 << 28;

/// Whether a mark says that a task is done.
pub fn is_marked(mark: u32, task: usize) -> bool {
    mark >> task & 1 == 1
}

/// A buffer that a call is lent, with its length.
enum Buffer {
    Words(usize),
    Marks(usize),
    Table(usize),
    Strips(usize),
    Map(usize),
    Output(usize),
}

/// One block of a map.
#[derive(Clone, Copy, Debug, PartialEq, Eq)]
pub struct Block {
    /// Its number, row by row.
    pub number: usize,
    /// Its row among the blocks.
    pub block_row: usize,
    /// Its column among the blocks.
    pub block_column: usize,
    /// Its first row in the map.
    pub top: usize,
    /// Its first column in the map.
    pub left: usize,
    /// Its rows.
    pub height: usize,
    /// Its columns.
    pub width: usize,
}

/// The two halves of a block's slot in the strips, in the order in which they stand there.
#[derive(Clone, Copy, Debug, PartialEq, Eq)]
pub enum Half {
    /// The strips of the block filtered alone: collect writes them.
    Lone = 0,
    /// The strips that are true for the whole map: links write them, and neighbours read them.
    Linked = 1,
}

/// The blocks, tasks and strips of a plan that keeps all rules.
pub struct Job<'a> {
    plan: &'a Plan,
    orders: [usize; 4],
    /// Rows of the map.
    pub rows: usize,
    /// Columns of the map.
    pub columns: usize,
    /// The block side.
    pub side: usize,
    /// Rows of blocks.
    pub block_rows: usize,
    /// Columns of blocks.
    pub block_columns: usize,
}

impl<'a> Job<'a> {
    /// The job of a plan, or refusal 6.
    pub fn of(plan: &'a Plan) -> Result<Job<'a>, Refusal> {
        if !keeps_rules(plan) {
            return Err(Refusal::RecordBreaksRule);
        }
        let (rows, columns, side) = (plan.rows as usize, plan.columns as usize, plan.side as usize);
        let (block_rows, block_columns) = (rows.div_ceil(side), columns.div_ceil(side));
        Ok(Job {
            plan,
            orders: plan.passes.map(|pass| pass.order as usize),
            rows,
            columns,
            side,
            block_rows,
            block_columns,
        })
    }

    /// Marks needed.
    pub fn marks(&self) -> usize {
        self.block_rows * self.block_columns
    }

    /// Words of half a slot: all strips of a block once.
    fn half_slot(&self) -> usize {
        self.side * self.orders.iter().sum::<usize>()
    }

    /// Strip words needed.
    pub fn strips(&self) -> usize {
        self.marks() * 2 * self.half_slot()
    }

    /// Words of map, output and table needed.
    pub fn pixels(&self) -> usize {
        self.rows * self.columns
    }

    /// The refusal of the first buffer that is too short. Calls list theirs in the paper's order: marks, plan words and
    /// table, then strips, map, output.
    fn check_lengths(&self, lent: &[Buffer]) -> Result<(), Refusal> {
        for buffer in lent {
            let (length, needed, refusal) = match *buffer {
                Buffer::Words(length) => (length, words_of(self.plan).len(), Refusal::BufferTooShort),
                Buffer::Marks(length) => (length, self.marks(), Refusal::BufferTooShort),
                Buffer::Table(length) => (length, self.pixels(), Refusal::BufferTooShort),
                Buffer::Strips(length) => (length, self.strips(), Refusal::StripsTooShort),
                Buffer::Map(length) => (length, self.pixels(), Refusal::MapTooShort),
                Buffer::Output(length) => (length, self.pixels(), Refusal::OutputTooShort),
            };
            if length < needed {
                return Err(refusal);
            }
        }
        Ok(())
    }

    /// Refusal 12 of four numbers that are no rectangle of the map.
    fn check_rectangle(&self, [top, left, bottom, right]: [usize; 4]) -> Result<(), Refusal> {
        if top > bottom || left > right || bottom > self.rows || right > self.columns {
            return Err(Refusal::RectangleOutside);
        }
        Ok(())
    }

    /// The block of a number.
    pub fn block(&self, number: usize) -> Block {
        let (block_row, block_column) = (number / self.block_columns, number % self.block_columns);
        let (top, left) = (block_row * self.side, block_column * self.side);
        let (height, width) = (self.side.min(self.rows - top), self.side.min(self.columns - left));
        Block { number, block_row, block_column, top, left, height, width }
    }

    /// All blocks, in the order of their numbers.
    pub fn blocks(&self) -> impl DoubleEndedIterator<Item = Block> + '_ {
        (0..self.marks()).map(|number| self.block(number))
    }

    /// The neighbour from which a pass comes into a block: above, below, left, right.
    pub fn neighbour_before(&self, block: &Block, pass: usize) -> Option<Block> {
        let number = match pass {
            DOWN => (block.block_row > 0).then(|| block.number - self.block_columns),
            UP => (block.block_row + 1 < self.block_rows).then(|| block.number + self.block_columns),
            RIGHT => (block.block_column > 0).then(|| block.number - 1),
            _ => (block.block_column + 1 < self.block_columns).then(|| block.number + 1),
        };
        number.map(|number| self.block(number))
    }

    /// The neighbour into which a pass goes on from a block: the one before it on the opposite pass.
    pub fn neighbour_after(&self, block: &Block, pass: usize) -> Option<Block> {
        self.neighbour_before(block, pass ^ 1)
    }

    /// Whether a block has a task: collect and finish always, a link where a neighbour needs its strip.
    pub fn has_task(&self, block: &Block, task: usize) -> bool {
        match task {
            0 | 5 => true,
            1..=4 => self.neighbour_after(block, task - 1).is_some(),
            _ => false,
        }
    }

    /// The needs of a task that a block has, as pairs of a block number and a task.
    pub fn needs(&self, block: &Block, task: usize) -> Vec<(usize, usize)> {
        let neighbours = [None, Some(1), Some(2), Some(3), Some(4), Some(4)][task];
        let Some(neighbours) = neighbours else { return Vec::new() };
        let linked = (0..neighbours)
            .filter_map(|pass| self.neighbour_before(block, pass).map(|neighbour| (neighbour.number, pass + 1)));
        [(block.number, 0)].into_iter().chain(linked).collect()
    }

    /// The tasks that a block has, one bit each.
    pub fn tasks_of(&self, block: usize) -> u32 {
        (0..6).filter(|&task| self.has_task(&self.block(block), task)).map(|task| 1 << task).sum()
    }

    /// The tasks of a block and those that need it, directly or through others: for each block the bits of such tasks.
    pub fn tasks_needing(&self, block: usize) -> Vec<u32> {
        let mut needing = vec![0; self.marks()];
        needing[block] = self.tasks_of(block);
        loop {
            let before = needing.clone();
            // Forward and back, so that a chain of needs takes few rounds whichever way it runs.
            for block in self.blocks().chain(self.blocks().rev()) {
                let needs_it = |task: usize| {
                    self.has_task(&block, task)
                        && self.needs(&block, task).iter().any(|&(number, need)| is_marked(needing[number], need))
                };
                let found: u32 = (0..6).filter(|&task| needs_it(task)).map(|task| 1 << task).sum();
                needing[block.number] |= found;
            }
            if needing == before {
                return needing;
            }
        }
    }

    /// Whether a task exists in a block, is unmarked and has all its needs marked.
    pub fn is_ready(&self, marks: &[u32], block: &Block, task: usize) -> bool {
        self.has_task(block, task)
            && !is_marked(marks[block.number], task)
            && self.needs(block, task).iter().all(|&(number, need)| is_marked(marks[number], need))
    }

    /// Refusal 9 with the least of the looked-at blocks whose mark has a wrong kind or a spare bit.
    fn check_marks(&self, marks: &[u32], looked_at: impl Iterator<Item = usize>) -> Result<(), Refusal> {
        let is_broken = |&number: &usize| {
            let (mark, block) = (marks[number], self.block(number));
            let has_spare_bit = (0..28).any(|bit| is_marked(mark, bit) && !self.has_task(&block, bit));
            mark >> 28 != 7 || has_spare_bit
        };
        match looked_at.filter(is_broken).min() {
            Some(number) => Err(Refusal::MarkBroken(number as u32)),
            None => Ok(()),
        }
    }

    /// The place in the strips of the word of a pass that stands `distance` (1 to the order) back from the edge over
    /// which the pass leaves the block, in `line`: the column for down and up, the row for right and left.
    pub fn strip_place(&self, half: Half, block: usize, pass: usize, distance: usize, line: usize) -> usize {
        let order = self.orders[pass];
        let strips = (2 * block + half as usize) * self.half_slot();
        let strip = strips + self.side * self.orders[..pass].iter().sum::<usize>();
        // In map order the nearest to the leaving edge is the last for down and right, the first for up and left.
        let step = if pass == DOWN || pass == RIGHT { order - distance } else { distance - 1 };
        strip + if pass == DOWN || pass == UP { step * self.side + line } else { line * order + step }
    }

    /// How far a pass runs in a block, and in how many lines.
    fn extent(&self, block: &Block, pass: usize) -> (usize, usize) {
        if pass == DOWN || pass == UP {
            (block.height, block.width)
        } else {
            (block.width, block.height)
        }
    }

    /// Whether a strip place stands for a pixel of the block and some neighbour needs it.
    pub fn is_strip_place_used(&self, block: &Block, pass: usize, distance: usize, line: usize) -> bool {
        let (length, lines) = self.extent(block, pass);
        self.neighbour_after(block, pass).is_some() && distance <= length && line < lines
    }

    /// The pixel of a block, row by row, in `line` of a pass, `step` steps (from 0) after the pass comes in.
    fn pixel(&self, block: &Block, pass: usize, step: usize, line: usize) -> usize {
        let (row, column) = match pass {
            DOWN => (step, line),
            UP => (block.height - 1 - step, line),
            RIGHT => (line, step),
            _ => (line, block.width - 1 - step),
        };
        row * block.width + column
    }

    /// The results of the four passes over the words of one block, where `past(pass, distance, line)` stands for the
    /// output of a pass `distance` places before it comes into the block.
    pub fn filter(&self, block: &Block, words: Vec<u64>, past: impl Fn(usize, usize, usize) -> u64) -> [Vec<u64>; 4] {
        let mut words = words;
        [0, 1, 2, 3].map(|pass| {
            let (length, lines) = self.extent(block, pass);
            let Pass { gain, coefficients, .. } = self.plan.passes[pass];
            for line in 0..lines {
                for step in 0..length {
                    let pixel = self.pixel(block, pass, step, line);
                    let mut sum = (gain as u64).wrapping_mul(words[pixel]);
                    for back in 1..=self.orders[pass] {
                        let earlier = match step.checked_sub(back) {
                            Some(step) => words[self.pixel(block, pass, step, line)],
                            None => past(pass, back - step, line),
                        };
                        sum = sum.wrapping_sub((coefficients[back - 1] as u64).wrapping_mul(earlier));
                    }
                    words[pixel] = sum;
                }
            }
            words.clone()
        })
    }

    /// Writes the strip of a pass whole, in one half of the block's slot: 0 at each place that is not used, and at the
    /// others what `word` says of the pixel there and of the lone word of the same place.
    fn write_strip(
        &self,
        half: Half,
        block: &Block,
        pass: usize,
        strips: &mut [u64],
        word: impl Fn(usize, u64) -> u64,
    ) {
        let (length, _) = self.extent(block, pass);
        for distance in 1..=self.orders[pass] {
            for line in 0..self.side {
                let place = |half| self.strip_place(half, block.number, pass, distance, line);
                strips[place(half)] = match self.is_strip_place_used(block, pass, distance, line) {
                    true => word(self.pixel(block, pass, length - distance, line), strips[place(Half::Lone)]),
                    false => 0,
                };
            }
        }
    }

    /// What the linked strips of the first `known` passes say past the edges of a block, and 0 past the others.
    fn strips_around<'s>(
        &'s self,
        block: &'s Block,
        known: usize,
        strips: &'s [u64],
    ) -> impl Fn(usize, usize, usize) -> u64 + 's {
        move |pass, distance, line| match self.neighbour_before(block, pass) {
            Some(neighbour) if pass < known && self.is_strip_place_used(&neighbour, pass, distance, line) => {
                strips[self.strip_place(Half::Linked, neighbour.number, pass, distance, line)]
            }
            _ => 0,
        }
    }

    /// The pixels of a block, as the passes read them.
    fn readings(&self, block: &Block, map: &[i32]) -> Vec<u64> {
        let row = |row: usize| &map[(block.top + row) * self.columns + block.left..][..block.width];
        (0..block.height).flat_map(|number| reference::readings(row(number))).collect()
    }

    fn collect(&self, block: &Block, map: &[i32], strips: &mut [u64]) {
        let alone = self.filter(block, self.readings(block, map), |_, _, _| 0);
        for (pass, result) in alone.iter().enumerate() {
            self.write_strip(Half::Lone, block, pass, strips, |pixel, _| result[pixel]);
        }
    }

    fn link(&self, block: &Block, pass: usize, strips: &mut [u64]) {
        let zeros = vec![0; block.height * block.width];
        let from_around = self.filter(block, zeros, self.strips_around(block, pass + 1, strips));
        let linked = |pixel: usize, lone: u64| lone.wrapping_add(from_around[pass][pixel]);
        self.write_strip(Half::Linked, block, pass, strips, linked);
    }

    fn finish(&self, block: &Block, map: &[i32], strips: &[u64], output: &mut [u64]) {
        let [.., last] = self.filter(block, self.readings(block, map), self.strips_around(block, 4, strips));
        for row in 0..block.height {
            output[(block.top + row) * self.columns + block.left..][..block.width]
                .copy_from_slice(&last[row * block.width..][..block.width]);
        }
    }

    /// The words of a strip, as pairs of a place in the strips and its word: at each place inside the block what `word`
    /// says of the row and the column there, counted in the block, and 0 at all others.
    fn strip_of(
        &self,
        half: Half,
        block: &Block,
        pass: usize,
        word: impl Fn(usize, usize) -> u64,
    ) -> Vec<(usize, u64)> {
        let (length, lines) = self.extent(block, pass);
        let mut words = Vec::new();
        for distance in 1..=self.orders[pass] {
            for line in 0..self.side {
                let inside = distance <= length && line < lines;
                let word = if inside {
                    let pixel = self.pixel(block, pass, length - distance, line);
                    word(pixel / block.width, pixel % block.width)
                } else {
                    0
                };
                words.push((self.strip_place(half, block.number, pass, distance, line), word));
            }
        }
        words
    }

    /// The matching strip of a linked one: the words that the result of the pass has there when the passes run over the
    /// whole map.
    pub fn matching_strip(&self, block: &Block, pass: usize, results: &[Vec<u64>; 4]) -> Vec<(usize, u64)> {
        let word = |row: usize, column: usize| results[pass][(block.top + row) * self.columns + block.left + column];
        self.strip_of(Half::Linked, block, pass, word)
    }

    /// The lone strips of a block, by the second serial program over the block as a map of its own; 0 where no
    /// neighbour needs them.
    pub fn lone_strips(&self, block: &Block, map: &[i32]) -> Vec<(usize, u64)> {
        let alone = Plan { rows: block.height as i64, columns: block.width as i64, ..*self.plan };
        let rows = map.chunks(self.columns).skip(block.top).take(block.height);
        let heights = Vec::from_iter(rows.flat_map(|row| &row[block.left..][..block.width]).copied());
        let results = reference::results(&alone, &heights);
        let word = |pass: usize, row: usize, column: usize| match self.neighbour_after(block, pass) {
            Some(_) => results[pass][row * block.width + column],
            None => 0,
        };
        (0..4).flat_map(|pass| self.strip_of(Half::Lone, block, pass, |row, column| word(pass, row, column))).collect()
    }
}

#[cfg(test)]
mod tests {
    use super::*;
    use mulzhegat::LEFT;

    /// Performs what the report names until it names none.
    fn perform_the_rest(plan: &Plan, map: &[i32], marks: &mut [u32], strips: &mut [u64], output: &mut [u64]) {
        loop {
            let progress = report(plan, marks).unwrap();
            if progress.ready == 0 {
                return;
            }
            perform(plan, progress.task as usize, progress.block as usize, map, marks, strips, output).unwrap();
        }
    }

    /// All tasks of a job in the order in which the report names them.
    fn whole_job(plan: &Plan, map: &[i32]) -> (Vec<u32>, Vec<u64>, Vec<u64>) {
        let job = Job::of(plan).unwrap();
        let (mut marks, mut strips, mut output) = (vec![0; job.marks()], vec![1; job.strips()], vec![0; job.pixels()]);
        start(plan, &mut marks, &mut strips).unwrap();
        perform_the_rest(plan, map, &mut marks, &mut strips, &mut output);
        (marks, strips, output)
    }

    /// Numbers as words modulo 2^64.
    fn modulo<const N: usize>(numbers: [i64; N]) -> [u64; N] {
        numbers.map(|number| number as u64)
    }

    #[test]
    fn a_summed_table_and_its_strips_worked_out_by_hand() {
        // Blocks of side 2 over 1 2 3 / 4 5 6: the table is 1 3 6 / 5 12 21; block 0 has the columns 0 and 1.
        let plan = Plan::summed(2, 3, 2);
        let (marks, strips, output) = whole_job(&plan, &[1, 2, 3, 4, 5, 6]);
        assert_eq!(output, [1, 3, 6, 5, 12, 21]);
        assert_eq!(marks, [NOTHING_DONE | 0b101001, NOTHING_DONE | 0b110001]);
        // Halves of 2 x 2 words: the down strip (0 at the border), then the right strip, of which only block 0 has one;
        // with nothing to the left of it, its lone strip is true for the whole map.
        assert_eq!(strips, [0, 0, 3, 12, 0, 0, 3, 12, 0, 0, 0, 0, 0, 0, 0, 0]);
        assert_eq!(rectangle(&plan, [0, 1, 2, 3], &output), Ok(16));
        assert_eq!(rectangle(&plan, [1, 0, 2, 1], &output), Ok(4));
        assert_eq!(rectangle(&plan, [0, 0, 0, 3], &output), Ok(0));
        assert_eq!(rectangle(&plan, [0, 0, 3, 3], &output), Err(Refusal::RectangleOutside));
        let (_, _, output) = whole_job(&plan, &[1, -2, 3, -4, 5, -6]);
        assert_eq!(rectangle(&plan, [1, 0, 2, 3], &output), Ok(-5));
    }

    #[test]
    fn a_hole_in_the_same_map_worked_out_by_hand() {
        let (plan, map) = (Plan::summed(2, 3, 2), [1, -2147483648, 3, 4, 5, 6]);
        let (_, strips, output) = whole_job(&plan, &map);
        assert_eq!(output, [1, 1, 4, 5, 10, 19]);
        assert_eq!(strips, [0, 0, 1, 10, 0, 0, 1, 10, 0, 0, 0, 0, 0, 0, 0, 0]);
        assert_eq!(rectangle(&plan, [0, 1, 1, 3], &output), Ok(3));
        assert_eq!(dropouts(&plan, [0, 1, 1, 3], &map), Ok(1));
        assert_eq!(dropouts(&plan, [1, 0, 2, 3], &map), Ok(0));
        assert_eq!(dropouts(&plan, [0, 1, 0, 2], &map), Ok(0));
        assert_eq!(dropouts(&plan, [0, 1, 3, 2], &map), Err(Refusal::RectangleOutside));
        assert_eq!(dropouts(&plan, [0, 1, 3, 2], &map[1..]), Err(Refusal::MapTooShort));
        assert_eq!(dropouts(&Plan { side: 0, ..plan }, [0, 1, 3, 2], &map[1..]), Err(Refusal::RecordBreaksRule));
    }

    #[test]
    fn the_column_of_the_paper_in_blocks_of_two() {
        let plan = Plan::plain(3, 1, 2).with(DOWN, 6, &[2]).with(UP, -1, &[2]);
        let (_, strips, output) = whole_job(&plan, &[1, 0, 0]);
        assert_eq!(output, modulo([-126, 60, -24]));
        // Halves of 2 x 2 words, one column wide: down -12 of block 0; up of block 1, 0 alone and -24 linked.
        assert_eq!(strips, modulo([-12, 0, 0, 0, -12, 0, 0, 0, 0, 0, 0, 0, 0, 0, -24, 0]));
    }

    #[test]
    fn the_column_of_the_paper_with_its_last_block_rescanned() {
        let plan = Plan::plain(3, 1, 2).with(DOWN, 6, &[2]).with(UP, -1, &[2]);
        let (mut marks, mut strips, mut output) = whole_job(&plan, &[1, 0, 0]);
        recall(&plan, 1, &mut marks).unwrap();
        // Collect and down link of block 0 do not need block 1.
        assert_eq!(marks, [NOTHING_DONE | 0b11, NOTHING_DONE]);
        assert_eq!(recall(&plan, 1, &mut marks), Err(Refusal::BlockNotCollected));
        perform_the_rest(&plan, &[1, 0, 1], &mut marks, &mut strips, &mut output);
        // Down gives 6, -12, 30. Block 1 alone: 6 for down, -6 for up.
        assert_eq!(output, modulo([-150, 72, -30]));
        assert_eq!(strips, modulo([-12, 0, 0, 0, -12, 0, 0, 0, 0, 0, -6, 0, 0, 0, -30, 0]));
        assert_eq!(marks, [NOTHING_DONE | 0b100011, NOTHING_DONE | 0b100101]);
    }

    #[test]
    fn recalls_in_a_square_of_nine_blocks_worked_out_by_hand() {
        // Blocks 0 1 2 / 3 4 5 / 6 7 8, all done. No need leads to a block from collect of the others, down above it,
        // down and up in the other columns, and right to the left of it. Bits: finish, left, right, up, down, collect.
        let middle = (4, [0b1011, 0b0011, 0b0011, 0b1111, 0, 0b0111, 0b1101, 0b0001, 0b0101]);
        let edge = (5, [0b1011, 0b1011, 0b0011, 0b1111, 0b1111, 0, 0b1101, 0b1101, 0b0001]);
        let plan = Plan::plain(9, 9, 3);
        let job = Job::of(&plan).unwrap();
        let all_done = Vec::from_iter((0..9).map(|block| NOTHING_DONE | job.tasks_of(block)));
        for (block, left) in [middle, edge] {
            let mut marks = all_done.clone();
            recall(&plan, block, &mut marks).unwrap();
            assert_eq!(marks, left.map(|bits| NOTHING_DONE | bits));
        }
    }

    #[test]
    fn the_first_cause_refuses_a_recall() {
        let plan = Plan::plain(9, 9, 3);
        let mut marks = [NOTHING_DONE; 9];
        assert_eq!(recall(&plan, 4, &mut marks), Err(Refusal::BlockNotCollected));
        // The last block has no right link.
        marks[8] |= 1 << 3;
        assert_eq!(recall(&plan, 4, &mut marks), Err(Refusal::MarkBroken(8)));
        assert_eq!(recall(&plan, 9, &mut marks), Err(Refusal::NoSuchTask));
        assert_eq!(recall(&plan, 9, &mut marks[1..]), Err(Refusal::BufferTooShort));
        assert_eq!(recall(&Plan { side: 0, ..plan }, 9, &mut marks[1..]), Err(Refusal::RecordBreaksRule));
    }

    #[test]
    fn a_row_of_order_two_with_a_last_block_of_one_column() {
        let plan = Plan::plain(1, 5, 2).with(LEFT, 1, &[-1, -1]);
        let (_, strips, output) = whole_job(&plan, &[1, 1, 1, 1, 1]);
        assert_eq!(output, [12, 7, 4, 2, 1]);
        // Halves of 2 rows, 2 words each; the first block's strip no neighbour needs.
        assert_eq!(strips, [[0; 8], [2, 1, 0, 0, 4, 2, 0, 0], [1, 0, 0, 0, 1, 0, 0, 0]].concat());
    }

    #[test]
    fn needs_are_those_of_the_table() {
        let plan = Plan::plain(9, 9, 3);
        let job = Job::of(&plan).unwrap();
        let sorted = |block: usize, task: usize| {
            let mut needs = job.needs(&job.block(block), task);
            needs.sort();
            needs
        };
        assert_eq!(sorted(4, 0), []);
        assert_eq!(sorted(4, 1), [(1, 1), (4, 0)]);
        assert_eq!(sorted(4, 2), [(1, 1), (4, 0), (7, 2)]);
        assert_eq!(sorted(4, 3), [(1, 1), (3, 3), (4, 0), (7, 2)]);
        assert_eq!(sorted(4, 4), [(1, 1), (3, 3), (4, 0), (5, 4), (7, 2)]);
        assert_eq!(sorted(4, 5), [(1, 1), (3, 3), (4, 0), (5, 4), (7, 2)]);
        assert_eq!(sorted(0, 5), [(0, 0), (1, 4), (3, 2)]);
        assert_eq!(sorted(8, 4), [(5, 1), (7, 3), (8, 0)]);
        let tasks = |block: usize| (0..8).filter(|&task| job.has_task(&job.block(block), task)).collect::<Vec<_>>();
        assert_eq!(tasks(4), [0, 1, 2, 3, 4, 5]);
        assert_eq!(tasks(0), [0, 1, 3, 5]);
        assert_eq!(tasks(8), [0, 2, 4, 5]);
    }

    #[test]
    fn tasks_are_counted_one_by_one() {
        for (rows, columns, side) in [(1, 1, 1), (2, 3, 2), (5, 1, 2), (1, 9, 3), (7, 8, 3), (6, 6, 1)] {
            let plan = Plan::summed(rows, columns, side);
            let job = Job::of(&plan).unwrap();
            let counted: usize =
                job.blocks().map(|block| (0..6).filter(|&task| job.has_task(&block, task)).count()).sum();
            assert_eq!(sizes(&plan).unwrap().tasks, counted as u64);
        }
    }
}
