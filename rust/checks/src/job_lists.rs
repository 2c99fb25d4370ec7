//! Lists of jobs with the marks that they share: any, and such as are built to be refused for some causes alone.

use crate::control::{grid_of, overlap, part_of, tasks_of, Control};
use crate::dispatcher;
use crate::model::NOTHING_DONE;
use crate::random::Random;
use mulzhegat::dispatch::Job;
use std::collections::{BTreeMap, BTreeSet};

/// A job of few blocks, of any side; its marks are yet to be placed.
fn any_job(random: &mut Random) -> Job {
    let side = if random.once_in(2) { random.between(1, 4) } else { random.between(1, 32) };
    let (rows, columns) = random.pick(&[(1, 1), (1, 2), (2, 1), (2, 2), (1, 5), (4, 1), (2, 3), (3, 3), (3, 4)]);
    let [rows, columns] = [rows, columns].map(|blocks| (blocks * side - random.below(side)) as u64);
    Job { rows, columns, side: side as u64, marks_start: 0 }
}

/// Marks of a job, all right: nothing done, all done, or any tasks done.
fn any_marks(job: &Job, random: &mut Random) -> Vec<u32> {
    let density = random.below(5);
    let mut bits = |_| match density {
        0 => 0,
        1 | 2 => 0x3F,
        _ => (0..6).filter(|_| !random.once_in(density)).map(|task| 1 << task).sum::<u32>(),
    };
    (0..grid_of(job).blocks()).map(|block| NOTHING_DONE | tasks_of(job, block) & bits(block)).collect()
}

/// The causes of refusal, in the order of their tests: more than eight records, a size out of range (6); marks past the
/// list, overlapping marks (18); a wrong kind, a spare bit from 6 to 27, a bit of a task that the block has not (9).
pub const CAUSES: usize = 7;

/// The causes that hold, of marks those of jobs that are in range and well placed.
pub fn causes_of(jobs: &[Job], marks: &[u32]) -> [bool; CAUSES] {
    let sized = Vec::from_iter(jobs.iter().filter(|job| dispatcher::is_sized(job)));
    let runs_past = |job: &Job| part_of(job).end > marks.len() as u128;
    let others = |job: &Job| sized.iter().filter(|other| overlap(job, other)).count() - 1;
    let placed = sized.iter().filter(|job| !runs_past(job) && others(job) == 0);
    let blocks = placed.flat_map(|job| (0..grid_of(job).blocks()).map(move |block| (job, block)));
    let mark = |(job, block): (&&Job, usize)| marks[job.marks_start as usize + block];
    let foreign = |(job, block): (&&Job, usize)| mark((job, block)) & 0x3F & !tasks_of(job, block);
    [
        jobs.len() > 8,
        sized.len() < jobs.len(),
        sized.iter().any(|job| runs_past(job)),
        sized.iter().any(|job| others(job) > 0),
        blocks.clone().any(|block| mark(block) >> 28 != 7),
        blocks.clone().any(|block| mark(block) & 0xFFFFFC0 != 0),
        blocks.clone().any(|block| foreign(block) != 0),
    ]
}

/// A list that is built to have some causes of refusal.
pub struct Built {
    pub jobs: Vec<Job>,
    pub marks: Vec<u32>,
    /// The jobs whose marks run past the list or overlap another's.
    pub misplaced: BTreeSet<usize>,
    /// The broken marks: each by its index, with its job.
    pub broken: BTreeMap<usize, usize>,
    /// The ways in which parts of the list touch, overlap or run past it.
    pub ways: Vec<&'static str>,
}

impl Built {
    /// Builds a list with just these causes.
    pub fn with(causes: [bool; CAUSES], random: &mut Random) -> Built {
        let [too_many, sizes, past, overlap, marks @ ..] = causes;
        let needed =
            usize::from(overlap) * 2 + [past, sizes, marks.contains(&true)].map(usize::from).iter().sum::<usize>();
        let count = if too_many { random.between(9, 12) } else { random.between(needed.max(1), 8) };
        // Parts lie in this order: of a pair that overlaps one after the other, of one that runs past the list last.
        let mut order = Vec::from_iter(0..count);
        random.shuffle(&mut order);
        let pair = overlap.then(|| random.below(count - 1 - usize::from(past)));
        let mut built = Built::laid_out(&order, pair, random);
        if past {
            built.put_past(order[count - 1], random);
        }
        built.fill(random);
        order.retain(|job| !built.misplaced.contains(job));
        if sizes {
            let job = order.swap_remove(random.below(order.len()));
            break_size(&mut built.jobs[job], random);
        }
        for cause in (0..marks.len()).filter(|&cause| marks[cause]) {
            for _ in 0..random.between(1, 3) {
                built.break_mark(random.pick(&order), cause, random);
            }
        }
        built
    }

    /// Jobs with parts in an order, of which this one and the next overlap; the list ends with the last part, or some
    /// marks after it.
    fn laid_out(order: &[usize], pair: Option<usize>, random: &mut Random) -> Built {
        let mut jobs = Vec::from_iter(order.iter().map(|_| any_job(random)));
        let (mut ways, mut end) = (Vec::new(), random.pick(&[0, 0, 1, 7]));
        for (number, &job) in order.iter().enumerate() {
            let gap = random.pick(&[0, 0, 1, 2, 5]);
            let is_second = number > 0 && pair == Some(number - 1);
            let start = if is_second {
                overlapping_start(&jobs[order[number - 1]], &jobs[job], &mut ways, random)
            } else {
                end + gap
            };
            if number > 0 && !is_second {
                ways.push(if gap == 0 { "touching" } else { "apart" });
            }
            jobs[job].marks_start = start as u64;
            end = end.max(start + grid_of(&jobs[job]).blocks());
        }
        let misplaced = pair.map_or(BTreeSet::new(), |first| BTreeSet::from([order[first], order[first + 1]]));
        let marks = vec![0; end + if pair.is_some() { random.below(3) } else { random.pick(&[0, 0, 2]) }];
        Built { jobs, marks, misplaced, broken: BTreeMap::new(), ways }
    }

    /// Makes the job whose part is the last run past the list: by its end, by its start, or by an end that overflows.
    fn put_past(&mut self, job: usize, random: &mut Random) {
        let part = part_of(&self.jobs[job]);
        let own = (part.end - part.start) as usize;
        let way = random.pick(&["past by one", "past by some", "past as a whole", "far past", "end overflows"]);
        let start = &mut self.jobs[job].marks_start;
        match way {
            "past by one" => self.marks.truncate(part.end as usize - 1),
            "past by some" => self.marks.truncate(part.end as usize - random.between(1, own)),
            "past as a whole" => *start = (self.marks.len() + random.below(3)) as u64,
            // Such that cutting it to 32 or 62 bits makes it right, and others.
            "far past" => *start = random.pick(&[1 << 32 | *start, 1 << 62 | *start, 1 << 63, u64::MAX - 4096 * 4096]),
            _ => *start = (random.between(1, own) as u64).wrapping_neg(),
        }
        self.misplaced.insert(job);
        self.ways.push(way);
    }

    /// Right marks for every job, as far as the list goes, and any words elsewhere.
    fn fill(&mut self, random: &mut Random) {
        self.marks.iter_mut().for_each(|mark| *mark = random.word() as u32);
        for job in &self.jobs {
            let marks = any_marks(job, random);
            let own = self.marks.iter_mut().skip(job.marks_start.try_into().unwrap_or(usize::MAX));
            own.zip(marks).for_each(|(mark, right)| *mark = right);
        }
    }

    /// Breaks a mark of a job by one of the three causes of marks.
    fn break_mark(&mut self, job: usize, cause: usize, random: &mut Random) {
        let blocks = 0..grid_of(&self.jobs[job]).blocks();
        let fit = Vec::from_iter(blocks.filter(|&block| cause < 2 || tasks_of(&self.jobs[job], block) != 0x3F));
        let block = random.pick(&fit);
        let place = self.jobs[job].marks_start as usize + block;
        break_mark(&mut self.marks[place], tasks_of(&self.jobs[job], block), cause, random);
        self.broken.insert(place, job);
    }
}

/// A start for a job with which it overlaps one that is placed.
fn overlapping_start(placed: &Job, job: &Job, ways: &mut Vec<&'static str>, random: &mut Random) -> usize {
    let (start, length) = (placed.marks_start as usize, grid_of(placed).blocks());
    let own = grid_of(job).blocks();
    let way = random.pick(&["by one mark", "with equal starts", "one inside the other", "by any number"]);
    ways.push(way);
    match way {
        "by one mark" => start + length - 1,
        "one inside the other" if own < length => start + random.below(length - own),
        "by any number" => start + random.below(length),
        _ => start,
    }
}

/// Breaks a mark by a wrong kind (0), a spare bit (1) or a bit of a task that the block has not (2).
fn break_mark(mark: &mut u32, tasks: u32, cause: usize, random: &mut Random) {
    match cause {
        0 => *mark = *mark & 0xFFFFFFF | random.pick(&[0, 1, 2, 3, 4, 5, 6, 8, 9, 10, 11, 12, 13, 14, 15]) << 28,
        1 => *mark |= 1 << random.between(6, 27),
        _ => *mark |= random.pick(&Vec::from_iter((0..6).map(|task| 1 << task).filter(|bit| tasks & bit == 0))),
    }
}

/// Puts a size out of range, also such that it is right if cut to 32 bits.
fn break_size(job: &mut Job, random: &mut Random) {
    let field = random.below(3);
    let size = match field {
        0 => &mut job.rows,
        1 => &mut job.columns,
        _ => &mut job.side,
    };
    *size = random.pick(&[0, if field < 2 { 4097 } else { 33 }, 1 << 32 | *size, 1 << 40, 1 << 63, u64::MAX]);
}

/// A list of up to nine jobs: well placed, then often with some jobs moved to any starts, a size out of range, or some
/// marks broken. Marks of no job are any words.
pub fn any_control(random: &mut Random) -> Control {
    let mut order = Vec::from_iter(0..random.pick(&[0, 1, 2, 3, 4, 5, 6, 7, 8, 8, 8, 9]));
    random.shuffle(&mut order);
    let mut built = Built::laid_out(&order, None, random);
    let length = built.marks.len();
    if !order.is_empty() && random.once_in(3) {
        for _ in 0..random.pick(&[1, 1, 2, 3]) {
            let own = grid_of(&built.jobs[order[0]]).blocks();
            let far = (random.between(1, own + 2) as u64).wrapping_neg();
            let starts = [random.below(length + 3) as u64, random.below(length + 3) as u64, far];
            built.jobs[random.pick(&order)].marks_start = random.pick(&starts);
        }
    }
    built.fill(random);
    if length > 0 && random.once_in(3) {
        for _ in 0..random.between(1, 3) {
            let place = random.below(length);
            break_mark(&mut built.marks[place], 0x15, random.below(3), random);
        }
    }
    if !order.is_empty() && random.once_in(12) {
        break_size(&mut built.jobs[order[0]], random);
    }
    Control::new(&built.jobs, &built.marks)
}
