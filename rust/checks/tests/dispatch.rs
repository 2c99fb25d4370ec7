//! The dispatcher's answers: refusals and turns, against the model and on lists that are built to be refused.
//! `turns.rs` has runs of turns.

use checks::control::{done_mark, grid_of, lasts, line, part_of, tasks_of, turn_of, Answer, Control};
use checks::job_lists::{any_control, causes_of, Built, CAUSES};
use checks::lent::Lent;
use checks::random::{self, Seen};
use checks::{dispatcher, model::NOTHING_DONE};
use mulzhegat::dispatch::{self, Job, Turn};
use mulzhegat::Refusal;
use std::array::from_fn;
use std::collections::BTreeSet;
use std::ffi::c_void;
use std::ptr::null_mut;
use std::slice;

/// Jobs, the last job and marks that are lent, the answer of the C call and the words of the turn.
type Case<'a> = (&'a [Job], usize, &'a [u32], u64, [u64; 4]);

/// The number of an answer, 0 if accepted.
fn number_of(answer: Answer) -> u32 {
    answer.map_or_else(Refusal::number, |_| 0)
}

#[test]
fn of_every_set_of_causes_the_first_of_6_18_9_refuses_a_turn() {
    let mut random = random::of_test("of_every_set_of_causes_the_first_of_6_18_9_refuses_a_turn");
    let (mut numbers, mut ways, mut pairs) = (Seen::new(), Seen::new(), Seen::new());
    // Lists whose least broken mark is not of the first job that has one.
    let mut crossed = 0;
    for set in (0..1 << CAUSES).cycle().take((60 << CAUSES) * random::rounds()) {
        let causes = from_fn(|cause| set >> cause & 1 == 1);
        let Built { jobs, marks, misplaced, broken, ways: built } = Built::with(causes, &mut random);
        assert_eq!(causes_of(&jobs, &marks), causes, "{marks:x?} of {jobs:?}");
        let last = random.pick(&lasts(jobs.len()));
        let answer = Control::new(&jobs, &marks).answer(last);
        match (causes[0] || causes[1], misplaced.first(), broken.first_key_value()) {
            (true, ..) => assert_eq!(answer, Err(Refusal::RecordBreaksRule)),
            (_, Some(&job), _) => assert_eq!(answer, Err(Refusal::JobMisplaced(job))),
            (.., Some((&place, job))) => {
                assert_eq!(answer, Err(Refusal::MarkBroken(place as u32)));
                crossed += usize::from(broken.values().any(|other| other < job));
            }
            _ => assert!(answer.is_ok()),
        }
        numbers.note(number_of(answer));
        let holding = || (0..CAUSES).filter(|&cause| causes[cause]);
        holding().flat_map(|one| holding().map(move |other| (one, other))).for_each(|pair| pairs.note(pair));
        if !causes[0] && !causes[1] {
            built.into_iter().for_each(|way| ways.note(way));
        }
    }
    numbers.expect([0, 6, 9, 18], 60);
    pairs.expect((0..CAUSES).flat_map(|one| (0..CAUSES).map(move |other| (one, other))), 32 * 60);
    let overlapping = ["by one mark", "with equal starts", "one inside the other", "by any number"];
    let past = ["past by one", "past by some", "past as a whole", "far past", "end overflows"];
    ways.expect(["touching", "apart"].into_iter().chain(overlapping).chain(past), 100);
    assert!(crossed > 50, "{crossed}");
}

#[test]
fn random_lists_with_every_last_are_answered_as_by_the_model() {
    let mut random = random::of_test("random_lists_with_every_last_are_answered_as_by_the_model");
    let (mut lengths, mut numbers, mut misplaced) = (Seen::new(), Seen::new(), Seen::new());
    let (mut named, mut tasks, mut none) = (Seen::new(), Seen::new(), 0);
    for _ in 0..8_000 * random::rounds() {
        let control = any_control(&mut random);
        lengths.note(control.jobs.get().len());
        let mut refusals = BTreeSet::new();
        for last in lasts(control.jobs.get().len()) {
            let answer = control.answer(last);
            numbers.note(number_of(answer));
            match answer {
                Ok(Some(turn)) => {
                    named.note(turn.job);
                    tasks.note(turn.task);
                }
                Ok(None) => none += 1,
                Err(Refusal::JobMisplaced(job)) => misplaced.note(job),
                Err(_) => (),
            }
            refusals.insert(answer.err().map(|refusal| (refusal.number(), refusal.place())));
        }
        assert_eq!(refusals.len(), 1, "a refusal does not depend on the last job");
    }
    lengths.expect(0..=9, 200);
    numbers.expect([0, 6, 9, 18], 3_000);
    misplaced.expect(0..8, 20);
    named.expect(0..8, 500);
    tasks.expect(0..6, 100);
    assert!(none > 500, "{none}");
}

/// Whether some mark of a job is past the list or another's too, told mark by mark.
fn is_misplaced(jobs: &[Job], job: usize, length: usize) -> bool {
    let mut others = jobs.iter().enumerate().filter(|&(other, _)| other != job);
    part_of(&jobs[job]).any(|mark| mark >= length as u128) || {
        others.any(|(_, other)| part_of(other).any(|mark| part_of(&jobs[job]).contains(&mark)))
    }
}

/// A turn of jobs of which nothing is done: 18 with the least misplaced job, else the first job.
fn expect_placed_or_18(jobs: &[Job], length: usize) -> bool {
    let answer = Control::new(jobs, &vec![NOTHING_DONE; length]).answer(usize::MAX);
    let least = (0..jobs.len()).find(|&job| is_misplaced(jobs, job, length));
    let expected = least.map_or(Ok(Some(Turn { job: 0, task: 0, block: 0 })), |job| Err(Refusal::JobMisplaced(job)));
    assert_eq!(answer, expected, "{length} marks, {jobs:?}");
    least.is_none()
}

#[test]
fn two_and_three_jobs_at_all_starts_in_and_around_short_lists() {
    let mut placed = [0; 2];
    let far = [1 << 32, 1 << 32 | 1, 1 << 62, 1 << 63].into_iter().chain(u64::MAX - 4..=u64::MAX);
    let starts = Vec::from_iter((0..=7).chain(far));
    for marks in (0..16).map(|choice| [1 + choice % 4, 1 + choice / 4]) {
        for (&one, &other) in starts.iter().flat_map(|one| starts.iter().map(move |other| (one, other))) {
            for length in 0..=7 {
                let jobs = [line(marks[0], one), line(marks[1], other)];
                placed[0] += usize::from(expect_placed_or_18(&jobs, length));
            }
        }
    }
    for choice in 0..27 * 5 * 5 * 5 {
        let marks = [choice, choice / 3, choice / 9].map(|digits| 1 + digits % 3);
        let starts = [choice / 27, choice / 135, choice / 675].map(|digits| digits % 5);
        let jobs: [Job; 3] = from_fn(|job| line(marks[job], starts[job]));
        placed[1] += usize::from(expect_placed_or_18(&jobs, 6));
    }
    // In how many ways two parts of 1 to 4 marks can be placed in a list: one before the other, or after it.
    let ways = |length: u64| -> u64 {
        let free = |marks: u64| (length + 1).saturating_sub(marks) * (length + 2).saturating_sub(marks);
        (1..=4).flat_map(|one| (1..=4).map(move |other| one + other)).map(free).sum()
    };
    assert_eq!(placed[0] as u64, (0..=7).map(ways).sum());
    assert!(placed[1] > 50, "{placed:?}");
}

#[test]
fn sizes_just_in_and_just_out_of_range_in_every_record() {
    // The range of each size, and numbers that are in it only if cut to fewer bits.
    let ranges = [1..=4096, 1..=4096, 1..=32];
    let numbers =
        [0, 1, 2, 31, 32, 33, 64, 4095, 4096, 4097, 8192, 1 << 16 | 1, 1 << 32, 1 << 32 | 1, 1 << 40, 1 << 63];
    let numbers = Vec::from_iter(numbers.into_iter().chain([1 << 63 | 1, u64::MAX - 31, u64::MAX]));
    let marks = vec![NOTHING_DONE; 4096 + 8];
    let mut accepted = 0;
    for count in 1..=8 {
        for (place, size) in (0..count).flat_map(|place| (0..3).map(move |size| (place, size))) {
            for &number in &numbers {
                let mut sizes = [1; 3];
                sizes[size] = number;
                let [rows, columns, side] = sizes;
                let mut jobs = Vec::from_iter((0..count).map(|job| line(1, job as u64)));
                jobs[place] = Job { rows, columns, side, marks_start: 8 };
                let answer = turn_of(&jobs, place + count - 1, &marks);
                let right = ranges[size].contains(&number);
                assert_eq!(answer.err(), (!right).then_some(Refusal::RecordBreaksRule), "{jobs:?}");
                accepted += usize::from(right);
            }
        }
    }
    assert_eq!(accepted, 36 * (8 + 8 + 4));
}

#[test]
fn more_than_eight_records_are_refused_6_and_eight_are_not() {
    let marks = vec![NOTHING_DONE; 70_000];
    for count in (0..=20).chain([63, 64, 255, 256, 257, 264, 65_535, 65_536, 65_537, 65_544]) {
        let jobs = Vec::from_iter((0..count).map(|job| line(1, job)));
        let expected = match count {
            0 => Ok(None),
            1..=8 => Ok(Some(Turn { job: 0, task: 0, block: 0 })),
            _ => Err(Refusal::RecordBreaksRule),
        };
        assert_eq!(Control::new(&jobs, &marks).answer(usize::MAX), expected, "{count} records");
        // Before any mark is missed.
        let expected = if count == 0 || count > 8 { expected } else { Err(Refusal::JobMisplaced(0)) };
        assert_eq!(Control::new(&jobs, &[]).answer(0), expected, "{count} records");
    }
}

#[test]
fn every_spare_bit_and_kind_of_every_mark_of_a_job_refuses_a_turn_and_of_no_job_does_not() {
    // Marks of no job at 0, 5 and 12: job 2 has 1 to 4, job 0 has 6 to 8, job 3 has 9, job 1 has 10 and 11.
    let jobs = [
        Job { rows: 6, columns: 2, side: 2, marks_start: 6 },
        Job { rows: 32, columns: 33, side: 32, marks_start: 10 },
        Job { rows: 4, columns: 3, side: 2, marks_start: 1 },
        line(1, 9),
    ];
    let owner =
        [None, Some(2), Some(2), Some(2), Some(2), None, Some(0), Some(0), Some(0), Some(3), Some(1), Some(1), None];
    let mut refused = 0;
    for (place, owner) in owner.into_iter().enumerate() {
        for mark in (0..32).map(|bit| NOTHING_DONE ^ 1 << bit).chain((0..16).map(|kind| kind << 28)) {
            let mut marks = [NOTHING_DONE; 13];
            [0, 5, 12].into_iter().for_each(|free| marks[free] = 0x81234567);
            marks[place] = mark;
            let is_right = owner.is_none_or(|job: usize| {
                let tasks = tasks_of(&jobs[job], place - jobs[job].marks_start as usize);
                mark >> 28 == 7 && mark & 0xFFFFFFF & !tasks == 0
            });
            let answer = Control::new(&jobs, &marks).answer(place % 5);
            assert_eq!(answer.err(), (!is_right).then_some(Refusal::MarkBroken(place as u32)), "{mark:x} at {place}");
            refused += usize::from(!is_right);
        }
    }
    // Of 48 marks for a block, those with one of its tasks are right, and kind 7 alone.
    assert_eq!(refused, 10 * 47 - (4 * 4 + 3 + 4 + 3 + 2 + 3 + 3));
}

#[test]
fn every_state_of_up_to_eight_jobs_and_every_last() {
    // Of each job nothing is done, its collect, or both of its tasks.
    let states = [(NOTHING_DONE, Some(0)), (NOTHING_DONE | 1, Some(5)), (NOTHING_DONE | 0x21, None)];
    let (mut calls, mut none) = (0, 0);
    for count in 0..=8 {
        // The last job has the first mark.
        let jobs = Vec::from_iter((0..count).map(|job| line(1, (count - 1 - job) as u64)));
        for choice in 0..3usize.pow(count as u32) {
            let state = |job: usize| states[choice / 3usize.pow(job as u32) % 3];
            let marks = Vec::from_iter((0..count).rev().map(|job| state(job).0));
            for last in lasts(count) {
                let after = if last < count { last + 1..count } else { 0..count };
                let round = after.chain(0..count.min(last.saturating_add(1)));
                let turn = |job| state(job).1.map(|task| Turn { job, task, block: 0 });
                let expected = round.into_iter().find_map(turn);
                assert_eq!(turn_of(&jobs, last, &marks), Ok(expected), "last {last}, {marks:x?}");
                calls += 1;
                none += usize::from(expected.is_none());
            }
        }
    }
    assert_eq!((calls, none), ((0..=8).map(|count| 3usize.pow(count) * (count as usize + 9)).sum(), 9 * 9 + 36));
}

#[test]
fn all_four_words_are_written_on_every_call_and_none_beside_them() {
    // Six blocks in two rows, whose block 4 alone is not finished; and a block of which nothing is done.
    let jobs = [line(1, 6), Job { rows: 4, columns: 6, side: 2, marks_start: 0 }];
    let mut marks = Vec::from_iter((0..6).map(|block| done_mark(&jobs[1], block)).chain([NOTHING_DONE]));
    marks[4] ^= 1 << 5;
    let done = Vec::from_iter((0..6).map(|block| done_mark(&jobs[1], block)).chain([NOTHING_DONE | 0x21]));
    let overlapping = [line(1, 6), line(2, 0), line(3, 0)];
    let cases: [Case; 8] = [
        (&jobs, 0, &marks, 0, [1, 1, 5, 4]),
        (&jobs, 1, &marks, 0, [1, 0, 0, 0]),
        (&jobs, 0, &done, 0, [0; 4]),
        (&[], 0, &marks, 0, [0; 4]),
        (&[line(0, 0)], 0, &marks, 6 << 32, [0; 4]),
        (&[line(1, 6); 9], 0, &marks, 6 << 32, [0; 4]),
        (&overlapping, 0, &marks, 18 << 32 | 1, [0; 4]),
        (&[line(4, 3)], 0, &marks, 9 << 32 | 3, [0; 4]),
    ];
    for (jobs, last, marks, answer, expected) in cases {
        for before in [0, 1, 77, u64::MAX] {
            let mut words = Lent::new(4, || before);
            let turn = words.get_mut().try_into().expect("a turn has four words");
            assert_eq!(dispatch::next_turn_into(jobs, last, marks, turn), Refusal::check(answer), "{jobs:?}");
            assert!(words == Lent::of(&expected, || before), "{words:?} of {jobs:?}");
        }
        assert_eq!(Control::new(jobs, marks).answer(last).map(|_| ()), Refusal::check(answer));
    }
}

#[test]
fn a_job_of_4096_by_4096_blocks_beside_one_of_a_single_block() {
    let jobs = [Job { rows: 4096, columns: 4096, side: 1, marks_start: 2 }, line(1, 1)];
    let (blocks, turn) = (1 << 24, |job, task, block| Ok(Some(Turn { job, task, block })));
    let mut marks = vec![NOTHING_DONE; 2 + blocks];
    assert_eq!(dispatch::next_turn(&jobs, 1, &marks), turn(0, 0, 0));
    assert_eq!(dispatch::next_turn(&jobs, 1, &marks[..1 + blocks]), Err(Refusal::JobMisplaced(0)));
    // All is done but the finish of the last block.
    marks[1] |= 0x21;
    marks[2..].fill(NOTHING_DONE | 0x3F);
    for (line, edge) in (0..4096).flat_map(|line| [0, 4095].map(|edge| (line, edge))) {
        for block in [line * 4096 + edge, edge * 4096 + line] {
            marks[2 + block] = done_mark(&jobs[0], block);
        }
    }
    marks[1 + blocks] ^= 1 << 5;
    assert_eq!(dispatch::next_turn(&jobs, 0, &marks), turn(0, 5, blocks - 1));
    marks[1 + blocks] ^= 1 << 5;
    assert_eq!(dispatch::next_turn(&jobs, 0, &marks), Ok(None));
    // The last block has no down link.
    marks[1 + blocks] |= 1 << 1;
    assert_eq!(dispatch::next_turn(&jobs, 0, &marks), Err(Refusal::MarkBroken(1 + (1 << 24))));
}

#[test]
fn eight_jobs_of_large_maps() {
    let mut random = random::of_test("eight_jobs_of_large_maps");
    let sizes = [
        (4096, 4096, 32),
        (4096, 1, 1),
        (1, 4096, 1),
        (4095, 4000, 31),
        (33, 4096, 8),
        (4096, 4096, 32),
        (4096, 9, 2),
        (100, 100, 3),
    ];
    let mut jobs = sizes.map(|(rows, columns, side)| Job { rows, columns, side, marks_start: 0 });
    let mut marks = Vec::new();
    for job in jobs.iter_mut().rev() {
        job.marks_start = marks.len() as u64;
        marks.extend((0..grid_of(job).blocks()).map(|block| done_mark(job, block)));
    }
    let (mut control, mut unfinished) = (Control::new(&jobs, &marks), BTreeSet::new());
    assert_eq!(control.answer(3), Ok(None));
    for _ in 0..3 {
        // Of one job more a collect is no longer done, and of one more no task.
        let [one, other] = [random.below(8), random.below(8)];
        let parts = [one, other].map(|job| part_of(&jobs[job])).map(|part| part.start as usize..part.end as usize);
        control.marks.get_mut()[random.between(parts[0].start, parts[0].end - 1)] &= !1;
        control.marks.get_mut()[parts[1].clone()].fill(NOTHING_DONE);
        unfinished.extend([one, other]);
        let named = (0..8).map(|last| control.answer(last).unwrap().expect("tasks are left").job);
        assert_eq!(BTreeSet::from_iter(named), unfinished);
    }
}

/// A list of zeros of any length, whose pages take memory once they are written.
struct LongList {
    words: *mut u32,
    length: usize,
}

extern "C" {
    fn mmap(address: *mut c_void, bytes: usize, protection: i32, flags: i32, file: i32, offset: i64) -> *mut c_void;
    fn munmap(address: *mut c_void, bytes: usize) -> i32;
}

impl LongList {
    fn new(length: usize) -> LongList {
        // Linux's numbers: to be read and written; private, anonymous, with no memory set aside.
        let (protection, flags) = (1 | 2, 0x02 | 0x20 | 0x4000);
        // SAFETY: new pages are asked for, and none that are in use.
        let words = unsafe { mmap(null_mut(), 4 * length, protection, flags, -1, 0) };
        assert!(words as isize != -1, "there are not so many addresses");
        LongList { words: words.cast(), length }
    }

    fn get_mut(&mut self) -> &mut [u32] {
        // SAFETY: the pages are this list's own, aligned, and zeros until they are written.
        unsafe { slice::from_raw_parts_mut(self.words, self.length) }
    }
}

impl Drop for LongList {
    fn drop(&mut self) {
        // SAFETY: the pages were mapped with this length, and no borrow of them is left.
        unsafe { munmap(self.words.cast(), 4 * self.length) };
    }
}

#[test]
fn places_of_32_bits_and_more_in_a_list_of_more_than_2_to_the_32_marks() {
    // The last four marks that 32 bits can count and those behind; and parts at the same places if cut to 32 bits.
    let far = 1 << 32;
    let jobs = [line(6, far - 4), line(1, 0), line(3, far + 2), line(2, 2)];
    let mut list = LongList::new(far as usize + 5);
    let marks = list.get_mut();
    let places = Vec::from_iter(jobs.iter().flat_map(part_of).map(|place| place as usize));
    places.iter().for_each(|&place| marks[place] = NOTHING_DONE);
    for last in 0..4 {
        let turn = Turn { job: (last + 1) % 4, task: 0, block: 0 };
        assert_eq!(turn_of(&jobs, last, marks), Ok(Some(turn)));
        assert_eq!(dispatcher::next_turn(&jobs, last, marks), Ok(Some(turn)));
    }
    for &place in &places {
        marks[place] = 0;
        let expected = Err(Refusal::MarkBroken(place.min(0xFFFFFFFF) as u32));
        assert_eq!(turn_of(&jobs, 0, marks), expected, "{place}");
        assert_eq!(dispatcher::next_turn(&jobs, 0, marks), expected, "{place}");
        // A broken mark in front of it.
        marks[3] ^= 1 << 31;
        assert_eq!(turn_of(&jobs, 0, marks), Err(Refusal::MarkBroken(place.min(3) as u32)));
        marks[3] = NOTHING_DONE;
        marks[place] = NOTHING_DONE;
    }
    assert_eq!(turn_of(&jobs, 0, &marks[..far as usize + 4]), Err(Refusal::JobMisplaced(2)));
    assert_eq!(turn_of(&jobs, 0, &marks[..5]), Err(Refusal::JobMisplaced(0)));
}
