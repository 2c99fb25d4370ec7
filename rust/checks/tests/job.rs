//! Start, tasks and report: the examples of the paper, and the library against the model of the calls.

use checks::lent::Lent;
use checks::model::{self, Half, Job, NOTHING_DONE};
use checks::needs::Grid;
use checks::random::{self, MapsSeen, Random, Reached};
use checks::records::{all_orders, broken_record};
use checks::short::ShortBuffers;
use checks::trial::{any_task_and_block, report, report_and_compare, Buffers, Trial};
use checks::{rectangles, reference};
use mulzhegat::{job, plan, serial, Pass, Plan, Progress, Refusal, DOWN, LEFT, RIGHT, UP};

/// Keeps the ready tasks of a job that begins with nothing done.
struct Ready {
    tasks: Vec<(usize, usize)>,
    listed: Vec<u8>,
}

impl Ready {
    fn new(job: &Job) -> Ready {
        Ready { tasks: (0..job.marks()).map(|block| (0, block)).collect(), listed: vec![1; job.marks()] }
    }

    /// Takes a ready task.
    fn take(&mut self, random: &mut Random) -> Option<(usize, usize)> {
        match self.tasks.len() {
            0 => None,
            length => Some(self.tasks.swap_remove(random.below(length))),
        }
    }

    /// Lists what became ready when a task of this block was marked; tasks that a call in between has done are listed
    /// too, so that what became ready by them follows.
    fn renew(&mut self, job: &Job, marks: &[u32], block: usize) {
        let block = job.block(block);
        let around = (0..4).filter_map(|pass| job.neighbour_before(&block, pass));
        for block in around.chain([block]) {
            for task in 1..6 {
                let is_listed = self.listed[block.number] >> task & 1 == 1;
                if !is_listed && (model::is_marked(marks[block.number], task) || job.is_ready(marks, &block, task)) {
                    self.listed[block.number] |= 1 << task;
                    self.tasks.push((task, block.number));
                }
            }
        }
    }
}

/// Starts a job and performs tasks in random order until `limit` are done or none is left; `between` runs before each.
fn perform_in_random_order(
    trial: &mut Trial,
    random: &mut Random,
    limit: usize,
    mut between: impl FnMut(&mut Trial, &mut Random),
) -> usize {
    trial.start();
    trial.compare();
    let mut ready = Ready::new(&trial.job);
    let mut done = 0;
    while done < limit {
        between(trial, random);
        let Some((task, block)) = ready.take(random) else { break };
        // A call in between may have done it already.
        if !model::is_marked(trial.model.marks.get()[block], task) {
            assert_eq!(trial.perform(task, block), Ok(()));
            done += 1;
        }
        ready.renew(&trial.job, trial.model.marks.get(), block);
    }
    done
}

/// What a list of calls promises as a whole: the tasks done give the lone strips, the linked strips and the output of
/// the serial passes, all other output words are as they were before, and the report counts them. `done` holds the
/// tasks done, one bit each.
fn check_the_list(trial: &mut Trial, done: &[u32], output_before: &Lent<u64>) {
    let results = reference::results(trial.plan, trial.map.get());
    let mut expected_output = output_before.clone();
    let (mut marked, mut tally) = (0, 0);
    for block in trial.job.blocks() {
        let bits = done[block.number];
        assert_eq!(trial.library.marks.get()[block.number], NOTHING_DONE | bits);
        marked += u64::from(bits.count_ones());
        tally += (block.height * block.width) as u64 * u64::from((bits & 1) + (bits >> 5 & 1));
        for task in (0..6).filter(|&task| model::is_marked(bits, task)) {
            let are_true = trial.are_words_true(task, &block, &results);
            assert!(are_true, "task {task} of block {} of {:?}", block.number, trial.plan);
        }
        if bits >> 5 & 1 == 1 {
            for row in block.top..block.top + block.height {
                let start = row * trial.job.columns + block.left;
                let range = start..start + block.width;
                expected_output.get_mut()[range.clone()].copy_from_slice(&results[LEFT][range]);
            }
        }
    }
    assert!(trial.library.output == expected_output, "the output differs for {:?}", trial.plan);
    let progress = trial.report();
    assert_eq!((progress.marked, progress.tally), (marked, tally));
}

/// The bits of the tasks done, from the model's marks.
fn done_by(trial: &Trial) -> Vec<u32> {
    trial.model.marks.get()[..trial.job.marks()].iter().map(|mark| mark & 0x3F).collect()
}

/// Performs what the report names until none, and gives the last report and the output.
fn perform_what_the_report_names(plan: &Plan, map: &[i32]) -> (Progress, Vec<u64>) {
    let sizes = plan::sizes(plan).unwrap();
    let (mut marks, mut strips) = (vec![0; sizes.marks as usize], vec![9; sizes.strips as usize]);
    let mut output = vec![9; sizes.pixels as usize];
    job::start(plan, &mut marks, &mut strips).unwrap();
    for _ in 0..sizes.tasks {
        let (task, block) = job::report(plan, &marks).unwrap().ready_task().expect("a task is left");
        job::perform(plan, task.number(), block, map, &mut marks, &mut strips, &mut output).unwrap();
    }
    let progress = job::report(plan, &marks).unwrap();
    assert_eq!(progress.ready_task(), None);
    (progress, output)
}

fn modulo(words: &[i64]) -> Vec<u64> {
    words.iter().map(|&word| word as u64).collect()
}

#[test]
fn example_job_of_the_program() {
    let (progress, output) = perform_what_the_report_names(&Plan::summed(2, 3, 2), &[1, 2, 3, 4, 5, 6]);
    assert_eq!(output, [1, 3, 6, 5, 12, 21]);
    assert_eq!(progress, Progress { marked: 6, tally: 12, ready: 0, task: 0, block: 0 });
}

#[test]
fn example_column_in_blocks_of_two() {
    for side in [1, 2, 3] {
        let down = Plan::plain(3, 1, side).with(DOWN, 6, &[2]);
        assert_eq!(perform_what_the_report_names(&down, &[1, 0, 0]).1, modulo(&[6, -12, 24]));
        let (_, output) = perform_what_the_report_names(&down.with(UP, -1, &[2]), &[1, 0, 0]);
        assert_eq!(output, modulo(&[-126, 60, -24]));
    }
}

#[test]
fn example_row_in_blocks() {
    for side in [1, 2, 3] {
        let plan = Plan::plain(1, 3, side).with(RIGHT, 1, &[-1]).with(LEFT, 1, &[-1]);
        assert_eq!(perform_what_the_report_names(&plan, &[1, 0, 0]).1, [3, 2, 1]);
    }
}

#[test]
fn example_single_heights_as_jobs() {
    let gains = |gains: [i64; 4]| Plan { passes: gains.map(|gain| Pass::new(gain, &[])), ..Plan::plain(1, 1, 1) };
    assert_eq!(perform_what_the_report_names(&gains([1; 4]), &[-1]).1, [18446744073709551615]);
    assert_eq!(perform_what_the_report_names(&gains([65536; 4]), &[1]).1, [0]);
    let least = gains([1, 1, -134217728, 1]);
    assert_eq!(perform_what_the_report_names(&least, &[-2147483648]).1, [0]);
    assert_eq!(perform_what_the_report_names(&least, &[-2147483647]).1, [288230376017494016]);
}

#[test]
fn example_one_block_has_two_tasks() {
    for plan in [Plan::plain(1, 1, 1), Plan::summed(2, 3, 3)] {
        let map = [-1, 0, 0, 0, 0, 0];
        let (progress, output) = perform_what_the_report_names(&plan, &map);
        assert_eq!((progress.marked, output[0]), (2, 18446744073709551615));
        let mut trial = Trial::new(&plan, &mut Random::new(1));
        trial.start();
        let exist = (0..6).filter(|&task| trial.perform(task, 0) != Err(Refusal::NoSuchTask)).collect::<Vec<_>>();
        assert_eq!(exist, [0, 5]);
    }
}

#[test]
fn example_2_by_3_with_side_2_has_six_tasks() {
    let (plan, mut random) = (Plan::summed(2, 3, 2), Random::new(2));
    let mut trial = Trial::new(&plan, &mut random);
    trial.start();
    let mut done = Vec::new();
    for block in [0, 1] {
        for task in [0, 1, 2, 3, 4] {
            if trial.perform(task, block).is_ok() {
                done.push((task, block));
            }
        }
    }
    assert_eq!(done, [(0, 0), (3, 0), (0, 1), (4, 1)]);
    assert_eq!(trial.perform(5, 0), Ok(()));
    assert_eq!(trial.perform(5, 1), Ok(()));
    assert_eq!(trial.report().marked, 6);
}

#[test]
fn each_coefficient_up_to_the_eighth_reaches_as_many_steps_back() {
    // A single 1 where the pass begins and a single coefficient d: after every `order` steps, one more factor of -d. In
    // blocks of 8 the last one has a single pixel.
    for (pass, order) in (0..4).flat_map(|pass| (1..=8).map(move |order| (pass, order))) {
        for coefficient in [-3, 5] {
            let mut coefficients = [0; 8];
            coefficients[order - 1] = coefficient;
            let (rows, columns) = if pass == DOWN || pass == UP { (17, 1) } else { (1, 17) };
            let plan = Plan::plain(rows, columns, 8).with(pass, 1, &coefficients[..order]);
            let (mut map, mut expected) = (vec![0; 17], vec![0; 17]);
            map[0] = 1;
            for (factors, place) in (0..17).step_by(order).enumerate() {
                expected[place] = (-coefficient).pow(factors as u32) as u64;
            }
            if pass == UP || pass == LEFT {
                map.reverse();
                expected.reverse();
            }
            assert_eq!(perform_what_the_report_names(&plan, &map).1, expected, "{plan:?}");
            let mut output = vec![9; 17];
            serial::run(&plan, &map, &mut output).unwrap();
            assert_eq!(output, expected, "{plan:?}");
        }
    }
}

#[test]
fn wrong_turn_of_running_into_rows_past_the_map() {
    // The strip of block 1 holds the one row that it has, -24 and not -120, and 0 for the row past the map.
    let plan = Plan::plain(3, 1, 2).with(DOWN, 6, &[2]).with(UP, -1, &[2, 0]);
    let mut random = Random::new(3);
    let mut trial = Trial::new(&plan, &mut random).on(&[1, 0, 0]);
    trial.start();
    for (task, block) in [(0, 1), (0, 0), (1, 0), (2, 1)] {
        assert_eq!(trial.perform(task, block), Ok(()));
    }
    // Halves of 2 x 3 words: a row of down, two rows of up. Block 1 has the second slot; alone its height is 0.
    let slot = &trial.library.strips.get()[12..24];
    assert_eq!(slot[2..6], modulo(&[0, 0, 0, 0]));
    assert_eq!(slot[6 + 2..6 + 6], modulo(&[-24, 0, 0, 0]));
    assert_eq!(trial.perform(5, 1), Ok(()));
    assert_eq!(trial.library.output.get()[2], -24i64 as u64);
    trial.compare();
}

#[test]
fn start_sets_the_needed_words_and_no_others() {
    let mut random = random::of_test("start_sets_the_needed_words_and_no_others");
    for _ in 0..500 * random::rounds() {
        let plan = random.small_plan(200);
        let mut trial = Trial::new(&plan, &mut random);
        let (marks, strips) = (trial.job.marks(), trial.job.strips());
        trial.start();
        trial.compare();
        assert!(trial.library.marks.get()[..marks].iter().all(|&mark| mark == 0x70000000));
        assert!(trial.library.strips.get()[..strips].iter().all(|&word| word == 0));
    }
}

#[test]
fn random_jobs_with_early_repeated_and_foreign_calls() {
    let mut random = random::of_test("random_jobs_with_early_repeated_and_foreign_calls");
    let (mut calls, mut seen, mut reached, mut maps) = (0, [0usize; 13], Reached::default(), MapsSeen::default());
    for _ in 0..2_000 * random::rounds() {
        let plan = random.small_plan(400);
        reached.note(&plan);
        let mut trial = Trial::new(&plan, &mut random);
        maps.note(trial.map.get());
        let output_before = trial.library.output.clone();
        perform_in_random_order(&mut trial, &mut random, usize::MAX, |trial, random| {
            trial.compare();
            for _ in 0..random.below(3) {
                match trial.perform_anything(random) {
                    Ok(()) => seen[0] += 1,
                    Err(refusal) => seen[refusal.number() as usize] += 1,
                }
                trial.compare();
            }
            if random.once_in(4) {
                trial.report();
            }
        });
        trial.compare();
        let progress = trial.report();
        assert_eq!((progress.ready, progress.marked), (0, plan::sizes(&plan).unwrap().tasks));
        let done = done_by(&trial);
        check_the_list(&mut trial, &done, &output_before);
        for _ in 0..5 {
            assert!(trial.perform_anything(&mut random).is_err());
        }
        trial.compare();
        calls += trial.calls;
    }
    assert!(calls >= 100_000, "{calls} calls");
    assert!([0, 8, 10, 11].iter().all(|&number| seen[number] > 100), "answers seen: {seen:?}");
    reached.expect_all_orders();
    reached.expect_all_short_blocks();
    maps.expect_each(100);
}

#[test]
fn broken_off_jobs_leave_unfinished_blocks_untouched() {
    let mut random = random::of_test("broken_off_jobs_leave_unfinished_blocks_untouched");
    for _ in 0..600 * random::rounds() {
        let plan = random.small_plan(500);
        let mut trial = Trial::new(&plan, &mut random);
        let output_before = trial.library.output.clone();
        let limit = random.below(plan::sizes(&plan).unwrap().tasks as usize);
        let done = perform_in_random_order(&mut trial, &mut random, limit, |_, _| ());
        assert_eq!(done, limit);
        trial.compare();
        let done = done_by(&trial);
        check_the_list(&mut trial, &done, &output_before);
        assert_eq!(trial.report().ready, 1);
        // Another job begins in the same buffers.
        let output_before = trial.library.output.clone();
        perform_in_random_order(&mut trial, &mut random, usize::MAX, |_, _| ());
        trial.compare();
        let done = done_by(&trial);
        check_the_list(&mut trial, &done, &output_before);
    }
}

#[test]
fn dropouts_replaced_by_0_change_no_word_of_a_job() {
    let mut random = random::of_test("dropouts_replaced_by_0_change_no_word_of_a_job");
    let mut maps = MapsSeen::default();
    for _ in 0..500 * random::rounds() {
        let plan = random.small_plan(400);
        let [holes, zeros] = random.holes_and_zeros(Job::of(&plan).unwrap().pixels());
        maps.note(&holes);
        // The same buffers and the same calls, up to a task after which the job is broken off.
        let (seed, limit) = (random.word(), random.between(1, plan::sizes(&plan).unwrap().tasks as usize));
        let buffers_of = |map: &[i32]| {
            let mut random = Random::new(seed);
            let mut trial = Trial::new(&plan, &mut random).on(map);
            perform_in_random_order(&mut trial, &mut random, limit, |_, _| ());
            trial.library
        };
        assert!(buffers_of(&holes) == buffers_of(&zeros), "the buffers differ for {plan:?} on {holes:?}");
    }
    maps.expect_each(20);
}

#[test]
fn lists_of_calls_do_what_the_table_of_needs_says() {
    let mut random = random::of_test("lists_of_calls_do_what_the_table_of_needs_says");
    for _ in 0..400 * random::rounds() {
        let plan = random.small_plan(60);
        let mut trial = Trial::new(&plan, &mut random);
        let output_before = trial.library.output.clone();
        let grid = Grid::new(trial.job.block_rows, trial.job.block_columns);
        let mut done = vec![0; grid.blocks()];
        trial.start();
        for _ in 0..random.below(60 * grid.blocks()) {
            let (task, block) = (random.below(6), random.below(grid.blocks()));
            let has_needs = grid.needs((task, block)).all(|(need, other)| model::is_marked(done[other], need));
            let accepted = grid.has((task, block)) && !model::is_marked(done[block], task) && has_needs;
            assert_eq!(trial.perform(task, block).is_ok(), accepted);
            done[block] |= u32::from(accepted) << task;
        }
        check_the_list(&mut trial, &done, &output_before);
    }
}

#[test]
fn tasks_on_any_strips_and_marks() {
    // Strips of any words, also in the places that are read as 0, and any marks: finish uses strips true or not.
    let mut random = random::of_test("tasks_on_any_strips_and_marks");
    let (mut accepted, mut reached, mut maps) = ([0usize; 6], Reached::default(), MapsSeen::default());
    for _ in 0..6_000 * random::rounds() {
        let plan = random.small_plan(300);
        reached.note(&plan);
        let mut trial = Trial::new(&plan, &mut random);
        maps.note(trial.map.get());
        let all_done: Vec<u32> = trial.job.blocks().map(|block| trial.job.tasks_of(block.number)).collect();
        for (block, may) in all_done.iter().enumerate() {
            let mark = NOTHING_DONE | may & if random.once_in(4) { random.word() as u32 } else { 0x3F };
            trial.set_mark(block, mark);
        }
        for _ in 0..4 {
            let (task, block) = (random.below(6), random.below(trial.job.marks()));
            let mark = trial.library.marks.get()[block] & !(1 << task);
            trial.set_mark(block, mark);
            if trial.perform(task, block).is_ok() {
                accepted[task] += 1;
            }
            trial.compare();
        }
    }
    assert!(accepted.iter().all(|&times| times > 500), "accepted: {accepted:?}");
    reached.expect_all_orders();
    reached.expect_all_short_blocks();
    maps.expect_each(300);
}

#[test]
fn places_read_as_0_and_written_as_0() {
    // All places outside the blocks and on the border hold garbage; the job comes out as if they held 0.
    let mut random = random::of_test("places_read_as_0_and_written_as_0");
    let mut unused_places = 0;
    for _ in 0..400 * random::rounds() {
        let plan = random.small_plan(300);
        let mut trial = Trial::new(&plan, &mut random);
        let output_before = trial.library.output.clone();
        let orders = plan.passes.map(|pass| pass.order as usize);
        let job = Job::of(&plan).unwrap();
        let unused: Vec<usize> = job
            .blocks()
            .flat_map(|block| (0..4).map(move |pass| (block, pass)))
            .flat_map(|(block, pass)| (1..=orders[pass]).map(move |distance| (block, pass, distance)))
            .flat_map(|(block, pass, distance)| (0..plan.side as usize).map(move |line| (block, pass, distance, line)))
            .filter(|(block, pass, distance, line)| !job.is_strip_place_used(block, *pass, *distance, *line))
            .flat_map(|(block, pass, distance, line)| {
                [Half::Lone, Half::Linked].map(|half| job.strip_place(half, block.number, pass, distance, line))
            })
            .collect();
        unused_places += unused.len();
        perform_in_random_order(&mut trial, &mut random, usize::MAX, |trial, random| {
            for &place in &unused {
                let word = random.word();
                trial.library.strips.get_mut()[place] = word;
                trial.model.strips.get_mut()[place] = word;
            }
        });
        trial.compare();
        assert!(trial.library.output.get()[..job.pixels()] == reference::serial(&plan, trial.map.get()), "{plan:?}");
        assert!(trial.library.output.get()[job.pixels()..] == output_before.get()[job.pixels()..]);
    }
    assert!(unused_places > 10_000);
}

#[test]
fn sides_1_to_32_and_every_order_in_every_pass() {
    let mut random = random::of_test("sides_1_to_32_and_every_order_in_every_pass");
    let (mut jobs, mut reached) = (0, Reached::default());
    for (number, orders) in all_orders().step_by(10).enumerate() {
        let least = (*orders.iter().max().unwrap()).max(1);
        let side = least + number % (33 - least);
        let (rows, columns) = (random.between(1, 2 * side + 5), random.between(1, 2 * side + 5));
        let plan = random.plan(rows, columns, side, orders);
        reached.note(&plan);
        whole_job_in_random_order(&plan, &mut random);
        jobs += 1;
    }
    reached.expect_all_orders();
    for side in 1..=32 {
        for (rows, columns) in [(side, side), (2 * side, side + 1), (side + 1, 3 * side), (3 * side - 1, 2 * side + 1)]
        {
            let orders = random.orders(side);
            whole_job_in_random_order(&random.plan(rows, columns, side, orders), &mut random);
            jobs += 1;
        }
    }
    assert_eq!(jobs, 657 + 128);
}

/// A whole job in random order, compared at random moments and at the end.
fn whole_job_in_random_order(plan: &Plan, random: &mut Random) {
    let mut trial = Trial::new(plan, random);
    let output_before = trial.library.output.clone();
    let tasks = plan::sizes(plan).unwrap().tasks as usize;
    let done = perform_in_random_order(&mut trial, random, usize::MAX, |trial, random| {
        if random.once_in(tasks / 8 + 1) {
            trial.compare();
            trial.report();
        }
    });
    assert_eq!(done, tasks);
    trial.compare();
    let done = done_by(&trial);
    check_the_list(&mut trial, &done, &output_before);
}

#[test]
fn totals_on_the_tables_of_jobs_are_sums_of_heights() {
    let mut random = random::of_test("totals_on_the_tables_of_jobs_are_sums_of_heights");
    let mut maps = MapsSeen::default();
    for _ in 0..100 * random::rounds() {
        let (rows, columns) = (random.between(1, 20), random.between(1, 20));
        let plan = Plan::summed(rows, columns, random.between(1, 32));
        let map = random.heights(rows * columns);
        maps.note(&map);
        let (_, table) = perform_what_the_report_names(&plan, &map);
        for _ in 0..20 {
            let corners = random.rectangle(rows, columns);
            let sum = serial::rectangle(&plan, rectangles::of(corners), &table).map(i128::from);
            assert_eq!(sum, Ok(reference::total(&map, columns, corners)));
        }
    }
    maps.expect_each(8);
}

#[test]
fn jobs_of_4096_rows_or_columns() {
    let mut random = random::of_test("jobs_of_4096_rows_or_columns");
    for side in [1, 2, 3, 4, 7, 8, 31, 32] {
        for (rows, columns) in [(4096, 1), (1, 4096)] {
            let orders = random.orders(side);
            whole_job_in_random_order(&random.plan(rows, columns, side, orders), &mut random);
            let most = side.min(8);
            whole_job_in_random_order(&random.plan(rows, columns, side, [most; 4]), &mut random);
        }
    }
    for (rows, columns, side) in [(4096, 3, 2), (2, 4096, 5), (4095, 9, 32), (40, 4096, 32)] {
        let orders = random.orders(side);
        whole_job_in_random_order(&random.plan(rows, columns, side, orders), &mut random);
    }
}

#[test]
fn all_marks_of_small_jobs_are_reported() {
    let mut random = random::of_test("all_marks_of_small_jobs_are_reported");
    let mut calls = 0;
    for (block_rows, block_columns) in [(2, 2), (1, 1), (1, 2), (2, 1), (1, 3), (3, 1), (1, 4), (4, 1)] {
        let side = random.between(2, 5);
        let (rows, columns) = (block_rows * side - 1, block_columns * side - 1);
        let orders = random.orders(side);
        let plan = random.plan(rows, columns, side, orders);
        let job = Job::of(&plan).unwrap();
        assert_eq!((job.block_rows, job.block_columns), (block_rows, block_columns));
        let bits: Vec<(usize, usize)> = job
            .blocks()
            .flat_map(|block| (0..6).map(move |task| (block.number, task)))
            .filter(|&(block, task)| job.has_task(&job.block(block), task))
            .collect();
        for choice in 0..1u32 << bits.len() {
            let mut marks = vec![NOTHING_DONE; job.marks()];
            for (place, &(block, task)) in bits.iter().enumerate() {
                marks[block] |= (choice >> place & 1) << task;
            }
            report_and_compare(&plan, &marks).expect("the marks are right");
            calls += 1;
        }
    }
    assert!(calls >= 1 << 16, "{calls} calls");
}

#[test]
fn report_of_random_marks() {
    let mut random = random::of_test("report_of_random_marks");
    let (mut none, mut named) = (0, [0usize; 6]);
    for _ in 0..4_000 * random::rounds() {
        let plan = random.small_plan(200);
        let job = Job::of(&plan).unwrap();
        let density = random.between(1, 8);
        let marks: Vec<u32> = (0..job.marks())
            .map(|block| {
                let bits = (0..6).filter(|_| !random.once_in(density * density)).map(|task| 1 << task).sum::<u32>();
                NOTHING_DONE | bits & job.tasks_of(block)
            })
            .collect();
        let spare = random.below(3);
        let mut lent = Lent::new(marks.len() + spare, || random.word() as u32);
        lent.get_mut()[..marks.len()].copy_from_slice(&marks);
        match report_and_compare(&plan, lent.get()).unwrap().ready_task() {
            Some((task, _)) => named[task.number()] += 1,
            None => none += 1,
        }
    }
    assert!(none > 20 && named.iter().all(|&times| times > 20), "none {none}, named {named:?}");
}

#[test]
fn broken_marks_are_refused_9_with_the_least_block_looked_at() {
    let mut random = random::of_test("broken_marks_are_refused_9_with_the_least_block_looked_at");
    let (mut refused, mut not_looked_at) = (0, 0);
    for _ in 0..5_000 * random::rounds() {
        let side = random.between(1, 4);
        let (rows, columns) = (random.between(1, 4 * side), random.between(1, 4 * side));
        let orders = random.orders(side);
        let plan = random.plan(rows, columns, side, orders);
        let mut trial = Trial::new(&plan, &mut random);
        trial.mark_at_random(&mut random);
        let broken = (0..random.between(1, 3)).map(|_| trial.break_a_mark(&mut random));
        let least = broken.min().unwrap();
        assert_eq!(report_and_compare(&plan, trial.library.marks.get()), Err(Refusal::MarkBroken(least as u32)));
        for _ in 0..6 {
            let (task, block) = (random.below(6), random.below(trial.job.marks()));
            match trial.perform(task, block) {
                Err(Refusal::MarkBroken(_)) => refused += 1,
                Ok(()) => not_looked_at += 1,
                Err(_) => (),
            }
            trial.compare();
        }
    }
    assert!(refused > 1_000 && not_looked_at > 300, "{refused} refused 9, {not_looked_at} accepted");
}

#[test]
fn every_spare_bit_and_kind_breaks_a_mark() {
    // Four blocks in a square, three in a line: every bit of every mark, seen by the report and by the block's tasks.
    for plan in [Plan::summed(4, 4, 2), Plan::summed(1, 6, 2), Plan::summed(6, 1, 2), Plan::summed(2, 2, 2)] {
        let job = Job::of(&plan).unwrap();
        for block in 0..job.marks() {
            for mark in (0..32).map(|bit| NOTHING_DONE ^ 1 << bit).chain((0..16).map(|kind| kind << 28)) {
                let mut marks = vec![NOTHING_DONE; job.marks()];
                marks[block] = mark;
                let right = mark >> 28 == 7 && mark & 0xFFFFFFF & !job.tasks_of(block) == 0;
                let answer = report_and_compare(&plan, &marks).map(|_| ());
                assert_eq!(answer, if right { Ok(()) } else { Err(Refusal::MarkBroken(block as u32)) });
                let (mut strips, mut output) = (vec![0; job.strips()], vec![0; job.pixels()]);
                let map = vec![1; job.pixels()];
                let answer = job::perform(&plan, 0, block, &map, &mut marks, &mut strips, &mut output);
                let expected = match (right, mark & 1) {
                    (false, _) => Err(Refusal::MarkBroken(block as u32)),
                    (true, 1) => Err(Refusal::AlreadyMarked),
                    (true, _) => Ok(()),
                };
                assert_eq!(answer, expected);
                assert_eq!(marks[block], if expected.is_ok() { mark | 1 } else { mark });
            }
        }
    }
}

#[test]
fn every_set_of_short_buffers_refuses_start_by_7_then_14() {
    let mut random = random::of_test("every_set_of_short_buffers_refuses_start_by_7_then_14");
    let mut short = ShortBuffers::new([7, 14]);
    for _ in 0..300 * random::rounds() {
        let plan = random.small_plan(150);
        let broken = broken_record(&mut random, &plan);
        let Trial { job, library: Buffers { marks, strips, .. }, .. } = &Trial::new(&plan, &mut random);
        let lend = |lengths: [usize; 2]| (marks.shortened(lengths[0]), strips.shortened(lengths[1]));
        let calls = [job::start, model::start].map(|start| {
            move |plan: &Plan, (marks, strips): &mut (Lent<u32>, Lent<u64>)| {
                start(plan, marks.get_mut(), strips.get_mut())
            }
        });
        short.try_all([&plan, &broken], [job.marks(), job.strips()], lend, calls);
    }
    short.expect_all(3, &[0]);
}

#[test]
fn every_set_of_short_buffers_refuses_a_task_by_7_14_15_16_then_8_to_11() {
    let mut random = random::of_test("every_set_of_short_buffers_refuses_a_task_by_7_14_15_16_then_8_to_11");
    let mut short = ShortBuffers::new([7, 14, 15, 16]);
    for _ in 0..100 * random::rounds() {
        let plan = random.small_plan(150);
        let broken = broken_record(&mut random, &plan);
        let trial = Trial::with_any_marks(&plan, &mut random);
        let Trial { job, map, library: Buffers { marks, strips, output }, .. } = &trial;
        let needed = [job.marks(), job.strips(), job.pixels(), job.pixels()];
        let lend = |lengths: [usize; 4]| {
            let (marks, strips) = (marks.shortened(lengths[0]), strips.shortened(lengths[1]));
            (map.shortened(lengths[2]), Buffers { marks, strips, output: output.shortened(lengths[3]) })
        };
        for _ in 0..6 {
            let (task, block) = any_task_and_block(job, &mut random);
            let calls = [job::perform, model::perform].map(|perform| {
                move |plan: &Plan, (map, lent): &mut (Lent<i32>, Buffers)| {
                    let Buffers { marks, strips, output } = lent;
                    perform(plan, task, block, map.get(), marks.get_mut(), strips.get_mut(), output.get_mut())
                }
            });
            short.try_all([&plan, &broken], needed, lend, calls);
        }
    }
    short.expect_all(15, &[0, 8, 9, 10, 11]);
}

#[test]
fn short_marks_refuse_the_report_by_7_and_broken_ones_by_9_after_it() {
    let mut random = random::of_test("short_marks_refuse_the_report_by_7_and_broken_ones_by_9_after_it");
    let mut short = ShortBuffers::new([7]);
    for _ in 0..300 * random::rounds() {
        let plan = random.small_plan(150);
        let broken = broken_record(&mut random, &plan);
        let trial = Trial::with_any_marks(&plan, &mut random);
        let lend = |[length]: [usize; 1]| trial.library.marks.shortened(length);
        let calls =
            [report, model::report].map(|report| move |plan: &Plan, marks: &mut Lent<u32>| report(plan, marks.get()));
        short.try_all([&plan, &broken], [trial.job.marks()], lend, calls);
    }
    short.expect_all(1, &[0, 9]);
}

#[test]
fn plans_without_strips_need_no_strip_word() {
    let mut random = random::of_test("plans_without_strips_need_no_strip_word");
    let plan = random.plan(5, 5, 2, [0; 4]);
    let map = random.heights(25);
    assert_eq!(plan::sizes(&plan).unwrap().strips, 0);
    let (progress, output) = perform_what_the_report_names(&plan, &map);
    assert_eq!((progress.marked, output), (6 * 9 - 2 * 3 - 2 * 3, reference::serial(&plan, &map)));
}

#[test]
fn the_least_of_8_to_11_comes_first() {
    let mut random = random::of_test("the_least_of_8_to_11_comes_first");
    let plan = Plan::summed(6, 6, 2);
    let mut trial = Trial::new(&plan, &mut random);
    trial.start();
    // Block 4 is in the middle; its task 0 is marked, and the marks above, left, right and below are broken.
    for block in [1, 3, 5, 7] {
        trial.set_mark(block, 0);
    }
    trial.set_mark(4, NOTHING_DONE | 0x3F);
    assert_eq!(trial.perform(6, 4), Err(Refusal::NoSuchTask));
    assert_eq!(trial.perform(0, 4), Err(Refusal::AlreadyMarked));
    for (task, block) in [(1, 1), (2, 1), (3, 1), (4, 1), (5, 1)] {
        assert_eq!(trial.perform(task, 4), Err(Refusal::MarkBroken(block)));
    }
    // With the one above put right, the next one looked at is named: below for up, left for right, left and finish.
    trial.set_mark(1, NOTHING_DONE);
    for (task, answer) in [
        (1, Refusal::AlreadyMarked),
        (2, Refusal::MarkBroken(7)),
        (3, Refusal::MarkBroken(3)),
        (4, Refusal::MarkBroken(3)),
        (5, Refusal::MarkBroken(3)),
    ] {
        assert_eq!(trial.perform(task, 4), Err(answer));
    }
    trial.set_mark(3, NOTHING_DONE);
    for (task, block) in [(2, 7), (3, 7), (4, 5), (5, 5)] {
        assert_eq!(trial.perform(task, 4), Err(Refusal::MarkBroken(block)));
    }
    // All right, and the needs unmarked: marked tasks are refused 10, the others 11.
    trial.set_mark(5, NOTHING_DONE);
    trial.set_mark(7, NOTHING_DONE);
    for task in 0..6 {
        assert_eq!(trial.perform(task, 4), Err(Refusal::AlreadyMarked));
    }
    trial.set_mark(4, NOTHING_DONE);
    for task in 1..6 {
        assert_eq!(trial.perform(task, 4), Err(Refusal::NeedUnmarked));
    }
    // A border block has no link over the border, whatever its mark.
    trial.set_mark(0, 0);
    assert_eq!(trial.perform(2, 0), Err(Refusal::NoSuchTask));
    assert_eq!(trial.perform(4, 0), Err(Refusal::NoSuchTask));
    assert_eq!(trial.perform(1, 0), Err(Refusal::MarkBroken(0)));
    trial.compare();
}
