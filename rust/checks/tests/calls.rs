//! Lists of calls: the program `calls_run` performs the first half of them with `job::run_calls` and the rest, recalls
//! among it, with `job::run_steps`, which C and Rust do not reach, and prints what is left of the job. The model of the
//! calls says what that is; `crates/calls_run/src/main.rt` says what the program reads.

use checks::model::{self, Job};
use checks::random::{self, MapsSeen, Random, Reached};
use mulzhegat::{Plan, Refusal};
use std::env;
use std::io::Write;
use std::ops::Range;
use std::path::PathBuf;
use std::process::{Command, Stdio};

/// What stands in the program's output buffer before the first call.
const UNWRITTEN: u64 = 77;
/// The most pixels of a map that the program takes.
const MOST_PIXELS: usize = 256;
/// The most calls that the program takes.
const MOST_CALLS: usize = 2048;
/// The number that stands for a recall in the second half of a list, and for no task in the first.
const RECALL: u32 = 6;

/// The program: `crates/calls_run/out/calls_run`, or the file named by `MULZHEGAT_CALLS_RUN`.
fn program() -> PathBuf {
    let built = || checks::repository().join("crates/calls_run/out/calls_run");
    let program = env::var_os("MULZHEGAT_CALLS_RUN").map_or_else(built, PathBuf::from);
    assert!(program.exists(), "{} is missing: make it with `rt run` in crates/calls_run", program.display());
    program
}

/// What the program writes on these words. It has to exit with status 0.
fn run(words: &[u32]) -> String {
    let input: Vec<u8> = words.iter().flat_map(|word| word.to_le_bytes()).collect();
    let mut command = Command::new(program());
    let mut child = command.stdin(Stdio::piped()).stdout(Stdio::piped()).spawn().expect("the program runs");
    // The program reads its whole input before it writes.
    child.stdin.take().unwrap().write_all(&input).unwrap();
    let output = child.wait_with_output().unwrap();
    assert!(output.status.success(), "{}", output.status);
    String::from_utf8(output.stdout).unwrap()
}

/// The words of a plan, the heights and the calls.
fn words_of(plan: &Plan, map: &[i32], calls: &[(u32, u32)]) -> Vec<u32> {
    let heights = map.iter().map(|&height| height as u32);
    let pairs = calls.iter().flat_map(|&(task, block)| [task, block]);
    model::words_of(plan).into_iter().chain(heights).chain(pairs).collect()
}

/// What the program is to write, the model's answer to each call, and whether all tasks are done at the end.
fn expected(plan: &Plan, map: &[i32], calls: &[(u32, u32)]) -> (String, Vec<Result<(), Refusal>>, bool) {
    let job = Job::of(plan).unwrap();
    let (mut marks, mut strips) = (vec![0; job.marks()], vec![0; job.strips()]);
    let mut output = vec![UNWRITTEN; job.pixels()];
    model::start(plan, &mut marks, &mut strips).unwrap();
    let mut answers = Vec::new();
    for (i, &(task, block)) in calls.iter().enumerate() {
        let recalls = task == RECALL && i >= calls.len() / 2;
        let (task, block) = (task as usize, block as usize);
        answers.push(if recalls {
            model::recall(plan, block, &mut marks)
        } else {
            model::perform(plan, task, block, map, &mut marks, &mut strips, &mut output)
        });
    }
    let whole = model::report(plan, &marks).unwrap().marked == model::sizes(plan).unwrap().tasks;
    let accepted = |answers: &[Result<(), Refusal>]| answers.iter().filter(|answer| answer.is_ok()).count();
    let (first, rest) = answers.split_at(calls.len() / 2);
    let listed = |words: Vec<String>| words.iter().map(|word| format!(" {word}")).collect::<String>();
    let text = format!(
        "accepted {} {}\nmarks{}\nstrips{}\noutput{}\n",
        accepted(first),
        accepted(rest),
        listed(marks.iter().map(|mark| format!("{mark:08x}")).collect()),
        listed(strips.iter().map(u64::to_string).collect()),
        listed(output.iter().map(u64::to_string).collect()),
    );
    (text, answers, whole)
}

/// All pairs of a task and a block, some rounds of them, each shuffled: whole, or task by task so that more are ready.
/// Calls of tasks and blocks that no job has stand among them, and in most lists recalls, few or many, of any block.
fn list_of_calls(job: &Job, random: &mut Random) -> Vec<(u32, u32)> {
    let blocks = job.marks() as u32;
    let foreign = [7, 8, 32, 1 << 31, u32::MAX];
    let no_blocks = [blocks, blocks + 1, 1 << 31, u32::MAX];
    let recall_once_in = random.pick(&[10, 60, 300, usize::MAX]);
    let mut calls = Vec::new();
    for _ in 0..random.between(1, 6) {
        let mut round: Vec<(u32, u32)> = (0..6).flat_map(|task| (0..blocks).map(move |block| (task, block))).collect();
        random.shuffle(&mut round);
        if random.once_in(2) {
            round.sort_by_key(|&(task, _)| task);
        }
        for call in round {
            match random.below(12) {
                0 => calls.push((random.pick(&foreign), random.below(job.marks()) as u32)),
                1 => calls.push((random.below(7) as u32, random.pick(&no_blocks))),
                2 => continue,
                _ => (),
            }
            calls.push(call);
            if random.once_in(recall_once_in) {
                calls.push((RECALL, random.below(job.marks()) as u32));
            }
        }
    }
    calls.truncate(random.pick(&[MOST_CALLS, MOST_CALLS, calls.len() / 2, calls.len() / 3, 1, 0]));
    calls
}

/// All tasks in an order of their needs, recalls of any blocks with the middle of the list among them, and all tasks
/// again.
fn list_done_again(job: &Job, random: &mut Random) -> Vec<(u32, u32)> {
    let blocks = job.marks() as u32;
    let whole = (0..6).flat_map(|task| {
        // Up and left links need those of the block below or on the right.
        let backward = task == 2 || task == 4;
        (0..blocks).map(move |block| (task, if backward { blocks - 1 - block } else { block }))
    });
    let recalls = Vec::from_iter((0..random.between(2, 9)).map(|_| (RECALL, random.below(job.marks()) as u32)));
    let mut calls = Vec::from_iter(whole.clone().chain(recalls).chain(whole));
    calls.truncate(MOST_CALLS);
    calls
}

#[test]
fn example_map_in_an_order_of_its_needs() {
    // The six tasks of 2 by 3 with b = 2, worked out by hand: see the model's own test of this job.
    let calls = [(0, 0), (0, 1), (3, 0), (4, 1), (5, 0), (5, 1)];
    let text = "accepted 3 3\nmarks 70000029 70000031\n\
                strips 0 0 3 12 0 0 3 12 0 0 0 0 0 0 0 0\noutput 1 3 6 5 12 21\n";
    assert_eq!(run(&words_of(&Plan::summed(2, 3, 2), &[1, 2, 3, 4, 5, 6], &calls)), text);
}

#[test]
fn example_map_with_a_block_recalled_and_collected_again() {
    // In the first half 6 is no task. In the second the recall of block 1 takes its two tasks and the finish of block
    // 0, whose output stays; the right link of block 0 does not need block 1. A second recall finds it not collected.
    let calls = [(0, 0), (0, 1), (3, 0), (4, 1), (6, 1), (5, 0), (6, 1), (6, 1), (0, 1), (4, 1)];
    let text = "accepted 4 4\nmarks 70000009 70000011\n\
                strips 0 0 3 12 0 0 3 12 0 0 0 0 0 0 0 0\noutput 1 3 77 5 12 77\n";
    assert_eq!(run(&words_of(&Plan::summed(2, 3, 2), &[1, 2, 3, 4, 5, 6], &calls)), text);
}

#[test]
fn example_map_without_calls() {
    let text =
        "accepted 0 0\nmarks 70000000 70000000\nstrips 0 0 0 0 0 0 0 0 0 0 0 0 0 0 0 0\noutput 77 77 77 77 77 77\n";
    assert_eq!(run(&words_of(&Plan::summed(2, 3, 2), &[1, 2, 3, 4, 5, 6], &[])), text);
}

#[test]
fn refused_plans_print_one_line() {
    assert_eq!(run(&[]), "refused 1 at 0\n");
    assert_eq!(run(&[0x20000002]), "refused 2 at 0\n");
}

#[test]
fn random_lists_with_early_repeated_and_foreign_calls_and_recalls() {
    let mut random = random::of_test("random_lists_with_early_repeated_and_foreign_calls_and_recalls");
    let (mut accepted, mut seen, mut whole_jobs) = (0, [0; 18], 0);
    let (mut recalled, mut too_early, mut whole_again) = (0, 0, 0);
    let (mut reached, mut maps) = (Reached::default(), MapsSeen::default());
    for _ in 0..500 * random::rounds() {
        let plan = random.small_plan(MOST_PIXELS);
        reached.note(&plan);
        let job = Job::of(&plan).unwrap();
        let map = random.heights(job.pixels());
        maps.note(&map);
        let calls =
            if random.once_in(4) { list_done_again(&job, &mut random) } else { list_of_calls(&job, &mut random) };
        let (text, answers, whole) = expected(&plan, &map, &calls);
        let mut words = words_of(&plan, &map, &calls);
        if random.once_in(4) {
            // A task without a block is no call.
            words.push(0);
        }
        assert_eq!(run(&words), text, "calls {calls:?} of {plan:?}");
        accepted += answers.iter().filter(|answer| answer.is_ok()).count();
        answers.iter().filter_map(|answer| answer.err()).for_each(|refusal| seen[refusal.number() as usize] += 1);
        let sixes = |half: Range<usize>| half.filter(|&i| calls[i].0 == RECALL);
        let half = calls.len() / 2;
        let cleared = sixes(half..calls.len()).filter(|&i| answers[i].is_ok()).count();
        recalled += cleared;
        // In the first half 6 is refused also where a recall would be accepted: at a block that is collected.
        too_early +=
            sixes(0..half).filter(|&i| (0..i).any(|j| calls[j] == (0, calls[i].1) && answers[j].is_ok())).count();
        whole_jobs += usize::from(whole);
        whole_again += usize::from(whole && cleared > 0);
    }
    assert!(accepted > 2_000 && whole_jobs > 50, "{accepted} accepted, {whole_jobs} whole jobs");
    assert!([8, 10, 11].iter().all(|&number| seen[number] > 3_000), "refused by number: {seen:?}");
    assert!(recalled > 200 && seen[17] > 80, "{recalled} recalls accepted, {} refused by 17", seen[17]);
    assert!(too_early > 200 && whole_again > 50, "{too_early} recalls too early, {whole_again} jobs whole again");
    reached.expect_all_orders();
    maps.expect_each(20);
}
