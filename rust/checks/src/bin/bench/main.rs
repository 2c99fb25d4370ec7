//! The benchmark: the library against two serial programs in Rust.
//!
//! `cargo run --release --bin bench [-- --quick] [--size N] [--side N] [--svg FILE] [--repetitions N]` prints Markdown
//! tables; `--svg` draws the ratios, `--size` and `--side` leave one map and one block side. All ways run on the same
//! map into the same output, turn by turn; every output is compared with that of the plain program, and the best time
//! of each way counts. A block job's time has everything in it: start, and for each task the checks, the strips and the
//! marks.

mod baseline;
mod chart;

use chart::Group;
use checks::block_job::BlockJob;
use checks::measured::{map_of, milliseconds, plans, processor, Options};
use checks::random::Random;
use mulzhegat::{serial, Plan, Task};
use std::time::{Duration, Instant};

/// Runs the four passes over a map into an output.
type Run<'a> = Box<dyn FnMut(&[i32], &mut [u64]) + 'a>;

/// A way of running the four passes, with its best time so far.
struct Way<'a> {
    name: String,
    run: Run<'a>,
    best: Duration,
}

impl<'a> Way<'a> {
    fn new(name: impl Into<String>, run: impl FnMut(&[i32], &mut [u64]) + 'a) -> Way<'a> {
        Way { name: name.into(), run: Box::new(run), best: Duration::MAX }
    }
}

/// Runs all ways turn by turn. The first turn warms up and compares only.
fn measure(ways: &mut [Way], map: &[i32], output: &mut [u64], repetitions: usize) {
    let mut expected = Vec::new();
    for turn in 0..=repetitions {
        for way in ways.iter_mut() {
            if turn == 0 {
                output.fill(0x5555555555555555);
            }
            let began = Instant::now();
            (way.run)(map, output);
            let time = began.elapsed();
            if expected.is_empty() {
                expected = output.to_vec();
            }
            assert!(output == expected, "the output of {} differs", way.name);
            if turn > 0 {
                way.best = way.best.min(time);
            }
        }
    }
}

/// The rows of the table of task kinds.
fn kind_rows(label: &str, side: usize, job: &BlockJob, best: &[Duration; 6]) -> Vec<String> {
    let each = Task::ALL.map(|task| best[task.number()].as_secs_f64() * 1e6 / job.count(task).max(1) as f64);
    let row = |task: Task| {
        let (count, time) = (job.count(task), each[task.number()]);
        format!("| {label} | {side} | {} {task:?} | {count} | {time:.2} | {:.3} |", task.number(), time / each[5])
    };
    Task::ALL.map(row).to_vec()
}

/// Measures one plan on one map: the rows of the tables, and the bars.
fn measure_plan(
    label: &str,
    plan: &Plan,
    sides: &[usize],
    map: &[i32],
    output: &mut [u64],
    repetitions: usize,
) -> (Vec<String>, Vec<String>, Group) {
    let size = plan.rows as usize;
    let filters = baseline::filters(plan);
    let jobs = Vec::from_iter(sides.iter().map(|&side| {
        let job = BlockJob::new(&Plan { side: side as i64, ..*plan });
        (side, std::cell::RefCell::new(job), std::cell::Cell::new([Duration::MAX; 6]))
    }));
    let mut ways = vec![
        Way::new("plain Rust", |map, output| baseline::plain(map, output, size, size, &filters)),
        Way::new("strong Rust", |map, output| baseline::strong(map, output, size, size, &filters)),
        Way::new("library serial", |map, output| serial::run(plan, map, output).expect("serial is accepted")),
    ];
    for (side, job, best) in &jobs {
        ways.push(Way::new(format!("job, side {side}, natural"), move |map, output| {
            let times = job.borrow_mut().run_natural(map, output);
            let known = best.get();
            best.set(std::array::from_fn(|task| known[task].min(times[task])));
        }));
        ways.push(Way::new(format!("job, side {side}, shuffled"), move |map, output| {
            job.borrow_mut().run_shuffled(map, output)
        }));
    }
    measure(&mut ways, map, output, repetitions);
    let (plain, strong) = (milliseconds(ways[0].best), milliseconds(ways[1].best));
    let (mut rows, mut bars) = (Vec::new(), Vec::new());
    for way in &ways {
        let time = milliseconds(way.best);
        let pixel = time * 1e6 / (size * size) as f64;
        rows.push(format!(
            "| {label} | {} | {time:.1} | {pixel:.2} | {:.2} | {:.2} |",
            way.name,
            time / plain,
            time / strong
        ));
        bars.push((way.name.clone(), time / plain));
    }
    bars.remove(0);
    drop(ways);
    let kinds = jobs.iter().flat_map(|(side, job, best)| kind_rows(label, *side, &job.borrow(), &best.get())).collect();
    (rows, kinds, Group { title: label.to_string(), bars })
}

fn main() {
    let options = Options::of_command_line();
    println!("Processor: {}.", processor());
    println!("\n| map | way | best ms | ns a pixel | times plain | times strong |\n|---|---|--:|--:|--:|--:|");
    let (mut kinds, mut groups) = (Vec::new(), Vec::new());
    for (size, repetitions) in options.sizes() {
        let mut random = Random::new(size as u64);
        let map = map_of(size, &mut random);
        let mut output = vec![0; size * size];
        for (name, plan) in plans(size, 32, &mut random) {
            let label = format!("{size} x {size}, {name}");
            let (rows, more_kinds, group) =
                measure_plan(&label, &plan, &options.sides(), &map, &mut output, repetitions);
            println!("{}", rows.join("\n"));
            kinds.extend(more_kinds);
            groups.push(group);
        }
    }
    println!("\n| map | side | task | number | best \u{b5}s each | of a finish |\n|---|--:|---|--:|--:|--:|");
    println!("{}", kinds.join("\n"));
    if let Some(file) = options.svg {
        let drawing =
            chart::draw("Time as a multiple of the plain Rust program (1 = as fast; shorter is faster)", &groups);
        std::fs::write(&file, drawing).unwrap_or_else(|error| panic!("{file} cannot be written: {error}"));
        eprintln!("wrote {file}");
    }
}
