//! The benchmark of one block rescanned: a recall, and a recall with the work to finish the job again, beside the whole
//! job in natural order.
//!
//! `cargo run --release --bin rescan [-- --quick] [--size N] [--side N] [--repetitions N]` prints a Markdown table. The
//! block in the middle of a job that is done is recalled and gets other heights; then the tasks that are no longer
//! marked are performed in natural order. Every output is compared with that of the library's serial passes over the
//! new map; the best times count. It is a program of its own so that `bench` runs with archives from before there were
//! recalls too.

use checks::block_job::{BlockJob, Rescan};
use checks::measured::{map_of, milliseconds, plans, processor, Options};
use checks::model::Job;
use checks::random::Random;
use checks::serial_output;
use mulzhegat::{Plan, Task};
use std::time::{Duration, Instant};

/// The best times of a job and of its rescan.
struct Best {
    job: Duration,
    rescan: Rescan,
}

/// The map with other heights in one block.
fn rescanned(plan: &Plan, block: usize, map: &[i32]) -> Vec<i32> {
    let job = Job::of(plan).expect("the plan keeps the rules");
    let (block, mut map) = (job.block(block), map.to_vec());
    for row in block.top..block.top + block.height {
        map[row * job.columns + block.left..][..block.width].iter_mut().for_each(|height| *height /= 2);
    }
    map
}

fn measure(job: &mut BlockJob, plan: &Plan, map: &[i32], output: &mut [u64], repetitions: usize) -> Best {
    let block = job.middle();
    let new_map = rescanned(plan, block, map);
    let expected = serial_output(plan, &new_map);
    let mut best = Best { job: Duration::MAX, rescan: Rescan { recall: Duration::MAX, all: Duration::MAX, tasks: 0 } };
    for _ in 0..repetitions {
        let began = Instant::now();
        job.run_natural(map, output);
        best.job = best.job.min(began.elapsed());
        assert!(output != expected, "the block has other heights");
        let Rescan { recall, all, tasks } = job.rescan(block, &new_map, output);
        assert!(output == expected, "the output differs");
        best.rescan = Rescan { recall: recall.min(best.rescan.recall), all: all.min(best.rescan.all), tasks };
    }
    best
}

/// The rows of one plan with one block side. The time stands in the column where `bench` has it.
fn rows(label: &str, side: usize, job: &BlockJob, best: &Best) -> [String; 3] {
    let whole: usize = Task::ALL.iter().map(|&task| job.count(task)).sum();
    let ways = [
        ("job", best.job, whole),
        ("recall", best.rescan.recall, 0),
        ("recall and tasks", best.rescan.all, best.rescan.tasks),
    ];
    ways.map(|(way, time, tasks)| {
        let of_job = time.as_secs_f64() / best.job.as_secs_f64();
        format!("| {label} | {way}, side {side} | {:.4} | {tasks} | {of_job:.4} |", milliseconds(time))
    })
}

fn main() {
    let options = Options::of_command_line();
    println!("Processor: {}.", processor());
    println!("\n| map | way | best ms | tasks | of the job |\n|---|---|--:|--:|--:|");
    for (size, repetitions) in options.sizes() {
        let mut random = Random::new(size as u64);
        let map = map_of(size, &mut random);
        let mut output = vec![0; size * size];
        for (name, plan) in plans(size, 32, &mut random) {
            for side in options.sides() {
                let plan = Plan { side: side as i64, ..plan };
                let mut job = BlockJob::new(&plan);
                let best = measure(&mut job, &plan, &map, &mut output, repetitions);
                println!("{}", rows(&format!("{size} x {size}, {name}"), side, &job, &best).join("\n"));
            }
        }
    }
}
