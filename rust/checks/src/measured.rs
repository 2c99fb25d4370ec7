//! What the two benchmarks measure: the command line, the plans, the map.

use crate::random::Random;
use mulzhegat::Plan;
use std::time::Duration;

/// What the command line asks for.
pub struct Options {
    quick: bool,
    size: Option<usize>,
    side: Option<usize>,
    /// The file to draw in.
    pub svg: Option<String>,
    repetitions: Option<usize>,
}

impl Options {
    /// Reads the command line, or says how to use it and ends.
    pub fn of_command_line() -> Options {
        let mut options = Options { quick: false, size: None, side: None, svg: None, repetitions: None };
        let mut arguments = std::env::args().skip(1);
        let number = |text: Option<String>| text.and_then(|text| text.parse().ok()).filter(|&number| number > 0);
        while let Some(argument) = arguments.next() {
            match argument.as_str() {
                "--quick" => options.quick = true,
                "--size" => options.size = Some(number(arguments.next()).unwrap_or_else(|| usage())),
                "--side" => options.side = Some(number(arguments.next()).unwrap_or_else(|| usage())),
                "--svg" => options.svg = Some(arguments.next().unwrap_or_else(|| usage())),
                "--repetitions" => options.repetitions = Some(number(arguments.next()).unwrap_or_else(|| usage())),
                _ => usage(),
            }
        }
        options
    }

    /// The rows, which are the columns too, of the maps, each with the number of repetitions.
    pub fn sizes(&self) -> Vec<(usize, usize)> {
        let usual: &[(usize, usize)] = if self.quick { &[(1024, 3)] } else { &[(1024, 25), (4096, 11)] };
        let sizes = self.size.map_or(usual.to_vec(), |size| vec![(size, 11)]);
        sizes.into_iter().map(|(size, usual)| (size, self.repetitions.unwrap_or(usual))).collect()
    }

    /// The block sides.
    pub fn sides(&self) -> Vec<usize> {
        self.side.map_or(vec![32, 8], |side| vec![side])
    }
}

fn usage() -> ! {
    eprintln!("options: [--quick] [--size N] [--side N] [--repetitions N], and for `bench` [--svg FILE]");
    std::process::exit(2)
}

/// The model of the processor, from /proc/cpuinfo.
pub fn processor() -> String {
    let text = std::fs::read_to_string("/proc/cpuinfo").unwrap_or_default();
    let named = text.lines().find_map(|line| line.strip_prefix("model name")?.split_once(": "));
    let count = text.lines().filter(|line| line.starts_with("processor")).count();
    format!("{}, {count} processors", named.map_or("unknown", |(_, model)| model.trim()))
}

/// A map of any heights. No dropout: programs that are compared with the library take every height as it is.
pub fn map_of(size: usize, random: &mut Random) -> Vec<i32> {
    (0..size * size).map(|_| (random.word() as i32).max(-i32::MAX)).collect()
}

/// The plans measured: the summed table, and all passes of one order with numbers of full width.
pub fn plans(size: usize, side: usize, random: &mut Random) -> Vec<(&'static str, Plan)> {
    let mut full_width = |order: usize| {
        let mut plan = random.plan(size, size, side, [order; 4]);
        let numbers = plan
            .passes
            .iter_mut()
            .flat_map(|pass| std::iter::once(&mut pass.gain).chain(&mut pass.coefficients[..order]));
        numbers.for_each(|number| *number = (random.word() >> 36) as i64 - 134217728);
        plan
    };
    vec![
        ("summed table", Plan::summed(size, size, side)),
        ("order 1", full_width(1)),
        ("order 2", full_width(2)),
        ("order 4", full_width(4)),
        ("order 8", full_width(8)),
    ]
}

/// A time in milliseconds.
pub fn milliseconds(time: Duration) -> f64 {
    time.as_secs_f64() * 1e3
}
