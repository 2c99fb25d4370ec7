//! What the tests and the benchmarks of `mulzhegat` stand on. Nothing here is part of the product.
//!
//! - [`reference`](mod@reference), a second serial program, [`model`], a slow model of all calls on one plan, and
//!   [`dispatcher`], one of the turns of several jobs: all are written from the paper that defines the calls, not from
//!   the library, and call nothing of it.
//! - [`needs`]: the table of needs, told again apart from the model.
//! - [`random`]: numbers, plans and maps from a seed that is printed.
//! - [`lent`]: buffers with watched words around them. [`short`]: calls that are lent too few words.
//! - [`passes`]: the serial passes, over heights and over words alike. [`trial`]: a job run by the library and by the
//!   model side by side.
//! - [`rectangles`]: four numbers inside and around a map, and tables whose corners make a word.
//! - [`records`]: plan records as words, and damage to them.
//! - [`control`]: jobs that share a list of marks. [`job_lists`]: lists of them, right or built to be refused.
//! - [`measured`] and [`block_job`]: what the benchmarks measure.

pub mod block_job;
pub mod control;
pub mod dispatcher;
pub mod job_lists;
pub mod lent;
pub mod measured;
pub mod model;
pub mod needs;
pub mod passes;
pub mod random;
pub mod records;
pub mod rectangles;
pub mod reference;
pub mod short;
pub mod trial;

use mulzhegat::Plan;
use passes::Pixel;
use std::path::{Path, PathBuf};

/// The output of the library's serial passes over a map of heights or of words.
pub fn serial_output<T: Pixel>(plan: &Plan, map: &[T]) -> Vec<u64> {
    let [library, _] = T::CALLS;
    let mut output = vec![0x5555; map.len()];
    library(plan, map, &mut output).unwrap();
    output
}

/// The root of the repository.
pub fn repository() -> PathBuf {
    Path::new(env!("CARGO_MANIFEST_DIR")).join("../..")
}
