//! Safe calls into `libmulzhegat.a`, a verified library that runs recursive filters over height maps block by block.
//!
//! - [`plan`]: plan words to a plan record and back, and the buffer lengths that a plan needs.
//! - [`serial`]: the four passes over a whole map, of heights or of words, and the sum over a rectangle of a
//!   summed-area table.
//! - [`macros`]: total and number of pixels of a rectangle as macro variables of a control, exact or vacant.
//! - [`dropouts`]: how many pixels of a rectangle the laser's head has not seen.
//! - [`job`]: start a job, perform its tasks in any order that respects their needs, report progress, recall a block
//!   that is scanned again.
//! - [`dispatch`]: whose turn it is of several jobs on one control.
//!
//! A map has rows * columns heights, row after row. Where the beam gets no return the head writes
//! [`dropouts::DROPOUT`]: collect and finish of a job and the serial passes read it as 0, and every other height as it
//! is. A map of words ([`serial::run_words`]) has a 64-bit word for each pixel, and none of them stands for a dropout.
//!
//! Slices go in and `Result<_, Refusal>` comes out; the errors of a call are listed by the numbers of [`Refusal`], in
//! the order in which they are tested. A refused call leaves every lent slice as it was; words past the needed length
//! are never altered. `include/mulzhegat.h` has the same calls for C. What it asks of pointers (not null, aligned for
//! their type, no two overlapping) holds here by borrowing: what a call writes is borrowed mutably. The archive must be
//! of this crate's version: the length of a plan record follows [`MAX_ORDER`]. [`job::perform`] takes less than 26 KiB
//! of stack, every other call less than 4 KiB (the C library may take some 3 KiB more where it binds `memcpy` or
//! `memset` at their first call).

pub mod dispatch;
pub mod dropouts;
pub mod job;
pub mod macros;
pub mod plan;
mod refusal;
pub mod serial;
mod types;

pub use refusal::Refusal;
pub use types::{Pass, Plan, Progress, Sizes, Task, DOWN, LEFT, MAX_ORDER, RIGHT, UP};
