//! Calls that are lent too few words: every choice of lengths, what refuses it, and which choices were tried.

use mulzhegat::{Plan, Refusal};
use std::array::from_fn;
use std::collections::{BTreeMap, BTreeSet};
use std::fmt::Debug;

/// How many words a buffer has. One that needs a single word and has none is empty.
#[derive(Clone, Copy, Debug, PartialEq, Eq, PartialOrd, Ord)]
enum Length {
    Empty,
    OneShort,
    Needed,
}

/// A call with N buffers, and the lengths that refused it.
pub struct ShortBuffers<const N: usize> {
    numbers: [u32; N],
    /// By the number, 0 if accepted, with which the call is answered where the words are enough.
    refused: BTreeMap<u32, BTreeSet<[Length; N]>>,
}

impl<const N: usize> ShortBuffers<N> {
    /// A call that tests its buffers in this order: for each of them, the number that refuses the call if it is short.
    pub fn new(numbers: [u32; N]) -> ShortBuffers<N> {
        ShortBuffers { numbers, refused: BTreeMap::new() }
    }

    /// Makes the library's and the model's call with all choices of lengths. The first short buffer is to refuse it, a
    /// broken record by 6 before that, and a refused call is to leave everything lent as it was; with enough words the
    /// two calls are to do the same.
    pub fn try_all<B: Clone + PartialEq, T: Debug + PartialEq>(
        &mut self,
        [plan, broken]: [&Plan; 2],
        needed: [usize; N],
        lend: impl Fn([usize; N]) -> B,
        [library, model]: [impl Fn(&Plan, &mut B) -> Result<T, Refusal>; 2],
    ) {
        let (mut lent, mut modelled) = (lend(needed), lend(needed));
        let answer = model(plan, &mut modelled);
        assert_eq!(library(plan, &mut lent), answer, "lengths {needed:?} of {plan:?}");
        assert!(lent == modelled, "the buffers differ, lengths {needed:?} of {plan:?}");
        let refused = self.refused.entry(answer.map_or_else(Refusal::number, |_| 0)).or_default();
        for lengths in choices(needed) {
            let before = lend(lengths);
            expect_refused(&library, broken, &before, lengths, 6);
            expect_refused(&model, broken, &before, lengths, 6);
            if let Some(first) = (0..N).find(|&place| lengths[place] < needed[place]) {
                expect_refused(&library, plan, &before, lengths, self.numbers[first]);
                expect_refused(&model, plan, &before, lengths, self.numbers[first]);
                refused.insert(from_fn(|place| kind(lengths[place], needed[place])));
            }
        }
    }

    /// With enough words the call was answered by each of these numbers and no other. Before each of them so many sets
    /// of short buffers refused it, every buffer in a set being empty in some calls and lacking one word in others.
    pub fn expect_all(&self, sets: usize, answers: &[u32]) {
        assert!(self.refused.keys().eq(answers), "{:?} instead of {answers:?}", self.refused.keys());
        for (answer, lengths) in &self.refused {
            let short = |lengths: &[Length; N]| lengths.map(|length| length != Length::Needed);
            let seen: BTreeSet<[bool; N]> = lengths.iter().map(short).collect();
            assert_eq!((seen.len(), lengths.len()), (sets, 3usize.pow(N as u32) - 1), "before {answer}");
        }
    }
}

/// All choices of no word, one less than needed and as many as needed for each buffer.
fn choices<const N: usize>(needed: [usize; N]) -> impl Iterator<Item = [usize; N]> {
    (0..3usize.pow(N as u32)).map(move |choice| {
        from_fn(|place| [0, needed[place].saturating_sub(1), needed[place]][choice / 3usize.pow(place as u32) % 3])
    })
}

fn kind(length: usize, needed: usize) -> Length {
    if length >= needed {
        Length::Needed
    } else if length == 0 {
        Length::Empty
    } else {
        Length::OneShort
    }
}

/// A call that a number refuses at place 0, and that leaves all that it is lent as it was.
#[track_caller]
fn expect_refused<const N: usize, B: Clone + PartialEq, T: Debug>(
    call: impl Fn(&Plan, &mut B) -> Result<T, Refusal>,
    plan: &Plan,
    before: &B,
    lengths: [usize; N],
    number: u32,
) {
    let mut lent = before.clone();
    let answer = call(plan, &mut lent).map_err(|refusal| (refusal.number(), refusal.place()));
    assert_eq!(answer.err(), Some((number, 0)), "lengths {lengths:?} of {plan:?}");
    assert!(lent == *before, "a refused call wrote, lengths {lengths:?} of {plan:?}");
}
