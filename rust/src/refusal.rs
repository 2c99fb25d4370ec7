//! The refusals of all calls, with their numbers and places.

use std::fmt;

/// Why a call was refused. The cases have the names of the verified library's own, and of the constants in
/// `mulzhegat.h`: there [`Refusal::WordsEndEarly`] is `MZG_WORDS_END_EARLY`.
#[derive(Clone, Copy, Debug, PartialEq, Eq)]
pub enum Refusal {
    /// 1: plan words end too early; the number of words.
    WordsEndEarly(u32),
    /// 2: another kind is due at this word.
    AnotherKindDue(u32),
    /// 3: payload or order out of range, or wrong pass, at this word.
    OutOfRange(u32),
    /// 4, at place 1: the block side is below an order.
    SideBelowOrder,
    /// 5: words after the end word; the first of them.
    WordsAfterEnd(u32),
    /// 6: the plan record or a job record breaks a rule, or there are more than eight job records.
    RecordBreaksRule,
    /// 7: the marks, the plan writer's words or the rectangle's table are too short; strips, map and output have
    /// numbers of their own.
    BufferTooShort,
    /// 8: no such block, or the block has no such task.
    NoSuchTask,
    /// 9: a mark looked at has a wrong kind or a spare bit; the least such block, or, of
    /// [`dispatch::next_turn`](crate::dispatch::next_turn), the least such index in the common list of marks. Indices
    /// from `u32::MAX` on, which only lists of 2^32 marks or more have, are all answered as `u32::MAX`.
    MarkBroken(u32),
    /// 10: the task is already marked.
    AlreadyMarked,
    /// 11: a need is unmarked.
    NeedUnmarked,
    /// 12: top > bottom, left > right, bottom > rows or right > columns.
    RectangleOutside,
    /// 14: the strips are too short.
    StripsTooShort,
    /// 15: the map is too short.
    MapTooShort,
    /// 16: the output is too short.
    OutputTooShort,
    /// 17: the block to recall is not collected.
    BlockNotCollected,
    /// 18: the marks of a job run past the common list or overlap another's; the least such job.
    JobMisplaced(usize),
    /// An answer with a number, or a place beside its number, that no call gives.
    Unknown(u64),
}

impl Refusal {
    /// Reads an answer of the library: 0, or number * 2^32 + place.
    pub fn check(answer: u64) -> Result<(), Refusal> {
        let place = answer as u32;
        Err(match (answer >> 32, place) {
            (0, 0) => return Ok(()),
            (1, _) => Refusal::WordsEndEarly(place),
            (2, _) => Refusal::AnotherKindDue(place),
            (3, _) => Refusal::OutOfRange(place),
            (4, 1) => Refusal::SideBelowOrder,
            (5, _) => Refusal::WordsAfterEnd(place),
            (6, 0) => Refusal::RecordBreaksRule,
            (7, 0) => Refusal::BufferTooShort,
            (8, 0) => Refusal::NoSuchTask,
            (9, _) => Refusal::MarkBroken(place),
            (10, 0) => Refusal::AlreadyMarked,
            (11, 0) => Refusal::NeedUnmarked,
            (12, 0) => Refusal::RectangleOutside,
            (14, 0) => Refusal::StripsTooShort,
            (15, 0) => Refusal::MapTooShort,
            (16, 0) => Refusal::OutputTooShort,
            (17, 0) => Refusal::BlockNotCollected,
            (18, 0..=7) => Refusal::JobMisplaced(place as usize),
            _ => Refusal::Unknown(answer),
        })
    }

    /// The number of the cause: 1 to 12 or 14 to 18, since no call of this crate answers the program's own 13; of
    /// [`Refusal::Unknown`] the number that was answered.
    pub fn number(self) -> u32 {
        match self {
            Refusal::WordsEndEarly(_) => 1,
            Refusal::AnotherKindDue(_) => 2,
            Refusal::OutOfRange(_) => 3,
            Refusal::SideBelowOrder => 4,
            Refusal::WordsAfterEnd(_) => 5,
            Refusal::RecordBreaksRule => 6,
            Refusal::BufferTooShort => 7,
            Refusal::NoSuchTask => 8,
            Refusal::MarkBroken(_) => 9,
            Refusal::AlreadyMarked => 10,
            Refusal::NeedUnmarked => 11,
            Refusal::RectangleOutside => 12,
            Refusal::StripsTooShort => 14,
            Refusal::MapTooShort => 15,
            Refusal::OutputTooShort => 16,
            Refusal::BlockNotCollected => 17,
            Refusal::JobMisplaced(_) => 18,
            Refusal::Unknown(answer) => (answer >> 32) as u32,
        }
    }

    /// The place beside the number.
    pub fn place(self) -> u32 {
        match self {
            Refusal::WordsEndEarly(place)
            | Refusal::AnotherKindDue(place)
            | Refusal::OutOfRange(place)
            | Refusal::WordsAfterEnd(place)
            | Refusal::MarkBroken(place) => place,
            Refusal::SideBelowOrder => 1,
            Refusal::JobMisplaced(job) => job as u32,
            Refusal::Unknown(answer) => answer as u32,
            _ => 0,
        }
    }
}

/// The number, the place and the name.
impl fmt::Display for Refusal {
    fn fmt(&self, f: &mut fmt::Formatter<'_>) -> fmt::Result {
        write!(f, "refused {} at {}: {self:?}", self.number(), self.place())
    }
}

impl std::error::Error for Refusal {}

#[cfg(test)]
mod tests {
    use super::Refusal;

    #[test]
    fn refusals_are_shown_with_number_place_and_name() {
        assert_eq!(Refusal::StripsTooShort.to_string(), "refused 14 at 0: StripsTooShort");
        assert_eq!(Refusal::MarkBroken(5).to_string(), "refused 9 at 5: MarkBroken(5)");
        assert_eq!(Refusal::JobMisplaced(7).to_string(), "refused 18 at 7: JobMisplaced(7)");
    }

    #[test]
    fn answers_are_read_and_written_back() {
        assert_eq!(Refusal::check(0), Ok(()));
        for number in 0..20u64 {
            for place in [0u64, 1, 2, 7, 8, 4096, u64::from(u32::MAX)] {
                let answer = number << 32 | place;
                if answer == 0 {
                    continue;
                }
                let refusal = Refusal::check(answer).expect_err("only 0 is accepted");
                assert_eq!(u64::from(refusal.number()) << 32 | u64::from(refusal.place()), answer);
                let place_is_free = matches!(number, 1 | 2 | 3 | 5 | 9) || number == 18 && place < 8;
                let place_is_right = place_is_free || place == u64::from(number == 4);
                let known = matches!(number, 1..=12 | 14..=18) && place_is_right;
                assert_eq!(refusal == Refusal::Unknown(answer), !known, "{refusal}");
            }
        }
    }
}
