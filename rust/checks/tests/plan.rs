//! Plan words and plan records: the examples of the paper, and the library against the model.

use checks::lent::Lent;
use checks::model;
use checks::random::{self, Random, Reached};
use checks::records::{all_orders, broken_record, damages, fields, plan_of, RECORD_WORDS};
use mulzhegat::{plan, Pass, Plan, Refusal, Sizes, DOWN, LEFT, RIGHT, UP};

/// The words of the longest plan: order 8 in all passes.
const MOST_WORDS: usize = 43;

/// Words that are not zero, so that a record left unwritten shows.
fn unwritten_plan() -> Plan {
    plan_of(&[-77; RECORD_WORDS])
}

fn unwritten_sizes() -> Sizes {
    Sizes { words: 77, block_rows: 77, block_columns: 77, marks: 77, strips: 77, pixels: 77, tasks: 77 }
}

/// Reads words and compares answer and record with the model; accepted words are written back and must be the same.
fn read_and_compare(words: &[u32], calls: &mut usize) -> Result<Plan, Refusal> {
    let mut record = unwritten_plan();
    let answer = plan::read_into(words, &mut record);
    let expected = model::read(words);
    assert_eq!(answer, expected.map(|_| ()), "words {words:x?}");
    assert_eq!(record, expected.unwrap_or_default(), "words {words:x?}");
    *calls += 1;
    if expected.is_ok() {
        let mut written = vec![0; words.len()];
        assert_eq!(plan::write(&record, &mut written), Ok(()), "words {words:x?}");
        assert_eq!(written, words);
        *calls += 1;
    }
    expected
}

/// Asks for the sizes and writes the words of a record into a roomy buffer, and compares both with the model.
fn use_and_compare(record: &Plan, random: &mut Random, calls: &mut usize) {
    let mut sizes = unwritten_sizes();
    let answer = plan::sizes_into(record, &mut sizes);
    let expected = model::sizes(record);
    assert_eq!(answer, expected.map(|_| ()), "{record:?}");
    assert_eq!(sizes, expected.unwrap_or_default(), "{record:?}");
    let mut library = Lent::new(MOST_WORDS + 3, || random.word() as u32);
    let mut modelled = library.clone();
    let answer = plan::write(record, library.get_mut());
    assert_eq!(answer, model::write(record, modelled.get_mut()), "{record:?}");
    assert_eq!(library, modelled, "{record:?}");
    *calls += 2;
}

fn any_plan(random: &mut Random) -> Plan {
    let length = |random: &mut Random| match random.below(3) {
        0 => random.pick(&[1, 2, 4095, 4096]),
        _ => random.between(1, 4096),
    };
    let (rows, columns) = (length(random), length(random));
    let side = random.between(1, 32);
    let orders = random.orders(side);
    random.plan(rows, columns, side, orders)
}

const PROGRAM_WORDS: [u32; 13] = [
    0x10004003, 0x20000002, 0x30000001, 0x40000001, 0x5FFFFFFF, 0x30000010, 0x40000001, 0x30000021, 0x40000001,
    0x5FFFFFFF, 0x30000030, 0x40000001, 0x60000000,
];

#[test]
fn example_plan_words_of_the_program() {
    assert_eq!(plan::read(&PROGRAM_WORDS), Ok(Plan::summed(2, 3, 2)));
    let mut words = [0; 13];
    assert_eq!(plan::write(&Plan::summed(2, 3, 2), &mut words), Ok(()));
    assert_eq!(words, PROGRAM_WORDS);
}

#[test]
fn example_order_4_with_side_4_and_order_8_with_side_8_are_accepted_and_refused_4_with_a_side_one_less() {
    for (order, pass) in [4, 8].into_iter().flat_map(|order| [DOWN, UP, RIGHT, LEFT].map(|pass| (order, pass))) {
        let record = |side| Plan::plain(9, 9, side).with(pass, 1, &[1, 2, 3, 4, 5, 6, 7, 8][..order]);
        assert_eq!(plan::read(&model::words_of(&record(order))), Ok(record(order)));
        let refusal = plan::read(&model::words_of(&record(order - 1))).unwrap_err();
        assert_eq!((refusal.number(), refusal.place()), (4, 1));
    }
}

#[test]
fn example_order_9_is_refused_3() {
    let mut words = PROGRAM_WORDS.to_vec();
    words[1] = 0x20000009;
    words[2] = 0x30000009;
    words.splice(4..5, [0x5FFFFFFF; 9]);
    let refusal = plan::read(&words).unwrap_err();
    assert_eq!((refusal.number(), refusal.place()), (3, 2));
}

#[test]
fn a_plan_of_43_words_and_what_refuses_it() {
    let mut random = random::of_test("a_plan_of_43_words_and_what_refuses_it");
    let record = random.plan(9, 4096, 8, [8; 4]);
    let valid = model::words_of(&record);
    assert_eq!((valid.len(), plan::read(&valid)), (43, Ok(record)));
    let refused = |change: &dyn Fn(&mut Vec<u32>), number: u32, place: usize| {
        let mut words = valid.clone();
        change(&mut words);
        let refusal = plan::read(&words).unwrap_err();
        assert_eq!((refusal.number(), refusal.place()), (number, place as u32), "words {words:x?}");
    };
    refused(&|words| words.truncate(42), 1, 42);
    refused(&|words| words[42] = 0x50000000, 2, 42);
    refused(&|words| words.push(0x60000000), 5, 43);
    refused(&|words| words[1] = 0x20000007, 4, 1);
    // Pass words stand at 2, 12, 22 and 32, each with a gain and eight coefficients after it.
    for (number, at) in [2, 12, 22, 32].into_iter().enumerate() {
        for order in 9..16 {
            let with_order = |words: &mut Vec<u32>| {
                words[1] = 0x20000020;
                words[at] = 0x30000000 | (number << 4 | order) as u32;
                words.splice(at + 10..at + 10, vec![0x50000001; order - 8]);
            };
            refused(&with_order, 3, at);
        }
        // A coefficient less than the order says, then one more: of eight, and of seven.
        refused(&|words| words[at + 9] = 0x40000001, 2, at + 9);
        refused(&|words| words.insert(at + 10, 0x50000001), 2, at + 10);
        refused(&|words| words[at] -= 1, 2, at + 9);
    }
}

#[test]
fn plans_of_orders_up_to_4_keep_their_words_and_their_meaning() {
    let pass =
        |order, gain, [d1, d2, d3, d4]: [i64; 4]| Pass { order, gain, coefficients: [d1, d2, d3, d4, 0, 0, 0, 0] };
    // Orders 0 to 3, each in one pass.
    let words = [
        0x10006011, 0x20000007, // 3 rows, 17 columns, side 7
        0x30000000, 0x40000005, // down
        0x30000011, 0x4FFFFFFD, 0x50000009, // up
        0x30000022, 0x4000000B, 0x5FFFFFF9, 0x50000008, // right
        0x30000033, 0x48000001, 0x5FFFFFFF, 0x50000000, 0x57FFFFFE, // left
        0x60000000,
    ];
    let passes = [
        pass(0, 5, [0, 0, 0, 0]),
        pass(1, -3, [9, 0, 0, 0]),
        pass(2, 11, [-7, 8, 0, 0]),
        pass(3, -134217727, [-1, 0, 134217726, 0]),
    ];
    read_and_write_back(&words, Plan { rows: 3, columns: 17, side: 7, passes });
    // Order 4 in all passes: 27 words.
    let words = [
        0x12000FFF, 0x20000004, // 4,096 rows, 4,095 columns, side 4
        0x30000004, 0x48000000, 0x57FFFFFF, 0x58000000, 0x5FFFFFFF, 0x50000001, // down
        0x30000014, 0x47FFFFFF, 0x50000002, 0x5FFFFFFE, 0x50000000, 0x5FFFFFF0, // up
        0x30000024, 0x4FFFFFFF, 0x51234567, 0x5EDCBA99, 0x50010000, 0x5FFF0000, // right
        0x30000034, 0x40000000, 0x50000064, 0x5FFFFF9C, 0x500F4240, 0x5FF0BDC0, // left
        0x60000000,
    ];
    let passes = [
        pass(4, -134217728, [134217727, -134217728, -1, 1]),
        pass(4, 134217727, [2, -2, 0, -16]),
        pass(4, -1, [0x1234567, -0x1234567, 65536, -65536]),
        pass(4, 0, [100, -100, 1000000, -1000000]),
    ];
    read_and_write_back(&words, Plan { rows: 4096, columns: 4095, side: 4, passes });
}

/// Words that say this record, by the library and by the model, and that the library writes for it.
fn read_and_write_back(words: &[u32], record: Plan) {
    assert_eq!((plan::read(words), model::read(words)), (Ok(record), Ok(record)));
    let mut written = [77; MOST_WORDS];
    assert_eq!(plan::write(&record, &mut written), Ok(()));
    assert_eq!(written[..words.len()], *words);
    assert!(written[words.len()..].iter().all(|&word| word == 77));
}

#[test]
fn example_4096_rows_are_accepted_and_4097_refused_3() {
    let words = |rows: u32| {
        let mut words = PROGRAM_WORDS;
        words[0] = 1 << 28 | rows << 13 | 3;
        words
    };
    assert_eq!(plan::read(&words(4096)), Ok(Plan::summed(4096, 3, 2)));
    let refusal = plan::read(&words(4097)).unwrap_err();
    assert_eq!((refusal.number(), refusal.place()), (3, 0));
}

#[test]
fn example_no_words_are_refused_1_at_0() {
    let mut record = unwritten_plan();
    let refusal = plan::read_into(&[], &mut record).unwrap_err();
    assert_eq!((refusal.number(), refusal.place()), (1, 0));
    assert_eq!(record, Plan::default());
}

#[test]
fn example_one_block_has_two_tasks() {
    for side in [3, 4, 32] {
        let sizes = plan::sizes(&Plan::summed(2, 3, side)).unwrap();
        assert_eq!((sizes.block_rows, sizes.block_columns, sizes.tasks), (1, 1, 2));
    }
}

#[test]
fn example_2_by_3_with_side_2_has_six_tasks() {
    let sizes = plan::sizes(&Plan::summed(2, 3, 2)).unwrap();
    let expected = Sizes { words: 13, block_rows: 1, block_columns: 2, marks: 2, strips: 16, pixels: 6, tasks: 6 };
    assert_eq!(sizes, expected);
}

#[test]
fn the_first_cause_from_left_to_right_refuses() {
    let read = |words: &[u32]| plan::read(words).unwrap_err();
    let valid = model::words_of(&Plan::plain(4, 4, 1).with(DOWN, 1, &[7]));
    let changed = |changes: &[(usize, u32)]| {
        let mut words = valid.clone();
        for &(place, word) in changes {
            words[place] = word;
        }
        words
    };
    // At one word the kind comes before the payload.
    assert_eq!(read(&changed(&[(1, 0x30000000)])), Refusal::AnotherKindDue(1));
    assert_eq!(read(&changed(&[(0, 0x0FFFFFFF)])), Refusal::AnotherKindDue(0));
    // An early payload comes before a later kind, and before the end of the words.
    assert_eq!(read(&changed(&[(1, 0x20000000), (2, 0)])), Refusal::OutOfRange(1));
    assert_eq!(read(&changed(&[(1, 0x20000021)])[..2]), Refusal::OutOfRange(1));
    assert_eq!(read(&valid[..valid.len() - 1]), Refusal::WordsEndEarly(11));
    // Words after the end come after 1, 2 and 3, and before 4.
    let too_high = model::words_of(&Plan { side: 4, ..Plan::plain(4, 4, 4).with(DOWN, 1, &[1, 1]) });
    let mut below = too_high.clone();
    below[1] = 0x20000001;
    assert_eq!(read(&below), Refusal::SideBelowOrder);
    below.push(0x60000000);
    assert_eq!(read(&below), Refusal::WordsAfterEnd(13));
    below[12] = 0x60000001;
    assert_eq!(read(&below), Refusal::OutOfRange(12));
    below[12] = 0x70000000;
    assert_eq!(read(&below), Refusal::AnotherKindDue(12));
}

#[test]
fn payloads_at_the_ends_of_their_ranges() {
    let base = model::words_of(&Plan::plain(4, 4, 4).with(DOWN, 1, &[7]));
    // Places: 0 size, 1 block, 2 pass down, 3 gain, 4 coefficient, 5 pass up, 11 end.
    let accepted = |place: usize, payload: u32| {
        let mut words = base.clone();
        words[place] = words[place] >> 28 << 28 | payload;
        match read_and_compare(&words, &mut 0) {
            Ok(_) => true,
            Err(refusal) => {
                assert_eq!((refusal.number(), refusal.place()), (3, place as u32));
                false
            }
        }
    };
    let size = |rows: u32, columns: u32| rows << 13 | columns;
    for (rows, columns, expected) in [
        (1, 1, true),
        (4096, 4096, true),
        (0, 1, false),
        (1, 0, false),
        (4097, 1, false),
        (1, 4097, false),
        (8191, 1, false),
        (1, 8191, false),
        (8192 + 1, 1, false),
        (2 * 8192 + 1, 1, false),
        (3 * 8192 + 4096, 1, false),
    ] {
        assert_eq!(accepted(0, size(rows, columns)), expected, "{rows} rows, {columns} columns");
    }
    for (side, expected) in [(0, false), (1, true), (32, true), (33, false), (64 + 4, false), ((1 << 27) + 4, false)] {
        assert_eq!(accepted(1, side), expected, "side {side}");
    }
    for bit in 4..28 {
        assert!(!accepted(5, 0x10 ^ 1 << bit), "pass up with bit {bit} turned");
    }
    for order in 9..16 {
        assert!(!accepted(5, 0x10 | order), "pass up with order {order}");
    }
    for bit in 0..28 {
        assert!(!accepted(11, 1 << bit), "end with bit {bit}");
    }
    for payload in [0, 1, (1 << 27) - 1, 1 << 27, (1 << 28) - 1] {
        assert!(accepted(3, payload) && accepted(4, payload), "payload {payload}");
    }
    for (payload, number) in [(0, 0), (1, 1), (0x7FFFFFF, 134217727), (0x8000000, -134217728), (0xFFFFFFF, -1)] {
        let mut words = base.clone();
        (words[3], words[4]) = (4 << 28 | payload, 5 << 28 | payload);
        let pass = plan::read(&words).unwrap().passes[DOWN];
        assert_eq!((pass.gain, pass.coefficients[0]), (number, number));
    }
}

#[test]
fn all_orders_are_read_and_written_back_at_three_sides() {
    let mut random = random::of_test("all_orders_are_read_and_written_back_at_three_sides");
    let mut calls = 0;
    for (number, orders) in all_orders().enumerate() {
        let most = *orders.iter().max().unwrap();
        // One below the largest order, as large, and each side in turn.
        for side in [most.max(2) - 1, most.max(1), 1 + number % 32] {
            let (rows, columns) = (random.between(1, 4096), random.between(1, 4096));
            let record = random.plan(rows, columns, side, orders);
            let answer = read_and_compare(&model::words_of(&record), &mut calls);
            assert_eq!(answer, if most <= side { Ok(record) } else { Err(Refusal::SideBelowOrder) });
            use_and_compare(&record, &mut random, &mut calls);
        }
    }
    assert!(calls >= 60_000, "{calls} calls");
}

#[test]
fn damaged_plan_words() {
    let mut random = random::of_test("damaged_plan_words");
    let mut calls = 0;
    let mut seen = [0; 6];
    for _ in 0..30 * random::rounds() {
        let record = any_plan(&mut random);
        let valid = model::words_of(&record);
        assert_eq!(read_and_compare(&valid, &mut calls), Ok(record));
        let mut try_words = |words: &[u32]| match read_and_compare(words, &mut calls) {
            Ok(_) => seen[0] += 1,
            Err(refusal) => seen[refusal.number() as usize] += 1,
        };
        for place in 0..valid.len() {
            let mut words = valid.clone();
            for bit in 0..32 {
                words[place] = valid[place] ^ 1 << bit;
                try_words(&words);
            }
            for kind in 0..16 {
                words[place] = valid[place] & 0xFFFFFFF | kind << 28;
                try_words(&words);
            }
            for _ in 0..8 {
                words[place] = random.word() as u32;
                try_words(&words);
                words[place] = valid[place] >> 28 << 28 | random.below(40) as u32;
                try_words(&words);
            }
            words.remove(place);
            try_words(&words);
            for inserted in [valid[place], 0, random.word() as u32, 0x60000000, 0x50000001] {
                let mut words = valid.clone();
                words.insert(place, inserted);
                try_words(&words);
            }
            try_words(&valid[..place]);
            let mut words = valid.clone();
            words.swap(place, random.below(valid.len()));
            try_words(&words);
        }
        for added in [0, 0x60000000, valid[0], random.word() as u32] {
            let mut words = valid.clone();
            words.push(added);
            try_words(&words);
            words.extend(&valid);
            try_words(&words);
        }
    }
    assert!(calls >= 30_000, "{calls} calls");
    assert!(seen.iter().all(|&times| times > 0), "accepted, and refused 1 to 5: {seen:?}");
}

#[test]
fn random_words_after_a_valid_beginning() {
    let mut random = random::of_test("random_words_after_a_valid_beginning");
    let (mut calls, mut reached) = (0, Reached::default());
    for _ in 0..4_000 * random::rounds() {
        let record = any_plan(&mut random);
        reached.note(&record);
        let mut words = model::words_of(&record);
        words.truncate(random.below(words.len() + 1));
        for _ in 0..random.below(20) {
            let any = random.word() as u32 >> 4;
            words.push((random.between(1, 6) as u32) << 28 | random.pick(&[0, 1, 0x10, 0x21, 0x30, any]));
        }
        let _ = read_and_compare(&words, &mut calls);
    }
    assert!(calls >= 4_000);
    reached.expect_all_orders();
}

#[test]
fn records_damaged_field_by_field() {
    let mut random = random::of_test("records_damaged_field_by_field");
    let (mut calls, mut broken) = (0, 0);
    for _ in 0..40 * random::rounds() {
        let valid = any_plan(&mut random);
        use_and_compare(&valid, &mut random, &mut calls);
        let words = fields(&valid);
        assert_eq!(plan_of(&words), valid);
        for field in 0..words.len() {
            for damage in damages(words[field]) {
                let mut words = words;
                words[field] = damage;
                let record = plan_of(&words);
                use_and_compare(&record, &mut random, &mut calls);
                broken += usize::from(!model::keeps_rules(&record));
            }
        }
    }
    assert!(calls >= 40_000 && broken >= 10_000, "{calls} calls, {broken} broken records");
}

#[test]
fn negative_and_huge_fields_are_refused_6_at_0() {
    let valid = Plan::plain(7, 7, 8).with(DOWN, 1, &[1, 2, 3, 4, 5, 6, 7, 8]).with(UP, 2, &[5]);
    for field in 0..RECORD_WORDS {
        for damage in [i64::MIN, i64::MIN / 2, -(1 << 40), 1 << 40, 1 << 62, i64::MAX] {
            let mut words = fields(&valid);
            words[field] = damage;
            let refusal = plan::sizes(&plan_of(&words)).unwrap_err();
            assert_eq!((refusal.number(), refusal.place()), (6, 0), "field {field} is {damage}");
            let mut buffer = [9; MOST_WORDS];
            let refusal = plan::write(&plan_of(&words), &mut buffer).unwrap_err();
            assert_eq!((refusal.number(), refusal.place()), (6, 0), "field {field} is {damage}");
            assert_eq!(buffer, [9; MOST_WORDS]);
        }
    }
}

#[test]
fn a_coefficient_past_the_order_is_refused_6() {
    for (pass, order) in (0..4).flat_map(|pass| (0..=8).map(move |order| (pass, order))) {
        for place in 0..8 {
            let mut record = Plan::plain(9, 9, 8).with(pass, 1, &vec![1; order]);
            record.passes[pass].coefficients[place] = -1;
            let expected = if place < order { Ok(()) } else { Err(Refusal::RecordBreaksRule) };
            assert_eq!(plan::sizes(&record).map(|_| ()), expected, "{record:?}");
            assert_eq!(plan::write(&record, &mut [0; MOST_WORDS]), expected, "{record:?}");
        }
    }
}

#[test]
fn short_word_buffers_are_refused_7_and_words_past_the_plan_are_kept() {
    let mut random = random::of_test("short_word_buffers_are_refused_7_and_words_past_the_plan_are_kept");
    for _ in 0..200 * random::rounds() {
        let record = any_plan(&mut random);
        let words = model::words_of(&record);
        let mut refused = 0;
        for length in 0..=MOST_WORDS + 3 {
            let before = Lent::new(length, || random.word() as u32);
            let mut lent = before.clone();
            let answer = plan::write(&record, lent.get_mut());
            let mut expected = before;
            if length >= words.len() {
                expected.get_mut()[..words.len()].copy_from_slice(&words);
                assert_eq!(answer, Ok(()));
            } else {
                assert_eq!(answer, Err(Refusal::BufferTooShort));
                refused += 1;
            }
            assert_eq!(lent, expected);
            let broken = broken_record(&mut random, &record);
            assert_eq!(plan::write(&broken, lent.get_mut()), Err(Refusal::RecordBreaksRule));
            assert_eq!(lent, expected);
        }
        assert_eq!(refused, words.len(), "every shorter length is refused");
    }
}

#[test]
fn sizes_follow_their_formulas() {
    let mut random = random::of_test("sizes_follow_their_formulas");
    let mut reached = Reached::default();
    for _ in 0..2_000 * random::rounds() {
        let record = any_plan(&mut random);
        reached.note(&record);
        let sizes = plan::sizes(&record).unwrap();
        let (rows, columns, side) = (record.rows as u64, record.columns as u64, record.side as u64);
        let orders: u64 = record.passes.iter().map(|pass| pass.order as u64).sum();
        let (m, n) = (rows.div_ceil(side), columns.div_ceil(side));
        assert_eq!((sizes.block_rows, sizes.block_columns, sizes.marks), (m, n, m * n));
        assert_eq!(sizes.strips, 2 * m * n * side * orders);
        assert_eq!(sizes.pixels, rows * columns);
        assert_eq!(sizes.words, 11 + orders);
        assert_eq!(sizes.tasks, 6 * m * n - 2 * m - 2 * n);
    }
    reached.expect_all_orders();
    // Order 8 in all passes: slots of two halves, of 8 x 32 and 32 x 32 words.
    for (rows, columns, side, strips) in
        [(17, 33, 8, 3 * 5 * 512), (4096, 4096, 8, 134_217_728), (33, 1, 32, 2 * 2048), (4096, 4096, 32, 33_554_432)]
    {
        let sizes = plan::sizes(&random.plan(rows, columns, side, [8; 4])).unwrap();
        assert_eq!((sizes.words, sizes.strips), (43, strips), "{rows} rows, {columns} columns, side {side}");
    }
}
