//! Every refusal number of the library, each with its place.

use checks::model;
use mulzhegat::dispatch::{self, Job};
use mulzhegat::serial::{self, Rectangle};
use mulzhegat::{job, plan, Plan, Refusal, DOWN};
use std::collections::BTreeMap;

/// A plan of nine blocks.
fn valid() -> Plan {
    Plan::plain(6, 6, 2).with(DOWN, 3, &[1, 2])
}

/// Refusals of plan words, records and lengths.
fn of_plans_and_lengths() -> Vec<Refusal> {
    let valid = valid();
    let words = model::words_of(&valid);
    let changed = |place: usize, word: u32| {
        let mut words = words.clone();
        words[place] = word;
        words
    };
    vec![
        plan::read(&words[..9]).unwrap_err(),
        plan::read(&changed(4, 0x40000001)).unwrap_err(),
        plan::read(&changed(6, 0x30000000)).unwrap_err(),
        plan::read(&changed(1, 0x20000001)).unwrap_err(),
        plan::read(&[words.clone(), vec![0]].concat()).unwrap_err(),
        plan::sizes(&Plan { side: 1, ..valid }).unwrap_err(),
        job::report(&valid, &[0; 8]).unwrap_err(),
        job::start(&valid, &mut [0; 9], &mut [0; 71]).unwrap_err(),
        serial::run(&valid, &[0; 35], &mut [0; 36]).unwrap_err(),
        serial::run(&valid, &[0; 36], &mut [0; 35]).unwrap_err(),
    ]
}

/// Refusals of a job's tasks, of a rectangle of its output, of a recall, and of several jobs.
fn of_jobs() -> Vec<Refusal> {
    let (valid, mut refusals) = (valid(), Vec::new());
    let (map, mut marks, mut strips, mut output) = ([1; 36], [0; 9], [0; 9 * 2 * 2 * 2], [0; 36]);
    job::start(&valid, &mut marks, &mut strips).unwrap();
    let mut perform =
        |task, block, marks: &mut [u32]| job::perform(&valid, task, block, &map, marks, &mut strips, &mut output);
    refusals.push(perform(2, 0, &mut marks).unwrap_err());
    marks[5] |= 1 << 3;
    refusals.push(perform(5, 4, &mut marks).unwrap_err());
    marks[5] = model::NOTHING_DONE;
    perform(0, 4, &mut marks).unwrap();
    refusals.push(perform(0, 4, &mut marks).unwrap_err());
    refusals.push(perform(5, 4, &mut marks).unwrap_err());
    refusals.push(serial::rectangle(&valid, Rectangle::new(2, 0, 1, 1), &output).unwrap_err());
    job::recall(&valid, 4, &mut marks).unwrap();
    refusals.push(job::recall(&valid, 4, &mut marks).unwrap_err());
    // Three jobs of nine marks each, of which the last two overlap.
    let jobs = [0, 9, 17].map(|marks_start| Job::new(&valid, marks_start));
    refusals.push(dispatch::next_turn(&jobs, 0, &[model::NOTHING_DONE; 27]).unwrap_err());
    refusals
}

#[test]
fn every_refusal_number_from_1_to_12_and_14_to_18_is_seen() {
    let mut seen = BTreeMap::new();
    for refusal in [of_plans_and_lengths(), of_jobs()].concat() {
        assert_eq!(seen.insert(refusal.number(), refusal.place()), None, "{refusal} is seen once");
    }
    let mut expected = BTreeMap::from([6, 7, 8, 10, 11, 12, 14, 15, 16, 17].map(|number| (number, 0)));
    expected.extend([(1, 9), (2, 4), (3, 6), (4, 1), (5, 13), (9, 5), (18, 1)]);
    assert_eq!(seen, expected);
}
