/* What the library and the Rust crate count on in mulzhegat.h. c_example.rs has C and C++ compilers take this file. */
#include "mulzhegat.h"

/* Does not compile where the claim is false. */
#define CLAIM(name, claim) typedef char name[(claim) ? 1 : -1]

CLAIM(plan_is_43_words, sizeof(mzg_plan) == 43 * 8);
CLAIM(passes_follow_the_side, offsetof(mzg_plan, passes) == 3 * 8);
CLAIM(pass_is_10_words, sizeof(((mzg_plan *)0)->passes[0]) == 10 * 8);
CLAIM(coefficients_follow_the_gain, offsetof(mzg_plan, passes[0].coefficients) == (3 + 2) * 8);
CLAIM(sizes_are_7_words, sizeof(mzg_sizes) == 7 * 8);
CLAIM(tasks_are_the_last_size, offsetof(mzg_sizes, tasks) == 6 * 8);
CLAIM(progress_is_5_words, sizeof(mzg_progress) == 5 * 8);
CLAIM(ready_is_word_2, offsetof(mzg_progress, ready) == 2 * 8);
CLAIM(job_is_4_words, sizeof(mzg_job) == 4 * 8);
CLAIM(marks_start_is_the_last_of_a_job, offsetof(mzg_job, marks_start) == 3 * 8);

/* A total is signed. */
int64_t total_of(const mzg_plan *plan, const uint64_t *table);

int64_t total_of(const mzg_plan *plan, const uint64_t *table)
{
    int64_t total;
    return mzg_rectangle(plan, 0, 0, 1, 1, table, 1, &total) == MZG_ACCEPTED ? total : 0;
}

/* A macro variable is a state, compared with the constants without a cast, and a 64-bit float. */
CLAIM(states_are_0_1_2, MZG_VACANT == 0 && MZG_TOTAL == 1 && MZG_PIXELS == 2);
CLAIM(floats_have_64_bits, sizeof(double) == 8);

double mean_of(const mzg_plan *plan, const uint64_t *table);

double mean_of(const mzg_plan *plan, const uint64_t *table)
{
    uint64_t state, states[2];
    double value, values[2];
    if (mzg_macro_total(plan, 0, 0, 1, 1, table, 1, &state, &value) != MZG_ACCEPTED || state == MZG_VACANT)
        return 0;
    if (mzg_macro_pixels(plan, 0, 0, 1, 1, table, 1, &state, &value) != MZG_ACCEPTED || state != MZG_PIXELS)
        return 0;
    if (mzg_macro_pair(plan, 0, 0, 1, 1, table, 1, states, values) != MZG_ACCEPTED || states[0] != MZG_TOTAL)
        return 0;
    return values[0] / values[1];
}

/* A dropout is the least height, and is compared with one without a cast; a count of them is unsigned. */
CLAIM(dropout_is_the_least_height, MZG_DROPOUT == INT32_MIN && sizeof(MZG_DROPOUT) == sizeof(int32_t));

uint64_t pixels_seen(const mzg_plan *plan, const int32_t *map);

uint64_t pixels_seen(const mzg_plan *plan, const int32_t *map)
{
    uint64_t count;
    if (map[0] == MZG_DROPOUT || mzg_dropouts(plan, 0, 0, 1, 1, map, 1, &count) != MZG_ACCEPTED)
        return 0;
    return 1 - count;
}

/* The difference of two faces, dropouts read as 0, is a map of words, which is filtered as it is. */
uint64_t filter_difference(const mzg_plan *plan, const int32_t *today, const int32_t *yesterday, size_t pixels,
                           uint64_t *difference, uint64_t *output);

uint64_t filter_difference(const mzg_plan *plan, const int32_t *today, const int32_t *yesterday, size_t pixels,
                           uint64_t *difference, uint64_t *output)
{
    for (size_t i = 0; i < pixels; i++) {
        int64_t now = today[i] == MZG_DROPOUT ? 0 : today[i];
        int64_t before = yesterday[i] == MZG_DROPOUT ? 0 : yesterday[i];
        difference[i] = (uint64_t)(now - before);
    }
    return mzg_serial_words(plan, difference, pixels, output, pixels);
}

/* A block that is not collected need not be recalled. */
int may_be_scanned(const mzg_plan *plan, size_t block, uint32_t *marks, size_t marks_len);

int may_be_scanned(const mzg_plan *plan, size_t block, uint32_t *marks, size_t marks_len)
{
    uint64_t answer = mzg_recall(plan, block, marks, marks_len);
    return answer == MZG_ACCEPTED || MZG_NUMBER(answer) == MZG_BLOCK_NOT_COLLECTED;
}

/* The records of several jobs, their parts one behind another, as the header has it. */
size_t fill_records(mzg_job *jobs, size_t jobs_len, const mzg_plan *plans, const mzg_sizes *sizes);

size_t fill_records(mzg_job *jobs, size_t jobs_len, const mzg_plan *plans, const mzg_sizes *sizes)
{
    size_t marks_len = 0;
    for (size_t i = 0; i < jobs_len; i++) {
        jobs[i].rows = (uint64_t)plans[i].rows;
        jobs[i].columns = (uint64_t)plans[i].columns;
        jobs[i].side = (uint64_t)plans[i].side;
        jobs[i].marks_start = marks_len; // 0 before the first
        marks_len += sizes[i].marks;
    }
    return marks_len;
}

/* The loop of a control over several jobs, as the header has it. */
uint64_t run_by_turns(const mzg_job *jobs, size_t jobs_len, const mzg_plan *plans, const mzg_sizes *sizes,
                      const int32_t *const *maps, uint32_t *marks, size_t marks_len,
                      uint64_t *const *strips, uint64_t *const *outputs);

uint64_t run_by_turns(const mzg_job *jobs, size_t jobs_len, const mzg_plan *plans, const mzg_sizes *sizes,
                      const int32_t *const *maps, uint32_t *marks, size_t marks_len,
                      uint64_t *const *strips, uint64_t *const *outputs)
{
    size_t last = jobs_len; // no job was named yet
    uint64_t answer = MZG_ACCEPTED, turn[4];
    while (answer == MZG_ACCEPTED
           && (answer = mzg_dispatch(jobs, jobs_len, last, marks, marks_len, turn)) == MZG_ACCEPTED && turn[0]) {
        last = turn[1];
        answer = mzg_task(&plans[last], turn[2], turn[3], maps[last], sizes[last].pixels,
                          marks + jobs[last].marks_start, sizes[last].marks, strips[last], sizes[last].strips,
                          outputs[last], sizes[last].pixels);
    }
    return answer;
}

/* Answers are compared with the constants, and taken apart, without a cast. */
uint64_t block_of_a_broken_mark(uint64_t answer);

uint64_t block_of_a_broken_mark(uint64_t answer)
{
    if (answer == MZG_ACCEPTED || MZG_NUMBER(answer) < MZG_MARK_BROKEN)
        return 0;
    switch (MZG_NUMBER(answer)) {
    case MZG_MARK_BROKEN:
        return MZG_PLACE(answer);
    default:
        return 0;
    }
}
