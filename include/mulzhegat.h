/* mulzhegat.h: block-wise recursive filters and summed-area tables for height maps.
 *
 * A map has rows x columns heights, row after row. Four passes run over it, one after the other: down, up, right, left.
 * Each has a gain g, an order r from 0 to MZG_ORDER_LIMIT and coefficients d1 to dr; feedback is subtracted:
 *
 *     y[i] = g * x[i] - d1 * y[i-1] - ... - dr * y[i-r]
 *
 * where x is the map for down and the result of the pass before for the others, and i counts along the pass: from the
 * bottom row for up, from the last column for left.
 *
 * Outputs outside the map count as 0, and all words are taken modulo 2^64. The passes run over the whole map in one
 * call (mzg_serial; mzg_serial_words over 64-bit words, such as the difference of two maps), or block by block in any
 * order that respects the tasks' needs (mzg_start, mzg_task, mzg_report). A
 * block that is scanned again is recalled (mzg_recall), and only what depends on it is done again. Several jobs on one
 * control take turns (mzg_dispatch).
 *
 * Dropouts. Where the laser's beam gets no return, the height is MZG_DROPOUT. The passes read it as 0, in mzg_serial as
 * in mzg_task: outputs, tables and totals are those of the map with every dropout replaced by 0, and none of them shows
 * that there was one. mzg_dropouts counts them in the map itself. A smoothing pass takes a hole for a height of 0 as
 * well, so that words near a hole are drawn towards 0: to fill holes first, filter a copy of the map, and keep the
 * scanned one for mzg_dropouts. A job or a table that a version before dropouts made, over a map that has some, has
 * pits in it: make it anew.
 *
 * Answers. Every function answers 0 where the call is accepted, else number * 2^32 + place: the cause, by the numbers
 * in the enum below, and where it is. MZG_NUMBER and MZG_PLACE take an answer apart. Keep it in a uint64_t: its low 32
 * bits are 0 for most refusals. Words, blocks, rows, columns and jobs count from 0.
 *
 * Where several causes hold, the one that is tested first refuses the call. mzg_plan_read is refused by the first of 1,
 * 2, 3 from left to right (2 before 3 at one word), then 5, then 4. Every other call tests the record (6; mzg_dispatch
 * its list of records), then the lengths of the buffers that it is lent (7, 14, 15, 16; mzg_dispatch where the marks of
 * its jobs stand, 18), and only then the rest, by rising numbers (8 to 12, 17): a short output is 16 also where the
 * task does not exist. The numbers after `Refused:` stand in that order.
 *
 * So a buffer that is too short has one of four numbers: 14, 15 and 16 for the strips, the map and the output, 7 for
 * the words of mzg_plan_write, the marks or the table, whichever the call is lent. The first that is too short is
 * named; mzg_plan_sizes gives the lengths that all of them need. A list of marks that several jobs share and that ends
 * before a job's marks do is 18.
 *
 * Buffers. A buffer is lent as a pointer and its length, in elements of the pointer's type; those past the needed
 * length do not matter and are never altered. A refused call leaves every lent buffer as it was. What a call answers
 * beside its number (plan, sizes, progress, turn, sum, states, values, count) is written whole on every call: all
 * zeros beside a refusal.
 *
 * Pointers are not tested, nor that a buffer is as long as is said. None may be null, each must be aligned for its
 * type, and no two of a call may overlap, the records and what is answered (plan, sizes, progress, turn, sum, states,
 * values, count) among them.
 * Where no strip word is needed (all orders 0), lend the address of any 64-bit word with length 0, which overlaps
 * nothing; where there are no jobs, that of any mzg_job.
 *
 * The functions keep no state between calls. Calls that share no buffer that one of them writes may run at the same
 * time; of one job, no two calls of mzg_task or mzg_recall may, nor mzg_report beside one of them; nor may mzg_dispatch
 * beside mzg_start, mzg_task or mzg_recall of a job in its list. A job may be broken off between any two calls: keep
 * plan, map, marks, strips and output. Of a job that is taken up again only the kind and the spare bits of its marks
 * are tested, not that its buffers belong together: put a checksum over what you save. mzg_task takes less than 26 KiB
 * of stack, every other call less than 4 KiB (the C library may take some 3 KiB more where it binds memcpy or memset at
 * their first call).
 */
#ifndef MULZHEGAT_H
#define MULZHEGAT_H

#include <stddef.h>
#include <stdint.h>

#ifdef __cplusplus
extern "C" {
#endif

/* The numbers of answers. The place beside a number is 0 where its line names none. */
enum {
    MZG_ACCEPTED = 0,
    MZG_WORDS_END_EARLY = 1,    /* plan words end too early; place: the number of words */
    MZG_ANOTHER_KIND_DUE = 2,   /* another kind of word is due here; place: the word */
    MZG_OUT_OF_RANGE = 3,       /* payload or order out of range, or wrong pass; place: the word */
    MZG_SIDE_BELOW_ORDER = 4,   /* the block side is below an order; place: 1 */
    MZG_WORDS_AFTER_END = 5,    /* words after the end word; place: the first of them */
    MZG_RECORD_BREAKS_RULE = 6, /* a record breaks a rule (see mzg_plan, mzg_job), or there are more than 8 jobs */
    MZG_BUFFER_TOO_SHORT = 7,   /* marks, words of mzg_plan_write or table too short (strips, map, output: 14 to 16) */
    MZG_NO_SUCH_TASK = 8,       /* no such block, or the block has no such task */
    MZG_MARK_BROKEN = 9,        /* a mark looked at has a wrong kind or a spare bit; place: the least such block, of
                                 * mzg_dispatch the least such index in the list of marks */
    MZG_ALREADY_MARKED = 10,    /* the task is already marked */
    MZG_NEED_UNMARKED = 11,     /* a need of the task is not marked yet */
    MZG_RECTANGLE_OUTSIDE = 12, /* top > bottom, left > right, bottom > rows or right > columns */
    /* 13 is for inputs of the program `smooth`: no function answers it */
    MZG_STRIPS_TOO_SHORT = 14,  /* the strips are too short */
    MZG_MAP_TOO_SHORT = 15,     /* the map is too short */
    MZG_OUTPUT_TOO_SHORT = 16,  /* the output is too short */
    MZG_BLOCK_NOT_COLLECTED = 17, /* the block to recall is not collected */
    MZG_JOB_MISPLACED = 18      /* a job's marks run past the list or overlap another's; place: the least such job */
};

/* What the head writes for the height of a pixel where the laser's beam gets no return: -2147483648. No other height is
 * one, not even -2147483647. */
#define MZG_DROPOUT (-2147483647 - 1)

/* The number and the place of an answer. */
#define MZG_NUMBER(answer) ((answer) >> 32)
#define MZG_PLACE(answer) ((answer) & 0xFFFFFFFF)

/* The largest order of a pass. The length of the record follows it: compile with the header that belongs to the archive
 * (a program compiled with another limit links too, and mzg_plan_read then writes past the end of its record). Keep
 * plans as words (mzg_plan_write): they stay the same where the limit is raised, and so do a job's marks and strips. */
#define MZG_ORDER_LIMIT 8

/* A plan record: 3 + 4 * (2 + MZG_ORDER_LIMIT) = 43 words of 64 bits, in this order. The rules:
 *   rows, columns            1 to 4,096
 *   side                     1 to 32, at least the largest order; the block side b
 *   passes                   down, up, right, left
 *   order                    0 to MZG_ORDER_LIMIT; order 0 is multiplication by the gain
 *   gain, coefficients       -134217728 to 134217727 (signed 28 bits)
 *   coefficients             d1 to dr, r the order; the places past them are 0
 * A summed-area table has order 1, gain 1, coefficient -1 for down and right, and order 0, gain 1 for up and left. */
typedef struct {
    int64_t rows, columns, side;
    struct { int64_t order, gain, coefficients[MZG_ORDER_LIMIT]; } passes[4];
} mzg_plan;

/* The lengths that a plan needs. */
typedef struct {
    uint64_t words;          /* plan words that mzg_plan_write writes: 11 + sum of the four orders */
    uint64_t block_rows;     /* M: rows / side, rounded up */
    uint64_t block_columns;  /* N: columns / side, rounded up */
    uint64_t marks;          /* M * N */
    uint64_t strips;         /* M * N * 2 * side * (sum of the four orders) */
    uint64_t pixels;         /* rows * columns: the length of map, output and table */
    uint64_t tasks;          /* all tasks of a job: 6 * M * N - 2 * M - 2 * N */
} mzg_sizes;

/* How far a job is. All 0 beside a refusal: look at the answer first. */
typedef struct {
    uint64_t marked;         /* tasks done */
    uint64_t tally;          /* pixels collected plus pixels finished */
    uint64_t ready;          /* 1 if task and block name a ready task; 0 beside an accepted call: all tasks are done */
    uint64_t task, block;    /* the ready task with the least number, then the least block; 0 and 0 if none */
} mzg_progress;

/* One of several jobs on a control: the sizes of its plan, and where its marks begin in the list of marks that all jobs
 * share. The rules: rows and columns 1 to 4,096, side 1 to 32. Orders are not in it. */
typedef struct {
    uint64_t rows, columns, side;
    uint64_t marks_start;    /* from here on the job has its sizes.marks marks */
} mzg_job;

/* Reads a plan from its words. A plan has 11 to 11 + 4 * MZG_ORDER_LIMIT = 43 of them; any number may be lent. The top
 * four bits of a word are its kind, the low 28 its payload:
 *   1 size          rows in bits 13 to 25, columns in bits 0 to 12
 *   2 block         the block side
 *   3 pass          order in bits 0 to 3, pass in bits 4 and 5 (0 down, 1 up, 2 right, 3 left)
 *   4 gain          signed 28 bits, two's complement
 *   5 coefficient   as gain, one word for each of d1 to dr
 *   6 end           0
 * in this order, with 3, 4 and 5 repeated for the four passes; all other bits are zero, else 3. A coefficient word too
 * many or too few is 2 at the word where another kind is due.
 * Refused: 1, 2, 3, 5, 4; the record is then all zeros. */
uint64_t mzg_plan_read(const uint32_t *words, size_t words_len, mzg_plan *plan);

/* Writes the words of a plan. Needs sizes.words words. Refused: 6, 7 (words). */
uint64_t mzg_plan_write(const mzg_plan *plan, uint32_t *words, size_t words_len);

/* Gives the lengths that the plan needs. Refused: 6; the sizes are then all zeros. */
uint64_t mzg_plan_sizes(const mzg_plan *plan, mzg_sizes *sizes);

/* Starts a job: the needed marks become 0x70000000 (kind 7, nothing done) and the needed strip words 0. A mark has its
 * kind, 7, in the top four bits and bit t set while task t is done; bits 6 to 27, and the bits of tasks that the block
 * does not have, are spare and 0. Needs sizes.marks marks and sizes.strips strip words.
 * Refused: 6, 7 (marks), 14 (strips). */
uint64_t mzg_start(const mzg_plan *plan, uint32_t *marks, size_t marks_len, uint64_t *strips, size_t strips_len);

/* Performs one task on one block. Block (m, n), with m < M and n < N, starts at row m * side and column n * side; the
 * last row and the last column of blocks may be narrower. Blocks are numbered row by row: block = m * N + n. The tasks:
 *
 *     task           exists       needs done before
 *     0 collect      always       nothing
 *     1 down link    m < M - 1    own 0; 1 of above
 *     2 up link      m > 0        own 0; 1 of above, 2 of below
 *     3 right link   n < N - 1    own 0; 1 of above, 2 of below, 3 of left
 *     4 left link    n > 0        own 0; 1 of above, 2 of below, 3 of left, 4 of right
 *     5 finish       always       own 0; 1 of above, 2 of below, 3 of left, 4 of right
 *
 * A need on a neighbour beyond the map falls away. Collect and finish read dropouts as 0. Collect and the links write
 * in the block's slot of the strips, its part of 2 * side * (sum of the four orders) words: collect the first half, the
 * links the second (no caller needs more of its layout). Finish writes the block's output words, which are those of
 * mzg_serial over the map as long as the finish stays done and no height changes; an accepted task also sets bit `task`
 * of the block's mark, and nothing else changes. The output need not be set before. Lend the same map to every call of
 * a job; where heights of a block change after its collect, the block has to be recalled (mzg_recall). Calls may come
 * in any order: one that comes too early is refused by 11 and may be repeated. An order without any 11: the tasks 0 to
 * 5 one after another, each over the blocks by their number, 2 and 4 from the last block to the first (links that a
 * block does not have are refused by 8).
 * Needs, for every task, also one that does not read or write them: sizes.marks marks, sizes.strips strip words,
 * sizes.pixels map and output words.
 * Refused: 6, 7 (marks), 14 (strips), 15 (map), 16 (output), 8, 9 (the marks of the block and of the neighbours in its
 * needs are looked at), 10, 11. The buffers are tested in this order, not in that of the parameters. */
uint64_t mzg_task(const mzg_plan *plan, size_t task, size_t block, const int32_t *map, size_t map_len,
                  uint32_t *marks, size_t marks_len, uint64_t *strips, size_t strips_len,
                  uint64_t *output, size_t output_len);

/* Reports how far a job is and names a ready task: one that exists, is not marked and has all its needs marked.
 * Needs sizes.marks marks and looks at all of them, so that a large job asks for it now and then, not for every task.
 * Refused: 6, 7 (marks), 9; the progress is then all zeros. */
uint64_t mzg_report(const mzg_plan *plan, const uint32_t *marks, size_t marks_len, mzg_progress *progress);

/* Recalls a block that is scanned again: clears the bits of all its tasks and of every task that needs one of them,
 * directly or through others, also where a task in between is not marked. No other bit changes, and strips and output
 * are not touched. Recalling block (m, n) clears its collect, the down links of column n from row m on, all up links of
 * column n, all right links from column n on, all left links and all finishes; the collects of other blocks stay as
 * they are. On a large map that is a third of all tasks (last column) to a half (first column), and about half to two
 * thirds of the work. A chip lay on a block, the operator has blown it off:
 *
 *     mzg_progress next;
 *     uint64_t answer = mzg_recall(&plan, block, marks, marks_len);
 *     if (MZG_NUMBER(answer) == MZG_BLOCK_NOT_COLLECTED)
 *         answer = MZG_ACCEPTED; // no done task needs the block
 *     if (answer == MZG_ACCEPTED)
 *         scan_again(map, block); // the heights of this block alone
 *     while (answer == MZG_ACCEPTED
 *            && (answer = mzg_report(&plan, marks, marks_len, &next)) == MZG_ACCEPTED && next.ready)
 *         answer = mzg_task(&plan, next.task, next.block, map, map_len, marks, marks_len, strips, strips_len,
 *                           output, output_len);
 *     if (answer != MZG_ACCEPTED)
 *         stop_for_the_operator();
 *
 * Then marks, strips and output are, word for word, those of a fresh job on the new map. A job need not be whole: once
 * the cleared tasks are done again it is as a fresh job, begun on the same lent words, with the same tasks done.
 *
 * A report looks at all marks: with more than about a hundred blocks, call the tasks in the order that mzg_task names
 * instead, where those that are still done are refused by 10.
 *
 * Several blocks may be recalled, each by a call of its own; scan all of them before you perform a task. The marks do
 * not know that a scan is due: the collect of a recalled block is ready at once, and one of old heights is not refused.
 * Where a job may be broken off between recall and scan, keep a note of the blocks that wait for a scan. A block may be
 * scanned before it is recalled too, as long as it is recalled: where a height has changed since the last collect of
 * its block, even for a time, no call notices, and nothing is promised of the words of the tasks that need the block.
 *
 * Until its task is done again, a strip or a block of the output keeps its old words: a total read meanwhile mixes both
 * maps. A job that a version before recalls began has strips of another layout: start it anew (strips of the old length
 * are refused by 14; in a longer buffer nothing tells them from new ones).
 * Needs sizes.marks marks and looks at all of them.
 * Refused: 6, 7 (marks), 8 (no such block), 9, 17 (the block is not collected). */
uint64_t mzg_recall(const mzg_plan *plan, size_t block, uint32_t *marks, size_t marks_len);

/* Says whose turn it is of up to eight jobs on one control: the next job after `last`, going round, that has unmarked
 * tasks, with the task that mzg_report names for it. The turn is 1, the job's index in the list, task and block; or
 * four zeros, none, exactly where every job is done or the list is empty. `last` is the job that was named last; any
 * number from jobs_len on means none yet, and the search begins with job 0.
 *
 * The jobs share one list of marks. Their parts may stand there in any order; marks that belong to no job do not
 * matter. Each job has a plan, map, strips and output of its own, and its own calls (mzg_start, mzg_task, mzg_report,
 * mzg_recall) are lent its part of the marks: marks + marks_start of its record, and sizes.marks as the length (more is
 * accepted, but is then a buffer shared with the jobs behind). The records of some jobs, whose parts stand one behind
 * another, and the loop of a control, with all jobs started and with the plan, the sizes and the buffers of each at its
 * index:
 *
 *     for (size_t i = 0; i < jobs_len; i++) {
 *         jobs[i].rows = (uint64_t)plans[i].rows;
 *         jobs[i].columns = (uint64_t)plans[i].columns;
 *         jobs[i].side = (uint64_t)plans[i].side;
 *         jobs[i].marks_start = marks_len; // 0 before the first
 *         marks_len += sizes[i].marks;
 *     }
 *
 *     size_t last = jobs_len; // no job was named yet
 *     uint64_t answer = MZG_ACCEPTED, turn[4];
 *     while (answer == MZG_ACCEPTED
 *            && (answer = mzg_dispatch(jobs, jobs_len, last, marks, marks_len, turn)) == MZG_ACCEPTED && turn[0]) {
 *         last = turn[1];
 *         answer = mzg_task(&plans[last], turn[2], turn[3], maps[last], sizes[last].pixels,
 *                           marks + jobs[last].marks_start, sizes[last].marks, strips[last], sizes[last].strips,
 *                           outputs[last], sizes[last].pixels);
 *     }
 *     if (answer != MZG_ACCEPTED)
 *         stop_for_the_operator();
 *
 * It is fair, as long as each turn gets the job named before it and the list stays the same: of jobs_len accepted turns
 * one names any job that has unmarked tasks at each of them, whatever changes marks in between. And if marks change
 * only by performing tasks that these turns name, a job that has unmarked tasks at the first of them is named by one of
 * them. Turns are counted, not their time. With the same `last` every time, the first unfinished job after it is named
 * every time.
 *
 * Nothing is kept between calls: until the named task is done, the job's turn names that task again, or one that a
 * recall has cleared. So there is no second task of a job for a second worker, and no two calls of one job may run at
 * the same time. For several workers: ask for turns until a job comes that one of them holds already, or none; perform
 * these tasks at the same time; wait for all; ask again. After a recall or a new start of a job forget its turns that
 * are not performed yet: they can be refused by 11. To pass over a job that waits for a scan, set `last` and perform
 * nothing; where only such jobs are named, wait.
 *
 * Every call that 6 and 18 let through looks at all marks of all jobs, and takes about as long as a report on each.
 * With more than some hundred blocks in all, perform several ready tasks of the named job, in the order that mzg_task
 * names, before you ask again. That a record has the sizes of the job's plan is not tested.
 *
 * Refused: 6 (a size breaks a rule, or there are more than eight records; place 0), 18 (place: the least job whose
 * marks run past the list, also where their end overflows, or overlap another's; both jobs of a pair that overlaps are
 * such, so that the one to move may be the later one), 9 (place: the least index in the list; less the
 * marks_start of the job that it belongs to, it is the block; indices from 2^32 - 1 on are all answered as 2^32 - 1).
 * The turn is then all zeros, as that of an accepted call can be: look at the answer first. An empty list is accepted,
 * whatever the marks. */
uint64_t mzg_dispatch(const mzg_job *jobs, size_t jobs_len, size_t last, const uint32_t *marks, size_t marks_len,
                      uint64_t turn[4]);

/* Runs the four passes over the whole map, dropouts read as 0. Needs sizes.pixels map and output words.
 * Refused: 6, 15 (map), 16 (output). */
uint64_t mzg_serial(const mzg_plan *plan, const int32_t *map, size_t map_len, uint64_t *output, size_t output_len);

/* Runs the four passes over a whole map of 64-bit words, modulo 2^64: a sum or a difference of maps, or an output. No
 * word is taken for a dropout, not even that of the number MZG_DROPOUT. Over the words (uint64_t)(int64_t)height, with 0
 * for each dropout, the output is that of mzg_serial.
 *
 * Subtracting two faces. For every plan the output of the wordwise difference of two maps is the wordwise difference of
 * their outputs, modulo 2^64, and likewise for the sum. So what changed since yesterday, smoothed, can be had from two
 * outputs, made by mzg_serial or by whole jobs with the same plan:
 *
 *     for (size_t i = 0; i < sizes.pixels; i++)
 *         changed[i] = today_output[i] - yesterday_output[i];
 *
 * or from the two maps, where a dropout counts as 0, in the same words:
 *
 *     for (size_t i = 0; i < sizes.pixels; i++) {
 *         int64_t now = today[i] == MZG_DROPOUT ? 0 : today[i];
 *         int64_t then = yesterday[i] == MZG_DROPOUT ? 0 : yesterday[i];
 *         difference[i] = (uint64_t)(now - then);
 *     }
 *     if (mzg_serial_words(&plan, difference, sizes.pixels, changed, sizes.pixels) != MZG_ACCEPTED)
 *         stop_for_the_operator();
 *
 * Subtract as int64_t: two heights can differ by more than an int32_t holds. A word from 2^63 on is below 0, by what it
 * lacks to 2^64: read words as int64_t, as long as the passes do not take them past 2^63 either way. Where one scan has
 * a hole and the other has none, the difference is a whole height and no change of the face; mzg_dropouts finds holes.
 *
 * Rows first. Right and left before down and up give the same output. A plan that has order 0 and gain 1 for down and
 * up runs right and left alone, one with order 0 and gain 1 for right and left runs down and up alone: mzg_serial_words
 * with the one over the output of the other, in either order, gives the words of the whole plan. Up stays behind down,
 * and left behind right: exchanged, they give other words.
 *
 * Needs sizes.pixels map and output words. Refused: 6, 15 (map), 16 (output). */
uint64_t mzg_serial_words(const mzg_plan *plan, const uint64_t *map, size_t map_len, uint64_t *output,
                          size_t output_len);

/* Gives the sum over rows top to bottom - 1 and columns left to right - 1 from a finished summed-area table S: the word
 * S(bottom-1, right-1) - S(top-1, right-1) - S(bottom-1, left-1) + S(top-1, left-1) modulo 2^64, a row or column of -1
 * counting as 0, read as signed: the word itself below 2^63, and less 2^64 from there on.
 * On the summed-area table of a map this is the exact sum of the heights, negative for a pocket below the datum; a
 * dropout counts as 0. Heights have 32 bits and a map no more than 2^24 of them, so that the sum lies between -2^55 and
 * 2^55. On any other table it is what the four words make of it, from -2^63 (where they make 2^63) to 2^63 - 1; where
 * they make 0 it is 0.
 * With top equal to bottom, or left equal to right, the rectangle is empty and the sum is 0, whatever the table holds.
 * All four numbers are tested as for any other rectangle, up to the map's far edges: (rows, columns, rows, columns) has
 * the sum 0; (rows + 1, 0, rows + 1, columns), (0, 0, 0, columns + 1) and (0, 1, 0, 0) are refused. So are edges that
 * have crossed: a loop that moves two opposite ones, or one by more than 1, has to stop where they meet.
 * The record, the length and the rectangle are tested, not that plan and table are those of a summed-area table.
 * The sum is signed: print it with PRId64, and make a count signed before dividing by it. The number of pixels,
 * (bottom - top) * (right - left), can be 0: test it before dividing. It has the dropouts in it: mzg_dropouts says how
 * many, and how to take the mean of what was seen.
 * Needs sizes.pixels table words, also for an empty rectangle.
 * Refused: 6, 7 (table), 12 (top > bottom, left > right, bottom > rows or right > columns); the sum is then 0, as that
 * of an accepted call can be: look at the answer first. */
uint64_t mzg_rectangle(const mzg_plan *plan, size_t top, size_t left, size_t bottom, size_t right,
                       const uint64_t *table, size_t table_len, int64_t *sum);

/* Counts the dropouts in a rectangle of a map, rows top to bottom - 1 and columns left to right - 1: the heights that
 * are MZG_DROPOUT. It looks at the map as it was scanned; a table or an output no longer tells a hole from a height of
 * 0. Total and dropouts of one rectangle do:
 *
 *     int64_t total;
 *     uint64_t dropouts, pixels = (uint64_t)(bottom - top) * (right - left);
 *     if (mzg_rectangle(&plan, top, left, bottom, right, table, table_len, &total) != MZG_ACCEPTED
 *         || mzg_dropouts(&plan, top, left, bottom, right, map, map_len, &dropouts) != MZG_ACCEPTED)
 *         stop_for_the_operator();
 *     else if (dropouts == pixels)
 *         nothing_was_seen(); // every pixel is a hole, or the rectangle is empty: the total is 0 and says nothing
 *     else
 *         cut_by_mean((double)total / (double)(pixels - dropouts)); // of the heights that were seen
 *
 * The cast of a total past 2^53 rounds, and so does the quotient. No more are counted than the rectangle has pixels,
 * and 0 of an empty one; the four numbers are tested as those of mzg_rectangle. Which pixels they are the map says:
 * compare with MZG_DROPOUT. Any plan of the map's size will do, also that of a smoothing; the whole record is tested.
 * Needs sizes.pixels heights, also for an empty rectangle.
 * Refused: 6, 15 (map), 12; the count is then 0, as that of an accepted call can be: look at the answer first. */
uint64_t mzg_dropouts(const mzg_plan *plan, size_t top, size_t left, size_t bottom, size_t right,
                      const int32_t *map, size_t map_len, uint64_t *count);

/* The states of a macro variable. They are written to a state; they are no answers, no arguments and no indices. */
enum {
    MZG_VACANT = 0, /* no value */
    MZG_TOTAL = 1,  /* the value is a total */
    MZG_PIXELS = 2  /* the value is a number of pixels */
};

/* Give quantities of a rectangle, rows top to bottom - 1 and columns left to right - 1, as macro variables. A control
 * keeps these as 64-bit floats, with a state called vacant for no value. The quantities: the total, which is the sum
 * that mzg_rectangle gives, in units of the heights; the number of pixels, (bottom - top) * (right - left), dropouts
 * among them; or both, the total as states[0] and values[0], the number of pixels as states[1] and values[1].
 * A value equals the whole number, without rounding; a total of 0 is +0.0. An accepted call gives vacant, with +0.0 for
 * a value, in two cases only: both quantities of an empty rectangle, and a total below -2^53 or above 2^53
 * (9007199254740992), also one that a float could hold. So the number of pixels is vacant just where the rectangle is
 * empty, and a vacant total beside a number of pixels lies outside that range: mzg_rectangle gives it still. On a
 * summed-area table that takes more than 2^22 pixels, since heights have 32 bits. That a table is finished is not
 * tested: vacant does not stand for one that is not. Nor does it stand for a rectangle of dropouts alone: that has the
 * total 0, and its pixels are counted. A macro loop, over a rectangle that shrinks until it closes:
 *
 *     uint64_t answer, states[2];
 *     double values[2];
 *     for (size_t bottom = rows;; bottom--) {
 *         answer = mzg_macro_pair(&plan, top, left, bottom, right, table, table_len, states, values);
 *         if (answer != MZG_ACCEPTED || states[1] == MZG_VACANT)
 *             break; // refused, or closed: the answer says which
 *         if (states[0] == MZG_TOTAL)
 *             cut_by_mean(values[0] / values[1]); // of all pixels, rounded once; of those seen: see mzg_dropouts
 *         else
 *             stop_for_the_operator(); // the total lies outside -2^53 to 2^53
 *     }
 *
 * Needs sizes.pixels table words, also for the number of pixels and for an empty rectangle.
 * Refused: 6, 7 (table), 12, as mzg_rectangle; every state is then vacant, as for an empty rectangle: look at the
 * answer first, then at the state, then at the value. */
uint64_t mzg_macro_total(const mzg_plan *plan, size_t top, size_t left, size_t bottom, size_t right,
                         const uint64_t *table, size_t table_len, uint64_t *state, double *value);
uint64_t mzg_macro_pixels(const mzg_plan *plan, size_t top, size_t left, size_t bottom, size_t right,
                          const uint64_t *table, size_t table_len, uint64_t *state, double *value);
uint64_t mzg_macro_pair(const mzg_plan *plan, size_t top, size_t left, size_t bottom, size_t right,
                        const uint64_t *table, size_t table_len, uint64_t states[2], double values[2]);

#ifdef __cplusplus
}
#endif

#endif
