/* Sums the heights in a rectangle of a map through a summed-area table that is made block by block.
 *
 * Build and run, from the root of the repository, with target/staticlib/libmulzhegat.a there:
 *
 *   gcc -std=c99 -O2 -Wall -Wextra -Werror -Iinclude examples/c/total.c -o target/total target/staticlib/libmulzhegat.a
 *   target/total
 *
 * Its output is examples/c/expected.txt. */
#include <inttypes.h>
#include <stdio.h>
#include <stdlib.h>

#include "mulzhegat.h"

/* 5 rows, 7 columns, blocks of side 2; down and right add up (order 1, gain 1, d1 = -1), up and left change nothing. */
static const uint32_t plan_words[] = {
    0x1000A007,                         /* size: 5 in bits 13 to 25, 7 in bits 0 to 12 */
    0x20000002,                         /* block side */
    0x30000001, 0x40000001, 0x5FFFFFFF, /* down: order 1, gain 1, d1 = -1 in 28 bits */
    0x30000010, 0x40000001,             /* up: order 0, gain 1 */
    0x30000021, 0x40000001, 0x5FFFFFFF, /* right, as down */
    0x30000030, 0x40000001,             /* left, as up */
    0x60000000                          /* end */
};

static int32_t map[5 * 7] = {
     3, -1,  4,  1, -5, MZG_DROPOUT, 2,
     6,  5, -3,  5,  8, -9,  7,
    -9,  3,  2,  3,  8,  4, -6,
     2,  6,  4, -3,  3,  8,  3,
     2, -7,  9,  5,  0,  2, -8
};

/* Ends the program where a call that should be accepted is refused. */
static void accept(const char *call, uint64_t answer)
{
    if (answer != MZG_ACCEPTED) {
        fprintf(stderr, "%s: refused %" PRIu64 " at %" PRIu64 "\n", call, MZG_NUMBER(answer), MZG_PLACE(answer));
        exit(1);
    }
}

/* Lends at least one word, so that the pointer is never null. */
static void *allocate(uint64_t words, size_t word_size)
{
    void *buffer = calloc(words > 0 ? (size_t)words : 1, word_size);
    if (buffer == NULL) {
        fprintf(stderr, "out of memory\n");
        exit(1);
    }
    return buffer;
}

/* A linear congruential generator: the same shuffle on every machine. */
static size_t random_below(size_t limit)
{
    static uint64_t state = 1;
    state = state * 6364136223846793005u + 1442695040888963407u;
    return (size_t)((state >> 33) % limit);
}

static void shuffle(size_t *list, size_t length)
{
    for (size_t i = length; i > 1; i--) {
        size_t j = random_below(i);
        size_t kept = list[i - 1];
        list[i - 1] = list[j];
        list[j] = kept;
    }
}

int main(void)
{
    const size_t map_length = sizeof map / sizeof map[0];

    /* The plan, and the lengths that it needs. */
    mzg_plan plan;
    mzg_sizes sizes;
    accept("plan_read", mzg_plan_read(plan_words, sizeof plan_words / sizeof plan_words[0], &plan));
    accept("plan_sizes", mzg_plan_sizes(&plan, &sizes));
    printf("%" PRId64 " rows, %" PRId64 " columns, side %" PRId64 ": %" PRIu64 " blocks, %" PRIu64 " tasks\n",
           plan.rows, plan.columns, plan.side, sizes.marks, sizes.tasks);

    /* The buffers. Start writes marks and strips; finish writes every word of the output. */
    uint32_t *marks = allocate(sizes.marks, sizeof *marks);
    uint64_t *strips = allocate(sizes.strips, sizeof *strips);
    uint64_t *output = allocate(sizes.pixels, sizeof *output);
    accept("start", mzg_start(&plan, marks, (size_t)sizes.marks, strips, (size_t)sizes.strips));

    /* All pairs of a task and a block, shuffled, each as 6 * block + task. */
    size_t waiting = 6 * (size_t)sizes.marks;
    size_t *pairs = allocate(waiting, sizeof *pairs);
    for (size_t i = 0; i < waiting; i++)
        pairs[i] = i;
    shuffle(pairs, waiting);

    /* Round after round over the pairs that are left: a task whose need is unmarked is tried again in the next round,
     * one that the block does not have is dropped. The report names none once all tasks are done. */
    unsigned rounds = 0, early = 0;
    mzg_progress progress;
    accept("report", mzg_report(&plan, marks, (size_t)sizes.marks, &progress));
    while (progress.ready) {
        size_t left = 0;
        for (size_t i = 0; i < waiting; i++) {
            uint64_t answer = mzg_task(&plan, pairs[i] % 6, pairs[i] / 6, map, map_length,
                                       marks, (size_t)sizes.marks, strips, (size_t)sizes.strips,
                                       output, (size_t)sizes.pixels);
            switch (MZG_NUMBER(answer)) {
            case MZG_NEED_UNMARKED:
                pairs[left++] = pairs[i];
                early++;
                break;
            case MZG_NO_SUCH_TASK:
                break;
            default:
                accept("task", answer);
            }
        }
        waiting = left;
        rounds++;
        accept("report", mzg_report(&plan, marks, (size_t)sizes.marks, &progress));
    }
    printf("%" PRIu64 " tasks done in %u rounds, %u calls came too early, tally %" PRIu64 "\n",
           progress.marked, rounds, early, progress.tally);

    /* Two totals, the second below the datum, and the same heights added one by one; a dropout counts as 0. */
    int64_t total;
    static const size_t rectangles[2][4] = { { 1, 2, 4, 6 }, { 2, 6, 5, 7 } };
    for (size_t i = 0; i < 2; i++) {
        size_t top = rectangles[i][0], left = rectangles[i][1], bottom = rectangles[i][2], right = rectangles[i][3];
        accept("rectangle", mzg_rectangle(&plan, top, left, bottom, right, output, (size_t)sizes.pixels, &total));
        int64_t added = 0;
        for (size_t row = top; row < bottom; row++)
            for (size_t column = left; column < right; column++)
                added += map[row * 7 + column] == MZG_DROPOUT ? 0 : map[row * 7 + column];
        printf("total %" PRId64 ", added one by one %" PRId64 "\n", total, added);
    }

    /* A rectangle that shrinks row by row until it is empty: its last total is 0. */
    for (size_t rows = 3; rows-- > 0;) {
        accept("rectangle", mzg_rectangle(&plan, 2, 2, 2 + rows, 6, output, (size_t)sizes.pixels, &total));
        printf("rows %zu, total %" PRId64 "\n", rows, total);
    }

    /* The same rectangle as a macro of the control reads it, total and pixel count as floats: vacant at the end. */
    for (size_t rows = 3; rows-- > 0;) {
        uint64_t states[2];
        double values[2];
        accept("macro_pair", mzg_macro_pair(&plan, 2, 2, 2 + rows, 6, output, (size_t)sizes.pixels, states, values));
        if (states[0] == MZG_TOTAL && states[1] == MZG_PIXELS)
            printf("rows %zu, mean %.3f\n", rows, values[0] / values[1]);
        else
            printf("rows %zu, vacant\n", rows);
    }

    /* A pixel that the laser did not see and one of height 0 have the same total: the dropouts tell them apart, and
     * over how many pixels of a rectangle a mean is to be taken. */
    static const size_t scanned[3][4] = { { 0, 5, 1, 6 }, { 4, 4, 5, 5 }, { 0, 4, 1, 7 } };
    for (size_t i = 0; i < 3; i++) {
        size_t top = scanned[i][0], left = scanned[i][1], bottom = scanned[i][2], right = scanned[i][3];
        uint64_t dropouts, pixels = (uint64_t)(bottom - top) * (right - left);
        accept("rectangle", mzg_rectangle(&plan, top, left, bottom, right, output, (size_t)sizes.pixels, &total));
        accept("dropouts", mzg_dropouts(&plan, top, left, bottom, right, map, map_length, &dropouts));
        printf("pixels %" PRIu64 ", dropouts %" PRIu64 ", total %" PRId64, pixels, dropouts, total);
        if (dropouts < pixels)
            printf(", mean of the seen %.3f\n", (double)total / (double)(pixels - dropouts));
        else
            printf(", nothing seen\n");
    }

    /* The block with the hole, rows 0 and 1 of columns 4 and 5, is scanned again: recalled, scanned, and then what the
     * report names until it names none. */
    const size_t rescanned = 2;
    accept("recall", mzg_recall(&plan, rescanned, marks, (size_t)sizes.marks));
    map[0 * 7 + 5] = 6;
    accept("report", mzg_report(&plan, marks, (size_t)sizes.marks, &progress));
    printf("block %zu recalled: %" PRIu64 " of %" PRIu64 " tasks are still done\n",
           rescanned, progress.marked, sizes.tasks);
    while (progress.ready) {
        accept("task", mzg_task(&plan, (size_t)progress.task, (size_t)progress.block, map, map_length,
                                marks, (size_t)sizes.marks, strips, (size_t)sizes.strips,
                                output, (size_t)sizes.pixels));
        accept("report", mzg_report(&plan, marks, (size_t)sizes.marks, &progress));
    }
    accept("rectangle", mzg_rectangle(&plan, 0, 4, 1, 7, output, (size_t)sizes.pixels, &total));
    printf("scanned again: %" PRIu64 " tasks done, total %" PRId64 "\n", progress.marked, total);

    /* A refused call says why: the map has 5 rows. */
    uint64_t answer = mzg_rectangle(&plan, 2, 2, 6, 6, output, (size_t)sizes.pixels, &total);
    printf("a rectangle past the map: refused %" PRIu64 " at %" PRIu64 "\n", MZG_NUMBER(answer), MZG_PLACE(answer));

    free(pairs);
    free(output);
    free(strips);
    free(marks);
    return 0;
}
