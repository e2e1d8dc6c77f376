/* Drafts a part of a slope of grey, halts, resumes in other bands, finishes, and prints the draft and its totals.

   cc -Iinclude examples/halt_and_resume.c crates/controller/out/libcontroller.a -o crates/controller/out/halt_and_resume && crates/controller/out/halt_and_resume */
#include <stdio.h>
#include <stdlib.h>
#include <string.h>

#include "sumbelgo.h"

enum { ROWS = 16, COLUMNS = 48, SQUARES = ROWS * COLUMNS, LEAST = 128 };

/* Ends the program where a call was refused. */
static void want(const char *call, uint8_t refusal) {
    if (refusal != 0) {
        fprintf(stderr, "%s: refused with %d\n", call, refusal);
        exit(1);
    }
}

int main(void) {
    static int32_t drawing[SQUARES], amounts[SQUARES], other_amounts[SQUARES], whole_amounts[SQUARES];
    static uint8_t codes[SQUARES], other_codes[SQUARES], whole_codes[SQUARES], record[4 + SQUARES / 8 + SQUARES];
    for (size_t s = 0; s < SQUARES; s++)
        drawing[s] = (int32_t)(255 * (s % COLUMNS) / (COLUMNS - 1));

    /* every square that is ready at once, in reading order: some are refused with 5, since they have to wait */
    want("open", sumbelgo_open(ROWS, COLUMNS, drawing, SQUARES, amounts, SQUARES, codes, SQUARES));
    size_t fixed = 0;
    for (size_t row = 0; row < ROWS; row++)
        for (size_t column = 0; column < COLUMNS; column++) {
            sumbelgo_answer a = sumbelgo_fix(ROWS, COLUMNS, LEAST, drawing, SQUARES, amounts, SQUARES, codes, SQUARES, row, column);
            fixed += a.refusal == 0;
        }

    sumbelgo_answer halted = sumbelgo_halt(ROWS, COLUMNS, LEAST, drawing, SQUARES, amounts, SQUARES, codes, SQUARES, record, sizeof record);
    want("halt", halted.refusal);

    sumbelgo_answer resumed = sumbelgo_resume(ROWS, COLUMNS, LEAST, drawing, SQUARES, other_amounts, SQUARES, other_codes, SQUARES, record, halted.count);
    want("resume", resumed.refusal);
    sumbelgo_answer finished = sumbelgo_finish(ROWS, COLUMNS, LEAST, drawing, SQUARES, other_amounts, SQUARES, other_codes, SQUARES);
    want("finish", finished.refusal);

    /* the same draft without a halt */
    want("open", sumbelgo_open(ROWS, COLUMNS, drawing, SQUARES, whole_amounts, SQUARES, whole_codes, SQUARES));
    want("finish", sumbelgo_finish(ROWS, COLUMNS, LEAST, drawing, SQUARES, whole_amounts, SQUARES, whole_codes, SQUARES).refusal);

    for (size_t row = 0; row < ROWS; row++) {
        for (size_t column = 0; column < COLUMNS; column++)
            putchar(other_codes[row * COLUMNS + column] == 1 ? '.' : '#');
        putchar('\n');
    }
    sumbelgo_totals t = sumbelgo_tally(ROWS, COLUMNS, LEAST, drawing, SQUARES, other_amounts, SQUARES, other_codes, SQUARES);
    want("tally", t.refusal);
    printf("%zu squares fixed, a record of %zu bytes, %zu squares finished\n", fixed, halted.count, finished.count);
    printf("drawing %d = outputs %d + losses %d + open %d\n", t.drawing, t.outputs, t.losses, t.amounts);
    int same = memcmp(other_codes, whole_codes, sizeof whole_codes) == 0 && memcmp(other_amounts, whole_amounts, sizeof whole_amounts) == 0;
    printf("the draft without a halt is %s\n", same ? "the same" : "another");
    return !same;
}
