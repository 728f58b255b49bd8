/* The times of two libraries at the same arguments, in turns: oracle/turns builds it. */
#define _POSIX_C_SOURCE 200809L
#include <math.h>
#include <stdint.h>
#include <stdio.h>
#include <stdlib.h>
#include <string.h>
#include <time.h>

uint8_t evaluate_before(uint8_t function, uint64_t a, uint64_t b, uint64_t c, uint64_t *out, size_t length);
uint8_t evaluate_after(uint8_t function, uint64_t a, uint64_t b, uint64_t c, uint64_t *out, size_t length);
uint64_t root_before(uint64_t x);
uint64_t root_after(uint64_t x);
uint8_t blank_before(uint8_t *sheet, size_t length, uint32_t rows);
uint8_t blank_after(uint8_t *sheet, size_t length, uint32_t rows);
/* A library from before rows kept times has no such argument: it lies on the stack, where nobody reads it. */
uint8_t edit_before(uint8_t *sheet, size_t length, uint32_t row, uint8_t function, uint64_t a, uint64_t b, uint64_t c, uint16_t times);
uint8_t edit_after(uint8_t *sheet, size_t length, uint32_t row, uint8_t function, uint64_t a, uint64_t b, uint64_t c, uint16_t times);

enum { LIST = 256, MOST_ROWS = 1024 };
typedef uint8_t evaluation(uint8_t, uint64_t, uint64_t, uint64_t, uint64_t *, size_t);
typedef uint64_t pattern_call(uint64_t);
typedef uint8_t editing(uint8_t *, size_t, uint32_t, uint8_t, uint64_t, uint64_t, uint64_t, uint16_t);

static uint64_t first[LIST], second[LIST];

static uint64_t pattern(double x)
{
    uint64_t p;
    memcpy(&p, &x, 8);
    return p;
}

static double now(void)
{
    struct timespec t;
    clock_gettime(CLOCK_MONOTONIC, &t);
    return (double)t.tv_sec * 1e9 + (double)t.tv_nsec;
}

/* One pass over the list, in nanoseconds a call. */
static double pass(int function, evaluation *evaluate, pattern_call *root)
{
    volatile uint64_t kept = 0;
    uint64_t sum = 0, out[2];
    const double began = now();
    for (int k = 0; k < LIST; k++) {
        if (function == 0) {
            sum += root(first[k]);
        } else {
            evaluate((uint8_t)function, first[k], second[k], 0, out, 2);
            sum += out[0];
        }
    }
    const double took = now() - began;
    kept = sum;
    (void)kept;
    return took / LIST;
}

static void contest(const char *what, int function, int passes)
{
    double before = INFINITY, after = INFINITY;
    for (int k = 0; k < passes; k++) {
        before = fmin(before, pass(function, evaluate_before, root_before));
        after = fmin(after, pass(function, evaluate_after, root_after));
    }
    printf("%-52s %8.1f %8.1f %6.2f\n", what, before, after, after / before);
}

/* One pass of edits of ellipeinc, its angle from the first list. At m = 0 that is its answer, and what takes time is the sheet's own part. */
static double edit_pass(uint8_t *sheet, uint32_t rows, uint16_t times, double m, editing *edit)
{
    const uint64_t parameter = pattern(m);
    unsigned refused = 0;
    const double began = now();
    for (uint32_t k = 0; k < LIST; k++)
        refused += edit(sheet, 328 + 48 * rows, k * 61 % rows, 5, first[k], parameter, 0, times) != 0;
    const double took = now() - began;
    if (refused != 0) {
        printf("turns: %u edits are refused\n", refused);
        exit(1);
    }
    return took / LIST;
}

static void contest_of_edits(const char *what, uint32_t rows, uint16_t times, double m, int passes)
{
    static uint8_t sheets[2][328 + 48 * MOST_ROWS];
    double before = INFINITY, after = INFINITY;
    blank_before(sheets[0], 328 + 48 * rows, rows);
    blank_after(sheets[1], 328 + 48 * rows, rows);
    for (int k = 0; k < passes; k++) {
        before = fmin(before, edit_pass(sheets[0], rows, times, m, edit_before));
        after = fmin(after, edit_pass(sheets[1], rows, times, m, edit_after));
    }
    printf("%-52s %8.1f %8.1f %6.2f\n", what, before, after, after / before);
}

static void fill(double a0, double a1, double b0, double b1)
{
    for (int k = 0; k < LIST; k++) {
        first[k] = pattern(a0 + (a1 - a0) * (k + 0.5) / LIST);
        second[k] = pattern(b0 + (b1 - b0) * fmod(k * 0.6180339887498949, 1));
    }
}

int main(int count, char **words)
{
    const int passes = count > 1 ? atoi(words[1]) : 400;
    printf("%-52s %8s %8s %6s\n", "nanoseconds a call, the best pass", "before", "after", "ratio");
    fill(0.5, 4, 0, 0);
    contest("root", 0, passes * 8);
    fill(-10, 0.999, 0, 0);
    contest("ellipk, m from -10 to 0.999", 1, passes);
    contest("ellipe, m from -10 to 0.999", 2, passes);
    contest("ellipke, m from -10 to 0.999", 3, passes);
    fill(-10, 0.9, 0.01, 0.9);
    contest("ellippi, n from -10 to 0.9, m from 0.01 to 0.9", 4, passes);
    fill(0.01, 1.57, 0.01, 0.9);
    contest("ellipeinc, phi from 0.01 to 1.57, m from 0.01 to 0.9", 5, passes);
    contest("ellipf, phi from 0.01 to 1.57, m from 0.01 to 0.9", 6, passes);
    fill(0.001, 1.5707, -0.006739496742276434, -0.006739496742276434);
    contest("ellipeinc, legs of the meridian", 5, passes);
    contest("ellipf, the same arguments", 6, passes);
    contest_of_edits("an edit, the sheet's own part, 1 row", 1, 1, 0, passes * 8);
    contest_of_edits("an edit, the sheet's own part, 32 rows", 32, 1, 0, passes * 8);
    contest_of_edits("an edit, the sheet's own part, 1,024 rows", MOST_ROWS, 1, 0, passes * 8);
    contest_of_edits("the same, 1,024 rows, driven 65,535 times", MOST_ROWS, 65535, 0, passes * 8);
    contest_of_edits("an edit, a leg of the meridian, 1,024 rows", MOST_ROWS, 1, -0.006739496742276434, passes);
    return 0;
}
