/* The C face on good, bad and damaged sheets, as C11 and as C++. Sheets lie against a page that no one may touch, and refused calls get bytes that can
   only be read, so that a stray read or write ends the test. */
#ifndef _DEFAULT_SOURCE
#define _DEFAULT_SOURCE
#endif
#include "shuttlemint.h"

#include <stdio.h>
#include <sys/mman.h>
#include <unistd.h>

static unsigned checks, failures;

static void check(int holds, const char *what, int line)
{
    checks++;
    if (!holds) {
        failures++;
        printf("test.c:%d: not so: %s\n", line, what);
    }
}

#define CHECK(what) check((what) != 0, #what, __LINE__)

static const uint64_t ONE = 0x3ff0000000000000, PLUS = 0x7ff0000000000000, MINUS = 0xfff0000000000000, NOT_A_NUMBER = 0x7ff8000000000000;

/* ---- memory that is watched */

#define PAGES 13u /* the largest sheet has 49,480 bytes */

static uint8_t *pages;
static size_t page;

/* So many bytes, all equal to `fill`, up against the page behind them. */
static uint8_t *lent(size_t length, int fill)
{
    uint8_t *bytes = pages + PAGES * page - length;
    mprotect(pages, PAGES * page, PROT_READ | PROT_WRITE);
    memset(bytes, fill, length);
    return bytes;
}

static void only_read(int yes)
{
    mprotect(pages, PAGES * page, yes ? PROT_READ : PROT_READ | PROT_WRITE);
}

static uint8_t *blank(uint32_t rows)
{
    uint8_t *sheet = lent(SM_SHEET_BYTES(rows), 0xa5);
    CHECK(sm_blank(sheet, SM_SHEET_BYTES(rows), rows) == 0);
    return sheet;
}

static uint32_t u32_at(const uint8_t *bytes)
{
    return bytes[0] | (uint32_t)bytes[1] << 8 | (uint32_t)bytes[2] << 16 | (uint32_t)bytes[3] << 24;
}

static uint64_t u64_at(const uint8_t *bytes)
{
    return u32_at(bytes) | (uint64_t)u32_at(bytes + 4) << 32;
}

static int counts_are(const uint8_t *sheet, size_t length, uint32_t blanks, uint32_t finite, uint32_t plus, uint32_t minus, uint32_t refused)
{
    const uint8_t *counts = sheet + SM_COUNTS(length);
    return u32_at(counts) == blanks && u32_at(counts + 4) == finite && u32_at(counts + 8) == plus && u32_at(counts + 12) == minus &&
           u32_at(counts + 16) == refused && u32_at(counts + 20) == 0;
}

/* ---- the tests */

static int evaluates(uint8_t function, uint64_t a, uint64_t b, uint8_t refusal, uint64_t first, uint64_t second)
{
    uint64_t out[2] = {7, 7};
    return sm_evaluate(function, a, b, NOT_A_NUMBER, out, 2) == refusal && out[0] == first && out[1] == second;
}

static void functions(void)
{
    uint64_t out[3] = {7, 7, 7};
    CHECK(sm_root(sm_pattern(2.0)) == 0x3ff6a09e667f3bcd);
    CHECK(sm_root(1) == 0x1e60000000000000);
    CHECK(sm_root(sm_pattern(-1.0)) == NOT_A_NUMBER);
    CHECK(sm_fused(ONE + 1, sm_pattern(0.9999999999999998), sm_pattern(-1.0)) == 0xb970000000000000);
    CHECK(sm_value(sm_remainder(sm_pattern(-7.5), sm_pattern(2.0))) == -1.5 && sm_remainder(sm_pattern(-4.0), sm_pattern(2.0)) == sm_pattern(-0.0));
    CHECK(sm_remainder(ONE, PLUS) == ONE && sm_remainder(PLUS, ONE) == NOT_A_NUMBER && sm_remainder(ONE, 0) == NOT_A_NUMBER);
    CHECK(sm_sine(sm_pattern(-0.0)) == sm_pattern(-0.0) && sm_cosine(0) == ONE && sm_logarithm(ONE) == 0);
    CHECK(sm_sine(sm_pattern(4.5)) == NOT_A_NUMBER && sm_cosine(PLUS) == NOT_A_NUMBER && sm_logarithm(0) == NOT_A_NUMBER);
    CHECK(sm_value(sm_round(sm_pattern(-2.5))) == -3.0 && sm_value(sm_round(sm_pattern(2.5))) == 3.0);
    CHECK(sm_value(sm_floor(sm_pattern(-2.5))) == -3.0 && sm_value(sm_trunc(sm_pattern(-2.5))) == -2.0);
    CHECK(sm_value(sm_magnitude(sm_pattern(-2.5))) == 2.5 && sm_magnitude(MINUS + 1) == NOT_A_NUMBER);

    CHECK(evaluates(SM_BLANK, NOT_A_NUMBER, 1, 0, 0, 0));
    CHECK(evaluates(SM_ELLIPK, 0, 0, 0, 0x3ff921fb54442d18, 0));
    CHECK(evaluates(SM_ELLIPE, ONE, 0, 0, ONE, 0));
    CHECK(evaluates(SM_ELLIPKE, ONE, 0, 0, PLUS, ONE));
    CHECK(evaluates(SM_ELLIPKE, MINUS, 0, 0, 0, PLUS));
    CHECK(evaluates(SM_ELLIPPI, sm_pattern(2.0), ONE, 0, MINUS, 0));
    CHECK(evaluates(SM_ELLIPEINC, 0, NOT_A_NUMBER, 0, 0, 0));
    CHECK(evaluates(SM_ELLIPEINC, 1, 0, 0, 1, 0));
    CHECK(evaluates(SM_ELLIPF, sm_pattern(-0.0), sm_pattern(0.5), 0, sm_pattern(-0.0), 0));
    CHECK(evaluates(SM_ELLIPF, ONE, MINUS, 0, 0, 0));
    CHECK(evaluates(SM_ELLIPF, MINUS, 0, 0, MINUS, 0));
    CHECK(evaluates(SM_ELLIPF, NOT_A_NUMBER, 0, SM_NAN_ARGUMENT, 0, 0));
    CHECK(evaluates(SM_ELLIPF, 0x3ff921fb54442d18, ONE, SM_AMPLITUDE_TOO_LARGE, 0, 0));
    CHECK(evaluates(SM_ELLIPK, NOT_A_NUMBER + 5, 0, SM_NAN_ARGUMENT, 0, 0));
    CHECK(evaluates(SM_ELLIPE, ONE + 1, 0, SM_PARAMETER_ABOVE_ONE, 0, 0));
    CHECK(evaluates(SM_ELLIPEINC, ONE, sm_pattern(2.0), SM_AMPLITUDE_TOO_LARGE, 0, 0));
    CHECK(evaluates(SM_ELLIPPI, ONE, ONE, SM_CHARACTERISTIC_ONE, 0, 0));
    CHECK(evaluates(SM_ELLIPPI, sm_pattern(2.0), 0xeaa0000000000000 /* -2^683 */, SM_NOT_SETTLED, 0, 0));
    CHECK(evaluates(SM_ELLIPEINC, 0x0170000000000000 /* 2^-1000 */, MINUS, 0, PLUS, 0));
    CHECK(evaluates(SM_ELLIPF, 0x4330000000000001 /* 2^52 + 1 */, MINUS, SM_NO_NUMBER, 0, 0));
    CHECK(evaluates(SM_LAST_FUNCTION + 1, 0, 0, SM_NO_SUCH_FUNCTION, 0, 0));

    CHECK(sm_rounds(SM_ELLIPPI, 0x87b0000000000000 /* -2^-900 */, 0xea90000000000000 /* -2^682 */, 0) == 77); /* RJ has 13, an RC inside it 64 */
    CHECK(evaluates(SM_ELLIPPI, 0x87b0000000000000, 0xea90000000000000, SM_NOT_SETTLED, 0, 0));
    CHECK(sm_rounds(SM_ELLIPF, ONE, MINUS, 0) == 64 && sm_rounds(SM_ELLIPF, NOT_A_NUMBER, MINUS, 0) == 0);
    for (uint8_t function = SM_BLANK; function <= SM_ELLIPKE; function++)
        CHECK(sm_rounds(function, sm_pattern(0.25), sm_pattern(0.5), 0) == 0);
    CHECK(sm_rounds(SM_LAST_FUNCTION + 1, sm_pattern(0.25), sm_pattern(0.5), 0) == 0);

    CHECK(sm_evaluate(SM_ELLIPK, 0, 0, 0, NULL, 0) == SM_NOT_A_SHEET);
    CHECK(sm_evaluate(SM_ELLIPK, 0, 0, 0, out, 1) == SM_NOT_A_SHEET);
    CHECK(sm_evaluate(SM_ELLIPK, 0, 0, 0, out, 3) == SM_NOT_A_SHEET);
    CHECK(out[0] == 7 && out[1] == 7 && out[2] == 7);
}

/* The calls with doubles are those with patterns. */
static void doubles(void)
{
    const double infinity = sm_value(PLUS), nan = sm_value(NOT_A_NUMBER);
    double first = 7, second = 7;
    CHECK(sm_ellipk(0.0, &first) == 0 && sm_pattern(first) == 0x3ff921fb54442d18);
    CHECK(sm_ellipk(nan, &first) == SM_NAN_ARGUMENT && sm_pattern(first) == 0);
    CHECK(sm_ellipe(1.0, &first) == 0 && first == 1.0);
    CHECK(sm_ellipe(1.5, &first) == SM_PARAMETER_ABOVE_ONE && sm_pattern(first) == 0);
    CHECK(sm_ellipke(1.0, &first, &second) == 0 && first == infinity && second == 1.0);
    CHECK(sm_ellipke(2.0, &first, &second) == SM_PARAMETER_ABOVE_ONE && sm_pattern(first) == 0 && sm_pattern(second) == 0);
    CHECK(sm_ellippi(2.0, 1.0, &first) == 0 && first == -infinity);
    CHECK(sm_ellippi(1.0, 2.0, &first) == SM_PARAMETER_ABOVE_ONE && sm_ellippi(1.0, 0.5, &first) == SM_CHARACTERISTIC_ONE);
    CHECK(sm_ellipeinc(-1.5, 0.0, &first) == 0 && first == -1.5);
    CHECK(sm_ellipeinc(0.0, nan, &first) == 0 && sm_ellipeinc(nan, 0.0, &first) == SM_NAN_ARGUMENT);
    CHECK(sm_ellipf(1.0, 0.0, &first) == 0 && first == 1.0);
    CHECK(sm_ellipf(1.0, 2.0, &first) == SM_AMPLITUDE_TOO_LARGE && sm_pattern(first) == 0);
    {
        const size_t length = SM_SHEET_BYTES(7);
        uint8_t *sheet = blank(7), raw[SM_SHEET_BYTES(7)];
        sm_row row;
        CHECK(sm_blank(raw, length, 7) == 0);
        CHECK(sm_enter_ellipke(sheet, length, 0, 0.5) == 0 && sm_edit(raw, length, 0, SM_ELLIPKE, sm_pattern(0.5), 0, 0, 1) == 0);
        CHECK(sm_enter_ellipe(sheet, length, 1, 0.25) == 0 && sm_edit(raw, length, 1, SM_ELLIPE, sm_pattern(0.25), 0, 0, 1) == 0);
        CHECK(sm_enter_ellipke(sheet, length, 2, -3.0) == 0 && sm_edit(raw, length, 2, SM_ELLIPKE, sm_pattern(-3.0), 0, 0, 1) == 0);
        CHECK(sm_enter_ellippi(sheet, length, 3, 1.0, 0.5) == 0 && sm_edit(raw, length, 3, SM_ELLIPPI, ONE, sm_pattern(0.5), 0, 1) == 0);
        CHECK(sm_enter_ellipeinc(sheet, length, 4, 100000.0, 0.0) == 0 && sm_edit(raw, length, 4, SM_ELLIPEINC, sm_pattern(1e5), 0, 0, 1) == 0);
        CHECK(sm_enter_ellipf(sheet, length, 5, 0.75, 0.5) == 0 &&
              sm_edit(raw, length, 5, SM_ELLIPF, sm_pattern(0.75), sm_pattern(0.5), 0, 1) == 0);
        CHECK(sm_enter_ellipke(sheet, length, 6, 0.5) == 0 && sm_clear(sheet, length, 6) == 0);
        CHECK(sm_enter_times(sheet, length, 6, SM_ELLIPF, 0.75, 0.5, 300) == 0 &&
              sm_edit(raw, length, 6, SM_ELLIPF, sm_pattern(0.75), sm_pattern(0.5), 0, 300) == 0);
        CHECK(memcmp(sheet, raw, length) == 0);
        only_read(1);
        CHECK(sm_sum(sheet, length) == sm_value(sm_total(raw, length)) && sm_sum(sheet, length) > 100000.0);
        CHECK(sm_read(sheet, length, 4, &row) == 0 && row.function == SM_ELLIPEINC && row.refusal == 0 && row.times == 1);
        CHECK(sm_read(sheet, length, 6, &row) == 0 && row.function == SM_ELLIPF && row.times == 300);
        CHECK(sm_read(sheet, length, 4, &row) == 0);
        CHECK(row.arguments[0] == 100000.0 && row.arguments[1] == 0.0 && row.arguments[2] == 0.0 && row.answers[0] == 100000.0 && row.answers[1] == 0.0);
        CHECK(sm_read(sheet, length, 3, &row) == 0 && row.refusal == SM_CHARACTERISTIC_ONE && row.answers[0] == 0.0 && row.arguments[1] == 0.5);
        CHECK(sm_read(sheet, length, 7, &row) == SM_NO_SUCH_ROW && row.function == 0 && row.refusal == 0 && row.times == 0 && row.arguments[0] == 0.0);
        CHECK(sm_read(sheet, length - 1, 0, &row) == SM_NOT_A_SHEET && sm_sum(sheet, length - 1) == 0.0);
        CHECK(sm_enter_ellipke(sheet, length, 7, 0.5) == SM_NO_SUCH_ROW && sm_clear(sheet, length, 7) == SM_NO_SUCH_ROW);
        CHECK(sm_enter_times(sheet, length, 0, SM_LAST_FUNCTION + 1, 0.5, 0, 2) == SM_NO_SUCH_FUNCTION);
        CHECK(sm_enter_times(sheet, length, 0, SM_ELLIPK, 0.5, 0, 2) == SM_WITHDRAWN_FUNCTION);
        only_read(0);
    }
}

static void good_sheets(void)
{
    const size_t length = SM_SHEET_BYTES(4);
    uint8_t *sheet = blank(4);
    const uint8_t *row;
    CHECK(counts_are(sheet, length, 4, 0, 0, 0, 0));
    CHECK(sm_edit(sheet, length, 0, SM_ELLIPKE, ONE, 1, 2, 1) == 0);
    CHECK(sm_edit(sheet, length, 1, SM_ELLIPEINC, 0, NOT_A_NUMBER, 0, 1) == 0);
    CHECK(sm_edit(sheet, length, 2, SM_ELLIPPI, ONE, ONE, 0, 1) == 0);
    CHECK(sm_edit(sheet, length, 3, SM_ELLIPEINC, sm_pattern(2.0), 0, 0, 1) == 0);
    only_read(1);
    CHECK(counts_are(sheet, length, 0, 2, 1, 0, 1));
    CHECK(sm_total(sheet, length) == sm_pattern(2.0) && sm_total_refusal(sheet, length) == 0);
    CHECK(sm_row_at(sheet, length, 2) == 32 + 2 * SM_ROW_BYTES && sm_row_refusal(sheet, length, 2) == 0);
    row = sheet + sm_row_at(sheet, length, 2);
    CHECK(row[SM_ROW_FUNCTION] == SM_ELLIPPI && row[SM_ROW_REFUSAL] == SM_CHARACTERISTIC_ONE);
    CHECK(u64_at(row + SM_ROW_ARGUMENTS) == ONE && u64_at(row + SM_ROW_ARGUMENTS + 8) == ONE && u64_at(row + SM_ROW_ARGUMENTS + 16) == 0);
    row = sheet + sm_row_at(sheet, length, 0);
    CHECK(u64_at(row + SM_ROW_ARGUMENTS + 8) == 0 && u64_at(row + SM_ROW_ANSWERS) == PLUS && u64_at(row + SM_ROW_ANSWERS + 8) == ONE);

    /* Refused, on bytes that can only be read. */
    CHECK(sm_row_at(sheet, length, 4) == length && sm_row_refusal(sheet, length, 4) == SM_NO_SUCH_ROW);
    CHECK(sm_edit(sheet, length, 4, SM_LAST_FUNCTION + 1, 0, 0, 0, 1) == SM_NO_SUCH_ROW);
    CHECK(sm_edit(sheet, length, UINT32_MAX, 0, 0, 0, 0, 1) == SM_NO_SUCH_ROW);
    CHECK(sm_edit(sheet, length, 3, SM_LAST_FUNCTION + 1, 0, 0, 0, 1) == SM_NO_SUCH_FUNCTION);
    CHECK(sm_edit(sheet, length, 3, 255, 0, 0, 0, 1) == SM_NO_SUCH_FUNCTION);
    CHECK(sm_edit(sheet, length, 4, SM_ELLIPK, 0, 0, 0, 1) == SM_NO_SUCH_ROW && sm_edit(sheet, length, 3, SM_ELLIPK, 0, 0, 0, 1) == SM_WITHDRAWN_FUNCTION);
    CHECK(sm_blank(sheet, length, 3) == SM_NOT_A_SHEET);
    CHECK(sm_blank(sheet, length, 1025) == SM_TOO_MANY_ROWS);
    only_read(0);
    for (uint32_t i = 0; i < 4; i++)
        CHECK(sm_edit(sheet, length, i, SM_BLANK, 0, 0, 0, 9) == 0);
    CHECK(counts_are(sheet, length, 4, 0, 0, 0, 0) && sm_total(sheet, length) == 0);
}

/* Bytes of a length or with contents that are not a sheet's: every call refuses and changes nothing. */
static void is_no_sheet(uint8_t *bytes, size_t length)
{
    only_read(1);
    CHECK(sm_edit(bytes, length, 0, SM_ELLIPK, 0, 0, 0, 1) == SM_NOT_A_SHEET);
    CHECK(sm_edit(bytes, length, UINT32_MAX, 255, 0, 0, 0, 1) == SM_NOT_A_SHEET);
    CHECK(sm_row_at(bytes, length, 0) == length && sm_row_refusal(bytes, length, 0) == SM_NOT_A_SHEET && sm_row_times(bytes, length, 0) == 0);
    CHECK(sm_total(bytes, length) == 0 && sm_total_refusal(bytes, length) == SM_NOT_A_SHEET);
    only_read(0);
}

static void bad_sheets(void)
{
    static const uint32_t sizes[] = {0, 1, SM_MOST_ROWS};
    const size_t too_large = SM_SHEET_BYTES(SM_MOST_ROWS + 1);
    for (size_t i = 0; i < sizeof sizes / sizeof *sizes; i++) {
        const uint32_t rows = sizes[i];
        const size_t length = SM_SHEET_BYTES(rows);
        uint8_t *sheet = blank(rows);
        CHECK(sm_total_refusal(sheet, length) == 0);
        CHECK(sm_row_refusal(sheet, length, rows) == SM_NO_SUCH_ROW);
        is_no_sheet(sheet, length - 1);
        is_no_sheet(sheet + 1, length - 1);
        sheet = lent(length + 1, 0);
        CHECK(sm_blank(sheet, length, rows) == 0);
        is_no_sheet(sheet, length + 1);
        CHECK(sm_blank(sheet, length + 1, rows) == SM_NOT_A_SHEET);
        CHECK(sm_blank(sheet, length - 1, rows) == SM_NOT_A_SHEET);
    }
    CHECK(sm_blank(lent(too_large, 0), too_large, SM_MOST_ROWS + 1) == SM_TOO_MANY_ROWS);
    is_no_sheet(lent(too_large, 0), too_large);
    is_no_sheet(lent(SM_SHEET_BYTES(1), 0), SM_SHEET_BYTES(1));
    is_no_sheet(lent(0, 0), 0);
    is_no_sheet(NULL, 0);
    CHECK(sm_blank(NULL, 0, 0) == SM_NOT_A_SHEET);
    CHECK(sm_blank(NULL, 0, UINT32_MAX) == SM_TOO_MANY_ROWS);
}

/* What an edit of the one row gives after this byte was set, on bytes that can only be read if it is refused. */
static uint8_t after(size_t place, uint8_t byte)
{
    const size_t length = SM_SHEET_BYTES(1);
    uint8_t *sheet = blank(1), refusal;
    CHECK(sm_edit(sheet, length, 0, SM_ELLIPEINC, sm_pattern(-1.5), 0, 0, 1) == 0);
    sheet[place] = byte;
    only_read(sm_row_refusal(sheet, length, 0) != 0);
    refusal = sm_edit(sheet, length, 0, SM_ELLIPEINC, ONE, 0, 0, 1);
    if (refusal == 0)
        CHECK(counts_are(sheet, length, 0, 1, 0, 0, 0));
    if (refusal == SM_DAMAGED)
        CHECK(sheet[place] == byte && sm_row_refusal(sheet, length, 0) == 0);
    return refusal;
}

static void damaged_sheets(void)
{
    const size_t row = 32, counts = row + SM_ROW_BYTES;
    for (size_t place = 0; place < 32; place++)
        CHECK(after(place, 0x55) == SM_NOT_A_SHEET);
    CHECK(after(row + SM_ROW_FUNCTION, 4) == 0);
    CHECK(after(row + SM_ROW_FUNCTION, SM_LAST_FUNCTION + 1) == SM_DAMAGED);
    CHECK(after(row + SM_ROW_FUNCTION, 0) == SM_DAMAGED); /* blank, and no blank row is counted */
    CHECK(after(row + SM_ROW_REFUSAL, 6) == SM_DAMAGED);  /* refused, and no refused row is counted */
    CHECK(after(row + SM_ROW_REFUSAL, 7) == SM_DAMAGED);
    for (size_t place = 2; place < SM_ROW_ANSWERS + 8; place++)
        CHECK(after(row + place, 0x55) == 0); /* times, zeros, arguments, and a first answer that is another finite number */
    for (size_t place = 0; place < 20; place++)
        CHECK(after(counts + place, 0x55) == SM_DAMAGED);
    for (size_t place = 20; place < 296; place++)
        CHECK(after(counts + place, 0x55) == 0); /* the four zeros and the total are not looked at */
    {
        uint8_t *sheet = blank(1);
        const size_t length = SM_SHEET_BYTES(1);
        memset(sheet + row + SM_ROW_ANSWERS, 0xff, 8);
        only_read(1);
        CHECK(sm_edit(sheet, length, 0, SM_BLANK, 0, 0, 0, 1) == SM_DAMAGED); /* a NaN for a first answer */
        CHECK(sm_row_refusal(sheet, length, 0) == 0 && sm_total_refusal(sheet, length) == 0);
        only_read(0);
    }
}

static void times_driven(void)
{
    static const uint16_t often[] = {65535, 0, 1, 2, 255, 256, 0x0102};
    static const uint8_t zeros[SM_ROW_BYTES] = {0};
    const size_t length = SM_SHEET_BYTES(2);
    uint8_t *sheet = blank(2), *row = sheet + sm_row_at(sheet, length, 1);
    CHECK(u32_at(sheet) == 3);
    /* The same leg again and again: the old row goes with its own times. */
    for (size_t i = 0; i < sizeof often / sizeof *often; i++) {
        CHECK(sm_edit(sheet, length, 1, SM_ELLIPEINC, sm_pattern(-1.5), 0, 0, often[i]) == 0);
        CHECK(row[SM_ROW_TIMES] == often[i] % 256 && row[SM_ROW_TIMES + 1] == often[i] / 256 && u32_at(row + 4) == 0);
        CHECK(sm_row_times(sheet, length, 1) == often[i] && sm_row_times(sheet, length, 0) == 0 && sm_row_times(sheet, length, 2) == 0);
        CHECK(sm_sum(sheet, length) == -1.5 * often[i] && counts_are(sheet, length, 1, 1, 0, 0, 0));
    }
    /* A refused row and an infinite one keep their times and add nothing; a blank row keeps none. */
    CHECK(sm_edit(sheet, length, 1, SM_ELLIPPI, ONE, ONE, 0, 7) == 0 && sm_row_times(sheet, length, 1) == 7 && sm_total(sheet, length) == 0);
    CHECK(sm_edit(sheet, length, 1, SM_ELLIPKE, ONE, 0, 0, 8) == 0 && sm_row_times(sheet, length, 1) == 8 && sm_total(sheet, length) == 0);
    CHECK(sm_edit(sheet, length, 1, SM_BLANK, ONE, 0, 0, 9) == 0 && memcmp(row, zeros, SM_ROW_BYTES) == 0);
    CHECK(counts_are(sheet, length, 2, 0, 0, 0, 0));
}

/* A sheet from before rows kept times says 1: it is read, each leg once, and not edited. One that says neither is none. */
static void old_sheets(void)
{
    const size_t length = SM_SHEET_BYTES(3);
    uint8_t *sheet = blank(3), old[SM_SHEET_BYTES(3)];
    sm_row row;
    CHECK(sm_enter_ellipeinc(sheet, length, 0, -1.5, 0) == 0 && sm_enter_ellippi(sheet, length, 1, 1, 1) == 0);
    sheet[0] = 1;
    sheet[32 + SM_ROW_TIMES] = sheet[32 + SM_ROW_BYTES + SM_ROW_TIMES] = 0;
    memcpy(old, sheet, length);
    for (int other = 0; other < 2; other++) { /* whatever stands where times do */
        only_read(1);
        CHECK(sm_row_times(sheet, length, 0) == 1 && sm_row_times(sheet, length, 1) == 1 && sm_row_times(sheet, length, 2) == 0 &&
              sm_row_times(sheet, length, 3) == 0);
        CHECK(sm_read(sheet, length, 0, &row) == 0 && row.times == 1 && row.answers[0] == -1.5);
        CHECK(sm_read(sheet, length, 2, &row) == 0 && row.times == 0);
        CHECK(sm_row_class(sheet, length, 1) == 4 && sm_row_at(sheet, length, 1) == 32 + SM_ROW_BYTES && sm_row_refusal(sheet, length, 3) == SM_NO_SUCH_ROW);
        CHECK(sm_sum(sheet, length) == -1.5 && sm_total_refusal(sheet, length) == 0 && sm_count(sheet, length, 4) == 1);
        CHECK(sm_edit(sheet, length, 0, SM_ELLIPK, 0, 0, 0, 1) == SM_NOT_A_SHEET && sm_edit(sheet, length, 3, 255, 0, 0, 0, 1) == SM_NOT_A_SHEET);
        CHECK(sm_enter_ellipke(sheet, length, 0, 0) == SM_NOT_A_SHEET && sm_clear(sheet, length, 0) == SM_NOT_A_SHEET);
        only_read(0);
        for (uint32_t i = 0; i < 3; i++)
            sheet[32 + SM_ROW_BYTES * i + SM_ROW_TIMES] = 0x55;
    }
    for (int says = 0; says < 256; says++) {
        memcpy(sheet, old, length);
        sheet[0] = (uint8_t)says;
        if (says != 1 && says != 3)
            is_no_sheet(sheet, length);
    }
    memcpy(sheet, old, length);
    CHECK(sm_blank(sheet, length, 3) == 0 && u32_at(sheet) == 3);
}

/* From a sheet that says 1 to one that says 3 and back, on bytes that can only be read where it is refused. */
static void forth_and_back(void)
{
    const size_t length = SM_SHEET_BYTES(4), counts = length - 296;
    uint8_t *sheet = blank(4), made[SM_SHEET_BYTES(4)], old[SM_SHEET_BYTES(4)];
    CHECK(sm_enter_ellipeinc(sheet, length, 0, -1.5, 0) == 0 && sm_enter_ellippi(sheet, length, 1, 1, 1) == 0 && sm_enter_ellipke(sheet, length, 3, 1) == 0);
    memcpy(made, sheet, length);
    memcpy(old, sheet, length);
    old[0] = 1;
    for (uint32_t i = 0; i < 4; i++)
        old[32 + SM_ROW_BYTES * i + SM_ROW_TIMES] = 0;
    only_read(1);
    CHECK(sm_forth(sheet, length) == SM_NOT_A_SHEET && sm_forth_row(sheet, length) == 0 && sm_back_row(sheet, length) == 0);
    CHECK(sm_back(sheet, length - 1) == SM_NOT_A_SHEET && sm_back(NULL, 0) == SM_NOT_A_SHEET && sm_forth(NULL, 0) == SM_NOT_A_SHEET);
    only_read(0);
    CHECK(sm_back(sheet, length) == 0 && memcmp(sheet, old, length) == 0);
    only_read(1);
    CHECK(sm_back(sheet, length) == SM_NOT_A_SHEET && sm_forth_row(sheet, length) == 0);
    only_read(0);
    CHECK(sm_forth(sheet, length) == 0 && memcmp(sheet, made, length) == 0 && sm_sum(sheet, length) == -1.5);

    /* Times other than 1; in a blank row any times pass, and are lost. */
    for (uint32_t i = 0; i < 4; i++)
        for (int times = 0; times < 3; times++) {
            const int passes = times == 1 || i == 2;
            only_read(0);
            memcpy(sheet, made, length);
            sheet[32 + SM_ROW_BYTES * i + SM_ROW_TIMES] = (uint8_t)times;
            only_read(!passes);
            CHECK(sm_back_row(sheet, length) == (passes ? 0 : i));
            CHECK(sm_back(sheet, length) == (passes ? 0 : SM_NOT_DRIVEN_ONCE));
            if (passes)
                CHECK(memcmp(sheet, old, length) == 0);
        }

    /* Damage, either way: the first row is named, and goes before the counts and before 17. */
    for (int back = 0; back < 2; back++) {
        uint8_t (*const call)(uint8_t *, size_t) = back ? sm_back : sm_forth;
        uint32_t (*const row_of)(const uint8_t *, size_t) = back ? sm_back_row : sm_forth_row;
        only_read(0);
        memcpy(sheet, back ? made : old, length);
        sheet[32 + SM_ROW_TIMES] = 7;
        sheet[counts]++; /* one blank row more than there are */
        only_read(1);
        CHECK(call(sheet, length) == SM_DAMAGED && row_of(sheet, length) == 4);
        only_read(0);
        sheet[32 + 3 * SM_ROW_BYTES + SM_ROW_FUNCTION] = SM_LAST_FUNCTION + 1;
        only_read(1);
        CHECK(call(sheet, length) == SM_DAMAGED && row_of(sheet, length) == 3);
        only_read(0);
        sheet[counts + 16] = 0; /* no refused row is counted, and row 1 is one */
        only_read(1);
        CHECK(call(sheet, length) == SM_DAMAGED && row_of(sheet, length) == 1);
        only_read(0);
    }

    /* Bytes 4 to 7 of a row, second answers and the total are carried over, whatever they hold. */
    memcpy(sheet, old, length);
    memset(sheet + 32 + 4, 0x55, 4);
    memset(sheet + 32 + SM_ROW_ANSWERS + 8, 0xff, 8);
    memset(sheet + counts + 20, 0x66, 276);
    memcpy(old, sheet, length);
    CHECK(sm_forth(sheet, length) == 0 && sheet[0] == 3 && sheet[32 + SM_ROW_TIMES] == 1 && sheet[32 + 2 * SM_ROW_BYTES + SM_ROW_TIMES] == 0);
    CHECK(memcmp(sheet + 32 + 4, old + 32 + 4, SM_ROW_BYTES - 4) == 0 && memcmp(sheet + counts, old + counts, 296) == 0);
    CHECK(sm_back(sheet, length) == 0 && memcmp(sheet, old, length) == 0);
}

/* A row of function 1 that was entered before is read, counted, in the total, and replaced or cleared; no new one is entered. */
static void function_1_goes_out(void)
{
    const size_t length = SM_SHEET_BYTES(2);
    for (int turn = 0; turn < 3; turn++) {
        uint8_t *sheet = blank(2), stands[SM_SHEET_BYTES(2)];
        sm_row row;
        /* As it was entered: F(pi/2, 0) has K(0)'s bits, and K reads one argument. */
        CHECK(sm_enter_times(sheet, length, 0, SM_ELLIPF, sm_value(0x3ff921fb54442d18), 0, 3) == 0 && sm_enter_ellipeinc(sheet, length, 1, 1.5, 0) == 0);
        memset(sheet + 32 + SM_ROW_ARGUMENTS, 0, 8);
        sheet[32] = SM_ELLIPK;
        memcpy(stands, sheet, length);
        only_read(1);
        CHECK(sm_read(sheet, length, 0, &row) == 0 && row.function == SM_ELLIPK && row.times == 3 && sm_pattern(row.answers[0]) == 0x3ff921fb54442d18);
        CHECK(sm_row_class(sheet, length, 0) == 1 && counts_are(sheet, length, 0, 2, 0, 0, 0) && sm_sum(sheet, length) > 6.2);
        for (uint32_t i = 0; i < 3; i++)
            CHECK(sm_edit(sheet, length, i, SM_ELLIPK, ONE, 0, 0, 3) == (i < 2 ? SM_WITHDRAWN_FUNCTION : SM_NO_SUCH_ROW));
        only_read(0);
        CHECK(memcmp(sheet, stands, length) == 0);
        if (turn == 0)
            CHECK(sm_clear(sheet, length, 0) == 0 && counts_are(sheet, length, 1, 1, 0, 0, 0));
        if (turn == 1)
            CHECK(sm_enter_ellipke(sheet, length, 0, 1.0) == 0 && counts_are(sheet, length, 0, 1, 1, 0, 0));
        if (turn == 2) { /* over damage: 22 goes before 10 */
            sheet[32 + SM_ROW_REFUSAL] = 200;
            CHECK(sm_edit(sheet, length, 0, SM_ELLIPK, 0, 0, 0, 1) == SM_WITHDRAWN_FUNCTION && sm_enter_ellipke(sheet, length, 0, 0) == SM_DAMAGED);
            sheet[32 + SM_ROW_REFUSAL] = 0;
            CHECK(sm_clear(sheet, length, 0) == 0);
        }
        CHECK(sm_sum(sheet, length) == 1.5);
    }
}

static void largest_sheet(void)
{
    const size_t length = SM_SHEET_BYTES(SM_MOST_ROWS);
    uint8_t *sheet = blank(SM_MOST_ROWS);
    unsigned accepted = 0;
    /* 1e300, then ones, then -1e300, all so often: a running sum in doubles would lose the ones. */
    for (uint32_t i = 0; i < SM_MOST_ROWS; i++) {
        const double leg = i == 0 ? 1e300 : i == SM_MOST_ROWS - 1 ? -1e300 : 1.0;
        accepted += sm_edit(sheet, length, i, SM_ELLIPEINC, sm_pattern(leg), 0, 0, 65535) == 0;
    }
    CHECK(accepted == SM_MOST_ROWS);
    CHECK(sm_value(sm_total(sheet, length)) == 1022.0 * 65535.0);
    CHECK(sm_row_at(sheet, length, SM_MOST_ROWS - 1) == length - 296 - SM_ROW_BYTES);
}

int main(void)
{
    page = (size_t)sysconf(_SC_PAGESIZE);
    pages = (uint8_t *)mmap(NULL, (PAGES + 1) * page, PROT_READ | PROT_WRITE, MAP_PRIVATE | MAP_ANONYMOUS, -1, 0);
    if (pages == MAP_FAILED || mprotect(pages + PAGES * page, page, PROT_NONE) != 0) {
        perror("test.c: pages");
        return 1;
    }
    functions();
    doubles();
    good_sheets();
    bad_sheets();
    damaged_sheets();
    times_driven();
    old_sheets();
    forth_and_back();
    function_1_goes_out();
    largest_sheet();
    printf("%u checks, %u failures\n", checks, failures);
    return failures != 0;
}
