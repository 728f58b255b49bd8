/* Shuttlemint: elliptic integrals and the leg sheet, in a library in which every function is proved.

   Link target/staticlib/libshuttlemint.a, which `examples/prove shuttlemint` writes, on x86-64 Linux:

       cc -Ifaces/c program.c target/staticlib/libshuttlemint.a

   What holds of every call
   - It answers for all values of its arguments and for any bytes. There is nothing that a caller must make sure of but the next three points.
   - A slice is passed as a pointer and a length, the length in elements. The caller owns the elements. For the length of the call that many of them
     can be read (and written, where the pointer is not const) and nobody else writes them. The length is looked at first: NULL with length 0 is safe, and is
     refused as any other length is that does not fit. Bytes need no alignment; `out` of sm_evaluate is an ordinary array of uint64_t.
   - The processor's floating-point state is the one that a C program starts with: rounding to nearest, subnormals kept. Rounding set otherwise by fesetround,
     or gcc's -ffast-math or -Ofast given when linking, which turns subnormals into zeros, makes answers wrong.
   - Floating-point traps are masked, as they are when a C program starts. The steps of a call raise the flags of invalid, division by zero, overflow,
     underflow and inexact as IEEE 754 has it, and clear none; no answer depends on a flag. Where the host lets one of them trap (feenableexcept), a call
     may end in SIGFPE. feholdexcept(&env) before it and fesetenv(&env) behind it mask the traps for its length, and the host's flags stay as they were.
   - It keeps no pointer and has no state: any threads may call at the same time, on sheets of their own or reading one together.
   - It takes no memory, calls nothing but memcpy and memset, and ends within bounded work.

   Two offers stand below. The first takes and gives doubles. The second is the library's own calls: there a float goes over as its bit pattern, a uint64_t, as
   it stands in a sheet. A double given to one of those does not compile; sm_pattern and sm_value go there and back. (A pattern given to the first offer does,
   as any whole number: it has no use for patterns.)

   A NaN of any pattern is the same argument. No answer of an integral is NaN; a NaN of the functions of one float is 7ff8000000000000.

   What is meant by each call is stated in crates/shuttlemint and docs/SHEET.md. */
#ifndef SHUTTLEMINT_H
#define SHUTTLEMINT_H

#include <stddef.h>
#include <stdint.h>
#include <string.h>

/* Refusals. 0 is none. */
enum {
    SM_NAN_ARGUMENT = 1,        /* an argument is NaN */
    SM_PARAMETER_ABOVE_ONE = 2, /* m > 1 */
    SM_AMPLITUDE_TOO_LARGE = 3, /* m sin^2(phi) >= 1 */
    SM_CHARACTERISTIC_ONE = 4,  /* n = 1 */
    SM_NOT_SETTLED = 5,         /* a recipe's stop test is still unmet after 64 rounds: an argument is too large or too small for it */
    SM_NO_NUMBER = 6,           /* the steps end in no number: they overflow, or meet zero times infinity */
    SM_NOT_A_SHEET = 7,         /* the length or the contents are not those of a sheet, or not of one that the call takes; a length of `out` that is not 2 */
    SM_NO_SUCH_ROW = 8,         /* the row number is not below the row count */
    SM_NO_SUCH_FUNCTION = 9,    /* the function number is above the last */
    SM_DAMAGED = 10,            /* the row to be replaced, one to be brought forth or back, or the counts, are damaged */
    SM_TOO_MANY_ROWS = 11,      /* more than 1,024 rows are asked for */
    SM_OUTSIDE_THE_KERNEL = 12, /* a logarithm, sine or cosine outside its range; no call below gives it */
    SM_NOT_DRIVEN_ONCE = 17,    /* on the way back: a row that is not blank has times other than 1, which a sheet that says 1 can't keep */
    SM_WITHDRAWN_FUNCTION = 22  /* an edit to function 1, which goes out: enter function 3, whose first answer is K(m) too */
};

/* Functions by number, with their arguments a, b and answers. Those not named are not read, and 0. */
enum {
    SM_BLANK = 0,     /* no function: a blank row */
    SM_ELLIPK = 1,    /* a = m; K(m). Goes out: rows of it stand, and no new one is entered */
    SM_ELLIPE = 2,    /* a = m; E(m) */
    SM_ELLIPKE = 3,   /* a = m; K(m), E(m) */
    SM_ELLIPPI = 4,   /* a = n, b = m; Pi(n, m) */
    SM_ELLIPEINC = 5, /* a = phi, b = m; E(phi, m) */
    SM_ELLIPF = 6,    /* a = phi, b = m; F(phi, m) */
    SM_LAST_FUNCTION = SM_ELLIPF
};

/* A sheet of r rows, 0 <= r <= 1,024, has exactly SM_SHEET_BYTES(r) bytes; numbers in it are little-endian:

       32 bytes      contents: uint32_t 3, 32, 48 r, r, 2, 32 + 48 r, 296, 1
       48 bytes r times, a row: 1 byte function, 1 byte refusal, uint16_t times, 4 zeros, 3 uint64_t arguments, 2 uint64_t answers
       296 bytes     totals: uint32_t counts of the rows that are blank, finite, +infinite, -infinite, refused; 4 zeros; 272 bytes, the exact total

   Times is how often the leg of the row was driven, 0 to 65,535; a blank row has 0. The total is the sum of times multiplied by first answer over the finite
   rows. A sheet from before rows kept times says 1 in place of 3 and has zeros in place of times: its legs count once each. It is read by every call that
   reads, and not edited: sm_edit and the calls made of it give 7. sm_forth makes it a sheet that says 3, and sm_back goes the other way.

   A refused call changes no byte. */
#define SM_MOST_ROWS 1024u
#define SM_ROW_BYTES 48u
#define SM_SHEET_BYTES(rows) (328u + 48u * (size_t)(rows))

/* Places in a row, and the place of the counts in a sheet of so many bytes. */
#define SM_ROW_FUNCTION 0u
#define SM_ROW_REFUSAL 1u
#define SM_ROW_TIMES 2u
#define SM_ROW_ARGUMENTS 8u
#define SM_ROW_ANSWERS 32u
#define SM_COUNTS(sheet_length) ((sheet_length) - 296u)

/* ---- The first offer: doubles. Each is an inline function over the library's own calls. */

/* Works out the integral. Gives 0 and writes the answers; or gives its refusal, 1 to 6, and writes zeros. No answer is NaN; it can be
   infinite: K at 1, E at -infinity, Pi at m = 1, E(phi, m) at an infinite phi and, but for phi = 0, at m = -infinity, F(phi, m) at an infinite phi; and E(phi, m) and
   F(phi, m) where they are too large for a double. */
static inline uint8_t sm_ellipk(double m, double *k);
static inline uint8_t sm_ellipe(double m, double *e);
static inline uint8_t sm_ellipke(double m, double *k, double *e);
static inline uint8_t sm_ellippi(double n, double m, double *pi);
static inline uint8_t sm_ellipeinc(double phi, double m, double *e);
static inline uint8_t sm_ellipf(double phi, double m, double *f);

/* Works out the integral and puts it in the row, in place of what stands there, as a leg that was driven once; the counts and the total follow. Gives 0; or 7,
   8 or 10, tried in this order. A refusal of the integral itself, 1 to 6, is no refusal of the call: the row keeps it, with zeros for answers, and the call
   gives 0. sm_clear makes the row blank. sm_blank, below, makes a sheet. There is no call that enters ellipk, which goes out: sm_enter_ellipke keeps K(m) and
   E(m). */
static inline uint8_t sm_enter_ellipe(uint8_t *sheet, size_t sheet_length, uint32_t row, double m);
static inline uint8_t sm_enter_ellipke(uint8_t *sheet, size_t sheet_length, uint32_t row, double m);
static inline uint8_t sm_enter_ellippi(uint8_t *sheet, size_t sheet_length, uint32_t row, double n, double m);
static inline uint8_t sm_enter_ellipeinc(uint8_t *sheet, size_t sheet_length, uint32_t row, double phi, double m);
static inline uint8_t sm_enter_ellipf(uint8_t *sheet, size_t sheet_length, uint32_t row, double phi, double m);
static inline uint8_t sm_clear(uint8_t *sheet, size_t sheet_length, uint32_t row);

/* The same for a leg that was driven so often, 0 to 65,535 times, by the function's number: its arguments a and b as doubles, 0 for one that it does not read.
   Gives 0; or 7, 8, 22, 9 or 10. C cuts a larger number of times to 16 bits without a word where it is no constant (gcc's -Wconversion tells): test it before. */
static inline uint8_t sm_enter_times(uint8_t *sheet, size_t sheet_length, uint32_t row, uint8_t function, double a, double b, uint16_t times);

/* A row as it stands in the sheet. Times are 1 for a row of a sheet that says 1, or 0 where it is blank. */
typedef struct {
    uint8_t function, refusal;
    uint16_t times;
    double arguments[3], answers[2];
} sm_row;

/* Reads a row. Gives 0; or 7, then 8, and writes zeros. */
static inline uint8_t sm_read(const uint8_t *sheet, size_t sheet_length, uint32_t row, sm_row *read);

/* The exact total of the finite rows, times multiplied by first answer, rounded once; +0 where the bytes are no sheet (sm_total_refusal, below, tells). */
static inline double sm_sum(const uint8_t *sheet, size_t sheet_length);

/* A double's bit pattern, and back. */
static inline uint64_t sm_pattern(double value);
static inline double sm_value(uint64_t pattern);

/* ---- The second offer: the library's own calls. */

#ifdef __cplusplus
extern "C" {
#endif

/* |x|; x without its fraction; the whole number at or below x; the nearest whole number, halves away from zero. */
uint64_t sm_magnitude(uint64_t x);
uint64_t sm_trunc(uint64_t x);
uint64_t sm_floor(uint64_t x);
uint64_t sm_round(uint64_t x);

/* The square root of x, and x y + z: the exact result rounded once, ties to even. The root of -0 is -0, of another negative NaN. */
uint64_t sm_root(uint64_t x);
uint64_t sm_fused(uint64_t x, uint64_t y, uint64_t z);

/* What is left of x when |y| is taken away as often as it fits, with x's sign: C's fmod, exact. NaN where x is infinite, y zero or either NaN. */
uint64_t sm_remainder(uint64_t x, uint64_t y);

/* Sine and cosine of |x| <= 4, and the natural logarithm of finite x > 0, within |x| 2^-52, 2^-52 and (|k| + 1) 2^-53 of the exact sums (x = 2^k f,
   3/4 <= f < 3/2; docs/PROVED.md). NaN for all other x. */
uint64_t sm_sine(uint64_t x);
uint64_t sm_cosine(uint64_t x);
uint64_t sm_logarithm(uint64_t x);

/* Works out the function of this number. Gives 0 and writes the answers' patterns to out[0] and out[1]; or gives 1 to 6 or 9 and writes two zeros;
   or, where out_length is not 2, gives 7 and writes nothing. Function 0 has two zeros for its answers. */
uint8_t sm_evaluate(uint8_t function, uint64_t a, uint64_t b, uint64_t c, uint64_t *out, size_t out_length);

/* How many rounds the recipes RF, RC, RD and RJ made for that answer, all calls together, those of RC inside RJ too: the work of functions 4 to 6. A refused
   answer has its rounds too, and a recipe whose stop test was never met has 64. 0 where no recipe is asked: functions 0 to 3, and numbers above the last. */
size_t sm_rounds(uint8_t function, uint64_t a, uint64_t b, uint64_t c);

/* Makes the bytes, whatever they hold, a sheet of so many blank rows, which says 3. Gives 0; 11 for more than 1,024 rows; then 7 where the length is not
   SM_SHEET_BYTES(rows). */
uint8_t sm_blank(uint8_t *sheet, size_t sheet_length, uint32_t rows);

/* Works out the function of this number and puts it in the row, in place of what stands there, as a leg that was driven so many times; the counts and the
   total follow. To function 0, it clears the row, whatever the times. Arguments that the function does not read are stored as zeros. Gives 0; or 7 (also for a
   sheet that says 1), 8, 22 (function 1), 9 or 10, tried in this order. A refusal of the function itself, 1 to 6, is no refusal of the edit: the row keeps it,
   with zeros for answers, and the edit gives 0. A row of function 1 that stands there is read, replaced and cleared as any other. */
uint8_t sm_edit(uint8_t *sheet, size_t sheet_length, uint32_t row, uint8_t function, uint64_t a, uint64_t b, uint64_t c, uint16_t times);

/* Where the row's own 48 bytes start in the sheet; sheet_length where the row can't be read. sm_row_refusal says why: 7, then 8, or 0. */
size_t sm_row_at(const uint8_t *sheet, size_t sheet_length, uint32_t row);
uint8_t sm_row_refusal(const uint8_t *sheet, size_t sheet_length, uint32_t row);

/* The row's class: blank (0), finite (1), +infinity (2), -infinity (3) or refused (4); 5 where the first answer is NaN, which is damage, or the row can't be
   read. sm_count gives how many rows are of a class, by the sheet's own counts; 0 for a class above 4, and where the bytes are no sheet. */
size_t sm_row_class(const uint8_t *sheet, size_t sheet_length, uint32_t row);
uint32_t sm_count(const uint8_t *sheet, size_t sheet_length, uint8_t class_number);

/* How often the row was driven, as its bytes say; for a sheet that says 1, 0 for a blank row and 1 for any other. 0 where the row can't be read. */
uint16_t sm_row_times(const uint8_t *sheet, size_t sheet_length, uint32_t row);

/* Makes a sheet that says 1 one that says 3, in its own bytes, and back. It writes the first word and each row's times, and carries every other byte over as it
   stands, the counts and the total too: forth, every row that is not blank was driven once; back, times are zeros. There and back is the sheet, byte for byte,
   where the library made it. Gives 0; or 7, also for a sheet that says what the other call takes; 10 where a row is damaged or its class counts 0, or where the
   counts do not add up; and on the way back 17 where a row that is not blank has times other than 1: tried in this order, each over all rows. */
uint8_t sm_forth(uint8_t *sheet, size_t sheet_length);
uint8_t sm_back(uint8_t *sheet, size_t sheet_length);

/* The row that such a 10 or 17 is about, of the sheet as it stands: the first; the number of rows where 10 is about the counts. 0 where the call gives 0 or 7. */
uint32_t sm_forth_row(const uint8_t *sheet, size_t sheet_length);
uint32_t sm_back_row(const uint8_t *sheet, size_t sheet_length);

/* The pattern of the exact total of the finite rows, times multiplied by first answer, rounded once, ties to even: too large is infinite, zero is +0. Where the bytes are no
   sheet it is +0, and sm_total_refusal gives 7, else 0. */
uint64_t sm_total(const uint8_t *sheet, size_t sheet_length);
uint8_t sm_total_refusal(const uint8_t *sheet, size_t sheet_length);

#ifdef __cplusplus
}
#endif

/* A double in place of a pattern would be turned into a whole number without a word. With SM_WHOLE around it, it does not compile: "invalid operands to
   binary |" means that a pattern is missing. Give sm_pattern(x), or take the first offer's call. */
#define SM_WHOLE(pattern) ((pattern) | (uint64_t)0)
#define sm_magnitude(x) sm_magnitude(SM_WHOLE(x))
#define sm_trunc(x) sm_trunc(SM_WHOLE(x))
#define sm_floor(x) sm_floor(SM_WHOLE(x))
#define sm_round(x) sm_round(SM_WHOLE(x))
#define sm_root(x) sm_root(SM_WHOLE(x))
#define sm_fused(x, y, z) sm_fused(SM_WHOLE(x), SM_WHOLE(y), SM_WHOLE(z))
#define sm_remainder(x, y) sm_remainder(SM_WHOLE(x), SM_WHOLE(y))
#define sm_sine(x) sm_sine(SM_WHOLE(x))
#define sm_cosine(x) sm_cosine(SM_WHOLE(x))
#define sm_logarithm(x) sm_logarithm(SM_WHOLE(x))
#define sm_evaluate(function, a, b, c, out, out_length) sm_evaluate(function, SM_WHOLE(a), SM_WHOLE(b), SM_WHOLE(c), out, out_length)
#define sm_rounds(function, a, b, c) sm_rounds(function, SM_WHOLE(a), SM_WHOLE(b), SM_WHOLE(c))
#define sm_edit(sheet, sheet_length, row, function, a, b, c, times) \
    sm_edit(sheet, sheet_length, row, function, SM_WHOLE(a), SM_WHOLE(b), SM_WHOLE(c), times)
#define sm_value(pattern) sm_value(SM_WHOLE(pattern))

/* ---- How the first offer is made of the second. */

static inline uint64_t sm_pattern(double value)
{
    uint64_t pattern;
    memcpy(&pattern, &value, sizeof pattern);
    return pattern;
}

static inline double(sm_value)(uint64_t pattern)
{
    double value;
    memcpy(&value, &pattern, sizeof value);
    return value;
}

/* A double in so many bytes of a sheet. */
static inline double sm_double_at(const uint8_t *bytes)
{
    uint64_t pattern = 0;
    for (int k = 8; k-- > 0;)
        pattern = pattern << 8 | bytes[k];
    return sm_value(pattern);
}

static inline uint8_t sm_both(uint8_t function, double a, double b, double *first, double *second)
{
    uint64_t out[2];
    const uint8_t refusal = sm_evaluate(function, sm_pattern(a), sm_pattern(b), 0, out, 2);
    *first = sm_value(out[0]);
    *second = sm_value(out[1]);
    return refusal;
}

static inline uint8_t sm_first(uint8_t function, double a, double b, double *first)
{
    double second;
    return sm_both(function, a, b, first, &second);
}

static inline uint8_t sm_ellipk(double m, double *k) { return sm_first(SM_ELLIPK, m, 0, k); }
static inline uint8_t sm_ellipe(double m, double *e) { return sm_first(SM_ELLIPE, m, 0, e); }
static inline uint8_t sm_ellipke(double m, double *k, double *e) { return sm_both(SM_ELLIPKE, m, 0, k, e); }
static inline uint8_t sm_ellippi(double n, double m, double *pi) { return sm_first(SM_ELLIPPI, n, m, pi); }
static inline uint8_t sm_ellipeinc(double phi, double m, double *e) { return sm_first(SM_ELLIPEINC, phi, m, e); }
static inline uint8_t sm_ellipf(double phi, double m, double *f) { return sm_first(SM_ELLIPF, phi, m, f); }

static inline uint8_t sm_enter_times(uint8_t *sheet, size_t sheet_length, uint32_t row, uint8_t function, double a, double b, uint16_t times)
{
    return sm_edit(sheet, sheet_length, row, function, sm_pattern(a), sm_pattern(b), 0, times);
}

static inline uint8_t sm_enter_ellipe(uint8_t *sheet, size_t sheet_length, uint32_t row, double m)
{
    return sm_enter_times(sheet, sheet_length, row, SM_ELLIPE, m, 0, 1);
}

static inline uint8_t sm_enter_ellipke(uint8_t *sheet, size_t sheet_length, uint32_t row, double m)
{
    return sm_enter_times(sheet, sheet_length, row, SM_ELLIPKE, m, 0, 1);
}

static inline uint8_t sm_enter_ellippi(uint8_t *sheet, size_t sheet_length, uint32_t row, double n, double m)
{
    return sm_enter_times(sheet, sheet_length, row, SM_ELLIPPI, n, m, 1);
}

static inline uint8_t sm_enter_ellipeinc(uint8_t *sheet, size_t sheet_length, uint32_t row, double phi, double m)
{
    return sm_enter_times(sheet, sheet_length, row, SM_ELLIPEINC, phi, m, 1);
}

static inline uint8_t sm_enter_ellipf(uint8_t *sheet, size_t sheet_length, uint32_t row, double phi, double m)
{
    return sm_enter_times(sheet, sheet_length, row, SM_ELLIPF, phi, m, 1);
}

static inline uint8_t sm_clear(uint8_t *sheet, size_t sheet_length, uint32_t row)
{
    return sm_edit(sheet, sheet_length, row, SM_BLANK, 0, 0, 0, 0);
}

static inline uint8_t sm_read(const uint8_t *sheet, size_t sheet_length, uint32_t row, sm_row *read)
{
    const uint8_t refusal = sm_row_refusal(sheet, sheet_length, row);
    memset(read, 0, sizeof *read);
    if (refusal == 0) {
        const uint8_t *bytes = sheet + sm_row_at(sheet, sheet_length, row);
        read->function = bytes[SM_ROW_FUNCTION];
        read->refusal = bytes[SM_ROW_REFUSAL];
        read->times = sm_row_times(sheet, sheet_length, row);
        for (size_t k = 0; k < 3; k++)
            read->arguments[k] = sm_double_at(bytes + SM_ROW_ARGUMENTS + 8 * k);
        for (size_t k = 0; k < 2; k++)
            read->answers[k] = sm_double_at(bytes + SM_ROW_ANSWERS + 8 * k);
    }
    return refusal;
}

static inline double sm_sum(const uint8_t *sheet, size_t sheet_length)
{
    return sm_value(sm_total(sheet, sheet_length));
}

#endif
