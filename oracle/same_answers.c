/* The answers of two libraries at the same arguments: oracle/same_answers builds it. */
#include <math.h>
#include <stdint.h>
#include <stdio.h>
#include <stdlib.h>
#include <string.h>

uint8_t evaluate_before(uint8_t function, uint64_t a, uint64_t b, uint64_t c, uint64_t *out, size_t length);
uint8_t evaluate_after(uint8_t function, uint64_t a, uint64_t b, uint64_t c, uint64_t *out, size_t length);

static uint64_t state = 0x9e3779b97f4a7c15;

static uint64_t random_word(void)
{
    state ^= state << 13;
    state ^= state >> 7;
    state ^= state << 17;
    return state * 0x2545f4914f6cdd1d;
}

static double unit(void)
{
    return (double)(random_word() >> 11) * 0x1p-53;
}

static double value(uint64_t pattern)
{
    double x;
    memcpy(&x, &pattern, 8);
    return x;
}

static uint64_t pattern(double x)
{
    uint64_t p;
    memcpy(&p, &x, 8);
    return p;
}

static const double corners[] = {0, 1, -1, 0.5, 2, INFINITY, -INFINITY, NAN, 0x1p-1074, 0x1.fffffffffffffp1023, -0x1.fffffffffffffp1023, 0x1p52, 0x1p1023, 0x1.921fb54442d18p0, 0x1.921fb54442d18p1, 0x1p-52, 0x1p12, 0.85, 0.9, 0.99};

/* Any pattern, a number of the box, one of a moderate size, a corner. */
static double argument(void)
{
    switch (random_word() % 8) {
    case 0: return value(random_word());
    case 1: {
        const double x = corners[random_word() % (sizeof corners / sizeof *corners)];
        return random_word() % 2 ? x : value(pattern(x) + random_word() % 5 - 2);
    }
    case 2: return 1 - unit() * 1001;
    case 3: return unit() * 2000 - 1000;
    case 4: return ldexp(unit() - 0.5, (int)(random_word() % 120) - 60);
    default: return unit() * 4 - 2;
    }
}

/* What the notes on the two changes name: an answer may differ here, and nowhere else. */
static int named(int function, double a, double b)
{
    const double most = 0x1.fffffffffffffp1023;
    if (function == 5 && (fabs(a) > 0x1p52 || b == -INFINITY || b == -most)) {
        return 1; /* two limits put right */
    }
    if (function == 5 || function == 6) {
        const double rest = fmod(fabs(a), 0x1.921fb54442d18p0);
        return fabs(b) > 0x1p200 || b > 0x1p12 || rest < 0x1p-99 || 0x1.921fb54442d18p0 - rest < 0x1p-99; /* scaled */
    }
    return function == 4 && (fabs(a) > 0x1p499 || fabs(b) > 0x1p499); /* far out */
}

int main(int count, char **words)
{
    const uint64_t points = strtoull(count > 1 ? words[1] : "10", NULL, 10) * 1000000;
    uint64_t same[7] = {0}, inside[7] = {0}, outside[7] = {0};
    for (uint64_t k = 0; k < points; k++) {
        const int function = 1 + (int)(k % 6);
        const double a = argument(), b = argument();
        uint64_t before[2], after[2];
        const uint8_t old = evaluate_before((uint8_t)function, pattern(a), pattern(b), 0, before, 2);
        const uint8_t new = evaluate_after((uint8_t)function, pattern(a), pattern(b), 0, after, 2);
        if (old == new && before[0] == after[0] && before[1] == after[1]) {
            same[function]++;
        } else if (named(function, a, b)) {
            inside[function]++;
        } else if (outside[function]++ < 5) {
            printf("differs: function %d at %a, %a: %d %a, then %d %a\n", function, a, b, old, value(before[0]), new, value(after[0]));
        }
    }
    uint64_t wrong = 0;
    for (int function = 1; function < 7; function++) {
        printf("function %d: %llu the same, %llu differ where it is said, %llu elsewhere\n", function, (unsigned long long)same[function], (unsigned long long)inside[function], (unsigned long long)outside[function]);
        wrong += outside[function];
    }
    return wrong != 0;
}
