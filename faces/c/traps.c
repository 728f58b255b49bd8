/* Floating-point traps and flags, as the header has them. The functions of fenv.h are in the C library's -lm.
   With a word it leaves out that an exception traps: an emulator makes no traps. */
#ifndef _GNU_SOURCE
#define _GNU_SOURCE /* feenableexcept */
#endif
#include "shuttlemint.h"

#include <fenv.h>
#include <signal.h>
#include <stdio.h>
#include <sys/wait.h>
#include <unistd.h>

static unsigned checks, failures;

static void check(int holds, const char *what, int line)
{
    checks++;
    if (!holds) {
        failures++;
        printf("traps.c:%d: not so: %s\n", line, what);
    }
}

#define CHECK(what) check((what) != 0, #what, __LINE__)

static const int exceptions[] = {FE_INVALID, FE_DIVBYZERO, FE_OVERFLOW, FE_UNDERFLOW, FE_INEXACT};
/* One function and its arguments for each of them, so that working it out raises it. */
static const uint64_t raising[][3] = {
    {SM_ELLIPF, 0x4330000000000001, 0xfff0000000000000},    /* a mean that starts at infinity */
    {SM_ELLIPF, 0, 0x3fe0000000000000},                     /* 1 / sin^2 of 0 */
    {SM_ELLIPPI, 0xe860000000000000, 0x3fefffffffffffff},   /* the product with -n at n = -2^647, m = 1 - 2^-53 */
    {SM_ELLIPEINC, 0x0170000000000000, 0x0170000000000000}, /* m times the square of 2^-1000 */
    {SM_ELLIPK, 0x3fe0000000000000, 0},
};

static uint8_t raise_with(size_t k, uint64_t out[2])
{
    return sm_evaluate((uint8_t)raising[k][0], raising[k][1], raising[k][2], 0, out, 2);
}

/* In a process of its own: works it out with this exception let to trap, and tells how that ended. */
static int trapped(size_t k, int held)
{
    int status = 0;
    const pid_t child = fork();
    if (child == 0) {
        uint64_t out[2];
        fenv_t env;
        feclearexcept(FE_ALL_EXCEPT);
        feenableexcept(exceptions[k]);
        if (held)
            feholdexcept(&env);
        raise_with(k, out);
        if (held)
            fesetenv(&env);
        _exit(fegetexcept() == exceptions[k] && fetestexcept(FE_ALL_EXCEPT) == 0 ? 0 : 1);
    }
    waitpid(child, &status, 0);
    return WIFSIGNALED(status) ? WTERMSIG(status) : WEXITSTATUS(status);
}

int main(int argc, char **argv)
{
    (void)argv;
    for (size_t k = 0; k < sizeof exceptions / sizeof *exceptions; k++) {
        uint64_t out[2], again[2];
        uint8_t refusal;
        feclearexcept(FE_ALL_EXCEPT);
        refusal = raise_with(k, out);
        CHECK(fetestexcept(exceptions[k]) != 0);
        feraiseexcept(FE_ALL_EXCEPT);
        CHECK(raise_with(k, again) == refusal && again[0] == out[0] && again[1] == out[1]);
        CHECK(fetestexcept(FE_ALL_EXCEPT) == FE_ALL_EXCEPT); /* none is cleared */
        if (argc == 1)
            CHECK(trapped(k, 0) == SIGFPE);
        CHECK(trapped(k, 1) == 0);
    }
    printf("%u checks, %u failures\n", checks, failures);
    return failures != 0;
}
