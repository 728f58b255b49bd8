/* Wrong uses, one for each value of WRONG, that must not compile; without WRONG this compiles. faces/test tries each. */
#include "shuttlemint.h"

uint8_t wrong(uint8_t *sheet, size_t length)
{
    uint64_t out[2] = {0, 0};
    double x = 0.5;
#if WRONG == 1
    return sm_edit(sheet, length, 0, SM_ELLIPEINC, 100000.0, 0, 0, 1);
#elif WRONG == 2
    return sm_edit(sheet, length, 0, SM_ELLIPEINC, 0, x, 0, 1);
#elif WRONG == 3
    return sm_edit(sheet, length, 0, SM_ELLIPEINC, 0, 0, 0.0f, 1);
#elif WRONG == 4
    return sm_evaluate(SM_ELLIPK, x, 0, 0, out, 2);
#elif WRONG == 5
    return sm_root(x) == 0;
#elif WRONG == 6
    return sm_fused(0, 0, 2.0) == 0;
#elif WRONG == 7
    return sm_value(x) == 0;
#elif WRONG == 8
    return sm_enter_ellipke(sheet, length, 0, x, x);
#elif WRONG == 9
    return sm_edit(sheet, length, 0, SM_ELLIPEINC, out[0], out[1], 0); /* without times */
#else
    out[0] = sm_pattern(x);
    return (uint8_t)(sm_edit(sheet, length, 0, SM_ELLIPEINC, sm_pattern(100000.0), out[1], 0, 1) + sm_evaluate(SM_ELLIPK, out[0], 0, 0, out, 2) +
                     (sm_root(out[0]) == 0) + (sm_fused(0, 0, out[1]) == 0) + (sm_value(out[0]) == 0) + sm_ellipk(x, &x) +
                     sm_enter_ellipke(sheet, length, 0, x));
#endif
}
