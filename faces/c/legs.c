/* A sheet of legs, one of them driven three times; faces/rust/examples/legs.rs is the same program in Rust. */
#include "shuttlemint.h"

#include <stdio.h>

int main(void)
{
    static uint8_t sheet[SM_SHEET_BYTES(3)];
    const size_t length = sizeof sheet;
    const double b = 6356752.314245179, m = -0.006739496742276434; /* WGS84: the polar half axis in metres, and -e'^2 */
    sm_row row;
    sm_blank(sheet, length, 3);
    /* From the equator to the pole, b E(pi/2, -e'^2), driven once. */
    sm_enter_ellipeinc(sheet, length, 0, 1.5707963267948966, m);
    /* From the equator to a parametric latitude of 0.25, driven three times. */
    sm_enter_times(sheet, length, 1, SM_ELLIPEINC, 0.25, m, 3);
    /* Pi(1, 0.5) is refused, and the row keeps that. */
    sm_enter_ellippi(sheet, length, 2, 1.0, 0.5);

    for (uint32_t i = 0; i < 3; i++) {
        sm_read(sheet, length, i, &row);
        printf("row %u: refusal %d, %.3f m, times %d\n", (unsigned)i, row.refusal, b * row.answers[0], row.times);
    }
    printf("total: %.3f m\n", b * sm_sum(sheet, length));
    return 0;
}
