//! A sheet of legs, one of them driven three times; faces/c/legs.c is the same program in C.
use shuttlemint::{Integral, Refusal, Sheet};
use std::f64::consts::FRAC_PI_2;

fn main() -> Result<(), Refusal> {
    // WGS84: the polar half axis in metres, and -e'².
    let (b, m) = (6356752.314245179, -0.006739496742276434);
    let mut sheet = Sheet::blank(3)?;
    // From the equator to the pole, b E(π/2, -e'²), driven once.
    sheet.enter(0, Integral::ellipeinc(FRAC_PI_2, m))?;
    // From the equator to a parametric latitude of 0.25, driven three times.
    sheet.enter_times(1, Integral::ellipeinc(0.25, m), 3)?;
    // Π(1, 0.5) is refused, and the row keeps that.
    sheet.enter(2, Integral::ellippi(1.0, 0.5))?;

    for (i, row) in sheet.iter().enumerate() {
        let refusal = row.refusal().map_or(0, Refusal::number);
        println!("row {i}: refusal {refusal}, {:.3} m, times {}", b * f64::from_bits(row.answers()[0]), row.times());
    }
    println!("total: {:.3} m", b * sheet.total());
    Ok(())
}
