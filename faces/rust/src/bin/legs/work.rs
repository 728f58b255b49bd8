//! From legs to lengths: as many sheets as it takes, their counts, and the exact total over all.
use crate::exact::Exact;
use crate::input::Leg;
use shuttlemint::{Class, Refusal, Sheet};

const MOST_ROWS: u32 = 1024;

/// What became of a leg.
#[derive(Clone, Copy, Debug, PartialEq)]
pub enum Length {
    /// One drive, in metres: the exact sum of its rows' answers, times the half axis, rounded once.
    Finite(f64),
    /// The answer is an infinity of this sign, and in no total.
    Infinite { below: bool },
    /// The row keeps the refusal.
    Refused(Refusal),
}

/// What all legs come to.
pub struct Sums {
    /// Rows that are blank, finite, +∞, -∞ and refused, as the sheets count them.
    pub counts: [u64; 5],
    /// The exact total over all sheets, each leg as often as it was driven, times the half axis, rounded once.
    pub total: f64,
    pub sheets: usize,
}

/// How many of the first legs fit in one sheet, and in how many rows. The rows of a leg stay together.
fn fitting(legs: &[Leg]) -> (usize, u32) {
    let (mut fit, mut rows) = (0, 0);
    for leg in legs {
        let more = rows + 1 + leg.rows.1.is_some() as u32;
        if more > MOST_ROWS {
            break;
        }
        (fit, rows) = (fit + 1, more);
    }
    (fit, rows)
}

/// Enters a leg's rows from this row on, and tells its length.
fn enter(sheet: &mut Sheet, first: u32, leg: &Leg, axis: f64) -> Result<Length, Refusal> {
    let rows = leg.rows;
    let integrals = [Some(rows.0), rows.1];
    let mut sum = Exact::ZERO;
    let mut length = None;
    for (row, integral) in (first..).zip(integrals.into_iter().flatten()) {
        sheet.enter_times(row, integral, leg.times)?;
        match sheet.row(row)?.values() {
            Err(refusal) => length = Some(Length::Refused(refusal)),
            Ok([answer, _]) => match Exact::of(answer) {
                Some(exact) => sum.add(&exact),
                None => length = length.or(Some(Length::Infinite { below: answer < 0.0 })),
            },
        }
    }
    // No part of a leg that has no length is in the total.
    if length.is_some() && rows.1.is_some() {
        for row in [first, first + 1] {
            if sheet.row(row)?.class() != Some(Class::Refused) {
                sheet.clear(row)?;
            }
        }
    }
    Ok(length.unwrap_or_else(|| Length::Finite(sum.times(axis))))
}

/// Works out all legs. Each sheet is handed to `keep` when it is full; `done` is told how many legs are.
pub fn work(legs: &[Leg], axis: f64, mut keep: impl FnMut(Sheet), mut done: impl FnMut(usize)) -> Result<(Vec<Length>, Sums), Refusal> {
    let mut lengths = Vec::with_capacity(legs.len());
    let mut sums = Sums { counts: [0; 5], total: 0.0, sheets: 0 };
    let mut total = Exact::ZERO;
    let mut rest = legs;
    while !rest.is_empty() || sums.sheets == 0 {
        let (fit, rows) = fitting(rest);
        let mut sheet = Sheet::blank(rows)?;
        let mut row = 0;
        for leg in &rest[..fit] {
            lengths.push(enter(&mut sheet, row, leg, axis)?);
            row += 1 + leg.rows.1.is_some() as u32;
        }
        rest = &rest[fit..];
        sums.sheets += 1;
        for (count, class) in sums.counts.iter_mut().zip(Class::ALL) {
            *count += sheet.count(class) as u64;
        }
        total.add(&Exact::of_sheet(sheet.as_bytes()));
        keep(sheet);
        done(lengths.len());
    }
    sums.total = total.times(axis);
    Ok((lengths, sums))
}

#[cfg(test)]
mod tests {
    use super::*;
    use crate::input::{B, M};
    use shuttlemint::Integral;

    fn legs(rows: impl IntoIterator<Item = (Integral, Option<Integral>)>) -> Vec<Leg<'static>> {
        rows.into_iter().map(|rows| Leg { file: 0, line: 0, name: None, rows, times: 1 }).collect()
    }

    fn plain(x: f64) -> (Integral, Option<Integral>) {
        (Integral::ellipeinc(x, 0.0), None) // is x
    }

    /// All that `work` tells, with axis 1.
    fn worked(legs: &[Leg]) -> (Vec<Length>, Sums, Vec<Sheet>) {
        let mut sheets = Vec::new();
        let (lengths, sums) = work(legs, 1.0, |sheet| sheets.push(sheet), |_| {}).unwrap();
        assert_eq!(sheets.len(), sums.sheets);
        (lengths, sums, sheets)
    }

    #[test]
    fn one_sheet_has_the_library_s_total() {
        for count in [0, 1, 2, 1023, 1024] {
            let (lengths, sums, sheets) = worked(&legs((0..count).map(|k| plain(0.1 * k as f64 - 3.0))));
            assert_eq!((lengths.len(), sums.sheets), (count, 1));
            assert_eq!(sums.counts, [0, count as u64, 0, 0, 0]);
            assert_eq!(sums.total.to_bits(), sheets[0].total().to_bits());
        }
    }

    #[test]
    fn many_sheets_and_a_total_that_only_an_exact_sum_has() {
        // 1e300 in the first sheet, ones, and -1e300 in the last.
        let count = 5000;
        let leg = |k: usize| {
            plain(if k == 0 {
                1e300
            } else if k == count - 1 {
                -1e300
            } else {
                1.0
            })
        };
        let (lengths, sums, sheets) = worked(&legs((0..count).map(leg)));
        assert_eq!((lengths.len(), sums.sheets), (5000, 5));
        assert_eq!(sums.total, 4998.0);
        assert_eq!(sums.counts, [0, 5000, 0, 0, 0]);
        assert_eq!(sheets.iter().map(|sheet| sheet.rows()).collect::<Vec<_>>(), [1024, 1024, 1024, 1024, 904]);
        // The same legs in any order.
        let (_, again, _) = worked(&legs((0..count).rev().map(leg)));
        assert_eq!(again.total, 4998.0);
    }

    #[test]
    fn a_leg_driven_often_is_as_good_as_often_a_leg() {
        let pair = (Integral::ellipeinc(1.0, M), Some(Integral::ellipeinc(-0.5, M)));
        let mut driven = legs([pair, plain(1e300), plain(0.1), plain(-1e300), (Integral::ellippi(1.0, 0.5), None)]);
        for (leg, times) in driven.iter_mut().zip([3, 65535, 1000, 65535, 2]) {
            leg.times = times;
        }
        let (lengths, sums, sheets) = worked(&driven);
        assert_eq!(sums.counts, [0, 5, 0, 0, 1]);
        assert_eq!(sheets[0].iter().map(|row| row.times()).collect::<Vec<_>>(), [3, 3, 65535, 1000, 65535, 2]);
        let singly = [vec![pair; 3], vec![plain(0.1); 1000]].concat();
        let (once, again, _) = worked(&legs(singly));
        assert_eq!(sums.total.to_bits(), again.total.to_bits());
        // A leg's own length is that of one drive.
        assert_eq!((lengths[0], lengths[2]), (once[0], Length::Finite(0.1)));
        driven[0].times = 0;
        assert_eq!(worked(&driven[..1]).1.total.to_bits(), 0);
    }

    #[test]
    fn the_rows_of_a_leg_stay_in_one_sheet() {
        let pair = |k: usize| (Integral::ellipeinc(k as f64, M), Some(Integral::ellipeinc(-1.0, M)));
        let (lengths, sums, sheets) = worked(&legs((0..1025).map(|k| if k == 0 { plain(1.0) } else { pair(k) })));
        assert_eq!(lengths.len(), 1025);
        assert_eq!(sheets.iter().map(|sheet| sheet.rows()).collect::<Vec<_>>(), [1023, 1024, 2]);
        assert_eq!(sums.counts, [0, 2049, 0, 0, 0]);
    }

    #[test]
    fn a_leg_without_a_length_is_kept_and_adds_nothing() {
        let refused = Integral::ellippi(1.0, 0.5);
        let (below, above) = (Integral::ellippi(2.0, 1.0), Integral::ellipke(1.0));
        let one = Integral::ellipeinc(1.0, 0.0);
        let (lengths, sums, sheets) = worked(&legs([
            (one, None),
            (refused, None),
            (below, None),
            (above, None),
            (one, Some(refused)),
            (refused, Some(one)),
            (one, Some(above)),
        ]));
        let why = Length::Refused(Refusal::CHARACTERISTIC_ONE);
        let infinite = |below| Length::Infinite { below };
        assert_eq!(lengths, [Length::Finite(1.0), why, infinite(true), infinite(false), why, why, infinite(false)]);
        assert_eq!(sums.total, 1.0);
        assert_eq!(sums.counts, [4, 1, 1, 1, 3]);
        assert_eq!(sheets[0].rows(), 10);
    }

    #[test]
    fn a_length_is_the_exact_sum_rounded_once() {
        let pair = (Integral::ellipeinc(1e17, 0.0), Some(Integral::ellipeinc(-1e17 + 16.0, 0.0)));
        let third = (Integral::ellipeinc(1.0, M), Some(Integral::ellipeinc(-0.5, M)));
        let legs = legs([pair, third]);
        let (lengths, _) = work(&legs, B, |_| {}, |_| {}).unwrap();
        assert_eq!(lengths[0], Length::Finite(16.0 * B));
        let Length::Finite(metres) = lengths[1] else { panic!() };
        let [a, b] = [1.0, -0.5].map(|phi| shuttlemint::integrals::ellipeinc(phi, M).unwrap());
        assert!((metres - B * (a + b)).abs() <= 1e-9);
    }
}
