//! Good, bad and damaged sheets.
use crate::both::{number, Both, CLASSES};
use crate::lent;
use crate::model::{self, LARGEST, LAST, MINUS, NAN, ONE, PLUS, SIGN, TWO, WITHDRAWN};
use crate::random::Random;
use shuttlemint::{Class, Integral, Refusal, Sheet};

fn bytes_of(hex: &str) -> Vec<u8> {
    hex.split_whitespace().map(|byte| u8::from_str_radix(byte, 16).unwrap()).collect()
}

#[test]
fn the_sheet_of_the_format_page() {
    let head = bytes_of(
        "03 00 00 00 20 00 00 00 60 00 00 00 02 00 00 00
         02 00 00 00 80 00 00 00 28 01 00 00 01 00 00 00
         05 00 e8 03 00 00 00 00 00 00 00 00 00 00 f8 bf
         00 00 00 00 00 00 00 00 00 00 00 00 00 00 00 00
         00 00 00 00 00 00 f8 bf 00 00 00 00 00 00 00 00
         04 04 02 00 00 00 00 00 00 00 00 00 00 00 f0 3f
         00 00 00 00 00 00 f0 3f 00 00 00 00 00 00 00 00
         00 00 00 00 00 00 00 00 00 00 00 00 00 00 00 00
         00 00 00 00 01 00 00 00 00 00 00 00 00 00 00 00
         01 00 00 00 00 00 00 00",
    );
    let expected = [head, vec![0; 0x11e - 0x98], vec![0x90, 0xe8], vec![0xff; 424 - 0x120]].concat();
    let mut both = Both::blank_of(2);
    both.edit_times(0, 5, [(-1.5f64).to_bits(), 0, 7], 1000);
    both.edit_times(1, 4, [ONE, ONE, 0], 2);
    assert!(both.lent.bytes() == expected);
    assert_eq!(both.read(1), (-1500f64).to_bits());

    let mut sheet = Sheet::blank(2).unwrap();
    sheet.edit(0, 5, (-1.5f64).to_bits(), 0, 7, 1000).unwrap();
    sheet.edit(1, 4, ONE, ONE, 0, 2).unwrap();
    assert_eq!(sheet.as_bytes(), expected);
    assert_eq!(sheet.row(1).unwrap().as_bytes()[..], expected[0x50..0x80]);
}

#[test]
fn the_worked_example() {
    let mut sheet = Sheet::blank(4).unwrap();
    for (row, (function, a, b)) in [(3, ONE, 0), (5, 0, NAN), (4, ONE, ONE), (5, TWO, 0)].into_iter().enumerate() {
        sheet.edit(row as u32, function, a, b, 0, 1).unwrap();
    }
    let rows: Vec<_> = sheet.iter().map(|row| (row.function(), row.refusal().map_or(0, Refusal::number), row.answers())).collect();
    assert_eq!(rows, [(3, 0, [PLUS, ONE]), (5, 0, [0, 0]), (4, 4, [0, 0]), (5, 0, [TWO, 0])]);
    assert_eq!(CLASSES.map(|class| sheet.count(class)), [0, 2, 1, 0, 1]);
    assert_eq!(sheet.total(), 2.0);
    assert!(format!("{:?}", sheet.row(3).unwrap()).contains("4000000000000000"));
}

/// All calls, on bytes of any kind.
fn try_all(both: &mut Both, rows: u32) {
    both.read(0);
    both.edit(0, 5, [ONE, 0, 0]);
    both.safe_edit(rows.saturating_sub(1), 3, [ONE, 0, 0], 3);
    both.safe_edit(rows, 2, [0; 3], 1);
    both.clear(0);
    both.blank(rows);
    both.read(rows.saturating_sub(1));
    both.edit_times(rows.saturating_sub(1), 5, [LARGEST, 0, 0], u16::MAX);
    both.edit(rows, 0, [0; 3]);
    both.edit(u32::MAX, 0, [0; 3]);
    both.read(u32::MAX);
    both.blank(1025);
    both.blank(u32::MAX);
    for forth in [true, false, true] {
        both.convert(forth);
    }
}

#[test]
fn sizes() {
    for rows in [0, 1, 2, 1024, 1025, 1026] {
        let length = model::length(rows);
        for length in [length - 1, length, length + 1, length + 47] {
            for fill in [0, 0xa5] {
                try_all(&mut Both::filled(length, fill), rows as u32);
            }
        }
    }
    for length in [0, 1, 31, 32, 296, 327, 5000] {
        for rows in [0, 1, 97] {
            try_all(&mut Both::filled(length, 1), rows);
        }
    }
    // Well made but for being too large.
    try_all(&mut Both::new(model::worked_out(&vec![vec![0; 48]; 1025]), true), 1025);
    assert_eq!(lent::of_nothing(0, 0), (7, 7, 0, 7, 0, 0, 7, 7, 7, 7, 0, 0));
    assert_eq!(lent::of_nothing(u32::MAX, 1025), (11, 7, 0, 7, 0, 0, 7, 7, 7, 7, 0, 0));
}

#[test]
fn the_safe_face_and_lengths() {
    for rows in [0, 1, 1024] {
        let sheet = Sheet::blank(rows).unwrap();
        assert_eq!((sheet.rows(), sheet.iter().count(), sheet.count(Class::Blank)), (rows, rows as usize, rows));
        let mut bytes = sheet.into_bytes();
        assert!(Sheet::from_bytes(&bytes[..]).is_ok());
        assert_eq!(Sheet::from_bytes(&bytes[1..]).unwrap_err(), Refusal::NOT_A_SHEET);
        bytes.push(0);
        assert_eq!(Sheet::from_bytes(bytes).unwrap_err(), Refusal::NOT_A_SHEET);
    }
    for rows in [1025, 1026, u32::MAX] {
        assert_eq!(Sheet::blank(rows).unwrap_err(), Refusal::TOO_MANY_ROWS);
        assert_eq!(Sheet::blank_in(vec![0; model::length(1025)], rows).unwrap_err(), Refusal::TOO_MANY_ROWS);
    }
    assert_eq!(Sheet::blank_in([7u8; 329], 0).unwrap_err(), Refusal::NOT_A_SHEET);
    assert_eq!(Sheet::from_bytes([]).unwrap_err(), Refusal::NOT_A_SHEET);
    // An array of its own, a box, and a lent part serve as well as a vector.
    assert!(Sheet::blank_in([7u8; 328], 0).is_ok());
    assert!(Sheet::blank_in(vec![1u8; 376].into_boxed_slice(), 1).unwrap().clear(0).is_ok());
}

/// A good sheet with a row of each class.
fn a_row_of_each_class() -> Both {
    let mut both = Both::blank_of(5);
    for (row, (function, a, b)) in [(5, ONE, 0), (3, ONE, 0), (4, PLUS, ONE), (4, ONE, ONE)].into_iter().enumerate() {
        assert_eq!(both.edit_times(row as u32 + 1, function, [a, b, 0], 0x0102), 0);
    }
    assert_eq!(both.model.bytes[32 + 48 * 5..52 + 48 * 5], bytes_of("01 00 00 00 01 00 00 00 01 00 00 00 01 00 00 00 01 00 00 00"));
    both
}

#[test]
fn every_damage_of_a_byte() {
    for rows in [1, 2] {
        for old in [(0, [0; 3]), (5, [(-3.5f64).to_bits(), 0, 0]), (3, [ONE, 0, 0]), (2, [TWO, 0, 0])] {
            let mut both = Both::blank_of(rows);
            assert_eq!(both.edit_times(0, old.0, old.1, 0x0300), 0);
            let good = both.lent.bytes().to_vec();
            for place in 0..good.len() {
                for byte in (0..=255).filter(|&byte| byte != good[place]) {
                    both.poke(place, byte);
                    both.read_row(0);
                    both.read_total();
                    both.edit_times(0, 5, [0.1f64.to_bits(), 0, 0], 7);
                    both.read_total();
                    both.set(&good);
                }
            }
            assert_eq!(both.edit(0, 5, [ONE, 0, 0]), 0);
        }
    }
}

#[test]
fn damage_by_way_of_the_safe_face() {
    let mut both = a_row_of_each_class();
    let good = both.lent.bytes().to_vec();
    for place in 0..good.len() {
        both.poke(place, good[place] ^ 0x81);
        for row in 0..5 {
            both.safe_read(row);
        }
        both.safe_edit(place as u32 % 5, place as u8 % (LAST + 2), [ONE, ONE, ONE], place as u16);
        both.set(&good);
    }
}

#[test]
fn first_answers_of_every_kind_in_rows_of_every_class() {
    let good = a_row_of_each_class().lent.bytes().to_vec();
    for row in 0..5 {
        for first in [0, SIGN, 1, ONE, LARGEST, PLUS, MINUS, PLUS + 1, NAN, SIGN + NAN, u64::MAX] {
            let mut both = Both::new(good.clone(), true);
            for (k, byte) in first.to_le_bytes().into_iter().enumerate() {
                both.poke(32 + 48 * row + 32 + k, byte);
            }
            both.read(row as u32);
            assert_eq!(both.edit(row as u32, 5, [TWO, 0, 0]), if model::is_nan(first) { 10 } else { 0 });
            both.read(row as u32);
        }
    }
}

#[test]
fn counts_that_still_add_up() {
    let good = a_row_of_each_class().lent.bytes().to_vec();
    let counts = 32 + 48 * 5;
    for row in 0..5 {
        for full in 0..5 {
            for spare in 0..2 {
                let mut both = Both::new(good.clone(), true);
                for k in 0..5 {
                    let count = if k == full {
                        5 - 2 * spare
                    } else if k == (full + 1) % 5 {
                        2 * spare
                    } else {
                        0
                    };
                    both.poke(counts + 4 * k, count as u8);
                }
                both.edit(row, 5, [TWO, 0, 0]);
                both.read(row);
            }
        }
    }
    // Counts whose sum is the row count only modulo 2^32.
    let mut both = Both::new(good, false);
    for byte in 0..4 {
        both.poke(counts + byte, 0xff);
    }
    both.poke(counts + 4, 3);
    assert_eq!(both.edit(0, 0, [0; 3]), 10);
}

#[test]
fn the_first_refusal_in_the_order_is_given() {
    // Bytes that are no sheet, row 5 of 5, a function past the last or the one that goes out, and damage: each in turn is put right.
    let mut both = a_row_of_each_class();
    both.poke(0, 2);
    both.poke(32 + 48 + 1, 200);
    for function in [WITHDRAWN, LAST + 1] {
        both.poke(0, 2);
        assert_eq!(both.edit(5, function, [0; 3]), 7);
        both.poke(0, model::OLD);
        assert_eq!(both.edit(5, function, [0; 3]), 7);
        both.poke(0, model::NEW);
        assert_eq!(both.edit(5, function, [0; 3]), 8);
    }
    assert_eq!(both.edit(1, WITHDRAWN, [0; 3]), 22);
    assert_eq!(both.safe_edit(1, WITHDRAWN, [0; 3], 1), 22);
    assert_eq!(both.edit(1, LAST + 1, [0; 3]), 9);
    assert_eq!(both.edit(1, 5, [0; 3]), 10);
    assert_eq!(both.safe_edit(1, 0, [0; 3], 1), 10);
    let stored = Sheet::from_bytes(both.lent.bytes()).unwrap().row(1).unwrap().refusal();
    assert_eq!(stored.map(Refusal::number), Some(200));
    both.poke(32 + 48 + 1, 0);
    assert_eq!(both.edit(1, 5, [0; 3]), 0);
    // 11 goes before 7.
    assert_eq!(both.blank(1025), 11);
    assert_eq!(both.blank(1024), 7);
    assert_eq!(number(Sheet::blank_in(&mut [][..], 1025).map(|_| ())), 11);
}

#[test]
fn unused_arguments_do_not_show() {
    for function in (0..=LAST).filter(|&function| function != WITHDRAWN) {
        let mut sheets = [[0; 3], [NAN, PLUS, 1], [u64::MAX; 3]].map(|junk| {
            let mut both = Both::blank_of(1);
            let used = model::read_by(function, [1, 1, 1]);
            let arguments = [0, 1, 2].map(|k| if used[k] == 1 { 0.25f64.to_bits() } else { junk[k] });
            assert_eq!(both.edit_times(0, function, arguments, 9), 0);
            both.lent.bytes().to_vec()
        });
        sheets.sort();
        assert_eq!(sheets[0], sheets[2]);
    }
    // A NaN that is read is stored as it was given.
    let mut sheet = Sheet::blank(1).unwrap();
    sheet.edit(0, 3, u64::MAX, 0, 0, 1).unwrap();
    let row = sheet.row(0).unwrap();
    assert_eq!((row.arguments(), row.refusal()), ([u64::MAX, 0, 0], Some(Refusal::NAN_ARGUMENT)));
}

#[test]
fn the_order_of_edits_never_shows() {
    let mut random = Random(3);
    for rows in [1, 3, 40, 1024] {
        let mut edits: Vec<_> =
            (0..rows).map(|row| (row, random.one_of(&[0, 2, 3, 4, 5, 5, 5, 6]), random.patterns(), random.times())).collect();
        let sheets = [false, true].map(|detour| {
            let mut both = Both::blank_of(rows);
            for &(row, function, arguments, times) in &edits {
                if detour {
                    both.edit_times(row, 5, random.patterns(), random.times());
                    both.edit_times(row, function, arguments, random.times());
                    both.edit_times(random.below(rows as u64) as u32, LAST + 1, random.patterns(), random.times());
                }
                assert_eq!(both.edit_times(row, function, arguments, times), 0);
            }
            random.shuffle(&mut edits);
            both.is_worked_out();
            both.read(rows - 1);
            both.lent.bytes().to_vec()
        });
        assert!(sheets[0] == sheets[1]);
    }
}

#[test]
fn totals_at_the_edges_of_rounding() {
    let [big, half] = [2f64.powi(53).to_bits(), 2f64.powi(970).to_bits()];
    let cases: &[(&[u64], u64)] = &[
        (&[LARGEST, half], PLUS),
        (&[LARGEST, half - 1], LARGEST),
        (&[LARGEST, half, SIGN + 1], LARGEST),
        (&[SIGN + LARGEST, SIGN + half], MINUS),
        (&[LARGEST, LARGEST, SIGN + LARGEST], LARGEST),
        (&[LARGEST, SIGN + LARGEST], 0),
        (&[SIGN, SIGN], 0),
        (&[1, 1], 2),
        (&[SIGN + 1, SIGN + 1], SIGN + 2),
        (&[1 << 52, SIGN + 1], (1 << 52) - 1),
        (&[big, ONE], big),
        (&[big, ONE, 1], big + 1),
        (&[big + 1, ONE], big + 2),
        (&[big, SIGN + ONE], big - 1),
        (&[PLUS, ONE, MINUS], ONE),
    ];
    for &(legs, total) in cases {
        let mut both = Both::blank_of(legs.len() as u32);
        for (row, &leg) in legs.iter().enumerate() {
            both.edit(row as u32, 5, [leg, 0, 0]);
            both.read_total();
        }
        assert_eq!(both.read_total(), total, "{legs:x?}");
        for row in 0..legs.len() {
            both.clear(row as u32);
            both.read_total();
        }
        assert_eq!(both.read_total(), 0);
    }
    // As far out as a total goes, on either side, and back.
    for (sign, far) in [(SIGN, MINUS), (0, PLUS)] {
        let mut both = Both::blank_of(1024);
        for row in 0..1024 {
            both.edit_times(row, 5, [sign + LARGEST, 0, 0], u16::MAX);
        }
        assert_eq!(both.read(1023), far);
        both.is_worked_out();
        for row in 0..1024 {
            both.edit_times(row, 5, [sign + LARGEST, 0, 0], (row == 0) as u16);
        }
        assert_eq!(both.read(0), sign + LARGEST);
        both.is_worked_out();
    }
}

#[test]
fn times_in_every_class() {
    let often = [u16::MAX, 0, 1, 255, 256, 0x0102];
    for (function, a, b) in [(0, 0, 0), (5, ONE, 0), (3, ONE, 0), (4, TWO, ONE), (4, ONE, ONE)] {
        let mut both = Both::blank_of(1);
        for times in often {
            assert_eq!(both.edit_times(0, function, [a, b, 0], times), 0);
            both.read(0);
            both.is_worked_out();
            let sheet = Sheet::from_bytes(both.lent.bytes()).unwrap();
            assert_eq!(sheet.row(0).unwrap().times(), if function == 0 { 0 } else { times });
            // Counts are of rows, whatever their times.
            assert_eq!(CLASSES.map(|class| sheet.count(class)).into_iter().sum::<u32>(), 1);
            assert_eq!(sheet.total(), if function == 5 { times as f64 } else { 0.0 });
        }
        assert_eq!(both.edit_times(0, 0, [a, b, 0], 7), 0);
        assert!(both.lent.bytes()[32..80].iter().all(|&byte| byte == 0));
    }
    // Bytes of times in a blank row, and bytes 4 to 7 of any, are no damage.
    for place in 34..40 {
        let mut both = Both::blank_of(1);
        both.poke(place, 5);
        both.read(0);
        assert_eq!(both.edit_times(0, 5, [ONE, 0, 0], 4), 0);
        both.is_worked_out();
    }
    // `enter` is once.
    let mut sheet = Sheet::blank(2).unwrap();
    sheet.enter(0, Integral::ellipeinc(1.5, 0.0)).unwrap();
    sheet.enter_times(1, Integral::ellipeinc(0.25, 0.0), 300).unwrap();
    assert_eq!((sheet.row(0).unwrap().times(), sheet.row(1).unwrap().times(), sheet.total()), (1, 300, 76.5));
    assert!(format!("{:?}", sheet.row(1).unwrap()).contains("times: 300"));
}

#[test]
fn function_1_goes_out() {
    // Each class that K has, and two numbers.
    for m in [0, 0.5f64.to_bits(), ONE, MINUS, NAN, TWO] {
        for times in [0, 1, u16::MAX] {
            let mut both = Both::blank_of(2);
            assert_eq!(both.edit(1, 5, [ONE, 0, 0]), 0);
            both.stand(0, m, times);
            both.is_worked_out();
            let good = both.lent.bytes().to_vec();
            for row in 0..3 {
                both.read(row);
                assert_eq!(both.edit_times(row, WITHDRAWN, [m, 0, 0], times), if row < 2 { 22 } else { 8 });
                assert_eq!(both.safe_edit(row, WITHDRAWN, [ONE; 3], 1), if row < 2 { 22 } else { 8 });
            }
            assert!(both.lent.bytes() == good);
            // The row is replaced, cleared, or stands beside one that is edited.
            assert_eq!(both.edit_times(0, 3, [m, 0, 0], times), 0);
            both.is_worked_out();
            both.set(&good);
            assert_eq!(both.safe_edit(0, 0, [0; 3], 0), 0);
            assert_eq!(both.read(0), ONE);
            both.set(&good);
            assert_eq!(both.clear(1), 0);
            both.read(0);
            both.is_worked_out();
            // An old sheet with it is read as any other.
            both.set(&good);
            both.poke(0, model::OLD);
            both.read(0);
            assert_eq!(both.edit(0, WITHDRAWN, [m, 0, 0]), 7);
        }
    }
    let mut sheet = Sheet::blank(1).unwrap();
    assert_eq!(sheet.enter(0, Integral::ellipk(0.5)), Err(Refusal::WITHDRAWN_FUNCTION));
    assert_eq!(sheet, Sheet::blank(1).unwrap());
}

#[test]
fn digits_by_times_at_every_place() {
    // Up to 69 digits, from every place on: at some they touch three limbs of 64.
    let mut both = Both::blank_of(2);
    for field in 0..2047u64 {
        let x = (field << 52) + (1 << 52) - 1;
        both.edit_times(0, 5, [x, 0, 0], u16::MAX);
        both.edit_times(1, 5, [SIGN + x, 0, 0], 0x8001);
        both.read_total();
        both.is_worked_out();
    }
}

#[test]
fn sheets_that_say_1() {
    let mut new = a_row_of_each_class();
    let rows: Vec<Vec<u8>> = (0..5).map(|i| [&new.model.row(i)[..2], &[(i > 0) as u8, 0], &new.model.row(i)[4..]].concat()).collect();
    let once = model::worked_out(&rows);
    new.set(&once);
    for anything in [0, 0x55] {
        let mut old = Both::new(once.clone(), true);
        old.poke(0, model::OLD);
        for row in 0..5 {
            old.poke(34 + 48 * row, anything);
            old.poke(35 + 48 * row, anything);
        }
        let bytes = old.lent.bytes().to_vec();
        for row in 0..6 {
            assert_eq!(old.read(row), new.read(row));
            assert_eq!(old.lent.row_times(row), new.lent.row_times(row));
            assert_eq!(old.edit(row, 5, [ONE, 0, 0]), 7);
            assert_eq!(old.safe_edit(row, LAST + 1, [ONE, 0, 0], 2), 7);
            assert_eq!(old.clear(row), 7);
        }
        assert!(old.lent.bytes() == bytes);
        let lent = Sheet::from_bytes(old.lent.bytes()).unwrap();
        assert_eq!(lent.iter().map(|row| row.times()).collect::<Vec<_>>(), [0, 1, 1, 1, 1]);
        assert!(!lent.keeps_times());
        assert_eq!(old.blank(5), 0);
        assert!(Sheet::from_bytes(old.lent.bytes()).unwrap().keeps_times());
    }
    for says in (0..=255).filter(|says| ![model::OLD, model::NEW].contains(says)) {
        new.poke(0, says);
        try_all(&mut Both::new(new.lent.bytes().to_vec(), true), 5);
    }
}

/// Every byte of a sheet that says 1 and of one that says 3 as it may be, both ways: refusal, row and bytes are the model's.
#[test]
fn forth_and_back() {
    let mut new = a_row_of_each_class();
    let rows: Vec<Vec<u8>> = (0..5).map(|i| [&new.model.row(i)[..2], &[(i > 0) as u8, 0], &new.model.row(i)[4..]].concat()).collect();
    let made = model::worked_out(&rows);
    new.set(&made);
    assert_eq!(new.convert(true), (7, 0));
    assert_eq!(new.convert(false), (0, 0));
    let old = new.lent.bytes().to_vec();
    assert_eq!(new.convert(false), (7, 0));
    assert_eq!(new.convert(true), (0, 0));
    assert!(new.lent.bytes() == made);
    for sheet in [&old, &made] {
        for place in 0..sheet.len() {
            for byte in [0, 1, 2, 3, 7, 0x7f, 0xff] {
                for forth in [true, false] {
                    new.set(sheet);
                    new.poke(place, byte);
                    new.convert(forth);
                    new.safe_convert(forth);
                }
            }
        }
    }
    // 17 goes behind 10 of any row, and behind the counts.
    let mut both = Both::new(made.clone(), true);
    both.poke(34 + 48, 2);
    assert_eq!(both.convert(false), (17, 1));
    both.poke(32 + 48 * 5, 2); // one blank row more than there are
    assert_eq!(both.convert(false), (10, 5));
    both.poke(32 + 48 * 3, LAST + 1);
    assert_eq!(both.convert(false), (10, 3));
    assert_eq!(both.safe_convert(false), (10, Some(3)));
    both.poke(32 + 48 * 3, rows[3][0]);
    assert_eq!(both.safe_convert(false), (10, None));
    assert_eq!(Sheet::from_bytes(both.lent.bytes_mut()).unwrap().forth().unwrap_err().to_string(), Refusal::NOT_A_SHEET.to_string());
    both.set(&made);
    both.poke(34 + 48, 0);
    let stop = Sheet::from_bytes(both.lent.bytes_mut()).unwrap().back().unwrap_err();
    assert!(stop.to_string().starts_with("row 1: refusal 17: "));
    assert_eq!(Refusal::from(stop), Refusal::NOT_DRIVEN_ONCE);
}

#[test]
fn threads_share_nothing() {
    let sheets: Vec<Vec<u8>> = std::thread::scope(|scope| {
        let workers: Vec<_> = (0..4)
            .map(|_| {
                scope.spawn(|| {
                    let mut random = Random(13);
                    let mut both = Both::blank_of(9);
                    for _ in 0..2000 {
                        both.edit_times(random.below(9) as u32, random.below(LAST as u64 + 1) as u8, random.patterns(), random.times());
                    }
                    both.lent.bytes().to_vec()
                })
            })
            .collect();
        workers.into_iter().map(|worker| worker.join().unwrap()).collect()
    });
    assert!(sheets.iter().all(|sheet| *sheet == sheets[0]));
}
