//! Edits of a leg sheet: at 1, 32 and 1,024 rows, the proved library against the same code in Rust, in one run.
//! A row of ellipeinc at m = 0 has its angle for its answer, so such an edit is the sheet's own part: the old row's share taken from
//! the exact total, the new one's added, the row written. A leg has m = -0.0067 and an angle below π/2.
//! twin: sheet
mod library;
mod patterns;
mod timing;

use patterns::Random;
use std::cell::RefCell;
use timing::Contest;

const WGS84: f64 = -0.006739496742276434;

/// A row, modulo the sheet's rows, an angle, and how often the leg was driven.
type Edit = (u32, f64, u16);

/// A blank sheet by the library and one by its twin.
struct Sheets {
    rows: u32,
    ours: RefCell<Vec<u8>>,
    theirs: RefCell<Vec<u8>>,
}

impl Sheets {
    fn new(rows: u32) -> Sheets {
        let sheet = || RefCell::new(vec![0u8; 328 + 48 * rows as usize]);
        let sheets = Sheets { rows, ours: sheet(), theirs: sheet() };
        assert_eq!(library::blank(&mut sheets.ours.borrow_mut(), rows), 0);
        assert!(twin::ledger::make_blank(&mut sheets.theirs.borrow_mut(), rows).is_ok());
        sheets
    }

    fn by_library(&self, (row, angle, times): Edit, m: f64) -> u8 {
        library::edit(&mut self.ours.borrow_mut(), row % self.rows, 5, [angle.to_bits(), m.to_bits(), 0], times)
    }

    fn by_twin(&self, (row, angle, times): Edit, m: f64) -> u8 {
        let entry = twin::sheet::Entry { function: 5, a: angle.to_bits(), b: m.to_bits(), c: 0, times };
        twin::sheet::edit(&mut self.theirs.borrow_mut(), row % self.rows, entry).err().map_or(0, |refused| refused.number())
    }
}

fn contest(title: &str, edits: &[Edit], m: f64) {
    let sheets = [1, 32, 1024].map(Sheets::new);
    for s in &sheets {
        for &e in edits {
            assert_eq!((s.by_library(e, m), s.by_twin(e, m)), (0, 0));
        }
        assert_eq!(*s.ours.borrow(), *s.theirs.borrow());
    }
    let mut c = Contest::new(edits);
    for (s, name) in sheets.iter().zip(["proved library, 1 row", "proved library, 32 rows", "proved library, 1,024 rows"]) {
        c.enter(name, 200, move |e| s.by_library(e, m));
    }
    for (s, name) in sheets.iter().zip(["the same code in Rust, 1 row", "the same code in Rust, 32 rows", "the same code in Rust, 1,024 rows"]) {
        c.enter(name, 200, move |e| s.by_twin(e, m));
    }
    c.enter("the evaluation alone, proved library", 200, move |(_, angle, _): Edit| library::evaluate(5, angle.to_bits(), m.to_bits(), 0));
    c.show(title);
}

fn main() {
    let mut random = Random(5);
    let mut edits = |most: u64| -> Vec<Edit> {
        let mut any = || (random.below(1 << 20) as u32, random.below(1 << 53) as f64 / (1u64 << 53) as f64 * 1.5, 1 + random.below(most) as u16);
        (0..10_000).map(|_| any()).collect()
    };
    let (once, often) = (edits(1), edits(65_535));
    contest("edit, the sheet's own part, each leg driven once", &once, 0.0);
    contest("edit, the sheet's own part, up to 65,535 times", &often, 0.0);
    contest("edit, a leg", &often, WGS84);
}
