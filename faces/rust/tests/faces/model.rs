//! The leg sheet again, written from its rules (docs/SHEET.md) and from nothing of the library: bytes, counts, refusals in their order,
//! and the exact total in base 256, digit by digit as it stands in the sheet.

pub const SIGN: u64 = 1 << 63;
pub const PLUS: u64 = 0x7ff0_0000_0000_0000;
pub const MINUS: u64 = SIGN | PLUS;
pub const NAN: u64 = 0x7ff8_0000_0000_0000;
pub const ONE: u64 = 0x3ff0_0000_0000_0000;
pub const TWO: u64 = 0x4000_0000_0000_0000;
pub const LARGEST: u64 = PLUS - 1;
/// π/2 and 2^52.
const HALF_PI: u64 = 0x3ff9_21fb_5444_2d18;
const FAR: u64 = 0x4330_0000_0000_0000;

pub fn is_nan(p: u64) -> bool {
    p % SIGN > PLUS
}

fn is_finite(p: u64) -> bool {
    p % SIGN < PLUS
}

/// Orders the patterns that are no NaN as their values; both zeros are 0.
fn key(p: u64) -> i64 {
    let size = (p % SIGN) as i64;
    if p >= SIGN {
        -size
    } else {
        size
    }
}

/// Refusal number and two answers.
pub type Answers = (u8, u64, u64);

/// The answers that the rules name outright; none where they are left to the recipes.
pub fn named(function: u8, a: u64, b: u64) -> Option<Answers> {
    let refused = |number| Some((number, 0, 0));
    let one = |answer| Some((0, answer, 0));
    let above_one = |m: u64| !is_nan(m) && key(m) > key(ONE);
    match (function, a, b) {
        (0, ..) => one(0),
        (1..=3, m, _) if is_nan(m) => refused(1),
        (1..=3, m, _) if above_one(m) => refused(2),
        (1, ONE, _) => one(PLUS),
        (2, ONE, _) => one(ONE),
        (3, ONE, _) => Some((0, PLUS, ONE)),
        (1, MINUS, _) => one(0),
        (2, MINUS, _) => one(PLUS),
        (3, MINUS, _) => Some((0, 0, PLUS)),
        (4, n, m) if is_nan(n) || is_nan(m) => refused(1),
        (4, _, m) if above_one(m) => refused(2),
        (4, ONE, _) => refused(4),
        (4, n, ONE) => one(if key(n) > key(ONE) { MINUS } else { PLUS }),
        (4, MINUS, _) | (4, _, MINUS) => one(0),
        (5, phi, _) if phi % SIGN == 0 => one(0),
        (5, phi, m) if m % SIGN == 0 => {
            if is_nan(phi) {
                refused(1)
            } else {
                one(phi)
            }
        }
        (5, PLUS | MINUS, _) => one(a),
        (5, phi, m) if is_nan(phi) => refused(if above_one(m) { 2 } else { 1 }),
        (5, _, m) if is_nan(m) => refused(1),
        (5, phi, MINUS) => one(if phi >= SIGN { MINUS } else { PLUS }),
        (5, phi, m) if phi % SIGN > FAR && above_one(m) => refused(2),
        (6, phi, m) if is_nan(phi) || is_nan(m) => refused(1),
        (6, phi, m) if m % SIGN == 0 || (phi % SIGN == 0 && is_finite(m)) => one(phi),
        (6, phi, m) if key(m) >= key(ONE) => {
            if phi % SIGN >= HALF_PI {
                refused(3)
            } else {
                None
            }
        }
        (6, PLUS | MINUS, _) => one(a),
        (6, phi, MINUS) => {
            if phi % SIGN > FAR {
                refused(6)
            } else {
                one(0)
            }
        }
        (1..=LAST, ..) => None,
        _ => refused(9),
    }
}

/// How many arguments each function reads.
const USED: [usize; 7] = [0, 1, 1, 1, 2, 2, 2];
/// The last function's number.
pub const LAST: u8 = USED.len() as u8 - 1;
/// The function that goes out: rows of it stand, and no new one is entered.
pub const WITHDRAWN: u8 = 1;

/// The arguments that the function reads, zeros for the others.
pub fn read_by(function: u8, arguments: [u64; 3]) -> [u64; 3] {
    let used = USED[function as usize];
    [0, 1, 2].map(|k| if k < used { arguments[k] } else { 0 })
}

// ---- a number of 2,176 bits, modulo 2^2176, lowest byte first

const NUMBER: usize = 272;

/// Adds a finite value so many times, in units of 2^-1074, or takes it away.
fn add(number: &mut [u8], value: u64, times: u16, take_away: bool) {
    let (field, digits) = (value >> 52 & 0x7ff, value % (1 << 52));
    let (digits, shift) = if field == 0 { (digits, 0) } else { (digits + (1 << 52), field as usize - 1) };
    let size = (digits as u128 * times as u128) << (shift % 8);
    let size = size.to_le_bytes();
    let less = take_away != (value >= SIGN);
    let mut carry = 0;
    for (i, digit) in number[shift / 8..].iter_mut().enumerate() {
        let by = *size.get(i).unwrap_or(&0) as i32 + carry;
        let sum = *digit as i32 + if less { -by } else { by };
        *digit = sum.rem_euclid(256) as u8;
        carry = !(0..256).contains(&sum) as i32;
    }
}

/// The number, read with its sign and rounded once to an f64's pattern: ties to even, too large is infinite, zero is +0.
fn rounded(number: &[u8]) -> u64 {
    let negative = number[NUMBER - 1] >= 128;
    let mut size = number.to_vec();
    if negative {
        let zeros = size.iter().take_while(|&&digit| digit == 0).count();
        size[zeros] = size[zeros].wrapping_neg();
        for digit in &mut size[zeros + 1..] {
            *digit = !*digit;
        }
    }
    let bit = |i: usize| (size[i / 8] >> (i % 8) & 1) as u64;
    let length = match size.iter().rposition(|&digit| digit != 0) {
        Some(top) => 8 * top + 8 - size[top].leading_zeros() as usize,
        None => return 0,
    };
    let dropped = length.saturating_sub(53);
    let mut digits = (dropped..length).rev().fold(0, |digits, i| 2 * digits + bit(i));
    if dropped > 0 && bit(dropped - 1) == 1 && (digits % 2 == 1 || (0..dropped - 1).any(|i| bit(i) == 1)) {
        digits += 1;
    }
    // A carry out of the digits falls into the exponent's field.
    let pattern = ((dropped as u64) << 52) + digits;
    pattern.min(PLUS) + if negative { SIGN } else { 0 }
}

// ---- the sheet

pub fn length(rows: usize) -> usize {
    328 + 48 * rows
}

fn words(words: &[u32]) -> Vec<u8> {
    words.iter().flat_map(|word| word.to_le_bytes()).collect()
}

/// What the first word says: 1 of a sheet without times, which is only read, 3 of one with.
pub const OLD: u8 = 1;
pub const NEW: u8 = 3;

fn contents(says: u8, rows: usize) -> Vec<u8> {
    let rows = rows as u32;
    words(&[says as u32, 32, 48 * rows, rows, 2, 32 + 48 * rows, 296, 1])
}

/// A row's class, 0 to 4 (blank, finite, +∞, -∞, refused); none where its first answer is NaN and decides.
pub fn class(row: &[u8]) -> Option<usize> {
    let first = first(row);
    match (row[0], row[1]) {
        (0, _) => Some(0),
        (_, 1..) => Some(4),
        _ if is_nan(first) => None,
        _ if is_finite(first) => Some(1),
        _ => Some(if first == PLUS { 2 } else { 3 }),
    }
}

fn first(row: &[u8]) -> u64 {
    u64::from_le_bytes(row[32..40].try_into().unwrap())
}

/// The row tests of refusal 10.
fn sound(row: &[u8]) -> bool {
    row[0] <= LAST && row[1] <= 6 && !is_nan(first(row))
}

/// The times that the bytes hold.
fn times(row: &[u8]) -> u16 {
    u16::from_le_bytes([row[2], row[3]])
}

pub fn new_row(function: u8, arguments: [u64; 3], (refusal, first, second): Answers, times: u16) -> Vec<u8> {
    let [low, high] = if function == 0 { [0, 0] } else { times.to_le_bytes() };
    let mut row = vec![function, refusal, low, high, 0, 0, 0, 0];
    for pattern in arguments.into_iter().chain([first, second]) {
        row.extend(pattern.to_le_bytes());
    }
    row
}

/// A sheet of these rows, counted and added up afresh.
pub fn worked_out(rows: &[Vec<u8>]) -> Vec<u8> {
    let mut counts = [0; 6];
    let mut number = [0; NUMBER];
    for row in rows {
        let class = class(row).expect("no NaN");
        counts[class] += 1;
        if class == 1 {
            add(&mut number, first(row), times(row), false);
        }
    }
    [contents(NEW, rows.len()), rows.concat(), words(&counts), number.to_vec()].concat()
}

#[derive(Clone)]
pub struct Model {
    pub bytes: Vec<u8>,
}

impl Model {
    /// How many rows; none where the bytes are no sheet.
    pub fn rows(&self) -> Option<usize> {
        let over = self.bytes.len().checked_sub(length(0))?;
        let rows = over / 48;
        let says = |says| self.bytes[..32] == contents(says, rows);
        (over % 48 == 0 && rows <= 1024 && (says(NEW) || says(OLD))).then_some(rows)
    }

    /// Whether it is a sheet that may be edited.
    pub fn keeps_times(&self) -> bool {
        self.rows().is_some() && self.bytes[0] == NEW
    }

    pub fn row_times(&self, row: u32) -> u16 {
        if self.row_refusal(row) != 0 {
            return 0;
        }
        let own = self.row(row as usize);
        if self.keeps_times() {
            times(own)
        } else {
            (own[0] != 0) as u16
        }
    }

    pub fn row(&self, row: usize) -> &[u8] {
        &self.bytes[32 + 48 * row..80 + 48 * row]
    }

    fn counts(&self) -> [u32; 5] {
        let at = self.bytes.len() - 296;
        [0, 1, 2, 3, 4].map(|k| u32::from_le_bytes(self.bytes[at + 4 * k..at + 4 * k + 4].try_into().unwrap()))
    }

    pub fn blank(&mut self, rows: u32) -> u8 {
        if rows > 1024 {
            return 11;
        }
        if self.bytes.len() != length(rows as usize) {
            return 7;
        }
        self.bytes = worked_out(&vec![vec![0; 48]; rows as usize]);
        0
    }

    /// What an edit is refused with; 0 where it is accepted.
    pub fn edit_refusal(&self, row: u32, function: u8) -> u8 {
        let Some(rows) = self.rows().filter(|_| self.keeps_times()) else { return 7 };
        if row as usize >= rows {
            return 8;
        }
        if function == WITHDRAWN {
            return 22;
        }
        if function > LAST {
            return 9;
        }
        let old = self.row(row as usize);
        let counts = self.counts();
        let counted = counts.iter().map(|&count| count as u64).sum::<u64>() == rows as u64;
        if !sound(old) || !counted || class(old).is_none_or(|class| counts[class] == 0) {
            return 10;
        }
        0
    }

    /// An edit; `answers` are those of the function at the arguments that it reads.
    pub fn edit(&mut self, row: u32, function: u8, arguments: [u64; 3], driven: u16, answers: impl Fn(u8, [u64; 3]) -> Answers) -> u8 {
        let refusal = self.edit_refusal(row, function);
        if refusal != 0 {
            return refusal;
        }
        let arguments = read_by(function, arguments);
        self.put(row as usize, &new_row(function, arguments, answers(function, arguments), driven));
        0
    }

    /// What refuses the way forth or back, and the row that it is about; the number of rows where that is the counts.
    fn stop(&self, forth: bool) -> (u8, u32) {
        let Some(rows) = self.rows().filter(|_| self.keeps_times() != forth) else { return (7, 0) };
        let counts = self.counts();
        let first_row = |found: &dyn Fn(&[u8]) -> bool| (0..rows).find(|&row| found(self.row(row)));
        if let Some(row) = first_row(&|row| !sound(row) || class(row).is_none_or(|class| counts[class] == 0)) {
            return (10, row as u32);
        }
        if counts.iter().map(|&count| count as u64).sum::<u64>() != rows as u64 {
            return (10, rows as u32);
        }
        match first_row(&|row| !forth && row[0] != 0 && times(row) != 1) {
            Some(row) => (17, row as u32),
            None => (0, 0),
        }
    }

    pub fn convert(&mut self, forth: bool) -> (u8, u32) {
        let stop = self.stop(forth);
        if stop.0 == 0 {
            self.bytes[0] = if forth { NEW } else { OLD };
            for row in 0..self.rows().expect("a sheet still") {
                let at = 32 + 48 * row;
                let driven = (forth && self.bytes[at] != 0) as u16;
                self.bytes[at + 2..at + 4].copy_from_slice(&driven.to_le_bytes());
            }
        }
        stop
    }

    /// This row in place of a sound one, and the totals with it.
    pub fn put(&mut self, row: usize, new: &[u8]) {
        let old = self.row(row).to_vec();
        let mut counts = self.counts();
        let totals = self.bytes.len() - 296;
        for (row, taken) in [(&old[..], true), (new, false)] {
            let class = class(row).expect("no NaN");
            if taken {
                counts[class] -= 1
            } else {
                counts[class] += 1
            }
            if class == 1 {
                add(&mut self.bytes[totals + 24..], first(row), times(row), taken);
            }
        }
        self.bytes[totals..totals + 24].copy_from_slice(&words(&[&counts[..], &[0]].concat()));
        self.bytes[32 + 48 * row..80 + 48 * row].copy_from_slice(new);
    }

    pub fn row_refusal(&self, row: u32) -> u8 {
        match self.rows() {
            None => 7,
            Some(rows) if row as usize >= rows => 8,
            _ => 0,
        }
    }

    pub fn row_at(&self, row: u32) -> usize {
        if self.row_refusal(row) == 0 {
            32 + 48 * row as usize
        } else {
            self.bytes.len()
        }
    }

    pub fn total_refusal(&self) -> u8 {
        if self.rows().is_none() {
            7
        } else {
            0
        }
    }

    pub fn total(&self) -> u64 {
        if self.rows().is_none() {
            0
        } else {
            rounded(&self.bytes[self.bytes.len() - NUMBER..])
        }
    }

    pub fn count(&self, class: usize) -> u32 {
        if self.rows().is_none() {
            0
        } else {
            self.counts()[class]
        }
    }
}
