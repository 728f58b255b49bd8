//! The leg sheet. docs/SHEET.md of the project has its bytes.
use crate::face;
use crate::refusal::{accepted, Refusal};
use crate::Integral;
use std::fmt;

const ROW: usize = 48;
const EMPTY: usize = 328;
const MOST_ROWS: u32 = 1024;
/// The first word of a sheet whose rows keep times.
const WITH_TIMES: u32 = 3;

/// The `N` bytes at this place of bytes that have them.
fn part<const N: usize>(bytes: &[u8], at: usize) -> [u8; N] {
    bytes[at..at + N].try_into().expect("N bytes are N bytes")
}

/// A leg sheet in bytes that are owned (`Sheet`, which is `Sheet<Vec<u8>>`), lent (`Sheet<&mut [u8]>`) or only read (`Sheet<&[u8]>`).
///
/// ```
/// use shuttlemint::{Integral, Refusal, Sheet};
///
/// let mut sheet = Sheet::blank(1)?;
/// sheet.enter(0, Integral::ellipe(0.5))?;
/// let file = sheet.into_bytes();
///
/// let sheet = Sheet::from_bytes(&file[..])?;
/// assert_eq!(sheet.row(0)?.function(), 2);
/// assert_eq!(sheet.row(1).unwrap_err(), Refusal::NO_SUCH_ROW);
/// assert_eq!(Sheet::from_bytes(&file[1..]).unwrap_err(), Refusal::NOT_A_SHEET);
/// # Ok::<(), Refusal>(())
/// ```
///
/// Each row keeps how often its leg was driven ([`enter_times`](Sheet::enter_times), [`Row::times`]). A sheet from before rows did is read like any other,
/// each leg once, and is not edited ([`keeps_times`](Sheet::keeps_times)) before it was brought [`forth`](Sheet::forth).
#[derive(Clone, Debug, PartialEq, Eq)]
pub struct Sheet<B = Vec<u8>> {
    bytes: B,
}

impl Sheet {
    /// A sheet of so many blank rows, in bytes of its own. Refusal: 11 for more than 1,024 rows.
    pub fn blank(rows: u32) -> Result<Sheet, Refusal> {
        // Too many rows are refused whatever the length is, so that no more bytes are taken for them.
        Sheet::blank_in(vec![0; EMPTY + ROW * rows.min(MOST_ROWS) as usize], rows)
    }
}

impl<B: AsRef<[u8]>> Sheet<B> {
    /// The sheet that these bytes are. Refusal: 7 where their length or contents are not those of a sheet. Rows and totals are not looked at:
    /// damage there shows when it is met.
    pub fn from_bytes(bytes: B) -> Result<Sheet<B>, Refusal> {
        accepted(face::total_refusal(bytes.as_ref()))?;
        Ok(Sheet { bytes })
    }

    /// Whether its rows keep times: its first word says 3. One that says 1 is from before they did: it is only read, and an edit to it is refused 7.
    ///
    /// ```
    /// # use shuttlemint::{Integral, Refusal, Sheet};
    /// let mut sheet = Sheet::blank(1)?;
    /// assert!(sheet.keeps_times());
    /// sheet.enter(0, Integral::ellipeinc(1.5, 0.0))?;
    /// let mut bytes = sheet.into_bytes();
    /// (bytes[0], bytes[34]) = (1, 0); // as such a sheet is: it says 1, and has zeros where times stand now
    ///
    /// let mut old = Sheet::from_bytes(bytes)?;
    /// assert!(!old.keeps_times());
    /// assert_eq!((old.total(), old.row(0)?.times()), (1.5, 1));
    /// assert_eq!(old.clear(0), Err(Refusal::NOT_A_SHEET));
    /// # Ok::<(), Refusal>(())
    /// ```
    pub fn keeps_times(&self) -> bool {
        part(self.as_bytes(), 0) == WITH_TIMES.to_le_bytes()
    }

    /// How many rows it has.
    pub fn rows(&self) -> u32 {
        // The first row that can't be read: the rows below `least` can, those from `most` on can't.
        let (mut least, mut most) = (0, MOST_ROWS);
        while least < most {
            let middle = (least + most) / 2;
            if face::row_refusal(self.as_bytes(), middle) == 0 {
                least = middle + 1;
            } else {
                most = middle;
            }
        }
        least
    }

    /// A row, in its own bytes of the sheet. Refusal: 8 for no such row.
    pub fn row(&self, row: u32) -> Result<Row<'_>, Refusal> {
        let bytes = self.as_bytes();
        accepted(face::row_refusal(bytes, row))?;
        let at = face::row_at(bytes, row);
        let class = Class::ALL.get(face::row_class(bytes, row)).copied();
        let times = face::row_times(bytes, row);
        Ok(Row { bytes: bytes[at..at + ROW].try_into().expect("48 bytes are a row"), class, times })
    }

    /// All rows, from row 0 on.
    ///
    /// ```
    /// # use shuttlemint::{Class, Sheet};
    /// let sheet = Sheet::blank(3).unwrap();
    /// assert!(sheet.iter().all(|row| row.class() == Some(Class::Blank)));
    /// ```
    pub fn iter(&self) -> impl Iterator<Item = Row<'_>> {
        (0..self.rows()).filter_map(move |row| self.row(row).ok())
    }

    /// The exact total of the finite rows, times multiplied by first answer, rounded once. It can be infinite, and a zero is +0.
    ///
    /// ```
    /// # use shuttlemint::{Integral, Sheet};
    /// let mut sheet = Sheet::blank(3).unwrap();
    /// for (row, leg) in [1e300, 1.0, -1e300].into_iter().enumerate() {
    ///     sheet.enter(row as u32, Integral::ellipeinc(leg, 0.0)).unwrap();
    /// }
    /// assert_eq!(sheet.total(), 1.0);
    /// ```
    pub fn total(&self) -> f64 {
        f64::from_bits(face::total(self.as_bytes()))
    }

    /// How many rows are of this class, by the sheet's own counts.
    pub fn count(&self, class: Class) -> u32 {
        face::count(self.as_bytes(), class as u8)
    }

    /// All its bytes.
    pub fn as_bytes(&self) -> &[u8] {
        self.bytes.as_ref()
    }

    /// The bytes, handed back.
    pub fn into_bytes(self) -> B {
        self.bytes
    }
}

impl<B: AsRef<[u8]> + AsMut<[u8]>> Sheet<B> {
    /// A sheet of so many blank rows in these bytes, whatever they held. Refusals: 11 for more than 1,024 rows, 7 for a length that is
    /// not 328 + 48·rows.
    ///
    /// ```
    /// # use shuttlemint::{Refusal, Sheet};
    /// let mut lent = [0u8; 376];
    /// Sheet::blank_in(&mut lent[..], 1)?.edit(0, 3, 0, 0, 0, 1)?;
    /// assert_eq!(lent[32], 3);
    /// # Ok::<(), Refusal>(())
    /// ```
    pub fn blank_in(mut bytes: B, rows: u32) -> Result<Sheet<B>, Refusal> {
        accepted(face::blank(bytes.as_mut(), rows))?;
        Ok(Sheet { bytes })
    }

    /// Works out the integral and puts it in the row, in place of what stands there, as a leg that was driven once. Refusals, each changing no byte: 7 for a
    /// sheet that does not [keep times](Sheet::keeps_times), 8 for no such row, 22 for [`ellipk`](Integral::ellipk), which goes out, 10 for a damaged row or
    /// damaged counts. A refusal of the integral itself, 1 to 6, is not among them: the row keeps it.
    ///
    /// ```
    /// # use shuttlemint::{Integral, Refusal, Sheet};
    /// let mut sheet = Sheet::blank(1)?;
    /// assert_eq!(sheet.enter(0, Integral::ellipk(0.5)), Err(Refusal::WITHDRAWN_FUNCTION));
    /// sheet.enter(0, Integral::ellipke(0.5))?;
    /// # Ok::<(), Refusal>(())
    /// ```
    pub fn enter(&mut self, row: u32, integral: Integral) -> Result<(), Refusal> {
        self.enter_times(row, integral, 1)
    }

    /// [`enter`](Sheet::enter) for a leg that was driven so many times; 0 keeps the leg and adds nothing to the total.
    ///
    /// ```
    /// # use shuttlemint::{Class, Integral, Refusal, Sheet};
    /// let mut sheet = Sheet::blank(2)?;
    /// sheet.enter(0, Integral::ellipeinc(1.5, 0.0))?;
    /// sheet.enter_times(1, Integral::ellipeinc(0.25, 0.0), 300)?;
    /// assert_eq!(sheet.row(1)?.times(), 300);
    /// assert_eq!(sheet.total(), 1.5 + 300.0 * 0.25);
    /// assert_eq!(sheet.count(Class::Finite), 2); // counts are of rows
    /// # Ok::<(), Refusal>(())
    /// ```
    pub fn enter_times(&mut self, row: u32, integral: Integral, times: u16) -> Result<(), Refusal> {
        let [a, b, c] = integral.arguments();
        self.edit(row, integral.function(), a, b, c, times)
    }

    /// [`enter_times`](Sheet::enter_times) by number and bit patterns: works out the function of this number at its arguments' bit patterns and puts it in the row, in place of what
    /// stands there. Arguments that the function does not have are stored as 0, and so are the times of a blank row. Refusals, in this order, each changing no byte: 7 for a sheet that
    /// does not [keep times](Sheet::keeps_times), 8 for no such row, 22 for function 1, 9 for no such function, 10 for a damaged row or damaged counts. A refusal of the function itself,
    /// 1 to 6, is not among them: the row keeps it. A row of function 1 that stands, entered before it went out, is read, replaced and cleared as any other.
    pub fn edit(&mut self, row: u32, function: u8, a: u64, b: u64, c: u64, times: u16) -> Result<(), Refusal> {
        accepted(face::edit(self.bytes.as_mut(), row, function, [a, b, c], times))
    }

    /// Makes a sheet that does not [keep times](Sheet::keeps_times) one that does, in its own bytes: every row that is not blank was driven once. Counts and total
    /// are carried over. Refusals, each changing no byte: 7 where it keeps times already, 10 where a row is damaged, or the counts.
    ///
    /// ```
    /// # use shuttlemint::{Integral, Refusal, Sheet};
    /// let mut sheet = Sheet::blank(2)?;
    /// sheet.enter(1, Integral::ellipeinc(1.5, 0.0))?;
    /// let new = sheet.clone();
    /// sheet.back()?;
    /// assert!(!sheet.keeps_times());
    /// sheet.forth()?;
    /// assert_eq!(sheet, new);
    ///
    /// sheet.enter_times(1, Integral::ellipeinc(1.5, 0.0), 2)?;
    /// let stop = sheet.back().unwrap_err();
    /// assert_eq!((stop.refusal(), stop.row()), (Refusal::NOT_DRIVEN_ONCE, Some(1)));
    /// # Ok::<(), Refusal>(())
    /// ```
    pub fn forth(&mut self) -> Result<(), Stop> {
        self.convert(true)
    }

    /// The way back from [`forth`](Sheet::forth): times go, so that each row that is not blank must have been driven once. Refusals, tried in this order, each
    /// changing no byte: 7 for a sheet that does not keep times, 10 where a row is damaged, or the counts, 17 for times other than 1.
    pub fn back(&mut self) -> Result<(), Stop> {
        self.convert(false)
    }

    fn convert(&mut self, forth: bool) -> Result<(), Stop> {
        let Some(refusal) = Refusal::from_number(face::convert(self.bytes.as_mut(), forth)) else { return Ok(()) };
        let row = Some(face::convert_row(self.as_bytes(), forth)).filter(|&row| refusal != Refusal::NOT_A_SHEET && row < self.rows());
        Err(Stop { refusal, row })
    }

    /// Makes a row blank: an edit to function 0.
    ///
    /// ```
    /// # use shuttlemint::{Integral, Refusal, Sheet};
    /// let mut sheet = Sheet::blank(1)?;
    /// sheet.enter(0, Integral::ellipke(0.25))?;
    /// sheet.clear(0)?;
    /// assert_eq!(sheet, Sheet::blank(1)?);
    /// # Ok::<(), Refusal>(())
    /// ```
    pub fn clear(&mut self, row: u32) -> Result<(), Refusal> {
        self.edit(row, 0, 0, 0, 0, 0)
    }
}

/// Why a sheet was not brought [forth](Sheet::forth) or [back](Sheet::back), and the row that this is about. `?` takes it to a [`Refusal`].
#[derive(Clone, Copy, Debug, PartialEq, Eq, Hash)]
pub struct Stop {
    refusal: Refusal,
    row: Option<u32>,
}

impl Stop {
    /// 7, 10 or 17.
    pub fn refusal(self) -> Refusal {
        self.refusal
    }

    /// The first row that is damaged or was not driven once; none where 10 is about the counts, and for 7.
    pub fn row(self) -> Option<u32> {
        self.row
    }
}

impl fmt::Display for Stop {
    fn fmt(&self, f: &mut fmt::Formatter) -> fmt::Result {
        if let Some(row) = self.row {
            write!(f, "row {row}: ")?;
        }
        write!(f, "{}", self.refusal)
    }
}

impl std::error::Error for Stop {}

impl From<Stop> for Refusal {
    fn from(stop: Stop) -> Refusal {
        stop.refusal
    }
}

/// What a row adds to the counts.
#[derive(Clone, Copy, Debug, PartialEq, Eq, Hash)]
pub enum Class {
    /// The function is 0.
    Blank,
    /// The first answer is finite: it is in the total.
    Finite,
    /// The first answer is +∞.
    PlusInfinity,
    /// The first answer is -∞.
    MinusInfinity,
    /// The row has a refusal in place of answers.
    Refused,
}

impl Class {
    /// All classes, in the order of a sheet's counts.
    pub const ALL: [Class; 5] = [Class::Blank, Class::Finite, Class::PlusInfinity, Class::MinusInfinity, Class::Refused];
}

/// A row's own 48 bytes in a sheet, and how often it was driven, which the bytes alone do not tell in a sheet that keeps no times.
#[derive(Clone, Copy, PartialEq, Eq)]
pub struct Row<'a> {
    bytes: &'a [u8; ROW],
    class: Option<Class>,
    times: u16,
}

impl<'a> Row<'a> {
    fn pattern(self, place: usize) -> u64 {
        u64::from_le_bytes(part(self.bytes, place))
    }

    /// The function's number, 0 for a blank row.
    pub fn function(self) -> u8 {
        self.bytes[0]
    }

    /// Why the row has no answer, if so.
    pub fn refusal(self) -> Option<Refusal> {
        Refusal::from_number(self.bytes[1])
    }

    /// How often the leg was driven, 0 to 65,535; 0 for a blank row. In a sheet that does not [keep times](Sheet::keeps_times) every other row was driven once.
    pub fn times(self) -> u16 {
        self.times
    }

    /// The arguments' bit patterns; 0 for those that the function does not have.
    pub fn arguments(self) -> [u64; 3] {
        [8, 16, 24].map(|place| self.pattern(place))
    }

    /// The answers' bit patterns; 0 for those that the function does not have, and where the row is refused.
    pub fn answers(self) -> [u64; 2] {
        [32, 40].map(|place| self.pattern(place))
    }

    /// The answers as numbers, or the row's refusal.
    ///
    /// ```
    /// # use shuttlemint::{integrals::ellipke, Integral, Refusal, Sheet};
    /// let mut sheet = Sheet::blank(1)?;
    /// sheet.enter(0, Integral::ellipke(0.5))?;
    /// let (first, second) = ellipke(0.5)?;
    /// assert_eq!(sheet.row(0)?.values(), Ok([first, second]));
    /// sheet.enter(0, Integral::ellipke(2.0))?;
    /// assert_eq!(sheet.row(0)?.values(), Err(Refusal::PARAMETER_ABOVE_ONE));
    /// # Ok::<(), Refusal>(())
    /// ```
    pub fn values(self) -> Result<[f64; 2], Refusal> {
        accepted(self.bytes[1])?;
        Ok(self.answers().map(f64::from_bits))
    }

    /// The row's class; none where the first answer is NaN, which is damage.
    pub fn class(self) -> Option<Class> {
        self.class
    }

    /// The 48 bytes themselves, in the sheet.
    pub fn as_bytes(self) -> &'a [u8; ROW] {
        self.bytes
    }
}

impl fmt::Debug for Row<'_> {
    fn fmt(&self, f: &mut fmt::Formatter) -> fmt::Result {
        let hex = |patterns: &[u64]| patterns.iter().map(|p| format!("{p:016x}")).collect::<Vec<_>>().join(" ");
        f.debug_struct("Row")
            .field("function", &self.function())
            .field("refusal", &self.refusal())
            .field("arguments", &hex(&self.arguments()))
            .field("answers", &hex(&self.answers()))
            .field("times", &self.times)
            .finish()
    }
}
