//! Each call on the library and on the model: the answers and all bytes must agree.
use crate::lent::{self, Lent};
use crate::model::{self, Answers, Model};
use shuttlemint::{Class, Refusal, Sheet};

pub const CLASSES: [Class; 5] = [Class::Blank, Class::Finite, Class::PlusInfinity, Class::MinusInfinity, Class::Refused];

/// The named answer, or the library's where the rules leave it to the recipes.
fn answers(function: u8, arguments: [u64; 3]) -> Answers {
    model::named(function, arguments[0], arguments[1]).unwrap_or_else(|| lent::answers(function, arguments))
}

pub fn number(result: Result<(), Refusal>) -> u8 {
    result.map_or_else(Refusal::number, |()| 0)
}

pub struct Both {
    pub lent: Lent,
    pub model: Model,
    /// How many calls were compared.
    pub calls: u64,
    /// How often each number was the answer.
    pub seen: [u64; 256],
}

impl Both {
    pub fn new(bytes: Vec<u8>, at_the_end: bool) -> Both {
        Both { lent: Lent::new(&bytes, at_the_end), model: Model { bytes }, calls: 0, seen: [0; 256] }
    }

    pub fn filled(length: usize, byte: u8) -> Both {
        Both::new(vec![byte; length], byte == 0)
    }

    pub fn blank_of(rows: u32) -> Both {
        let mut both = Both::filled(model::length(rows as usize), 0xa5);
        assert_eq!(both.blank(rows), 0);
        both
    }

    /// One call's answers, the library's first.
    fn same<T: PartialEq + std::fmt::Debug>(&mut self, what: &str, [library, model]: [T; 2]) -> T {
        self.calls += 1;
        assert_eq!(library, model, "{what}: library, model");
        assert!(self.lent.bytes() == self.model.bytes, "{what}: the bytes differ at {:?}", self.first_difference());
        library
    }

    fn same_number(&mut self, what: &str, numbers: [u8; 2]) -> u8 {
        self.seen[numbers[0] as usize] += 1;
        self.same(what, numbers)
    }

    /// A call that was compared elsewhere, and its answer.
    pub fn count(&mut self, number: u8) {
        self.calls += 1;
        self.seen[number as usize] += 1;
    }

    fn first_difference(&self) -> Option<usize> {
        self.lent.bytes().iter().zip(&self.model.bytes).position(|(a, b)| a != b)
    }

    pub fn blank(&mut self, rows: u32) -> u8 {
        let numbers = [self.lent.blank(rows), self.model.blank(rows)];
        self.same_number("blank", numbers)
    }

    pub fn edit_times(&mut self, row: u32, function: u8, arguments: [u64; 3], times: u16) -> u8 {
        let numbers = [self.lent.edit(row, function, arguments, times), self.model.edit(row, function, arguments, times, answers)];
        self.same_number("edit", numbers)
    }

    /// A leg that was driven once.
    pub fn edit(&mut self, row: u32, function: u8, arguments: [u64; 3]) -> u8 {
        self.edit_times(row, function, arguments, 1)
    }

    pub fn clear(&mut self, row: u32) -> u8 {
        self.edit_times(row, 0, [model::NAN; 3], 0xa5a5)
    }

    /// The edit by way of the safe face.
    pub fn safe_edit(&mut self, row: u32, function: u8, [a, b, c]: [u64; 3], times: u16) -> u8 {
        let edited = Sheet::from_bytes(self.lent.bytes_mut()).and_then(|mut sheet| {
            if function == 0 {
                return sheet.clear(row);
            }
            sheet.edit(row, function, a, b, c, times)
        });
        let numbers = [number(edited), self.model.edit(row, function, [a, b, c], times, answers)];
        self.same_number("Sheet::edit", numbers)
    }

    /// The way forth or back: its refusal, and the row that is named.
    pub fn convert(&mut self, forth: bool) -> (u8, u32) {
        let stops = [self.lent.convert(forth), self.model.convert(forth)];
        self.seen[stops[0].0 as usize] += 1;
        self.same("convert", stops)
    }

    /// The same by way of the safe face; of bytes that are no sheet it is 7 before.
    pub fn safe_convert(&mut self, forth: bool) -> (u8, Option<u32>) {
        let rows = self.model.rows();
        let converted = Sheet::from_bytes(self.lent.bytes_mut()).map(|mut sheet| if forth { sheet.forth() } else { sheet.back() });
        let library = match converted {
            Err(refusal) => (refusal.number(), None),
            Ok(Ok(())) => (0, None),
            Ok(Err(stop)) => (stop.refusal().number(), stop.row()),
        };
        let (number, row) = self.model.convert(forth);
        let model = (number, Some(row).filter(|&row| number != 7 && number != 0 && Some(row as usize) < rows));
        self.seen[number as usize] += 1;
        self.same("Sheet::forth or back", [library, model])
    }

    pub fn read_row(&mut self, row: u32) {
        let places = [self.lent.row_at(row), self.model.row_at(row)];
        self.same("row_at", places);
        let numbers = [self.lent.row_refusal(row), self.model.row_refusal(row)];
        self.same_number("row_refusal", numbers);
        let times = [self.lent.row_times(row), self.model.row_times(row)];
        self.same("row_times", times);
    }

    pub fn read_total(&mut self) -> u64 {
        let numbers = [self.lent.total_refusal(), self.model.total_refusal()];
        self.same_number("total_refusal", numbers);
        let totals = [self.lent.total(), self.model.total()];
        self.same("total", totals)
    }

    /// Everything that the safe face reads.
    pub fn safe_read(&mut self, row: u32) {
        self.calls += 1;
        let sheet = match Sheet::from_bytes(self.lent.bytes()) {
            Ok(sheet) => sheet,
            Err(refusal) => return assert_eq!(refusal.number(), self.model.total_refusal()),
        };
        assert_eq!(self.model.total_refusal(), 0);
        assert_eq!(Some(sheet.rows() as usize), self.model.rows());
        assert_eq!(sheet.keeps_times(), self.model.keeps_times());
        assert_eq!(sheet.total().to_bits(), self.model.total());
        for (k, class) in CLASSES.into_iter().enumerate() {
            assert_eq!(sheet.count(class), self.model.count(k));
        }
        let times = self.model.row_times(row);
        let row = match sheet.row(row) {
            Ok(read) => read,
            Err(refusal) => return assert_eq!(refusal.number(), self.model.row_refusal(row)),
        };
        assert_eq!(row.times(), times);
        let at = row.as_bytes().as_ptr() as usize - self.lent.bytes().as_ptr() as usize;
        let own = &self.model.bytes[at..at + 48];
        assert_eq!(row.as_bytes(), own);
        assert_eq!(row.class(), model::class(own).map(|k| CLASSES[k]));
        let refusal = row.refusal().map_or(0, Refusal::number);
        let [first, second] = row.answers();
        assert_eq!(model::new_row(row.function(), row.arguments(), (refusal, first, second), times)[8..], own[8..]);
        assert_eq!([row.function(), refusal], own[..2]);
        match row.values() {
            Ok(values) => assert_eq!((refusal, values.map(f64::to_bits)), (0, [first, second])),
            Err(stored) => assert_eq!(stored.number(), refusal),
        }
    }

    /// All that can be read of this row and of the totals, by both faces.
    pub fn read(&mut self, row: u32) -> u64 {
        self.read_row(row);
        self.safe_read(row);
        self.read_total()
    }

    /// The byte at this place becomes another: damage, or its repair.
    pub fn poke(&mut self, place: usize, byte: u8) {
        self.lent.bytes_mut()[place] = byte;
        self.model.bytes[place] = byte;
    }

    /// A row of function 1 that stands there, as it was entered before the function went out.
    pub fn stand(&mut self, row: u32, m: u64, times: u16) {
        let arguments = [m, 0, 0];
        self.model.put(row as usize, &model::new_row(model::WITHDRAWN, arguments, answers(model::WITHDRAWN, arguments), times));
        self.lent.bytes_mut().copy_from_slice(&self.model.bytes);
    }

    /// Other bytes of the same length.
    pub fn set(&mut self, bytes: &[u8]) {
        self.lent.bytes_mut().copy_from_slice(bytes);
        self.model.bytes.copy_from_slice(bytes);
    }

    /// The sheet is its rows, counted and added up afresh.
    pub fn is_worked_out(&self) {
        let rows: Vec<_> = (0..self.model.rows().expect("a sheet")).map(|i| self.model.row(i).to_vec()).collect();
        assert!(model::worked_out(&rows) == self.lent.bytes(), "the sheet is not its rows worked out afresh");
    }
}
