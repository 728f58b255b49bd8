//! From a file's bytes to legs: what the columns are, and what each line says.
use crate::columns::{self, Kind, Layout, Title, TITLES};
use crate::csv::{Malformed, Reader, Record};
use shuttlemint::Integral;
use std::borrow::Cow;
use std::f64::consts::FRAC_PI_2;
use std::fmt;

/// WGS84's half axes in metres, and the parameter -e'² = 1 - (a/b)² of its meridian.
pub const A: f64 = 6378137.0;
pub const B: f64 = 6356752.314245179;
pub const M: f64 = -0.006739496742276434;

/// A leg: where it was read, the one or two rows whose answers add up to it, and how often it was driven.
#[derive(Debug)]
pub struct Leg<'a> {
    pub file: usize,
    pub line: usize,
    pub name: Option<Cow<'a, [u8]>>,
    pub rows: (Integral, Option<Integral>),
    pub times: u16,
}

/// Why a file does not read, and what to do.
#[derive(Debug, PartialEq)]
pub struct Trouble {
    pub line: Option<usize>,
    /// The column's number, from 1, and its title.
    pub column: Option<(usize, String)>,
    pub what: String,
}

impl fmt::Display for Trouble {
    fn fmt(&self, f: &mut fmt::Formatter) -> fmt::Result {
        if let Some(line) = self.line {
            write!(f, "line {line}")?;
            if let Some((number, title)) = &self.column {
                write!(f, ", column {number}")?;
                if !title.is_empty() {
                    write!(f, " ({title})")?;
                }
            }
            write!(f, ": ")?;
        }
        write!(f, "{}", self.what)
    }
}

/// A cell as an error shows it: short, and without signs that a terminal would obey.
fn shown(cell: &[u8]) -> String {
    let text = String::from_utf8_lossy(cell);
    let short: String = text.chars().take(40).collect();
    let dots = if short.len() < text.len() { "..." } else { "" };
    format!("\"{}{dots}\"", short.escape_debug())
}

const FUNCTIONS: &str = "ellipe, ellipke, ellippi, ellipeinc or ellipf";

impl Layout {
    /// The number in the column of this title.
    fn number(&self, record: &Record, title: Title, example: &str) -> Result<f64, Trouble> {
        let Some(place) = self.place(title) else {
            let (wanted, _) = TITLES.iter().find(|(_, known)| *known == title).expect("every title has a name");
            let what = format!("{wanted} is needed here, and the header has no such column; add it");
            return Err(Trouble { line: Some(record.line), column: None, what });
        };
        let cell = record.fields[place].trim_ascii();
        if cell.is_empty() {
            return Err(self.trouble(record.line, place, format!("nothing is written here; write a number such as {example}")));
        }
        let read = std::str::from_utf8(cell).ok().and_then(|text| text.parse().ok());
        read.ok_or_else(|| self.trouble(record.line, place, format!("{} is no decimal number; write one such as {example}", shown(cell))))
    }

    fn latitude(&self, record: &Record, title: Title) -> Result<f64, Trouble> {
        let latitude = self.number(record, title, "-34.36, in degrees, south below zero")?;
        if !(-90.0..=90.0).contains(&latitude) {
            let place = self.place(title).expect("it was read");
            let what = format!("{latitude:?} is no latitude; it lies between -90 and 90 degrees");
            return Err(self.trouble(record.line, place, what));
        }
        Ok(latitude)
    }

    fn by_function(&self, record: &Record) -> Result<Integral, Trouble> {
        let place = self.place(Title::Function).expect("the kind has it");
        let number = |title| self.number(record, title, "0.5");
        let name = record.fields[place].trim_ascii().to_ascii_lowercase();
        let (integral, read): (_, &[Title]) = match &name[..] {
            b"ellipk" => {
                let what = "ellipk goes out, and no sheet takes a new row of it; write ellipke, whose first answer is K(m) too";
                return Err(self.trouble(record.line, place, what.into()));
            }
            b"ellipe" => (Integral::ellipe(number(Title::M)?), &[Title::M]),
            b"ellipke" => (Integral::ellipke(number(Title::M)?), &[Title::M]),
            b"ellippi" => (Integral::ellippi(number(Title::N)?, number(Title::M)?), &[Title::N, Title::M]),
            b"ellipeinc" => (Integral::ellipeinc(number(Title::Phi)?, number(Title::M)?), &[Title::Phi, Title::M]),
            b"ellipf" => (Integral::ellipf(number(Title::Phi)?, number(Title::M)?), &[Title::Phi, Title::M]),
            _ => return Err(self.trouble(record.line, place, format!("{} is no function; write {FUNCTIONS}", shown(&name)))),
        };
        for title in [Title::Phi, Title::N, Title::M] {
            if let Some(place) = self.place(title).filter(|_| !read.contains(&title)) {
                if !record.fields[place].trim_ascii().is_empty() {
                    let what = format!("{} does not read this; leave it empty, or name another function", String::from_utf8_lossy(&name));
                    return Err(self.trouble(record.line, place, what));
                }
            }
        }
        Ok(integral)
    }

    fn rows(&self, record: &Record) -> Result<(Integral, Option<Integral>), Trouble> {
        match self.kind {
            Kind::Meridian => Ok(meridian(self.latitude(record, Title::From)?, self.latitude(record, Title::To)?)),
            Kind::Arc => {
                let (phi, m) = (self.number(record, Title::Phi, "1.25")?, self.number(record, Title::M, "0.5")?);
                Ok((Integral::ellipeinc(phi, m), None))
            }
            Kind::Function => Ok((self.by_function(record)?, None)),
        }
    }

    /// How often the leg was driven: once where no column tells.
    fn times(&self, record: &Record) -> Result<u16, Trouble> {
        let Some(place) = self.place(Title::Times) else { return Ok(1) };
        let cell = record.fields[place].trim_ascii();
        if cell.is_empty() {
            return Err(self.trouble(record.line, place, "nothing is written here; write how often the leg was driven, such as 1".into()));
        }
        let read = std::str::from_utf8(cell).ok().and_then(|text| text.parse().ok());
        read.ok_or_else(|| {
            let what = "is no number of times; write a whole one from 0 to 65535, and what is beyond that in another line";
            self.trouble(record.line, place, format!("{} {what}", shown(cell)))
        })
    }

    fn leg<'a>(&self, file: usize, record: Record<'a>) -> Result<Leg<'a>, Trouble> {
        if record.fields.len() != self.titles.len() {
            let what = format!("this line has {} fields and the header {}; make them as many", record.fields.len(), self.titles.len());
            return Err(Trouble { line: Some(record.line), column: None, what });
        }
        let rows = self.rows(&record)?;
        let times = self.times(&record)?;
        let name = self.place(Title::Name).map(|place| record.fields[place].clone());
        Ok(Leg { file, line: record.line, name, rows, times })
    }
}

/// The parametric latitude β, tan β = (b/a)·tan φ, of a geodetic latitude in degrees.
fn parametric(latitude: f64) -> f64 {
    if latitude.abs() == 90.0 {
        return FRAC_PI_2.copysign(latitude);
    }
    (B / A * latitude.to_radians().tan()).atan()
}

/// The arc between two latitudes, in units of b: from the equator to the northern one, and back from the southern one. It is as long both ways.
fn meridian(from: f64, to: f64) -> (Integral, Option<Integral>) {
    let (south, north) = if from <= to { (from, to) } else { (to, from) };
    (Integral::ellipeinc(parametric(north), M), Some(Integral::ellipeinc(-parametric(south), M)))
}

/// How a file is to be read.
#[derive(Clone, Copy)]
pub struct Manner {
    pub separator: u8,
    pub ignore_unknown: bool,
}

/// The file's kind and legs, or all that does not read in it.
pub fn read(file: usize, text: &[u8], manner: Manner) -> Result<(Kind, Vec<Leg<'_>>), Vec<Trouble>> {
    let whole = |what: &str| vec![Trouble { line: None, column: None, what: what.into() }];
    if text.starts_with(b"\xff\xfe") || text.starts_with(b"\xfe\xff") {
        return Err(whole("this is UTF-16; save it as CSV in UTF-8"));
    }
    let text = text.strip_prefix(b"\xef\xbb\xbf").unwrap_or(text);
    let mut records = Reader::new(text, manner.separator);
    let malformed = |why: Malformed| Trouble { line: Some(why.line), column: Some((why.field, String::new())), what: why.why.into() };
    let header = match records.next() {
        None => return Err(whole("this is empty; the first line must name the columns, as in name,from,to")),
        Some(Err(why)) => return Err(vec![malformed(why)]),
        Some(Ok(header)) => header,
    };
    let layout = columns::read(&header, manner.ignore_unknown).map_err(|trouble| vec![trouble])?;
    let (mut legs, mut troubles) = (Vec::new(), Vec::new());
    for record in records {
        match record.map_err(malformed).and_then(|record| layout.leg(file, record)) {
            Ok(leg) => legs.push(leg),
            Err(trouble) => troubles.push(trouble),
        }
    }
    if troubles.is_empty() {
        Ok((layout.kind, legs))
    } else {
        Err(troubles)
    }
}

#[cfg(test)]
mod tests {
    use super::*;

    const COMMA: Manner = Manner { separator: b',', ignore_unknown: false };

    fn legs(text: &str) -> Vec<(usize, Integral, Option<Integral>)> {
        let (_, legs) = read(0, text.as_bytes(), COMMA).unwrap();
        legs.into_iter().map(|leg| (leg.line, leg.rows.0, leg.rows.1)).collect()
    }

    fn says(text: &[u8], manner: Manner) -> Vec<String> {
        read(0, text, manner).unwrap_err().iter().map(Trouble::to_string).collect()
    }

    /// What is said of this text, which must begin and go on so.
    fn fails(text: &str, begins: &str, goes_on: &str) {
        let said = says(text.as_bytes(), COMMA);
        assert!(said[0].starts_with(begins) && said[0].contains(goes_on), "{said:?}");
    }

    #[test]
    fn three_kinds() {
        let equator_to_pole = Integral::ellipeinc(FRAC_PI_2, M);
        let back = Some(Integral::ellipeinc(-0.0, M));
        assert_eq!(legs("name,from,to\nall,0,90\n"), [(2, equator_to_pole, back)]);
        assert_eq!(legs("to,from\n0,90\n"), [(2, equator_to_pole, back)]);
        assert_eq!(legs("phi,m\n1.5,0.25\n-1e-3,-inf\n").len(), 2);
        assert_eq!(legs("m,phi\n0.25,1.5\n"), [(2, Integral::ellipeinc(1.5, 0.25), None)]);
        let text = "name,function,phi,n,m\na,ellipke,,,0.5\nb,ellippi,,0.25,0.5\nc,EllipF,0.75,,0.5\nd,ellipeinc,0.75,,nan\n";
        let integrals: Vec<_> = legs(text).into_iter().map(|leg| leg.1).collect();
        assert_eq!(integrals[..3], [Integral::ellipke(0.5), Integral::ellippi(0.25, 0.5), Integral::ellipf(0.75, 0.5)]);
        assert!(f64::from_bits(integrals[3].arguments()[1]).is_nan());
        assert_eq!(legs("function,m\nellipe,0.5\nellipke,1\n").len(), 2);
    }

    #[test]
    fn spellings_that_are_taken() {
        let plain = legs("name,from,to\nx,-3.08,0.04\n");
        for text in [
            "\u{feff}name,from,to\r\nx,-3.08,0.04\r\n",
            "Name , FROM,to\nx, -3.08 ,4e-2",
            "name,\"from\",\"to\"\n\"x\",\"-3.08\",\"+.04\"\n",
            "\nname,from,to\n\nx,-3.08,0.04\n\n",
        ] {
            assert_eq!(legs(text)[0].1, plain[0].1, "{text}");
            assert_eq!(legs(text)[0].2, plain[0].2, "{text}");
        }
        let semicolon = Manner { separator: b';', ..COMMA };
        assert_eq!(read(0, b"from;to\n1;2\n", semicolon).unwrap().1.len(), 1);
        let (_, named) = read(0, "name,from,to\n\"Donau, Mündung\",1,2\n".as_bytes(), COMMA).unwrap();
        assert_eq!(named[0].name.as_deref(), Some("Donau, Mündung".as_bytes()));
        // Names are bytes of any kind.
        assert_eq!(read(0, b"name,from,to\nD\xfcnkirchen,1,2\n", COMMA).unwrap().1.len(), 1);
        let ignoring = Manner { ignore_unknown: true, ..COMMA };
        assert_eq!(read(0, b"van,from,to,driver\n7,1,2,x\n", ignoring).unwrap().1.len(), 1);
        assert_eq!(legs("from,to\n"), []);
    }

    #[test]
    fn decimal_numbers_are_rust_s() {
        let first = |text: &str| f64::from_bits(legs(&format!("phi,m\n{text},0\n"))[0].1.arguments()[0]);
        assert_eq!(first("0.1"), 0.1);
        assert_eq!(first("9007199254740993"), 9007199254740992.0);
        assert_eq!(first("9007199254740993.00000000000000000000000000000001"), 9007199254740994.0);
        assert_eq!(first("4.9e-324"), f64::from_bits(1));
        assert_eq!(first("-inf"), f64::NEG_INFINITY);
        assert_eq!(first("1e400"), f64::INFINITY);
    }

    #[test]
    fn headers_that_do_not_read() {
        fails("", "this is empty", "name,from,to");
        fails("\n\n", "this is empty", "");
        fails("\u{feff}", "this is empty", "");
        fails("a leg,1,2\n", "line 1, column 1 (a leg)", "legs knows no such column");
        fails("from,to,driver\n", "line 1, column 3 (driver)", "--ignore-unknown");
        fails("from,to,from\n", "line 1, column 3 (from)", "take one out");
        fails("name,from\n", "line 1: the column to is missing", "");
        fails("to\n", "line 1: the column from is missing", "");
        fails("phi\n", "line 1: the column m is missing", "");
        fails("m,name\n", "line 1: the column phi is missing", "");
        fails("n,m\n", "line 1: n is for ellippi", "add a column function");
        fails("from,to,phi,m\n", "line 1: from, to and other arguments", "two files");
        fails("function,from,to\n", "line 1: from, to and other arguments", "");
        fails("name\n", "line 1: the first line must name the columns", "");
        fails("from;to\n", "line 1, column 1 (from;to)", "--separator ';'");
        fails("from\tto\n", "line 1, column 1 (from\\tto)", "--separator tab");
        fails("\"from\n", "line 1, column 1:", "not closed");
        let ignoring = Manner { ignore_unknown: true, ..COMMA };
        assert!(says(b"from;to\n1;2\n", ignoring)[0].contains("--separator ';'"));
        assert!(says(b"from\tto\n1\t2\n", ignoring)[0].contains("--separator tab"));
        assert!(says(b"\xff\xfef\0", COMMA)[0].contains("UTF-16"));
    }

    #[test]
    fn lines_that_do_not_read() {
        let header = "name,from,to\nx,1,2\n";
        let fails = |line: &str, begins: &str, goes_on: &str| fails(&format!("{header}{line}\n"), begins, goes_on);
        fails("y,1,91", "line 3, column 3 (to): 91.0 is no latitude", "between -90 and 90");
        fails("y,-90.00000000000001,1", "line 3, column 2 (from): -90.00000000000001 is no latitude", "");
        fails("y,nan,1", "line 3, column 2 (from): NaN is no latitude", "");
        fails("y,inf,1", "line 3, column 2 (from): inf is no latitude", "");
        fails("y,45.3x,1", "line 3, column 2 (from): \"45.3x\" is no decimal number", "such as -34.36");
        fails("y,\"45,3\",1", "line 3, column 2 (from): \"45,3\" is no decimal number", "");
        fails("y,,1", "line 3, column 2 (from): nothing is written here", "");
        fails("y,1,\u{1b}[31m", "line 3, column 3 (to): \"\\u{1b}[31m\"", "");
        fails("y,1", "line 3: this line has 2 fields and the header 3", "");
        fails("y,1,2,3", "line 3: this line has 4 fields and the header 3", "");
        fails(",,", "line 3, column 2 (from)", "");
        fails("\"y,1,2", "line 3, column 1: a quote is opened here and not closed", "");
        fails("\"y\"z,1,2", "line 3, column 1: text follows the closing quote", "");
    }

    #[test]
    fn times() {
        let times = |text: &str| read(0, text.as_bytes(), COMMA).unwrap().1.iter().map(|leg| leg.times).collect::<Vec<_>>();
        assert_eq!(times("from,to\n1,2\n3,4\n"), [1, 1]);
        assert_eq!(times("Times,from,to\n3,1,2\n 0 ,3,4\n65535,5,6\n\"7\",5,6\n"), [3, 0, 65535, 7]);
        assert_eq!(times("phi,m,times\n1,2,3\n"), [3]);
        assert_eq!(times("function,m,times\nellipke,0.5,4\n"), [4]);
        for cell in ["65536", "-1", "1.0", "1e3", "x", "2 3", "18446744073709551617"] {
            let begins = format!("line 2, column 3 (times): \"{cell}\" is no number of times");
            fails(&format!("from,to,times\n1,2,{cell}\n"), &begins, "from 0 to 65535");
        }
        fails("from,to,times\n1,2,\n", "line 2, column 3 (times): nothing is written here", "such as 1");
        fails("times\n3\n", "line 1: the first line must name the columns", "");
    }

    #[test]
    fn functions_that_do_not_read() {
        let fails = |line: &str, begins: &str, goes_on: &str| fails(&format!("function,phi,m\n{line}\n"), begins, goes_on);
        fails("ellipx,1,0.5", "line 2, column 1 (function): \"ellipx\" is no function", "ellipeinc");
        fails(",1,0.5", "line 2, column 1 (function): \"\" is no function", "");
        fails("ellipke,1,0.5", "line 2, column 2 (phi): ellipke does not read this", "leave it empty");
        fails("ellipke,,", "line 2, column 3 (m): nothing is written here", "");
        for line in ["ellipk,,0.5", "EllipK,1,", "ellipk,,x"] {
            fails(line, "line 2, column 1 (function): ellipk goes out", "write ellipke");
        }
        fails("ellippi,,0.5", "line 2: n is needed here", "add it");
    }

    #[test]
    fn all_troubles_are_told() {
        assert_eq!(says(b"from,to\n1,x\n1,2\ny,2\n1\n", COMMA).len(), 3);
        // After a quote that is not closed nothing more can be told.
        assert_eq!(says(b"from,to\n1,x\n\"1,2\ny,2\n", COMMA).len(), 2);
    }

    /// Any text is read or told about, and no line is lost: each that is not blank is a leg or a trouble.
    #[test]
    fn any_text() {
        let mut random = 1u64;
        let mut next = |below: usize| {
            random = random.wrapping_mul(6364136223846793005).wrapping_add(1442695040888963407);
            (random >> 33) as usize % below
        };
        let signs = [",", "\n", "\r\n", "\"", "1", "-90", "x", ";", "from", "name", "\u{feff}", "é", " "];
        let lines =
            ["1,2\n", "0.5,-90\r\n", "a,1,2\n", "ellipke,0.5\n", "ellipk,0.5\n", "\"1\",2\n", "\"two\nlines\",1,2\r\n", "\n", "1,2,3\n"];
        let heads = ["from,to\n", "name,from,to\r\n", "phi,m\n", "function,m\n", ""];
        let (mut taken, mut told) = (0, 0);
        for _ in 0..20_000 {
            let tail: String =
                (0..next(5)).map(|_| if next(4) > 0 { lines[next(lines.len())] } else { signs[next(signs.len())] }).collect();
            let text = heads[next(heads.len())].to_string() + &tail;
            let said = read(0, text.as_bytes(), Manner { ignore_unknown: next(2) == 0, ..COMMA });
            let lines = text.trim_start_matches('\u{feff}').lines().filter(|line| !line.trim_ascii().is_empty()).count();
            match said {
                Ok((_, legs)) => {
                    // In quotes a line end does not count.
                    assert!(legs.len() + 1 == lines || text.contains('"'), "{text:?}");
                    taken += legs.len();
                }
                Err(troubles) => {
                    assert!(!troubles.is_empty() && troubles.len() <= lines.max(1), "{text:?}");
                    told += 1;
                }
            }
        }
        assert!(taken > 100 && told > 1000, "{taken} legs, {told} texts that do not read");
    }

    #[test]
    fn parametric_latitudes() {
        assert_eq!(parametric(90.0), FRAC_PI_2);
        assert_eq!(parametric(-90.0), -FRAC_PI_2);
        assert_eq!(parametric(0.0), 0.0);
        for k in -9000..=9000 {
            let latitude = k as f64 / 100.0;
            let beta = parametric(latitude);
            assert_eq!(beta, -parametric(-latitude));
            // The reduced latitude is nearer to the equator, by at most 0.0017 radians.
            let nearer = latitude.to_radians().abs() - beta.abs();
            assert!((-1e-15..0.0017).contains(&nearer), "{latitude}");
        }
    }
}
