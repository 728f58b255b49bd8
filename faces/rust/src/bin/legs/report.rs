//! What is printed: a table to read, or CSV to read in again.
use crate::csv::written;
use crate::input::Leg;
use crate::work::{Length, Sums};
use std::io::{self, Write};

const CLASSES: [&str; 5] = ["blank", "finite", "+inf", "-inf", "refused"];
const NOT_IN_THE_TOTAL: &str = "the answer is infinite, and in no total";

pub struct Report<'a> {
    pub files: &'a [String],
    pub legs: &'a [Leg<'a>],
    pub lengths: &'a [Length],
    pub sums: &'a Sums,
}

/// Metres for the eye: millimetres where that shows something, else all digits.
fn metres(length: f64) -> String {
    match length.abs() {
        0.0 | 1e-3..1e15 => format!("{length:.3}"),
        _ => format!("{length:?}"),
    }
}

/// A name without line ends, and without signs that a terminal would obey.
fn tame(name: &[u8]) -> String {
    String::from_utf8_lossy(name).chars().map(|c| if c.is_control() { '?' } else { c }).collect()
}

impl Report<'_> {
    fn each(&self) -> impl Iterator<Item = (&Leg<'_>, &Length)> {
        self.legs.iter().zip(self.lengths)
    }

    /// What the leg is called, and how often it was driven unless once.
    fn name(&self, leg: &Leg) -> String {
        let name = match &leg.name {
            Some(name) => tame(name),
            None if self.files.len() == 1 => format!("line {}", leg.line),
            None => format!("{}, line {}", self.files[leg.file], leg.line),
        };
        match leg.times {
            1 => name,
            times => format!("{name}, driven {times} times"),
        }
    }

    pub fn table(&self, to: &mut impl Write) -> io::Result<()> {
        for (leg, length) in self.each() {
            let name = self.name(leg);
            match length {
                Length::Finite(length) => writeln!(to, "{:>15} m  {name}", metres(*length))?,
                Length::Infinite { below } => writeln!(to, "{:>15} m  {name}: {NOT_IN_THE_TOTAL}", if *below { "-inf" } else { "inf" })?,
                Length::Refused(refusal) => writeln!(to, "{:>15}    {name}: {refusal}", "refused")?,
            }
        }
        let Sums { counts, total, sheets } = self.sums;
        let counted: Vec<String> = counts.iter().zip(CLASSES).map(|(count, class)| format!("{count} {class}")).collect();
        writeln!(to, "{:>15} m  in all, exactly added and rounded once: {total:?}", metres(*total))?;
        let without = self.lengths.iter().filter(|length| !matches!(length, Length::Finite(_))).count();
        writeln!(to, "legs: {}, of which {without} without a length", self.legs.len())?;
        writeln!(to, "rows: {}, in {sheets} sheet{}", counted.join(", "), if *sheets == 1 { "" } else { "s" })
    }

    /// Each line has all columns; `what` tells legs, counts and the total apart. Numbers read back to the same bits.
    pub fn csv(&self, to: &mut impl Write, separator: u8) -> io::Result<()> {
        let mut line = |fields: [&[u8]; 9]| {
            for (k, field) in fields.into_iter().enumerate() {
                if k > 0 {
                    to.write_all(&[separator])?;
                }
                to.write_all(&written(field, separator))?;
            }
            to.write_all(b"\n")
        };
        line(["what", "file", "line", "name", "metres", "count", "refusal", "why", "times"].map(str::as_bytes))?;
        for (leg, length) in self.each() {
            let (metres, refusal, why) = match length {
                Length::Finite(length) => (format!("{length:?}"), String::new(), ""),
                Length::Infinite { below } => (if *below { "-inf" } else { "inf" }.into(), String::new(), NOT_IN_THE_TOTAL),
                Length::Refused(refusal) => (String::new(), refusal.number().to_string(), refusal.message()),
            };
            let (file, number, times) = (self.files[leg.file].as_bytes(), leg.line.to_string(), leg.times.to_string());
            let name = leg.name.as_deref().unwrap_or_default();
            line([b"leg", file, number.as_bytes(), name, metres.as_bytes(), b"", refusal.as_bytes(), why.as_bytes(), times.as_bytes()])?;
        }
        for (count, class) in self.sums.counts.iter().zip(CLASSES) {
            line([b"count", b"", b"", class.as_bytes(), b"", count.to_string().as_bytes(), b"", b"", b""])?;
        }
        line([b"total", b"", b"", b"", format!("{:?}", self.sums.total).as_bytes(), b"", b"", b"", b""])
    }
}

#[cfg(test)]
mod tests {
    use super::*;

    #[test]
    fn metres_for_the_eye() {
        let shown = [0.0, -0.0, 0.001, 1234.5678, -2.0, 0.0009, 1e15, f64::MAX].map(metres);
        assert_eq!(shown, ["0.000", "-0.000", "0.001", "1234.568", "-2.000", "0.0009", "1000000000000000.0", "1.7976931348623157e308"]);
        assert_eq!(tame("Donau\nMündung\x1b[31m".as_bytes()), "Donau?Mündung?[31m");
    }
}
