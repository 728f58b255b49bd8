//! The command line.
use crate::input::Manner;
use std::path::PathBuf;

const HELP: &str = "\
usage: legs [OPTION].. [FILE]..

Reads legs from CSV files, or from standard input where no FILE or - is given,
and prints each leg's length in metres and their exact total, rounded once.

The first line names the columns, in any order:
  name             what the leg is called; may be left out
  from,to          a meridian arc on WGS84 between two latitudes in decimal
                   degrees, south below zero; it is as long both ways
  phi,m            the arc E(phi, m), phi in radians, times the half axis
  function         ellipe, ellipke, ellippi, ellipeinc or ellipf, with its
                   arguments in the columns phi, n, m; its first answer, times
                   the half axis
  times            how often the leg was driven, 0 to 65535; once, where there
                   is no such column

Options:
  --csv            print CSV, with numbers that read back to the same bits
  --sheet FILE     write the leg sheet to FILE too; where more than 1,024 rows
                   are needed, the sheets to FILE.1, FILE.2 and so on
  --axis METRES    the half axis for phi,m and function; WGS84's polar one,
                   6356752.314245179, where none is given
  --separator C    what stands between columns: a sign, or the word tab
  --ignore-unknown pass over columns with other titles
  -h, --help       print this
  -V, --version    print the version

A refused leg is shown with its reason and stays in the sheet; none is dropped.
Exit status: 0 every leg has a length; 1 some have none (refused or infinite);
2 something does not read or can't be written, and then nothing is printed.

The integrals, the sheets, their counts and totals are the proved library's.
Outside its proof, and tested: decimal numbers (Rust's own reading, correctly
rounded), the parametric latitude (by the C library's tangent and arc tangent),
the sum over several sheets, and the product with the half axis.
";

pub struct Options {
    pub files: Vec<String>,
    pub csv: bool,
    pub sheet: Option<PathBuf>,
    pub axis: Option<f64>,
    pub manner: Manner,
}

pub enum Asked {
    Run(Options),
    Print(String),
}

/// A word as an option with the value that stands behind = or in the next word, if it takes one.
fn option(word: &str, words: &mut impl Iterator<Item = String>) -> Result<(String, String), String> {
    let (option, given) = match word.split_once('=') {
        Some((option, given)) if word.starts_with("--") => (option, Some(given.to_string())),
        _ => (word, None),
    };
    let takes = matches!(option, "--sheet" | "--axis" | "--separator");
    let given = match given {
        Some(_) if !takes => return Err(format!("{option} takes no value")),
        None if takes => words.next().ok_or(format!("{option} needs a value behind it"))?,
        given => given.unwrap_or_default(),
    };
    Ok((option.to_string(), given))
}

fn axis(given: &str) -> Result<f64, String> {
    match given.parse() {
        Ok(axis) if axis > 0.0 && f64::is_finite(axis) => Ok(axis),
        _ => Err(format!("--axis {given}: write metres above 0, such as 6356752.314245179")),
    }
}

/// One sign that is no part of a number or a quote.
fn separator(given: &str) -> Result<u8, String> {
    match given.as_bytes() {
        b"tab" | b"\t" => Ok(b'\t'),
        &[sign] if sign.is_ascii_punctuation() && !matches!(sign, b'"' | b'.' | b'+' | b'-') => Ok(sign),
        _ => Err(format!("--separator {given}: write one sign such as ; or the word tab")),
    }
}

/// What the command line asks for, or what is wrong with it.
pub fn read(mut words: impl Iterator<Item = String>) -> Result<Asked, String> {
    let manner = Manner { separator: b',', ignore_unknown: false };
    let mut asked = Options { files: vec![], csv: false, sheet: None, axis: None, manner };
    while let Some(word) = words.next() {
        if word == "-" || !word.starts_with('-') {
            asked.files.push(word);
            continue;
        }
        let (option, given) = option(&word, &mut words)?;
        match option.as_str() {
            "--help" | "-h" => return Ok(Asked::Print(HELP.into())),
            "--version" | "-V" => return Ok(Asked::Print(format!("legs {}\n", env!("CARGO_PKG_VERSION")))),
            "--csv" => asked.csv = true,
            "--ignore-unknown" => asked.manner.ignore_unknown = true,
            "--sheet" if given.is_empty() => return Err("--sheet needs a file's name".into()),
            "--sheet" => asked.sheet = Some(given.into()),
            "--axis" => asked.axis = Some(axis(&given)?),
            "--separator" => asked.manner.separator = separator(&given)?,
            "--" => asked.files.extend(words.by_ref()),
            other => return Err(format!("there is no option {other}")),
        }
    }
    Ok(Asked::Run(asked))
}
