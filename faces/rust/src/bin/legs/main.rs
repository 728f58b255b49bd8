//! legs: from files of legs to metres, over the proved library. docs/LEGS.md says what it reads and prints.
mod columns;
mod command;
mod csv;
mod exact;
mod files;
mod input;
mod progress;
mod report;
mod work;

use columns::Kind;
use command::{Asked, Options};
use input::Leg;
use report::Report;
use std::io::{self, BufWriter, IsTerminal, Read, Write};
use std::process::ExitCode;
use std::time::Instant;
use work::{Length, Sums};

/// Errors that are shown at once.
const SHOWN: usize = 20;

/// How an error names a file.
fn said(file: &str) -> &str {
    if file == "-" {
        "standard input"
    } else {
        file
    }
}

fn text_of(file: &str) -> Result<Vec<u8>, String> {
    let mut text = Vec::new();
    let read = if file == "-" { io::stdin().lock().read_to_end(&mut text).map(|_| text) } else { std::fs::read(file) };
    read.map_err(|error| format!("cannot read {}: {error}", said(file)))
}

/// All legs of all files, or all that does not read.
fn read_legs<'a>(options: &Options, texts: &'a [Vec<u8>]) -> Result<Vec<Leg<'a>>, String> {
    let (mut legs, mut troubles) = (Vec::new(), Vec::new());
    for (k, (file, text)) in options.files.iter().zip(texts).enumerate() {
        match input::read(k, text, options.manner) {
            Ok((Kind::Meridian, _)) if options.axis.is_some() => {
                troubles.push(format!("{}: from and to are latitudes on WGS84, whose half axis is known; leave --axis out", said(file)))
            }
            Ok((_, more)) => legs.extend(more),
            Err(found) => troubles.extend(found.iter().map(|trouble| format!("{}: {trouble}", said(file)))),
        }
    }
    if troubles.is_empty() {
        return Ok(legs);
    }
    let more = troubles.len().saturating_sub(SHOWN);
    troubles.truncate(SHOWN);
    if more > 0 {
        troubles.push(format!("and {more} more of this kind"));
    }
    Err(troubles.join("\nlegs: "))
}

/// Works the legs out, shows how far it is, and writes the sheets where they are asked for.
fn work_out(options: &Options, legs: &[Leg], started: Instant) -> Result<(Vec<Length>, Sums), String> {
    let on_a_terminal = io::stderr().is_terminal();
    let mut progress = progress::Progress::new(io::stderr(), legs.len(), started);
    let mut sheets = Vec::new();
    let keep = |sheet: shuttlemint::Sheet| {
        if options.sheet.is_some() {
            sheets.push(sheet.into_bytes());
        }
    };
    let done = |done| {
        if on_a_terminal {
            progress.tell(done, Instant::now());
        }
    };
    let worked = work::work(legs, options.axis.unwrap_or(input::B), keep, done);
    progress.end();
    let worked = worked.map_err(|refusal| format!("a sheet of its own was refused, which should never be: {refusal}"))?;
    if let Some(name) = &options.sheet {
        files::write_sheets(name, sheets, &options.files)?;
    }
    Ok(worked)
}

fn run(mut options: Options) -> Result<ExitCode, String> {
    let started = Instant::now();
    if options.files.is_empty() {
        if io::stdin().is_terminal() {
            return Err("no file is given and standard input is a terminal; try 'legs --help'".into());
        }
        options.files.push("-".into());
    }
    let texts = options.files.iter().map(|file| text_of(file)).collect::<Result<Vec<_>, _>>()?;
    let legs = read_legs(&options, &texts)?;
    let (lengths, sums) = work_out(&options, &legs, started)?;

    let report = Report { files: &options.files, legs: &legs, lengths: &lengths, sums: &sums };
    let mut out = BufWriter::new(io::stdout().lock());
    let printed = if options.csv { report.csv(&mut out, options.manner.separator) } else { report.table(&mut out) };
    match printed.and_then(|()| out.flush()) {
        Ok(()) => {}
        // Whoever read it has seen enough.
        Err(error) if error.kind() == io::ErrorKind::BrokenPipe => return Ok(ExitCode::from(2)),
        Err(error) => return Err(format!("cannot write standard output: {error}")),
    }
    let all = lengths.iter().all(|length| matches!(length, Length::Finite(_)));
    Ok(ExitCode::from(if all { 0 } else { 1 }))
}

fn asked() -> Result<ExitCode, String> {
    let words = std::env::args_os().skip(1).map(|word| word.into_string()).collect::<Result<Vec<String>, _>>();
    let words = words
        .map_err(|word| format!("{}: a name that is no UTF-8; rename the file, or send it to standard input", word.to_string_lossy()))?;
    match command::read(words.into_iter()).map_err(|wrong| format!("{wrong}; try 'legs --help'"))? {
        Asked::Run(options) => run(options),
        Asked::Print(text) => {
            io::stdout().write_all(text.as_bytes()).map_err(|error| format!("cannot write standard output: {error}"))?;
            Ok(ExitCode::SUCCESS)
        }
    }
}

fn main() -> ExitCode {
    asked().unwrap_or_else(|why| {
        eprintln!("legs: {why}");
        ExitCode::from(2)
    })
}
