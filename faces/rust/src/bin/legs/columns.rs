//! The header: which column is which, and so what a line says.
use crate::csv::Record;
use crate::input::Trouble;

#[derive(Clone, Copy, Debug, PartialEq)]
pub enum Title {
    Name,
    From,
    To,
    Phi,
    N,
    M,
    Function,
    Times,
}

pub const TITLES: [(&str, Title); 8] = [
    ("name", Title::Name),
    ("from", Title::From),
    ("to", Title::To),
    ("phi", Title::Phi),
    ("n", Title::N),
    ("m", Title::M),
    ("function", Title::Function),
    ("times", Title::Times),
];

/// What a line says, by the columns that the header has.
#[derive(Clone, Copy, Debug, PartialEq)]
pub enum Kind {
    /// from, to: the arc of WGS84's meridian between two latitudes.
    Meridian,
    /// phi, m: the arc E(φ, m).
    Arc,
    /// function, and its arguments.
    Function,
}

/// The columns of a file.
pub struct Layout {
    pub kind: Kind,
    pub titles: Vec<String>,
    places: Vec<(Title, usize)>,
}

impl Layout {
    pub fn place(&self, title: Title) -> Option<usize> {
        self.places.iter().find(|(known, _)| *known == title).map(|&(_, place)| place)
    }

    /// What is wrong in a column of this line.
    pub fn trouble(&self, line: usize, place: usize, what: String) -> Trouble {
        Trouble { line: Some(line), column: Some((place + 1, self.titles[place].escape_debug().to_string())), what }
    }
}

/// What to do where the whole header is one column that looks like several.
fn hint(header: &Record) -> &'static str {
    match &header.fields[..] {
        [only] if only.contains(&b';') => "; for columns with ; between give --separator ';'",
        [only] if only.contains(&b'\t') => "; for columns with a tab between give --separator tab",
        _ => "",
    }
}

/// The columns that are known, with their places; or which one is wrong, and what to do.
fn places(titles: &[String], ignore_unknown: bool, hint: &str) -> Result<Vec<(Title, usize)>, (usize, String)> {
    let mut places: Vec<(Title, usize)> = Vec::new();
    for (place, title) in titles.iter().enumerate() {
        match TITLES.iter().find(|(name, _)| name == title) {
            Some(&(_, known)) if places.iter().any(|&(other, _)| other == known) => {
                return Err((place, "two columns have this title; take one out".into()));
            }
            Some(&(_, known)) => places.push((known, place)),
            None if ignore_unknown => {}
            None => {
                let known = TITLES.map(|(name, _)| name).join(", ");
                let what =
                    format!("legs knows no such column ({known}); mend the title, take the column out, or give --ignore-unknown{hint}");
                return Err((place, what));
            }
        }
    }
    Ok(places)
}

/// What the lines say, by the columns that there are; or what is missing.
fn kind(places: &[(Title, usize)], hint: &str) -> Result<Kind, String> {
    let has = |title: Title| places.iter().any(|&(known, _)| known == title);
    let [from, to, phi, n, m] = [Title::From, Title::To, Title::Phi, Title::N, Title::M].map(has);
    match (has(Title::Function), from || to, phi || m || n) {
        (true, false, _) => Ok(Kind::Function),
        (false, true, false) if from && to => Ok(Kind::Meridian),
        (false, true, false) => Err(format!("the column {} is missing; a leg has from and to", if from { "to" } else { "from" })),
        (false, false, true) if n => Err("n is for ellippi; add a column function, or take n out".into()),
        (false, false, true) if phi && m => Ok(Kind::Arc),
        (false, false, true) => Err(format!("the column {} is missing; an arc has phi and m", if phi { "m" } else { "phi" })),
        (_, true, _) => Err("from, to and other arguments stand in one header; keep one kind, or make two files".into()),
        (false, false, false) => Err(format!("the first line must name the columns: from,to or phi,m or function and its arguments{hint}")),
    }
}

/// What the header says.
pub fn read(header: &Record, ignore_unknown: bool) -> Result<Layout, Trouble> {
    let titles: Vec<String> = header.fields.iter().map(|title| String::from_utf8_lossy(title).trim().to_ascii_lowercase()).collect();
    let hint = hint(header);
    let (line, places) = (Some(header.line), places(&titles, ignore_unknown, hint));
    let places = places.map_err(|(place, what)| {
        let column = Some((place + 1, titles[place].escape_debug().to_string()));
        Trouble { line, column, what }
    })?;
    let kind = kind(&places, hint).map_err(|what| Trouble { line, column: None, what })?;
    Ok(Layout { kind, titles, places })
}
