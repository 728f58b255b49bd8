//! Comma-separated values, as RFC 4180 has them: fields in quotes may hold the separator, line ends, and quotes written twice. Lines end
//! with LF or CR LF, the last one may do without, and empty lines are passed over.
use std::borrow::Cow;

/// What one record says, and the line where it starts.
pub struct Record<'a> {
    pub line: usize,
    pub fields: Vec<Cow<'a, [u8]>>,
}

/// A record that does not read: the line and the field (from 1) where it goes wrong, and why.
#[derive(Debug, PartialEq)]
pub struct Malformed {
    pub line: usize,
    pub field: usize,
    pub why: &'static str,
}

pub struct Reader<'a> {
    rest: &'a [u8],
    line: usize,
    separator: u8,
}

impl<'a> Reader<'a> {
    pub fn new(text: &'a [u8], separator: u8) -> Reader<'a> {
        Reader { rest: text, line: 1, separator }
    }

    fn plain(&mut self) -> Cow<'a, [u8]> {
        let end = self.rest.iter().position(|&byte| byte == self.separator || byte == b'\n').unwrap_or(self.rest.len());
        let (field, rest) = self.rest.split_at(end);
        self.rest = rest;
        let at_line_end = rest.first() != Some(&self.separator);
        Cow::Borrowed(if at_line_end { field.strip_suffix(b"\r").unwrap_or(field) } else { field })
    }

    /// A field that begins with a quote.
    fn quoted(&mut self, field: usize) -> Result<Cow<'a, [u8]>, Malformed> {
        let opened = self.line;
        let mut held = Vec::new();
        self.rest = &self.rest[1..];
        loop {
            let Some(end) = self.rest.iter().position(|&byte| byte == b'"') else {
                return Err(Malformed {
                    line: opened,
                    field,
                    why: "a quote is opened here and not closed; close it, or write two for a quote",
                });
            };
            held.extend_from_slice(&self.rest[..end]);
            self.line += self.rest[..end].iter().filter(|&&byte| byte == b'\n').count();
            self.rest = &self.rest[end + 1..];
            match self.rest {
                [b'"', ..] => {
                    held.push(b'"');
                    self.rest = &self.rest[1..];
                }
                [] | [b'\n', ..] | [b'\r'] | [b'\r', b'\n', ..] => break,
                [next, ..] if *next == self.separator => break,
                _ => {
                    return Err(Malformed {
                        line: self.line,
                        field,
                        why: "text follows the closing quote; write two quotes for one inside",
                    })
                }
            }
        }
        self.rest = self.rest.strip_prefix(b"\r").unwrap_or(self.rest);
        Ok(Cow::Owned(held))
    }

    fn record(&mut self) -> Result<Record<'a>, Malformed> {
        let mut record = Record { line: self.line, fields: Vec::new() };
        loop {
            let field = match self.rest.first() {
                Some(b'"') => self.quoted(record.fields.len() + 1)?,
                _ => self.plain(),
            };
            record.fields.push(field);
            match self.rest.first() {
                Some(&byte) if byte == self.separator => self.rest = &self.rest[1..],
                Some(_) => {
                    self.rest = &self.rest[1..];
                    self.line += 1;
                    return Ok(record);
                }
                None => return Ok(record),
            }
        }
    }
}

impl<'a> Iterator for Reader<'a> {
    type Item = Result<Record<'a>, Malformed>;

    fn next(&mut self) -> Option<Self::Item> {
        while !self.rest.is_empty() {
            let record = self.record();
            match &record {
                Ok(Record { fields, .. }) if fields.len() == 1 && fields[0].trim_ascii().is_empty() => continue,
                // Where a record ends that does not read is not known, so nothing after it is read.
                Err(_) => self.rest = &[],
                Ok(_) => {}
            }
            return Some(record);
        }
        None
    }
}

/// A field as it is written: in quotes where it must be.
pub fn written(field: &[u8], separator: u8) -> Cow<'_, [u8]> {
    if !field.iter().any(|&byte| byte == separator || matches!(byte, b'"' | b'\n' | b'\r')) {
        return Cow::Borrowed(field);
    }
    let mut quoted = vec![b'"'];
    for &byte in field {
        if byte == b'"' {
            quoted.push(b'"');
        }
        quoted.push(byte);
    }
    quoted.push(b'"');
    Cow::Owned(quoted)
}

#[cfg(test)]
mod tests {
    use super::*;

    fn read(text: &str) -> Vec<(usize, Vec<String>)> {
        let said = |record: Record| (record.line, record.fields.iter().map(|field| String::from_utf8(field.to_vec()).unwrap()).collect());
        Reader::new(text.as_bytes(), b',').map(|record| said(record.unwrap())).collect()
    }

    fn fails(text: &str) -> (usize, usize) {
        let why = Reader::new(text.as_bytes(), b',').find_map(|record| record.err()).expect("malformed");
        (why.line, why.field)
    }

    fn of(records: &[(usize, &[&str])]) -> Vec<(usize, Vec<String>)> {
        records.iter().map(|&(line, fields)| (line, fields.iter().map(|field| field.to_string()).collect())).collect()
    }

    #[test]
    fn lines_and_fields() {
        assert_eq!(read("a,b\n1,2\n"), of(&[(1, &["a", "b"]), (2, &["1", "2"])]));
        assert_eq!(read("a,b\r\n1,2\r\n"), of(&[(1, &["a", "b"]), (2, &["1", "2"])]));
        assert_eq!(read("a,b\n1,2"), of(&[(1, &["a", "b"]), (2, &["1", "2"])]));
        assert_eq!(read("a,b\r\n1,2\r"), of(&[(1, &["a", "b"]), (2, &["1", "2"])]));
        assert_eq!(read("\n\na\n \n\r\n,\n"), of(&[(3, &["a"]), (6, &["", ""])]));
        assert_eq!(read(""), of(&[]));
        assert_eq!(read("\n"), of(&[]));
        assert_eq!(read(",\n"), of(&[(1, &["", ""])]));
        assert_eq!(read("a,"), of(&[(1, &["a", ""])]));
    }

    #[test]
    fn quotes() {
        assert_eq!(read("\"a,b\",\"c\"\"d\"\n"), of(&[(1, &["a,b", "c\"d"])]));
        assert_eq!(read("\"two\nlines\r\n\",x\r\nnext\n"), of(&[(1, &["two\nlines\r\n", "x"]), (4, &["next"])]));
        assert_eq!(read("\"\",\"\"\"\"\r\n"), of(&[(1, &["", "\""])]));
        assert_eq!(read("\"last\""), of(&[(1, &["last"])]));
        assert_eq!(read("\"last\"\r"), of(&[(1, &["last"])]));
        // Inside a field that does not begin with one, a quote is a sign like any other.
        assert_eq!(read("12\" pipe,5\n"), of(&[(1, &["12\" pipe", "5"])]));
    }

    #[test]
    fn what_does_not_read() {
        assert_eq!(fails("a\n\"b\nc\nd"), (2, 1));
        assert_eq!(fails("a,b\nx,\"y\"z\n"), (2, 2));
        assert_eq!(fails("x,\"y\n\"z\n"), (2, 2));
        assert_eq!(fails("\""), (1, 1));
        assert_eq!(fails("\"a\"\rb"), (1, 1));
    }

    #[test]
    fn written_fields_read_back() {
        for field in ["plain", "a,b", "say \"so\"", "two\nlines", "cr\rhere", "", "\"", "ü"] {
            let line = [&written(field.as_bytes(), b',')[..], b",x\n"].concat();
            let text = String::from_utf8(line).unwrap();
            assert_eq!(read(&text)[0].1, [field, "x"]);
        }
        assert_eq!(&written(b"a,b", b';')[..], b"a,b");
        assert_eq!(&written(b"a;b", b';')[..], b"\"a;b\"");
    }
}
