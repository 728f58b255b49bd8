//! twin: hexfloat
//! C's hexadecimal floats as the library writes and reads them (its own code, as Rust) against the lines of oracle/hexfloat_points.py, on standard input:
//! `oracle/hexfloat_points.py | oracle/run hexfloat_compare`. The first ten differences are written out.
use std::io::BufRead;

fn read(s: &str) -> String {
    match twin::hexfloat::read_float(s.as_bytes()) {
        twin::line::Number::Value(p) => format!("{p:016x}"),
        twin::line::Number::Not => "-".to_string(),
    }
}

fn write(p: &str) -> String {
    let mut out = [b'*'; 64];
    let n = twin::hexfloat::put_float(&mut out, 3, u64::from_str_radix(p, 16).expect("16 hex digits"), b',');
    assert!(out[..3] == *b"***" && out[n - 1] == b',' && out[n..].iter().all(|b| *b == b'*'), "{p}: bytes beside it are written");
    String::from_utf8_lossy(&out[3..n - 1]).into_owned()
}

fn main() {
    let (mut written, mut said, mut none, mut differ) = (0u64, 0u64, 0u64, 0u64);
    for line in std::io::stdin().lock().lines() {
        let line = line.expect("lines of text");
        let mut parts = line.splitn(3, ' ');
        let (kind, pattern, text) = (parts.next().unwrap(), parts.next().expect("a pattern"), parts.next().expect("a spelling"));
        let (ours, theirs) = if kind == "w" { (write(pattern), text) } else { (read(text), pattern) };
        written += (kind == "w") as u64;
        said += (kind == "r" && pattern != "-") as u64;
        none += (kind == "r" && pattern == "-") as u64;
        if ours != theirs {
            differ += 1;
            if differ <= 10 {
                println!("{line}: {ours}");
            }
        }
    }
    println!("{written} written, {said} read, {none} that do not read, {differ} differ");
    std::process::exit((differ > 0 || written == 0) as i32);
}
