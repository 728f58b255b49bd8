//! Running the program in a folder of its own.
use std::io::Write;
use std::path::{Path, PathBuf};
use std::process::{Command, Stdio};
use std::sync::atomic::{AtomicUsize, Ordering};

pub const EXAMPLES: &str = concat!(env!("CARGO_MANIFEST_DIR"), "/../../examples");

/// What a run left behind.
#[derive(Debug, PartialEq)]
pub struct Ran {
    pub status: i32,
    pub out: String,
    pub err: String,
}

/// A folder of this test's own, empty at first and gone at the end.
pub struct Folder(pub PathBuf);

impl Folder {
    pub fn new() -> Folder {
        static NEXT: AtomicUsize = AtomicUsize::new(0);
        let at = std::env::temp_dir().join(format!("legs-test-{}-{}", std::process::id(), NEXT.fetch_add(1, Ordering::Relaxed)));
        let _ = std::fs::remove_dir_all(&at);
        std::fs::create_dir(&at).unwrap();
        Folder(at)
    }

    pub fn with(self, name: &str, text: impl AsRef<[u8]>) -> Folder {
        std::fs::write(self.0.join(name), text).unwrap();
        self
    }

    pub fn path(&self, name: &str) -> PathBuf {
        self.0.join(name)
    }

    pub fn names(&self) -> Vec<String> {
        let mut names: Vec<_> =
            std::fs::read_dir(&self.0).unwrap().map(|entry| entry.unwrap().file_name().into_string().unwrap()).collect();
        names.sort();
        names
    }

    /// Runs legs here with these words and this on standard input.
    pub fn legs_on(&self, words: &[&str], input: &[u8]) -> Ran {
        legs_in(&self.0, words, input)
    }

    pub fn legs(&self, words: &[&str]) -> Ran {
        self.legs_on(words, b"")
    }
}

impl Drop for Folder {
    fn drop(&mut self) {
        let _ = std::fs::remove_dir_all(&self.0);
    }
}

fn legs_in(folder: &Path, words: &[&str], input: &[u8]) -> Ran {
    let mut command = Command::new(env!("CARGO_BIN_EXE_legs"));
    command.args(words).current_dir(folder).stdin(Stdio::piped()).stdout(Stdio::piped()).stderr(Stdio::piped());
    let mut child = command.spawn().unwrap();
    let mut stdin = child.stdin.take().unwrap();
    let input = input.to_vec();
    // A program that does not read it all closes the pipe.
    let writer = std::thread::spawn(move || _ = stdin.write_all(&input));
    let output = child.wait_with_output().unwrap();
    writer.join().unwrap();
    let [out, err] = [output.stdout, output.stderr].map(|bytes| String::from_utf8_lossy(&bytes).into_owned());
    Ran { status: output.status.code().expect("it ended by itself"), out, err }
}

/// A run on this text alone.
pub fn on(words: &[&str], text: impl AsRef<[u8]>) -> Ran {
    Folder::new().legs_on(words, text.as_ref())
}

/// A line of CSV that has no quotes.
pub fn fields(line: &str) -> Vec<&str> {
    line.split(',').collect()
}

/// The metres of each leg, and of the total, as CSV prints them.
pub fn lengths(ran: &Ran) -> (Vec<f64>, f64) {
    let of = |what: &str| {
        let lines = ran.out.lines().filter(|line| fields(line)[0] == what);
        lines.map(|line| fields(line)[4].parse().unwrap_or(f64::NAN)).collect::<Vec<f64>>()
    };
    (of("leg"), of("total")[0])
}
