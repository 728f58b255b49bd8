//! The sheet files, each old or whole, never half: a new one beside it, synced, then renamed over it.
use std::fs::{File, OpenOptions};
use std::io::{self, Write};
use std::path::{Path, PathBuf};

/// What stands under no other name; it goes when it was not renamed.
struct Beside {
    at: PathBuf,
    renamed: bool,
}

impl Drop for Beside {
    fn drop(&mut self) {
        if !self.renamed {
            let _ = std::fs::remove_file(&self.at);
        }
    }
}

fn folder(of: &Path) -> &Path {
    of.parent().filter(|folder| !folder.as_os_str().is_empty()).unwrap_or(Path::new("."))
}

/// A new file in the same folder, under a name that was free, with these bytes on the disk.
fn beside(name: &Path, bytes: &[u8]) -> io::Result<Beside> {
    let own = name.file_name().ok_or(io::ErrorKind::InvalidInput)?.to_string_lossy();
    for attempt in 0..1000 {
        let at = folder(name).join(format!(".{own}.{}-{attempt}", std::process::id()));
        match OpenOptions::new().write(true).create_new(true).open(&at) {
            Err(error) if error.kind() == io::ErrorKind::AlreadyExists => continue,
            Err(error) => return Err(error),
            Ok(mut file) => {
                let beside = Beside { at, renamed: false };
                file.write_all(bytes)?;
                file.sync_all()?;
                return Ok(beside);
            }
        }
    }
    Err(io::ErrorKind::AlreadyExists.into())
}

/// Writes all of them, or none where one can't be written. (A rename that fails, as over a folder, ends it between two files: those before it are
/// new, the others old.)
fn write_all(files: &[(PathBuf, Vec<u8>)]) -> Result<(), (PathBuf, io::Error)> {
    let mut written = Vec::new();
    for (name, bytes) in files {
        if name.is_dir() {
            return Err((name.clone(), io::ErrorKind::IsADirectory.into()));
        }
        written.push(beside(name, bytes).map_err(|error| (name.clone(), error))?);
    }
    for (new, (name, _)) in written.iter_mut().zip(files) {
        std::fs::rename(&new.at, name).map_err(|error| (name.clone(), error))?;
        new.renamed = true;
    }
    if let Some((name, _)) = files.first() {
        // So that the new names outlive a loss of power. Not every file system can.
        let _ = File::open(folder(name)).and_then(|folder| folder.sync_all());
    }
    Ok(())
}

/// The files that the sheets go to.
fn sheet_names(given: &Path, sheets: usize) -> Vec<PathBuf> {
    let numbered = |k: usize| PathBuf::from(format!("{}.{k}", given.display()));
    if sheets == 1 {
        return vec![given.to_path_buf()];
    }
    (1..=sheets).map(numbered).collect()
}

/// A file that an earlier run left and this one would not replace: read together with the new ones, it would add its legs again.
fn left_over(given: &Path, sheets: usize) -> Option<PathBuf> {
    let next = if sheets == 1 { 1 } else { sheets + 1 };
    let numbered = PathBuf::from(format!("{}.{next}", given.display()));
    let alone = (sheets > 1).then(|| given.to_path_buf());
    [Some(numbered), alone].into_iter().flatten().find(|name| name.exists())
}

/// Writes the sheets under this name, or says why not.
pub fn write_sheets(given: &Path, sheets: Vec<Vec<u8>>, inputs: &[String]) -> Result<(), String> {
    if let Some(left) = left_over(given, sheets.len()) {
        return Err(format!("{} is there from another run and would pass for a part of this one; move it away", left.display()));
    }
    let files: Vec<_> = sheet_names(given, sheets.len()).into_iter().zip(sheets).collect();
    for (name, _) in &files {
        let same = |input: &String| matches!((name.canonicalize(), Path::new(input).canonicalize()), (Ok(a), Ok(b)) if a == b);
        if inputs.iter().any(same) {
            return Err(format!("{} is a file of legs; let --sheet name another", name.display()));
        }
    }
    write_all(&files).map_err(|(name, error)| format!("cannot write {}: {error}", name.display()))
}

#[cfg(test)]
mod tests {
    use super::*;

    /// A folder of this test's own, empty at first and gone at the end.
    struct Folder(PathBuf);

    impl Folder {
        fn new(name: &str) -> Folder {
            let at = std::env::temp_dir().join(format!("legs-{name}-{}", std::process::id()));
            let _ = std::fs::remove_dir_all(&at);
            std::fs::create_dir(&at).unwrap();
            Folder(at)
        }

        fn names(&self) -> Vec<String> {
            let mut names: Vec<_> =
                std::fs::read_dir(&self.0).unwrap().map(|entry| entry.unwrap().file_name().into_string().unwrap()).collect();
            names.sort();
            names
        }
    }

    impl Drop for Folder {
        fn drop(&mut self) {
            let _ = std::fs::remove_dir_all(&self.0);
        }
    }

    #[test]
    fn new_and_replaced() {
        let folder = Folder::new("written");
        let [a, b] = ["a", "b"].map(|name| folder.0.join(name));
        write_all(&[(a.clone(), b"one".to_vec()), (b.clone(), b"two".to_vec())]).unwrap();
        write_all(&[(a.clone(), b"three".to_vec())]).unwrap();
        assert_eq!((std::fs::read(a).unwrap(), std::fs::read(b).unwrap()), (b"three".to_vec(), b"two".to_vec()));
        assert_eq!(folder.names(), ["a", "b"]);
    }

    #[test]
    fn one_that_cannot_be_written_leaves_all_as_they_were() {
        let folder = Folder::new("failed");
        let [a, inner] = ["a", "folder"].map(|name| folder.0.join(name));
        std::fs::write(&a, "old").unwrap();
        std::fs::create_dir(&inner).unwrap();
        for other in [inner.clone(), folder.0.join("missing/b"), PathBuf::from("/")] {
            let (name, _) = write_all(&[(a.clone(), b"new".to_vec()), (other.clone(), b"x".to_vec())]).unwrap_err();
            assert_eq!(name, other);
            assert_eq!(std::fs::read(&a).unwrap(), b"old");
            assert_eq!(folder.names(), ["a", "folder"]);
        }
    }
}
