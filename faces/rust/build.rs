//! Links the proved library: the archive that SHUTTLEMINT_LIB names, else lib/libshuttlemint.a beside this file, else the one in the project's
//! own target folder.
use std::path::{Path, PathBuf};
use std::process::exit;

const ARCHIVE: &str = "libshuttlemint.a";

fn stop(lines: &[String]) -> ! {
    eprintln!("\n{}\n", lines.join("\n"));
    exit(1)
}

fn given(variable: &str) -> String {
    std::env::var(variable).unwrap_or_default()
}

/// The archive is machine code of x86-64 Linux, and another system's linker would only say that it is of a wrong kind.
fn system() {
    let (arch, os) = (given("CARGO_CFG_TARGET_ARCH"), given("CARGO_CFG_TARGET_OS"));
    if (arch.as_str(), os.as_str()) != ("x86_64", "linux") {
        stop(&[
            format!("The proved library is compiled for x86-64 Linux, and this build is for {arch} {os}."),
            "Build with   --target x86_64-unknown-linux-gnu   and run the program on such a machine.".into(),
        ]);
    }
}

fn archive(crate_folder: &Path) -> PathBuf {
    if let Some(named) = std::env::var_os("SHUTTLEMINT_LIB") {
        let named = PathBuf::from(named);
        let archive = if named.is_dir() { named.join(ARCHIVE) } else { named };
        if !archive.is_file() {
            stop(&[
                format!("SHUTTLEMINT_LIB names {}, and there is no such file.", archive.display()),
                format!("Let it name {ARCHIVE} or its folder."),
            ]);
        }
        return archive;
    }
    let own = crate_folder.join("lib").join(ARCHIVE);
    if own.is_file() {
        return own;
    }
    let project = crate_folder.join("../..");
    let built = project.join("target/staticlib").join(ARCHIVE);
    println!("cargo:rerun-if-changed={}", built.display());
    if !built.is_file() {
        let project = project.canonicalize().unwrap_or(project);
        stop(&[
            format!("The proved library is not built: {} is missing.", built.display()),
            format!("Build it with   cd {} && examples/prove shuttlemint", project.display()),
            "or let the variable SHUTTLEMINT_LIB name a built one.".into(),
        ]);
    }
    built
}

fn main() {
    println!("cargo:rerun-if-env-changed=SHUTTLEMINT_LIB");
    system();
    let archive = archive(Path::new(&given("CARGO_MANIFEST_DIR")));
    println!("cargo:rerun-if-changed={}", archive.display());
    // Under one name in a folder of this build's own, so that the archive may be called anything.
    let folder = given("OUT_DIR");
    if let Err(error) = std::fs::copy(&archive, Path::new(&folder).join(ARCHIVE)) {
        stop(&[format!("{} can't be copied to {folder}: {error}", archive.display())]);
    }
    println!("cargo:rustc-link-search=native={folder}");
    println!("cargo:rustc-link-lib=static=shuttlemint");
}
