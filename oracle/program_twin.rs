//! The program legsheet in Rust: the library's own code without its contracts, over std's reads and writes. What program_bench.py compares with.
//! twin: runner

fn main() {
    twin::runner::run(b"legsheet", 0, 1, false, b"");
}
