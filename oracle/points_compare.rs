//! ellippi, ellipeinc and ellipf through the static library at the points of oracle/incomplete_points.py: `oracle/run points_compare OUT`, OUT being the folder that it filled.
//! None may be refused or be further than 2^-36 from its reference; the largest relative difference is shown, and the next.
mod library;

fn main() {
    let out = std::env::args().nth(1).expect("the folder that oracle/incomplete_points.py filled");
    let mut failed = false;
    for (function, name) in [(4, "ellippi"), (5, "ellipeinc"), (6, "ellipf")] {
        let list = format!("{out}/{name}.txt");
        let text = std::fs::read_to_string(&list).unwrap_or_else(|e| panic!("{list}: {e}; run oracle/incomplete_points.py {out} first"));
        let (mut points, mut refused, mut largest, mut next, mut at) = (0, 0, 0f64, 0f64, (0.0, 0.0));
        for line in text.lines() {
            let words: Vec<u64> = line.split(' ').map(|w| u64::from_str_radix(w, 16).expect("16 hex digits")).collect();
            let (number, first, _) = library::evaluate(function, words[0], words[1], 0);
            let (answer, reference) = (f64::from_bits(first), f64::from_bits(words[2]));
            let off = if answer == reference { 0.0 } else { ((answer - reference) / reference).abs() };
            points += 1;
            refused += (number != 0) as u64;
            if number == 0 && !(off <= largest) {
                (next, largest, at) = (largest, off, (f64::from_bits(words[0]), f64::from_bits(words[1])));
            } else if number == 0 {
                next = next.max(off);
            }
        }
        println!("{name}: {points} points, {refused} refused, largest relative difference 2^{:.2} at {at:?}, the next 2^{:.2}", largest.log2(), next.log2());
        failed |= points == 0 || refused > 0 || !(largest <= 2f64.powi(-36));
    }
    std::process::exit(failed as i32);
}
