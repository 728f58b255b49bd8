//! The roots of two libraries, checked against the hardware and timed in turns: oracle/root_turns builds it.
#[allow(dead_code)]
mod floor_cases;
mod patterns;
mod timing;

use patterns::{shown, Random};
use std::hint::black_box;
use timing::Contest;

mod raw {
    #[link(name = "before", kind = "static")]
    unsafe extern "C" {
        pub safe fn root_before(x: u64) -> u64;
    }
    #[link(name = "after", kind = "static")]
    unsafe extern "C" {
        pub safe fn root_after(x: u64) -> u64;
    }
}

/// A list worked through with each call waiting for the one before: a word that is 0 carries its answer on.
fn chained(list: [u64; 100], root: fn(u64) -> u64) -> u64 {
    let none = black_box(0);
    list.iter().fold(0, |last, x| root(x ^ (last & none)))
}

fn main() {
    let millions: u64 = std::env::args().nth(1).map_or(10, |n| n.parse().expect("a number of millions"));
    let mut random = Random(millions);
    let mut differ = 0u64;
    for _ in 0..millions * 1_000_000 {
        let x = floor_cases::argument("root", &mut random);
        let hardware = shown(f64::from_bits(x).sqrt());
        if raw::root_before(x) != hardware || raw::root_after(x) != hardware {
            differ += 1;
        }
    }
    println!("{millions} million patterns, {differ} differ from the hardware");

    let mut normal = || ((random.below(2000) + 20) << 52) | random.below(1 << 52);
    let apart: Vec<u64> = (0..600).map(|_| normal()).collect();
    let mut contest = Contest::new(&apart);
    contest.enter("before", 4000, |x| raw::root_before(x));
    contest.enter("after", 4000, |x| raw::root_after(x));
    contest.show("a root, calls apart");
    let lists: Vec<[u64; 100]> = (0..6).map(|_| std::array::from_fn(|_| normal())).collect();
    let mut contest = Contest::new(&lists);
    contest.enter("before", 4000, |list| chained(list, |x| raw::root_before(x)));
    contest.enter("after", 4000, |list| chained(list, |x| raw::root_after(x)));
    contest.show("a hundred roots, each waiting for the one before");
    std::process::exit((differ > 0) as i32);
}
