//! Root and multiply-add: the proved library against the same method in Rust, other methods and the hardware, in one run.
//! twin: root fused
mod library;
mod patterns;
mod timing;

use patterns::Random;
use timing::Contest;

/// The root by u128::isqrt, rounded once, of a normal float above zero.
fn root_isqrt(x: f64) -> f64 {
    let bits = x.to_bits();
    let (field, digits) = (bits >> 52, bits & 0xf_ffff_ffff_ffff | 1 << 52);
    let odd = (field + 1) & 1;
    let n = (digits as u128) << (54 + odd);
    let root = n.isqrt();
    let (q, half) = ((root >> 1) as u64, root & 1 == 1);
    let more = root * root != n;
    let q = q + (half && (more || q & 1 == 1)) as u64;
    f64::from_bits(q + ((field + 1021 - odd) / 2 << 52))
}

/// The same digits, with a branch on each.
fn root_branching(x: f64) -> f64 {
    let bits = x.to_bits();
    let (field, digits) = (bits >> 52, bits & 0xf_ffff_ffff_ffff | 1 << 52);
    let odd = (field + 1) & 1;
    let mut radicand = digits << (10 + odd);
    let (mut root, mut rest) = (0u64, 0u64);
    for _ in 0..54 {
        let trial = 4 * root + 1;
        rest = 4 * rest + (radicand >> 62);
        radicand <<= 2;
        if trial <= rest {
            rest -= trial;
            root = 2 * root + 1;
        } else {
            root *= 2;
        }
    }
    let q = root >> 1;
    let q = q + (root & 1 == 1 && (rest > 0 || q & 1 == 1)) as u64;
    f64::from_bits(q + ((field + 1021 - odd) / 2 << 52))
}

fn main() {
    let mut random = Random(7);
    let roots: Vec<f64> = (0..20_000).map(|_| f64::from_bits(((random.below(2000) + 20) << 52) | random.below(1 << 52))).collect();
    for &x in &roots {
        let r = x.sqrt();
        assert_eq!(library::root(x), r, "library {x:e}");
        assert_eq!(twin::root::root(x), r, "twin {x:e}");
        assert_eq!(root_branching(x), r, "branching {x:e}");
        assert_eq!(root_isqrt(x), r, "isqrt {x:e}");
    }
    let mut contest = Contest::new(&roots);
    contest.enter("proved library (over the C face)", 15, library::root);
    contest.enter("the same method in Rust", 15, twin::root::root);
    contest.enter("digits with a branch on each, in Rust", 15, root_branching);
    contest.enter("u128::isqrt, in Rust", 15, root_isqrt);
    contest.enter("hardware", 15, f64::sqrt);
    contest.show("square root");

    let triples: Vec<[u64; 3]> = (0..20_000)
        .map(|_| {
            let mut float = || ((random.below(600) + 700) << 52) | random.below(1 << 52) | (random.next() & 1 << 63);
            [float(), float(), float()]
        })
        .collect();
    let floats = |t: [u64; 3]| t.map(f64::from_bits);
    let mut contest = Contest::new(&triples);
    contest.enter("proved library (over the C face)", 15, library::fused);
    contest.enter("the same method in Rust", 15, |t| {
        let [x, y, z] = floats(t);
        twin::fused::fused(x, y, z)
    });
    contest.enter("hardware or the C library", 15, |t| {
        let [x, y, z] = floats(t);
        x.mul_add(y, z)
    });
    contest.show("fused multiply-add");
}
