//! The functions: answers that the rules name, and what holds of every answer.
use crate::lent;
use crate::model::{self, LARGEST, LAST, MINUS, NAN, ONE, PLUS, SIGN, TWO, WITHDRAWN};
use crate::random::Random;
use shuttlemint::integrals::{ellipe, ellipeinc, ellipf, ellipk, ellipke, ellippi};
use shuttlemint::{evaluate, rounds, Refusal, StrErr};

/// Holds one evaluation, by both faces, to the rules.
pub fn check(function: u8, arguments: [u64; 3], other: [u64; 3]) -> u8 {
    let [a, b, c] = arguments;
    let answers = lent::answers(function, arguments);
    let (refusal, first, second) = answers;
    let said = || format!("evaluate({function}, {a:016x}, {b:016x}, {c:016x}) gives {refusal}, {first:016x}, {second:016x}");

    let safe = evaluate(function, a, b, c);
    assert_eq!(safe, Refusal::from_number(refusal).map_or(Ok([first, second]), Err), "{}", said());
    if let Some(named) = model::named(function, a, b) {
        assert_eq!(answers, named, "{}", said());
    }
    assert!(matches!(refusal, 0..=6 | 9), "{}", said());
    assert!(refusal == 0 || (first, second) == (0, 0), "{}", said());
    assert!(!model::is_nan(first) && !model::is_nan(second), "{}", said());
    assert!(function == 3 || second == 0, "{}", said());

    // What the function does not read, and which NaN it is, plays no part.
    if function <= LAST {
        let read = model::read_by(function, [u64::MAX; 3]);
        let same = [0, 1, 2].map(|k| match read[k] {
            0 => other[k],
            _ if model::is_nan(arguments[k]) => NAN,
            _ => arguments[k],
        });
        assert_eq!(lent::answers(function, same), answers, "{}", said());
    }
    // E(-φ, m) is -E(φ, m), but for the one zero.
    if function == 5 && refusal == 0 && a % SIGN != 0 && !model::is_nan(a) {
        assert_eq!(lent::answers(5, [a ^ SIGN, b, c]), (0, first ^ SIGN, 0), "{}", said());
    }
    // F(-φ, m) is -F(φ, m), but for the one zero at m = -∞.
    if function == 6 && refusal == 0 && b != MINUS {
        assert_eq!(lent::answers(6, [a ^ SIGN, b, c]), (0, first ^ SIGN, 0), "{}", said());
    }
    refusal
}

#[test]
fn the_corner_table() {
    let [half, more] = [0.5f64.to_bits(), ONE + 1];
    let tiny = 2f64.powi(-1000).to_bits();
    let cases = [
        (3, [ONE, 0], (0, PLUS, ONE)),
        (3, [MINUS, 0], (0, 0, PLUS)),
        (3, [more, 0], (2, 0, 0)),
        (3, [NAN, 0], (1, 0, 0)),
        (4, [ONE, ONE], (4, 0, 0)),
        (4, [TWO, ONE], (0, MINUS, 0)),
        (4, [half, ONE], (0, PLUS, 0)),
        (5, [0, NAN], (0, 0, 0)),
        (5, [tiny, MINUS], (0, PLUS, 0)),
        (5, [SIGN | 1, MINUS], (0, MINUS, 0)),
        (5, [PLUS, NAN], (0, PLUS, 0)),
        (5, [2f64.powi(1023).to_bits(), ONE], (0, 0x7fd45f306dc9c883, 0)),
        (5, [LARGEST, 0], (0, LARGEST, 0)),
        (6, [0x4330000000000001, MINUS], (6, 0, 0)),
        (5, [ONE, TWO], (3, 0, 0)),
        (4, [TWO, (-2f64.powi(683)).to_bits()], (5, 0, 0)),
        (6, [ONE, TWO], (3, 0, 0)),
        (6, [SIGN, half], (0, SIGN, 0)),
        (6, [0, PLUS], (5, 0, 0)),
        (0, [NAN, NAN], (0, 0, 0)),
        (LAST + 1, [0, 0], (9, 0, 0)),
        (255, [NAN, NAN], (9, 0, 0)),
    ];
    for (function, [a, b], expected) in cases {
        assert_eq!(lent::answers(function, [a, b, 7]), expected, "{function} {a:016x} {b:016x}");
        check(function, [a, b, 7], [NAN, 1, SIGN]);
    }
}

#[test]
fn ellip_names() {
    let close = |x: f64, y: f64, bound: f64| assert!(((x - y) / y).abs() <= bound, "{x} for {y}");
    let (first, second) = ellipke(0.5).unwrap();
    close(first, 1.8540746773013719, 1e-15);
    close(second, 1.3506438810476755, 1e-15);
    close(ellipk(0.5).unwrap(), first, 1e-15);
    close(ellipe(0.5).unwrap(), second, 1e-15);
    close(ellippi(0.5, 0.5).unwrap(), 2.7012877620953506, 2f64.powi(-36));
    close(ellipeinc(std::f64::consts::FRAC_PI_4, 0.5).unwrap(), 0.7481865041776612, 2f64.powi(-36));
    close(ellipf(std::f64::consts::FRAC_PI_4, 0.5).unwrap(), 0.826017876249245, 2f64.powi(-36));
    assert_eq!(ellipk(1.0), Ok(f64::INFINITY));
    assert_eq!(ellipe(f64::NAN), Err(Refusal::NAN_ARGUMENT));
    assert_eq!(ellippi(1.0, 0.0), Err(Refusal::CHARACTERISTIC_ONE));
    assert_eq!(ellippi(2.0, 1.0), Ok(f64::NEG_INFINITY));
    assert_eq!(ellipeinc(1.0, 2.0), Err(Refusal::AMPLITUDE_TOO_LARGE));

    let mut random = Random(5);
    for _ in 0..2000 {
        let [a, b, _] = random.patterns();
        let [x, y] = [a, b].map(f64::from_bits);
        let one = |function, answer: Result<f64, Refusal>| {
            assert_eq!(answer.map(f64::to_bits), evaluate(function, a, b, 0).map(|[first, _]| first))
        };
        one(1, ellipk(x));
        one(2, ellipe(x));
        one(4, ellippi(x, y));
        one(5, ellipeinc(x, y));
        one(6, ellipf(x, y));
        assert_eq!(ellipke(x).map(|(k, e)| [k.to_bits(), e.to_bits()]), evaluate(3, a, b, 0));
    }
}

#[test]
fn rounds_of_all_recipes() {
    let [n, m] = [-2f64.powi(-900), -2f64.powi(682)].map(f64::to_bits);
    assert_eq!(rounds(4, n, m, NAN), 77); // RJ has 13, an RC inside it 64
    assert_eq!(evaluate(4, n, m, 0), Err(Refusal::NOT_SETTLED));
    let [x, y, far] = [0.25, 0.5, f64::NEG_INFINITY].map(f64::to_bits);
    assert_eq!(rounds(6, x, far, 0), 64);
    for function in [0, 1, 2, 3, LAST + 1, 255] {
        assert_eq!(rounds(function, x, y, 0), 0);
    }
    for function in 4..=LAST {
        assert!(rounds(function, x, y, 0) > 0);
        assert_eq!(rounds(function, NAN, y, 0), 0);
    }
}

#[test]
fn any_patterns() {
    let mut random = Random(7);
    for _ in 0..30_000 {
        let function = random.one_of(&[0, 1, 2, 3, 4, 4, 5, 5, 6, 6, LAST, LAST + 1, 255]);
        check(function, random.patterns(), random.patterns());
    }
}

#[test]
fn another_length_of_out_is_refused() {
    for length in [0, 1, 3, 4, 100] {
        let mut out = vec![u64::MAX; length];
        assert_eq!(lent::evaluate(1, [0; 3], &mut out), 7);
        assert_eq!(lent::evaluate(255, [NAN; 3], &mut out), 7);
        assert!(out.iter().all(|&x| x == u64::MAX));
    }
}

#[test]
fn the_float_floor() {
    let bits = |x: f64| x.to_bits();
    assert_eq!(lent::single("root", TWO), 0x3ff6_a09e_667f_3bcd);
    assert_eq!(lent::single("root", 1), bits(2f64.powi(-537)));
    assert_eq!(lent::single("root", SIGN), SIGN);
    assert_eq!(lent::single("root", SIGN + ONE), NAN);
    assert_eq!(lent::single("round", bits(2.5)), bits(3.0));
    assert_eq!(lent::single("round", bits(-2.5)), bits(-3.0));
    assert_eq!(lent::fused(ONE + 1, bits(1.0 - 2f64.powi(-52)), bits(-1.0)), bits(-(2f64.powi(-104))));
    let mut random = Random(11);
    for _ in 0..2000 {
        let [a, b, c] = random.patterns();
        let [x, y, z] = [a, b, c].map(f64::from_bits);
        let one_nan = |x: f64| if x.is_nan() { NAN } else { x.to_bits() };
        assert_eq!(lent::single("magnitude", a), one_nan(x.abs()));
        assert_eq!(lent::single("trunc", a), one_nan(x.trunc()));
        assert_eq!(lent::single("floor", a), one_nan(x.floor()));
        assert_eq!(lent::single("round", a), one_nan(x.round()));
        assert_eq!(lent::single("root", a), one_nan(x.sqrt()));
        assert_eq!(lent::fused(a, b, c), one_nan(x.mul_add(y, z)));
        assert_eq!(lent::remainder(a, b), one_nan(x % y));
    }
}

#[test]
fn refusals_say_what_to_do() {
    let shown: Vec<String> = (1..=13).map(|number| Refusal::from_number(number).unwrap().to_string()).collect();
    for (i, text) in shown.iter().enumerate() {
        assert!(text.starts_with(&format!("refusal {}: ", i + 1)), "{text}");
        assert!(text.contains("; "), "{text}");
        let words = text.split(": ").nth(1).unwrap();
        assert_eq!(shown.iter().filter(|other| other.contains(words)).count(), 1, "{text}");
    }
    assert_eq!(Refusal::from_number(0), None);
    let all: Vec<u8> = (1..=255).map(|number| Refusal::from_number(number).unwrap().number()).collect();
    assert_eq!(all, (1..=255).collect::<Vec<u8>>());

    fn as_ellip(m: f64) -> Result<f64, StrErr> {
        if m == 3.0 {
            return Err("three is not for us");
        }
        Ok(2.0 * ellipk(m)?)
    }
    fn boxed(m: f64) -> Result<f64, Box<dyn std::error::Error>> {
        Ok(ellipk(m)?)
    }
    assert_eq!(as_ellip(2.0), Err(Refusal::PARAMETER_ABOVE_ONE.message()));
    assert_eq!(boxed(2.0).unwrap_err().to_string(), Refusal::PARAMETER_ABOVE_ONE.to_string());
}

/// Crate ellip's signatures at f64, by both of its paths, and its texts. A program that uses them stands in faces/rust/ellip.
#[test]
fn ellip_signatures_and_texts() {
    use shuttlemint::legendre;
    type One = fn(f64) -> Result<f64, StrErr>;
    type Two = fn(f64, f64) -> Result<f64, StrErr>;
    type Safe = fn(f64) -> Result<f64, Refusal>;
    type Pair = fn(f64) -> Result<(f64, f64), StrErr>;
    let above = ": m must not be greater than 1.";
    let not_a_number = ": Arguments cannot be NAN.";
    let said = |name: &str, text: &str| format!("{name}{text}");
    for (name, f, safe) in [
        ("ellipk", [shuttlemint::ellipk as One, legendre::ellipk], ellipk as Safe),
        ("ellipe", [shuttlemint::ellipe, legendre::ellipe], ellipe as Safe),
    ] {
        for f in f {
            assert_eq!(f(0.5).unwrap(), safe(0.5).unwrap());
            assert_eq!(f(2.0).unwrap_err(), said(name, above));
            assert_eq!(f(f64::NAN).unwrap_err(), said(name, not_a_number));
        }
    }
    for f in [shuttlemint::ellipke as Pair, legendre::ellipke] {
        assert_eq!(f(0.5).unwrap(), ellipke(0.5).unwrap());
        assert_eq!(f(2.0).unwrap_err(), said("ellipke", above));
        assert_eq!(f(f64::NAN).unwrap_err(), said("ellipke", not_a_number));
    }
    for f in [shuttlemint::ellippi as Two, legendre::ellippi] {
        assert_eq!(f(0.25, 0.5).unwrap(), ellippi(0.25, 0.5).unwrap());
        assert_eq!(f(0.25, 2.0).unwrap_err(), said("ellippi", above));
        assert_eq!(f(1.0, 0.5).unwrap_err(), "ellippi: n cannot be 1.");
        assert_eq!(f(f64::NAN, 0.5).unwrap_err(), said("ellippi", not_a_number));
        assert_eq!(f(2.0, -(2f64.powi(683))).unwrap_err(), "ellippi: Unexpected error.");
    }
    for f in [shuttlemint::ellipeinc as Two, legendre::ellipeinc] {
        assert_eq!(f(0.75, 0.5).unwrap(), ellipeinc(0.75, 0.5).unwrap());
        assert_eq!(f(1.0, 2.0).unwrap_err(), "ellipeinc: m sin²φ must be smaller than one.");
        assert_eq!(f(2f64.powi(60), 2.0).unwrap_err(), said("ellipe", above));
        assert_eq!(f(1.0, f64::NAN).unwrap_err(), said("ellipeinc", not_a_number));
    }
    for f in [shuttlemint::ellipf as Two, legendre::ellipf] {
        assert_eq!(f(0.75, 0.5).unwrap(), ellipf(0.75, 0.5).unwrap());
        assert_eq!(f(2.0, 1.0).unwrap_err(), "ellipf: m sin²φ must be smaller than one.");
        assert_eq!(f(f64::NAN, 0.0).unwrap_err(), said("ellipf", not_a_number));
    }
}

#[test]
fn the_three_sorts() {
    use shuttlemint::{Amplitude, Characteristic, Integral, Parameter, Sheet};
    let (phi, n, m) = (Amplitude(0.75), Characteristic(0.25), Parameter(0.5));
    // Each function by sorts, by plain floats, and entered in a row; but for the one that goes out.
    let all = [
        (Integral::ellipk(m), Integral::ellipk(0.5), ellipk(m)),
        (Integral::ellipe(m), Integral::ellipe(0.5), ellipe(m)),
        (Integral::ellipke(m), Integral::ellipke(0.5), ellipke(m).map(|(k, _)| k)),
        (Integral::ellippi(n, m), Integral::ellippi(0.25, 0.5), ellippi(n, m)),
        (Integral::ellipeinc(phi, m), Integral::ellipeinc(0.75, 0.5), ellipeinc(phi, m)),
        (Integral::ellipf(phi, m), Integral::ellipf(0.75, 0.5), ellipf(phi, m)),
    ];
    let mut sheet = Sheet::blank(LAST as u32).unwrap();
    for (row, (sorts, floats, first)) in all.into_iter().enumerate() {
        assert_eq!(sorts, floats);
        assert_eq!(sorts.function() as usize, row + 1);
        assert_eq!(sorts.values().unwrap()[0], first.unwrap());
        if sorts.function() == WITHDRAWN {
            assert_eq!(sheet.enter(row as u32, sorts), Err(Refusal::WITHDRAWN_FUNCTION));
            continue;
        }
        sheet.enter(row as u32, sorts).unwrap();
        let entered = sheet.row(row as u32).unwrap();
        assert_eq!((entered.function(), entered.arguments()), (sorts.function(), sorts.arguments()));
        assert_eq!(entered.values(), sorts.values());
    }
    assert_eq!(sheet.enter(LAST as u32, all[0].0), Err(Refusal::NO_SUCH_ROW));
    assert_eq!((f64::from(phi), f64::from(n), f64::from(m)), (0.75, 0.25, 0.5));
}
