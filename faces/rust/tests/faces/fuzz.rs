//! Any calls on any bytes, in any order.
use crate::both::Both;
use crate::functions;
use crate::lent;
use crate::model::{self, LAST};
use crate::random::Random;

/// A blank sheet of some size; now and then bytes that are none, or a sheet that says 1.
fn bytes(random: &mut Random) -> Both {
    let at_the_end = random.below(2) == 0;
    let rows = random.one_of(&[0, 1, 1, 2, 3, 3, 7, 7, 7, 40, 40, 1024]);
    let length = model::length(rows);
    let any_length = random.below(1000) as usize;
    let wrong = random.one_of(&[length - 1, length + 1, length + 48, model::length(1025), any_length]);
    match random.below(36) {
        0..=2 => Both::new(vec![random.next() as u8; wrong], at_the_end),
        3..=5 => Both::new((0..length).map(|_| random.next() as u8).collect(), at_the_end),
        6 => Both::new(model::worked_out(&vec![vec![0; 48]; 1025]), at_the_end),
        7..=8 => {
            // Any rows, worked out afresh: an old sheet's, each driven once, but for its first word.
            let says = random.one_of(&[model::OLD, model::OLD, model::NEW]);
            let row = |random: &mut Random| {
                let (function, arguments, times) = (random.below(LAST as u64 + 1) as u8, random.patterns(), random.times());
                let times = if says == model::OLD { 1 } else { times };
                let arguments = model::read_by(function, arguments);
                model::new_row(function, arguments, lent::answers(function, arguments), times)
            };
            let mut bytes = model::worked_out(&(0..rows.min(40)).map(|_| row(random)).collect::<Vec<_>>());
            bytes[0] = says;
            Both::new(bytes, at_the_end)
        }
        _ => {
            let mut both = Both::new(vec![random.next() as u8; length], at_the_end);
            assert_eq!(both.blank(rows as u32), 0);
            both
        }
    }
}

/// What stood at a place before it was damaged.
type Wounds = Vec<(usize, u8)>;

/// Sets a byte, mostly where it can change an answer and to a number that nearly fits; or a row's whole first answer.
fn damage(random: &mut Random, both: &mut Both, wounds: &mut Wounds) {
    let row = 32 + 48 * random.below(4);
    let totals = both.model.bytes.len().saturating_sub(296) as u64;
    let places = [
        0,
        random.below(32),
        row,
        row + 1,
        row + 2 + random.below(2),
        row + random.below(48),
        totals + 4 * random.below(5),
        totals + random.below(24),
        totals + random.below(296),
    ];
    let mut set = |place: u64, byte: &dyn Fn(u8) -> u8| {
        if let Some(&old) = both.model.bytes.get(place as usize) {
            wounds.push((place as usize, old));
            both.poke(place as usize, byte(old));
        }
    };
    if random.below(8) == 0 {
        let first = random.pattern().to_le_bytes();
        return (0..8).for_each(|k| set(row + 32 + k, &|_| first[k as usize]));
    }
    let any = random.next() as u8;
    let choice = random.below(8) as usize;
    set(random.one_of(&places), &|old| [old ^ 1, old ^ 2, old.wrapping_add(1), old.wrapping_sub(1), 0, 7, 0xff, any][choice]);
}

/// One call, or damage that stays for a while.
fn step(random: &mut Random, both: &mut Both, wounds: &mut Wounds, whole: bool) {
    let rows = both.model.bytes.len().saturating_sub(328) as u64 / 48;
    let near = random.below(rows.max(1)) as u32;
    let row = if random.below(10) > 0 { near } else { random.one_of(&[rows as u32, rows as u32 + 1, u32::MAX]) };
    let function = random.one_of(&[0, 1, 2, 3, 4, 4, 5, 5, 5, 5, 6, 6, LAST, LAST + 1, 255]);
    let arguments = random.patterns();
    let times = random.times();
    match random.below(32) {
        0..=5 => _ = both.edit_times(row, function, arguments, times),
        // ellipeinc(φ, 0) is φ: any float comes into the total.
        6..=13 => _ = both.edit_times(row, 5, [arguments[0], 0, arguments[2]], times),
        14..=16 => _ = both.safe_edit(row, function, arguments, times),
        17..=18 => _ = both.clear(row),
        19..=20 => both.read_row(row),
        21 => both.safe_read(row),
        22..=23 => _ = both.read_total(),
        24..=25 => both.count(functions::check(function, arguments, random.patterns())),
        26 => {
            let mut out = [7; 5];
            let length = random.one_of(&[0, 1, 3, 4, 5]);
            both.count(lent::evaluate(function, arguments, &mut out[..length]));
            assert_eq!(out, [7; 5]);
        }
        27 if random.below(20) == 0 => {
            let asked = random.one_of(&[rows as u32, rows as u32, rows as u32 + 1, 1025, u32::MAX]);
            if both.blank(asked) == 0 {
                wounds.clear();
            }
        }
        28 if wounds.is_empty() && both.model.edit_refusal(row, 0) == 0 => both.stand(row, arguments[0], times),
        27 if !whole => damage(random, both, wounds),
        29 => _ = both.convert(true),
        30 if random.below(4) == 0 => _ = both.convert(false),
        31 if random.below(4) == 0 => _ = both.safe_convert(random.below(4) > 0),
        // The last wound first, so that the sheet before it comes back.
        _ => {
            if let Some((place, byte)) = wounds.pop() {
                both.poke(place, byte);
            }
        }
    }
}

fn run(seed: u64, least: u64) {
    let mut random = Random(seed);
    let (mut calls, mut sheets, mut seen) = (0, 0, [0; 256]);
    while calls < least {
        let mut both = bytes(&mut random);
        let mut wounds = Wounds::new();
        let whole = random.below(2) == 0;
        for _ in 0..random.below(1000) {
            step(&mut random, &mut both, &mut wounds, whole);
        }
        if whole && both.model.keeps_times() {
            both.is_worked_out();
        }
        sheets += 1;
        calls += both.calls;
        for (all, more) in seen.iter_mut().zip(both.seen) {
            *all += more;
        }
    }
    println!(
        "seed {seed}: {calls} calls on {sheets} sheets, no difference; answers 0 to 11 came {:?} times, 17 {} times, 22 {} times",
        &seen[..12],
        seen[17],
        seen[22]
    );
    let given = |number: usize| number < 12 || [17, 22].contains(&number);
    assert!((0..256).all(|number| seen[number] > 0 || !given(number)), "some refusal was never met");
    assert!((0..256).all(|number| seen[number] == 0 || given(number)), "a number that no call gives");
}

#[test]
fn short_run() {
    run(1, 100_000);
}

/// FUZZ_SEED and FUZZ_CALLS change where it starts and how long it goes on.
#[test]
#[ignore = "ten million calls: run it with --release"]
fn fuzz() {
    let given = |name, otherwise| std::env::var(name).map_or(otherwise, |text| text.parse().expect(name));
    run(given("FUZZ_SEED", 1), given("FUZZ_CALLS", 10_000_000));
}
