// Tries the exported check and combination of effects: the stored questions, that every refused double comes back bit
// for bit, each NaN too, and random effects beside the plain Rust.
#[path = "../bindings/bungero.rs"]
mod bungero;
mod doubles;
#[allow(dead_code)]
#[path = "../plain/mod.rs"]
mod plain;
#[path = "../bench/random.rs"]
mod random;
mod stored_effects;

use bungero::raw::{bungero_check, bungero_combine, GoverningRow};
use bungero::Effects;
use doubles::{nans, random_effects};
use random::Random;
use stored_effects::{Calls, Given, Rows, PLAIN};

fn effects(bits: [u64; 7]) -> Effects {
    bits.map(f64::from_bits).into()
}

// The check of effects given as bits. A refusal comes with no newtons, and newtons with no refusal.
fn check(bits: [u64; 7]) -> Given<[i64; 7]> {
    let checked = unsafe { bungero_check(effects(bits)) };
    let newtons: [i64; 7] = checked.newtons.into();
    let refusal = (checked.number, checked.place, checked.value.to_bits());
    if checked.number != 0 {
        assert_eq!(newtons, [0; 7], "newtons beside a refusal");
        return Err(refusal);
    }
    assert_eq!(refusal, (0, 0, 0), "a refusal beside newtons");
    Ok(newtons)
}

// The combination of effects given as bits: the greatest and the least sum, or a refusal with rows of 0.
fn combine(bits: [u64; 7]) -> Given<Rows> {
    let combined = unsafe { bungero_combine(effects(bits)) };
    let row = |each: GoverningRow| (each.tenths, each.row, each.value.to_bits());
    let rows = [row(combined.governing.greatest), row(combined.governing.least)];
    let refusal = (combined.number, combined.place, combined.value.to_bits());
    if combined.number != 0 {
        assert_eq!(rows, [(0, 0, 0); 2], "rows beside a refusal");
        return Err(refusal);
    }
    assert_eq!(refusal, (0, 0, 0), "a refusal beside rows");
    Ok(rows)
}

// The combination of whole newtons handed over as doubles.
fn govern(newtons: [i64; 7]) -> Result<Rows, (u64, u64)> {
    combine(newtons.map(|each| (each as f64).to_bits())).map_err(|(number, place, _)| (number, place))
}

// A double that is no whole number, at each place among six good effects, by both calls: 8, its place and its bits.
fn try_refused(double: u64) {
    for place in 0..7 {
        let mut bits = [1000f64.to_bits(); 7];
        bits[place] = double;
        let refusal = (8, place as u64 + 1, double);
        assert_eq!(check(bits), Err(refusal));
        assert_eq!(combine(bits), Err(refusal));
    }
}

// Random sets of effects by both calls, as the plain Rust has them. How many were accepted, and at each place refused
// with 8 and with 9.
fn try_random(sets: u64) -> (u64, [[u64; 2]; 7]) {
    let random = &mut Random(2);
    let mut accepted = 0;
    let mut refused = [[0; 2]; 7];
    for set in 0..sets {
        let bits: [u64; 7] = random_effects(random, set % 2 == 1);
        let checked = check(bits);
        assert_eq!(checked, (PLAIN.check)(bits), "{bits:016x?}");
        assert_eq!(combine(bits), (PLAIN.combine)(bits), "{bits:016x?}");
        match checked {
            Ok(_) => accepted += 1,
            Err((number, place, _)) => refused[place as usize - 1][number as usize - 8] += 1,
        }
    }
    assert!(accepted >= sets / 2 && refused.as_flattened().iter().all(|&count| count >= 100), "{accepted} {refused:?}");
    (accepted, refused)
}

fn main() {
    let [doubles, combinations, whole] = Calls { check, combine, govern }.try_stored();
    println!("{combinations} stored combinations agree, and {doubles} stored doubles at each of seven places");
    println!("{whole} stored combinations of whole numbers agree, handed over as doubles");
    let nans = nans(100_000);
    nans.iter().copied().for_each(try_refused);
    println!("{} NaNs at each of seven places came back bit for bit from check and combine", nans.len());
    let sets = 500_000;
    let (accepted, refused) = try_random(sets);
    println!("{sets} random sets of effects as by the plain Rust, {accepted} accepted");
    println!("refused with 8 and 9 at each of the seven places: {refused:?}");
}
