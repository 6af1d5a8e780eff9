// Effects as the bits of doubles, for the trials: random ones of every kind, and NaNs.
use crate::random::Random;

const LIMIT: u64 = 1_000_000_000_000;

// A random whole number of newtons within the limit, small ones as often as large ones.
fn whole_effect(random: &mut Random) -> f64 {
    let most = 10u64.pow(random.below(13) as u32);
    random.between(0, most) as f64 * random.pick(&[1.0, -1.0])
}

// A random effect of any kind: whole, near the limit, beyond it, a fraction, zeros, infinities and random bits.
fn any_effect(random: &mut Random) -> u64 {
    let sign = random.below(2) << 63;
    match random.below(9) {
        0 => whole_effect(random).to_bits(),
        1 => sign | (random.between(LIMIT - 2, LIMIT + 2) as f64).to_bits(),
        2 => sign | (random.between(LIMIT + 1, LIMIT + (1 << 50)) as f64).to_bits(),
        3 => sign | random.between(1075, 1974) << 52 | random.bits() >> 12,
        4 => (whole_effect(random) + random.pick(&[0.5, 0.25, -0.125])).to_bits(),
        5 => whole_effect(random).to_bits() ^ 1,
        6 => sign,
        7 => sign | f64::INFINITY.to_bits(),
        _ => random.bits(),
    }
}

// Random effects within the limit, or with some of any kind among them.
pub fn random_effects<const COUNT: usize>(random: &mut Random, of_any_kind: bool) -> [u64; COUNT] {
    std::array::from_fn(|_| match of_any_kind && random.below(7) == 0 {
        true => any_effect(random),
        false => whole_effect(random).to_bits(),
    })
}

// NaNs of both signs, quiet and signalling: each single bit set, each single bit clear, and so many random ones of
// either sign.
pub fn nans(count: usize) -> Vec<u64> {
    let all = (1u64 << 52) - 1;
    let random = &mut Random(1);
    let mut payloads = vec![all];
    payloads.extend((0..52).flat_map(|bit| [1u64 << bit, all ^ (1u64 << bit)]));
    payloads.extend((0..count).map(|_| (random.bits() & all).max(1)));
    let nan = f64::INFINITY.to_bits();
    payloads.into_iter().flat_map(|payload| [nan | payload, 1 << 63 | nan | payload]).collect()
}
