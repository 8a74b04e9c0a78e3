//! Floats, as bits, on which rounding, casting and division can go wrong.

use crate::random::Random;

const SIGN: u64 = 1 << 63;
const FRACTION: u64 = (1 << 52) - 1;
const INFINITY: u64 = 0x7ff0_0000_0000_0000;
const QUIET: u64 = 1 << 51;

/// The powers of two whose neighbours are tried: ends of exact whole numbers and of the 64-bit ones.
const POWERS: [i32; 10] = [-1, 0, 1, 51, 52, 53, 54, 62, 63, 64];

/// A float of the given sign and exponent (12 bits), with an edge or any fraction.
pub fn with_top(random: &mut Random, top: u64) -> u64 {
    let any = random.bits() & FRACTION;
    let fraction = random.pick(&[0, 1, FRACTION, QUIET, any, any, any, any & !0xffff_ffff]);
    top << 52 | fraction
}

/// One of the special kinds. A beat is multiplied by 1,000,000 and a tempo divides 60,000,000, so that halves
/// and powers of two are also tried as the results of that.
pub fn special(random: &mut Random) -> u64 {
    match random.below(9) {
        0 => random.pick(&[0, INFINITY]) | sign(random),
        1 => nan(random),
        2 => subnormal(random),
        3 => {
            let power = random.pick(&POWERS);
            near(random, 2f64.powi(power))
        }
        4 => {
            let half = half(random);
            near(random, half)
        }
        5 => {
            let beats = half(random) / 1e6;
            near(random, beats)
        }
        6 => {
            let tempo = 60e6 / half(random);
            near(random, tempo)
        }
        7 => {
            let power = 2f64.powi(random.pick(&POWERS));
            let operand = random.pick(&[power / 1e6, 60e6 / power]);
            near(random, operand)
        }
        _ => random.bits(),
    }
}

/// A quantum: none, whole, negative, huge, tiny, or special.
pub fn quantum(random: &mut Random) -> u64 {
    match random.below(5) {
        0 => sign(random),
        1 | 2 => (random.between(1, 16) as f64).to_bits() | sign(random),
        3 => {
            let exponent = random.pick(&[0, 1, 300, 900, 1000, 1100, 1900, 2046]);
            with_top(random, exponent) | sign(random)
        }
        _ => special(random),
    }
}

fn nan(random: &mut Random) -> u64 {
    let any = random.bits() & FRACTION & !QUIET;
    let payload = random.pick(&[0, 1, FRACTION & !QUIET, any]);
    let quiet = random.pick(&[0, QUIET]);
    // A payload of 0 with no quiet bit would be an infinity.
    INFINITY | quiet | payload | u64::from(payload | quiet == 0) | sign(random)
}

fn subnormal(random: &mut Random) -> u64 {
    let any = random.of_digits_up_to(52);
    random.pick(&[1, FRACTION, FRACTION + 1, any]) | sign(random)
}

/// A whole number and a half, exactly.
fn half(random: &mut Random) -> f64 {
    random.of_digits_up_to(52) as f64 + 0.5
}

/// `x`, which is positive, or the float below or above it, with either sign.
pub fn near(random: &mut Random, x: f64) -> u64 {
    let bits = x.to_bits();
    random.pick(&[bits - 1, bits, bits, bits + 1]) | sign(random)
}

fn sign(random: &mut Random) -> u64 {
    random.pick(&[0, SIGN])
}
