//! Whole numbers on which sums, casts to f64 and divisions can go wrong.

use crate::random::Random;

/// How many binary digits an f64 holds.
const EXACT: u32 = 53;

/// A number of the given count of binary digits, 1 to 63: above 53 a tie or a neighbour of one,
/// else the least, the greatest or any of them.
pub fn with_digits(random: &mut Random, digits: u32) -> i64 {
    let size = if digits > EXACT {
        tie(random, digits - EXACT)
    } else {
        let power = 1 << (digits - 1);
        let any = power + random.below(power);
        random.pick(&[power, 2 * power - 1, any])
    };
    signed(random, size)
}

/// One of the special kinds.
pub fn special(random: &mut Random) -> i64 {
    match random.below(6) {
        0 => random.pick(&[0, 1, -1, i64::MIN, i64::MIN + 1, i64::MAX, i64::MAX - 1]),
        1 => {
            let power = 1u64 << random.pick(&[52, 53, 54, 62, 63]);
            let size = random.pick(&[power - 1, power, power + 1]);
            signed(random, size)
        }
        2 => {
            let dropped = random.between(1, 10) as u32;
            let size = tie(random, dropped);
            signed(random, size)
        }
        3 => {
            let millions = random.of_digits_up_to(43) * 1_000_000;
            let size = random.pick(&[millions, millions + 500_000]);
            signed(random, size)
        }
        4 => {
            let size = random.of_digits_up_to(63);
            signed(random, size)
        }
        _ => random.bits() as i64,
    }
}

/// A wire tempo: 0 and below, the ends of the range, or special. At 2,000,000 an odd distance in
/// time is a half of a micro-beat.
pub fn tempo(random: &mut Random) -> i64 {
    match random.below(3) {
        0 => random.pick(&[
            0,
            -1,
            1,
            -500_000,
            2_000_000,
            60_000_000,
            i64::MIN,
            i64::MAX,
        ]),
        1 => random.between(-2_000_000, 2_000_000),
        _ => special(random),
    }
}

/// A number of 53 + `dropped` binary digits whose dropped ones are a half, or one less or more.
fn tie(random: &mut Random, dropped: u32) -> u64 {
    let lowest = 1 << (EXACT - 1);
    let any = lowest + random.below(lowest);
    let kept = random.pick(&[lowest, lowest + 1, 2 * lowest - 1, 2 * lowest - 2, any, any]);
    let half = 1u64 << (dropped - 1);
    (kept << dropped) + random.pick(&[half - 1, half, half + 1])
}

/// The number with either sign; what does not fit wraps.
fn signed(random: &mut Random, size: u64) -> i64 {
    if random.coin() {
        size as i64
    } else {
        (size as i64).wrapping_neg()
    }
}
