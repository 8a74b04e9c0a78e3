//! The ordinary values of a session, and a script of value calls on them.

use crate::random::Random;
use crate::record::{Script, State};

/// How often each value call comes, of 100: an application asks for beats and phases most.
const SHARES: [(u8, u64); 12] = [
    (0x10, 8),
    (0x11, 8),
    (0x12, 2),
    (0x13, 4),
    (0x14, 2),
    (0x15, 26),
    (0x16, 26),
    (0x17, 12),
    (0x18, 4),
    (0x19, 2),
    (0x1a, 3),
    (0x1b, 3),
];

pub fn script(random: &mut Random, count: usize) -> Vec<u8> {
    let mut script = Script::default();
    for _ in 0..count {
        let first = random.share(&SHARES);
        record(random, first, &mut script);
    }
    script.bytes
}

fn record(random: &mut Random, first: u8, script: &mut Script) {
    let state = state(random);
    let at = time(random, &state);
    script.byte(first);
    match first {
        0x10 => script.float(beat(random)),
        0x11 => script.int(state.beat_origin),
        0x12 | 0x14 => script.float(bpm(random)),
        0x13 => script.int(state.tempo),
        0x15 | 0x16 => script.state(&state).int(at).float(quantum(random)),
        0x17 => script
            .state(&state)
            .float(beat(random))
            .float(quantum(random)),
        0x18 => script
            .state(&state)
            .int(at)
            .float(beat(random))
            .float(quantum(random)),
        0x19 => script.state(&state).int(at).float(beat(random)),
        0x1a => script.state(&state).float(bpm(random)).int(at),
        _ => script.state(&state).byte(random.coin().into()).int(at),
    };
}

pub fn state(random: &mut Random) -> State {
    let time_origin = random.between(0, 1_000_000_000_000);
    State {
        tempo: (60e6 / f64::from_bits(bpm(random))).round() as i64,
        beat_origin: random.between(-1_000, 1_000_000) * random.pick(&[1, 250_000, 1_000_000]),
        time_origin,
        playing: random.coin().into(),
        beat: random.between(0, 1_000_000_000),
        time: time_origin + random.between(0, 600_000_000),
    }
}

/// A time within ten minutes of the origin, at times on a whole beat; any state may be given, so the sums wrap.
pub fn time(random: &mut Random, state: &State) -> i64 {
    let since = match random.below(4) {
        0 => random.between(-16, 1_000).wrapping_mul(state.tempo),
        _ => random.between(-1_000_000, 600_000_000),
    };
    state.time_origin.wrapping_add(since)
}

/// A beat, at times on a quarter of one.
pub fn beat(random: &mut Random) -> u64 {
    let beat = match random.below(2) {
        0 => random.between(-64, 40_000) as f64 / 4.0,
        _ => random.between(-16_000_000, 10_000_000_000) as f64 / 1e6,
    };
    beat.to_bits()
}

/// A tempo in beats per minute, 20 to 999, whole or in hundredths.
pub fn bpm(random: &mut Random) -> u64 {
    let bpm = match random.below(2) {
        0 => random.between(20, 999) as f64,
        _ => random.between(2_000, 99_900) as f64 / 100.0,
    };
    bpm.to_bits()
}

pub fn quantum(random: &mut Random) -> u64 {
    (random.between(1, 16) as f64).to_bits()
}
