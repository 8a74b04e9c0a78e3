//! Scripts of value calls on special and random values.
//!
//! The twelve calls come in turn. Every second round is a sweep: its floats go through all signs and
//! exponents, its whole numbers through all counts of binary digits. The rounds between are mixtures.

use crate::random::Random;
use crate::record::{Script, State};
use crate::{floats, integers, music};

/// The value calls have the first bytes from this one on, without a gap.
const FIRST: u8 = 0x10;
const CALLS: usize = 12;

/// There are 4,096 signs with exponents. Steps that share no factor with that reach each of them once,
/// and a short script reaches far-off ones; two of them keep the floats of a call apart.
const TOPS: u64 = 1 << 12;
const STEPS: [u64; 2] = [1_229, 2_531];

pub fn script(random: &mut Random, count: usize) -> Vec<u8> {
    let mut script = Script::default();
    for index in 0..count {
        let round = (index / CALLS) as u64;
        let source = match round % 2 {
            0 => Source::Sweep(round / 2),
            _ => random.pick(&[Source::Music, Source::Special, Source::Mixed, Source::Mixed]),
        };
        record(random, source, FIRST + (index % CALLS) as u8, &mut script);
    }
    script.bytes
}

/// Where the operands of one record come from.
#[derive(Clone, Copy)]
enum Source {
    Sweep(u64),
    Music,
    Special,
    Mixed,
}

impl Source {
    /// Whether the next operand is an ordinary one.
    fn ordinary(self, random: &mut Random) -> bool {
        match self {
            Source::Music => true,
            Source::Special => false,
            Source::Sweep(_) | Source::Mixed => random.coin(),
        }
    }
}

fn record(random: &mut Random, source: Source, first: u8, script: &mut Script) {
    script.byte(first);
    match first {
        0x10 => {
            script.float(float(random, source, music::beat));
        }
        0x12 | 0x14 => {
            script.float(float(random, source, music::bpm));
        }
        0x11 | 0x13 => {
            script.int(int(random, source));
        }
        _ => on_state(random, source, first, script),
    }
}

fn on_state(random: &mut Random, source: Source, first: u8, script: &mut Script) {
    let state = state(random, source);
    let at = time(random, source, &state);
    let beat = beat(random, source, &state);
    let quantum = quantum(random, source);
    script.state(&state);
    match first {
        0x15 | 0x16 => script.int(at).float(quantum),
        0x17 => script.float(beat).float(quantum),
        0x18 => script.int(at).float(beat).float(quantum),
        0x19 => script.int(at).float(beat),
        0x1a => script.float(float(random, source, music::bpm)).int(at),
        _ => script.byte(random.flag()).int(at),
    };
}

fn float(random: &mut Random, source: Source, ordinary: fn(&mut Random) -> u64) -> u64 {
    match source {
        Source::Sweep(index) => floats::with_top(random, index * STEPS[0] % TOPS),
        _ if source.ordinary(random) => ordinary(random),
        _ => floats::special(random),
    }
}

/// A beat; at times one whose distance in time is near the end of the 64-bit range.
fn beat(random: &mut Random, source: Source, state: &State) -> u64 {
    if matches!(source, Source::Mixed) && state.tempo > 0 && random.below(4) == 0 {
        return floats::near(random, 2f64.powi(63) / state.tempo as f64);
    }
    float(random, source, music::beat)
}

fn quantum(random: &mut Random, source: Source) -> u64 {
    match source {
        Source::Sweep(index) => floats::with_top(random, index * STEPS[1] % TOPS),
        _ if source.ordinary(random) => music::quantum(random),
        _ => floats::quantum(random),
    }
}

fn int(random: &mut Random, source: Source) -> i64 {
    match source {
        Source::Sweep(index) => integers::with_digits(random, (index % 63) as u32 + 1),
        _ if source.ordinary(random) => random.between(-1_000_000, 1_000_000_000),
        _ => integers::special(random),
    }
}

fn state(random: &mut Random, source: Source) -> State {
    let mut state = music::state(random);
    if !source.ordinary(random) {
        state.tempo = integers::tempo(random);
    }
    for field in [&mut state.beat_origin, &mut state.time_origin] {
        if !source.ordinary(random) {
            *field = integers::special(random);
        }
    }
    if !source.ordinary(random) {
        state.playing = random.flag();
        state.beat = integers::special(random);
        state.time = integers::special(random);
    }
    state
}

/// A time; where special, itself, by its distance from the origin, or so far off that the distance wraps.
fn time(random: &mut Random, source: Source, state: &State) -> i64 {
    if source.ordinary(random) {
        return music::time(random, state);
    }
    match random.below(3) {
        0 => integers::special(random),
        1 => state.time_origin.wrapping_add(integers::special(random)),
        _ if state.time_origin < 0 => i64::MAX - random.of_digits_up_to(40) as i64,
        _ => i64::MIN + random.of_digits_up_to(40) as i64,
    }
}
