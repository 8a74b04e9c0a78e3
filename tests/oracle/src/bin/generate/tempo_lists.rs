//! Records of tempo lists to be written and files to be read: a sweep that goes through each case once, and random ones.

use crate::midi_files;
use crate::random::Random;
use crate::record::Script;
use oracle::smf::{self, Pair};

const MOST_PAIRS: usize = 64;
const LARGEST_ROOM: usize = 8_192;
const EMPTY_FILE: usize = 26;
const LARGEST_FILE: usize = 666;

/// The ticks at which a quantity gets one byte more, on both sides, and the most.
const EDGES: [i64; 9] = [
    0,
    1,
    127,
    128,
    16_383,
    16_384,
    2_097_151,
    2_097_152,
    268_435_455,
];
const TICK: i64 = 1_000;
const FARTHEST: i64 = 268_435_455 * TICK;

const BAD_TEMPOS: [i64; 9] = [
    0,
    -1,
    -500_000,
    16_777_216,
    16_777_217,
    (1 << 32) + 500_000,
    (1 << 24) * 3,
    i64::MIN,
    i64::MAX,
];

// ---- scripts

/// Every second record is of the sweep, as long as that lasts.
pub fn script(random: &mut Random, count: usize) -> Vec<u8> {
    let mut swept = sweep(random).into_iter();
    let mut script = Script::default();
    for index in 0..count {
        let record = if index % 2 == 0 { swept.next() } else { None };
        script.raw(&record.unwrap_or_else(|| any(random)));
    }
    script.bytes
}

/// Lists of 64 pairs, each into a room of 1,024 bytes.
pub fn lists(random: &mut Random, count: usize) -> Vec<u8> {
    let mut script = Script::default();
    for _ in 0..count {
        let pairs = good(random, MOST_PAIRS);
        script.raw(&writing(1_024, &pairs));
    }
    script.bytes
}

/// Their files.
pub fn files(random: &mut Random, count: usize) -> Vec<u8> {
    let mut script = Script::default();
    for _ in 0..count {
        let pairs = good(random, MOST_PAIRS);
        script.raw(&reading(&file(&pairs)));
    }
    script.bytes
}

// ---- records

fn writing(room: usize, pairs: &[Pair]) -> Vec<u8> {
    counted(room, pairs.len(), pairs)
}

/// A record has no more than 64 pairs, whatever its count.
fn counted(room: usize, count: usize, pairs: &[Pair]) -> Vec<u8> {
    let mut script = Script::default();
    script.byte(0x30).short(room).short(count);
    for &(tempo, beat_origin) in pairs.iter().take(MOST_PAIRS) {
        script.int(tempo).int(beat_origin);
    }
    script.bytes
}

fn reading(file: &[u8]) -> Vec<u8> {
    let mut script = Script::default();
    script.byte(0x31).short(file.len()).raw(file);
    script.bytes
}

// ---- lists

/// Pairs so many ticks apart.
fn spaced(ticks: &[i64], tempo: impl Fn(usize) -> i64) -> Vec<Pair> {
    let mut beat = 0;
    ticks
        .iter()
        .enumerate()
        .map(|(number, ticks)| {
            beat += ticks * TICK;
            (tempo(number), beat)
        })
        .collect()
}

/// Eight pairs whose deltas are each side of each edge.
pub fn eight() -> Vec<Pair> {
    spaced(
        &[
            0,
            127,
            128,
            16_383,
            16_384,
            2_097_151,
            2_097_152,
            268_435_455,
        ],
        |number| 400_000 + 10_000 * number as i64,
    )
}

pub fn largest() -> Vec<Pair> {
    spaced(&[268_435_455; MOST_PAIRS], |_| 16_777_215)
}

/// An accepted list.
pub fn good(random: &mut Random, count: usize) -> Vec<Pair> {
    let ticks: Vec<i64> = (0..count).map(|_| ticks(random)).collect();
    let tempos: Vec<i64> = (0..count).map(|_| tempo(random)).collect();
    spaced(&ticks, |number| tempos[number])
}

fn ticks(random: &mut Random) -> i64 {
    match random.below(3) {
        0 => random.pick(&EDGES),
        _ => random.of_digits_up_to(28) as i64,
    }
}

fn tempo(random: &mut Random) -> i64 {
    match random.below(4) {
        0 => random.pick(&[1, 16_777_215, 500_000, 60_060]),
        _ => random.of_digits_up_to(24).max(1) as i64,
    }
}

pub fn any_count(random: &mut Random) -> usize {
    match random.below(8) {
        0 => random.pick(&[0, 1, 63, 64]),
        1 => random.below(MOST_PAIRS as u64 + 1) as usize,
        _ => random.below(9) as usize,
    }
}

pub fn file(pairs: &[Pair]) -> Vec<u8> {
    smf::write(pairs.len(), pairs).expect("an accepted list")
}

/// A beat origin that is refused at this place of an accepted list.
fn bad_origin(random: &mut Random, pairs: &[Pair], place: usize) -> i64 {
    let before = if place == 0 { 0 } else { pairs[place - 1].1 };
    let bad = [
        before + 1,
        before + 999,
        pairs[place].1 - 500,
        -1,
        -TICK,
        i64::MIN,
        i64::MAX,
        before - TICK,
        before + FARTHEST + TICK,
        before + FARTHEST + 1,
    ];
    random.pick(&bad)
}

/// A room for a file of this size, mostly near it.
fn room(random: &mut Random, size: usize) -> usize {
    let any = random.below(LARGEST_FILE as u64 + 2) as usize;
    random.pick(&[size, size, size, size + 1, size - 1, any, 0, LARGEST_ROOM])
}

// ---- the sweep

fn sweep(random: &mut Random) -> Vec<Vec<u8>> {
    let mut records = edges(random);
    records.extend(counts(random));
    records.extend(tempos(random));
    records.extend(origins(random));
    records.extend(two_at_once(random));
    records.extend((0..=LARGEST_FILE + 1).map(|room| writing(room, &largest())));
    records.extend((0..=EMPTY_FILE + 1).map(|room| writing(room, &[])));
    let files = midi_files::sweep(random);
    records.extend(files.iter().map(|file| reading(file)));
    records
}

/// Each delta at an edge, and one tick past the last, as the first and as a later one, in rooms around the file's size.
fn edges(random: &mut Random) -> Vec<Vec<u8>> {
    let mut records = Vec::new();
    for ticks in EDGES.into_iter().chain([268_435_456]) {
        for before in [vec![], vec![5], vec![0, 128, 16_384]] {
            let deltas = [before, vec![ticks]].concat();
            let pairs = spaced(&deltas, |_| 500_000);
            let size = smf::write(pairs.len(), &pairs).map_or(LARGEST_FILE, |file| file.len());
            for room in [size - 1, size, size + 1, room(random, size)] {
                records.push(writing(room, &pairs));
            }
            if let Ok(file) = smf::write(pairs.len(), &pairs) {
                records.push(reading(&file));
            }
        }
    }
    records
}

fn counts(random: &mut Random) -> Vec<Vec<u8>> {
    let mut records = Vec::new();
    for count in [0, 1, 2, 8, 62, 63, 64] {
        let pairs = good(random, count);
        let size = file(&pairs).len();
        for room in [size - 1, size, size + 1, LARGEST_ROOM] {
            records.push(writing(room, &pairs));
        }
        records.push(reading(&file(&pairs)));
    }
    for count in [65, 66, 127, 128, 256 + 64, 1 << 15, (1 << 16) - 1] {
        let pairs = good(random, MOST_PAIRS);
        records.push(counted(LARGEST_FILE, count, &pairs));
        records.push(counted(LARGEST_ROOM, count, &pairs));
    }
    records
}

/// Each tempo that is refused, at each place of short lists and at both ends of the longest.
fn tempos(random: &mut Random) -> Vec<Vec<u8>> {
    let mut records = Vec::new();
    for (count, place) in places() {
        for tempo in BAD_TEMPOS.into_iter().chain([1, 16_777_215]) {
            let mut pairs = good(random, count);
            pairs[place].0 = tempo;
            records.push(writing(LARGEST_FILE, &pairs));
        }
    }
    records
}

fn places() -> [(usize, usize); 8] {
    [
        (1, 0),
        (2, 0),
        (2, 1),
        (3, 1),
        (8, 7),
        (64, 0),
        (64, 31),
        (64, 63),
    ]
}

/// Beat origins that are refused: negative, below the forerunner's, off a tick, too far.
fn origins(random: &mut Random) -> Vec<Vec<u8>> {
    let mut records = Vec::new();
    for (count, place) in places() {
        for _ in 0..40 {
            let mut pairs = good(random, count);
            pairs[place].1 = bad_origin(random, &pairs, place);
            records.push(writing(LARGEST_FILE, &pairs));
        }
    }
    records
}

/// Two and three reasons to refuse at once; no file fits into a room below 26 bytes.
fn two_at_once(random: &mut Random) -> Vec<Vec<u8>> {
    let mut records = Vec::new();
    for short in [0, 25] {
        for (origin, tempo) in [(0, 1), (1, 0), (0, 0), (2, 7), (7, 2)] {
            let mut both = good(random, 8);
            both[origin].1 = -1;
            let mut only_origin = both.clone();
            both[tempo].0 = 0;
            records.push(writing(LARGEST_FILE, &both));
            records.push(writing(short, &both));
            records.push(writing(short, &only_origin));
            only_origin = good(random, 8);
            only_origin[tempo].0 = 16_777_216;
            records.push(writing(short, &only_origin));
        }
        let mut full = good(random, MOST_PAIRS);
        records.push(counted(short, 65, &full));
        full[3].1 = 1;
        records.push(counted(LARGEST_FILE, 65, &full));
        records.push(counted(short, 65, &full));
    }
    records
}

// ---- random records

fn any(random: &mut Random) -> Vec<u8> {
    if random.coin() {
        any_writing(random)
    } else {
        reading(&midi_files::any(random))
    }
}

fn any_writing(random: &mut Random) -> Vec<u8> {
    let count = any_count(random);
    let mut pairs = good(random, count);
    let size = file(&pairs).len();
    let room = room(random, size);
    for _ in 0..random.pick(&[0, 0, 0, 1, 1, 2]) {
        if count > 0 {
            let place = random.below(count as u64) as usize;
            if random.coin() {
                pairs[place].0 = random.pick(&BAD_TEMPOS);
            } else {
                pairs[place].1 = bad_origin(random, &pairs, place);
            }
        }
    }
    if count == MOST_PAIRS && random.below(4) == 0 {
        return counted(room, random.between(65, 70) as usize, &pairs);
    }
    writing(room, &pairs)
}
