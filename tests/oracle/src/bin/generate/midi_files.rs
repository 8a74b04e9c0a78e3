//! Files to be read as tempo lists: right, wrong and damaged ones.

use crate::packet::noise;
use crate::random::Random;
use crate::tempo_lists::{any_count, eight, file, good, largest};

/// Where the header's length, format, tracks and division stand, and the track's length and events.
const HEADER_LENGTH: usize = 4;
const FORMAT: usize = 8;
const TRACKS: usize = 10;
const DIVISION: usize = 12;
const TRACK_LENGTH: usize = 18;
const EVENTS: usize = 22;

/// The longest file of a record.
const LONGEST: usize = 1_024;

const END: [u8; 4] = [0x00, 0xff, 0x2f, 0x00];

pub fn sweep(random: &mut Random) -> Vec<Vec<u8>> {
    let mut files = prefixes();
    files.extend(one_byte_off(random, &file(&eight())));
    files.extend(one_byte_off(random, &file(&largest())));
    files.extend(wrong_heads());
    files.extend(wrong_tracks());
    files.extend(wrong_chunks());
    files
}

fn prefixes() -> Vec<Vec<u8>> {
    let wholes = [file(&[]), file(&eight()), file(&largest())];
    wholes
        .iter()
        .flat_map(|whole| (0..=whole.len()).map(|length| whole[..length].to_vec()))
        .collect()
}

/// Each byte changed in three ways and dropped, and one put in before it and behind the last.
fn one_byte_off(random: &mut Random, whole: &[u8]) -> Vec<Vec<u8>> {
    let mut files = Vec::new();
    for place in 0..=whole.len() {
        for byte in [0x00, 0x80, random.bits() as u8] {
            files.push([&whole[..place], &[byte], &whole[place..]].concat());
        }
        if place < whole.len() {
            for change in [0x01, 0x80, 1 + random.below(255) as u8] {
                let mut changed = whole.to_vec();
                changed[place] ^= change;
                files.push(changed);
            }
            files.push([&whole[..place], &whole[place + 1..]].concat());
        }
    }
    files
}

/// A file with these numbers of 16 bits in the header, in turn.
fn wrong_heads() -> Vec<Vec<u8>> {
    let numbers: [(usize, &[u16]); 4] = [
        (HEADER_LENGTH + 2, &[0, 5, 7, 8, 6 + 256]),
        (FORMAT, &[1, 2, 256]),
        (TRACKS, &[0, 2, 256, 257]),
        (DIVISION, &[0, 24, 480, 960, 999, 1_001, 0xe728, 0x83e8]),
    ];
    let mut files = Vec::new();
    for whole in [file(&[]), file(&eight())] {
        for (place, values) in numbers {
            for value in values {
                let mut changed = whole.clone();
                changed[place..place + 2].copy_from_slice(&value.to_be_bytes());
                files.push(changed);
            }
        }
        // A header that is longer, as its length says.
        let mut longer = [&whole[..14], &[0, 0], &whole[14..]].concat();
        longer[HEADER_LENGTH + 3] = 8;
        files.push(longer);
    }
    files
}

/// A file of these events, whose length is right.
fn with_events(events: &[u8]) -> Vec<u8> {
    let length = u32::try_from(events.len()).expect("a track is short");
    let mut file = file(&[]);
    file.truncate(EVENTS);
    file[TRACK_LENGTH..].copy_from_slice(&length.to_be_bytes());
    [&file[..], events].concat()
}

/// Tracks of a right length in which something else is wrong.
fn wrong_tracks() -> Vec<Vec<u8>> {
    let tempo = [0xff, 0x51, 0x03, 0x07, 0xa1, 0x20];
    let event = |delta: &[u8]| [delta, &tempo, &END].concat();
    let mut tracks: Vec<Vec<u8>> = vec![
        event(&[0x80, 0x00]),
        event(&[0x80, 0x7f]),
        event(&[0x80, 0x81, 0x00]),
        event(&[0x80, 0x80, 0x80, 0x00]),
        event(&[0x81, 0x80, 0x80, 0x80, 0x00]),
        event(&[0xff, 0xff, 0xff, 0xff, 0x7f]),
        event(&[0x80, 0x80, 0x80, 0x80, 0x00]),
        event(&[]),
        vec![],
        END[1..].to_vec(),
        vec![0x01, 0xff, 0x2f, 0x00],
        vec![0x81, 0x00, 0xff, 0x2f, 0x00],
        vec![0x80, 0x00, 0xff, 0x2f, 0x00],
        vec![0x00, 0xff, 0x2f, 0x01, 0x00],
        [END, END].concat(),
        [&[0x00][..], &tempo].concat(),
        [&END[..], &event(&[0x00])].concat(),
        [&[0x00, 0xff, 0x51, 0x03, 0, 0, 0][..], &END].concat(),
        [&[0x00, 0xff, 0x51, 0x02, 1, 2][..], &END].concat(),
        [&[0x00, 0xff, 0x51, 0x04, 0, 1, 2, 3][..], &END].concat(),
        [&[0x00, 0xff, 0x51, 0x83, 0x07, 0xa1, 0x20][..], &END].concat(),
        [&[0x00, 0xff, 0x58, 0x04, 4, 2, 24, 8][..], &END].concat(),
        [&[0x00, 0xff, 0x03, 0x01, 0x41][..], &END].concat(),
        [&[0x00, 0xff, 0x7f, 0x00][..], &END].concat(),
        [&[0x00, 0x90, 60, 64, 0x00, 0x80, 60, 64][..], &END].concat(),
        [&[0x00, 0xf0, 0x01, 0xf7][..], &END].concat(),
    ];
    tracks.push([&[&[0x00][..], &tempo].concat().repeat(65)[..], &END].concat());
    tracks.iter().map(|track| with_events(track)).collect()
}

/// Lengths of the track that are wrong, and chunks that no such file has.
fn wrong_chunks() -> Vec<Vec<u8>> {
    let mut files = Vec::new();
    for whole in [file(&[]), file(&eight())] {
        for off in [-1, 1, -4, 256, 1 << 16, 1 << 24] {
            let mut changed = whole.clone();
            let length = (whole.len() - EVENTS) as i32 + off;
            changed[TRACK_LENGTH..EVENTS].copy_from_slice(&length.to_be_bytes());
            files.push(changed);
        }
        // A second track behind the first.
        files.push([&whole[..], &file(&[])[14..]].concat());
        // A chunk of another kind before the track.
        files.push([&whole[..14], b"XFIH\0\0\0\0", &whole[14..]].concat());
    }
    files
}

/// A file, right or with bytes changed, dropped or put in, its length then sometimes made right again; or any bytes.
pub fn any(random: &mut Random) -> Vec<u8> {
    let count = any_count(random);
    let mut bytes = file(&good(random, count));
    match random.below(8) {
        0 => {}
        1 => {
            let length = random.below(60) as usize;
            bytes = noise(random, length);
        }
        _ => {
            for _ in 0..random.between(1, 3) {
                damage(random, &mut bytes);
            }
            if random.coin() && bytes.len() >= EVENTS {
                let length = (bytes.len() - EVENTS) as u32;
                bytes[TRACK_LENGTH..EVENTS].copy_from_slice(&length.to_be_bytes());
            }
        }
    }
    bytes.truncate(LONGEST);
    bytes
}

/// One byte changed, dropped or put in, mostly behind the heads; or an event's worth of them dropped.
fn damage(random: &mut Random, bytes: &mut Vec<u8>) {
    let first = if random.below(8) == 0 { 0 } else { EVENTS };
    if bytes.len() <= first {
        return;
    }
    let place = first + random.below((bytes.len() - first) as u64) as usize;
    let any = random.bits() as u8;
    let byte = random.pick(&[any, any, 0x00, 0x01, 0x7f, 0x80, 0x81, 0xff]);
    match random.below(5) {
        0 => {
            bytes.remove(place);
        }
        1 => bytes.insert(place, byte),
        2 => {
            let end = bytes.len().min(place + random.between(6, 10) as usize);
            bytes.drain(place..end);
        }
        _ => bytes[place] = byte,
    }
}
