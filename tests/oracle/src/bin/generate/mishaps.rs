//! What can be wrong with a packet: sizes that lie, stray bytes, foreign entries, bytes changed or lost.

use crate::packet::{noise, size_of, value, Key, Packet, Shape, KEYS};
use crate::random::Random;

/// The longest packet that a record holds.
pub const LONGEST: usize = 1_024;

/// What the size of an entry may falsely say: near the right size, the same in its low bits, ending at the
/// packet's end or beside it, the greatest ones, and such that a sum of 32 bits wraps into the packet.
pub const LIES: usize = 17;

/// Makes the size of the entry that begins at `at` one of the false ones.
pub fn lie(random: &mut Random, bytes: &mut [u8], at: usize, which: usize) {
    let key: Key = bytes[at..at + 4].try_into().unwrap();
    let right = size_of(&key) as u32;
    let begin = at as u32 + 8;
    let rest = bytes.len() as u32 - begin;
    let size = match which {
        0 => 0,
        1 => right - 1,
        2 => right + 1,
        3 => rest,
        4 => rest + 1,
        5 => rest.saturating_sub(1),
        6 => rest.saturating_sub(8),
        7 => right + (1 << 8),
        8 => right + (1 << 16),
        9 => right + (1 << 24),
        10 => right | 1 << 31,
        11 => (1 << 31) - 1,
        12 => 1 << 31,
        13 => u32::MAX,
        14 => 8u32.wrapping_neg(),
        15 => begin.wrapping_neg(),
        _ => (random.between(1, i64::from(begin)) as u32).wrapping_neg(),
    };
    bytes[at + 4..at + 8].copy_from_slice(&size.to_be_bytes());
}

/// A key that no message has, mostly close to one that it has.
pub fn foreign_key(random: &mut Random) -> Key {
    let mut key = random.pick(&KEYS);
    let place = random.below(4) as usize;
    match random.below(5) {
        0 => key = (random.bits() as u32).to_be_bytes(),
        1 => key[place] = random.bits() as u8,
        2 => key[place] ^= 1 << random.below(8),
        3 => key.reverse(),
        _ => key = random.pick(&[*b"aep4", *b"mep6", *b"aep6", *b"TMLN", [0; 4]]),
    }
    if KEYS.contains(&key) {
        *b"none"
    } else {
        key
    }
}

/// An entry that every message passes over, of up to `most` bytes; or one of another message's.
pub fn foreign_entry(random: &mut Random, packet: &mut Packet, most: usize) {
    if random.coin() {
        let key = random.pick(&KEYS);
        packet.right(random, &key);
    } else {
        let key = foreign_key(random);
        let length = random.below(most as u64 + 1) as usize;
        let value = noise(random, length);
        packet.entry(&key, &value);
    }
}

/// Entries in any order: of the shape, some again, some of a wrong size, some foreign.
pub fn jumbled(random: &mut Random, (message, keys): &Shape) -> Packet {
    let mut packet = Packet::new(random, *message);
    let mut left = keys.clone();
    while !left.is_empty() || random.below(3) == 0 {
        match random.below(6) {
            0 => foreign_entry(random, &mut packet, 30),
            1 if !message.keys().is_empty() => {
                let key = random.pick(message.keys());
                let size = beside(random, size_of(&key));
                packet.sized(random, &key, size);
            }
            2 if !keys.is_empty() => {
                let key = random.pick(keys);
                packet.right(random, &key);
            }
            _ if !left.is_empty() => {
                let key = left.swap_remove(random.below(left.len() as u64) as usize);
                packet.right(random, &key);
            }
            _ => {}
        }
    }
    packet
}

/// A size that is not the right one.
pub fn beside(random: &mut Random, right: usize) -> usize {
    random.pick(&[0, 1, right - 1, right + 1, right + 8, right + 256])
}

/// The bytes lengthened by an entry that passes for none, and by a few stray bytes, to exactly that length;
/// or cut to it.
pub fn filled(random: &mut Random, mut packet: Packet, length: usize) -> Vec<u8> {
    while packet.bytes.len() + 8 <= length {
        let room = length - packet.bytes.len() - 8;
        let key = foreign_key(random);
        let size = random.below(room as u64 + 1) as usize;
        let value = noise(random, random_or_all(size, room));
        packet.entry(&key, &value);
    }
    let stray = length.saturating_sub(packet.bytes.len());
    packet.bytes.extend(noise(random, stray));
    packet.bytes.truncate(length);
    packet.bytes
}

/// A small rest is taken whole, so that many packets end with their last entry.
fn random_or_all(size: usize, room: usize) -> usize {
    if room < 16 {
        room
    } else {
        size
    }
}

/// One to three bytes changed, put in, lost, or the rest cut off.
pub fn damage(random: &mut Random, bytes: &mut Vec<u8>) {
    for _ in 0..random.between(1, 3) {
        let at = random.below(bytes.len() as u64 + 1) as usize;
        let byte = random.bits() as u8;
        match random.below(5) {
            0 => bytes.insert(at, byte),
            1 => bytes.truncate(at),
            _ if at == bytes.len() => {}
            2 => {
                bytes.remove(at);
            }
            3 => bytes[at] = byte,
            _ => bytes[at] ^= 1 << random.below(8),
        }
    }
}

/// An entry at the end of which only the first bytes are there.
pub fn overrunning(random: &mut Random, packet: &mut Packet) {
    let key = random.pick(&KEYS);
    let value = value(random, &key);
    packet.entry(&key, &value);
    let lost = random.between(1, value.len() as i64) as usize;
    packet.bytes.truncate(packet.bytes.len() - lost);
}
