//! Packets for the reader: a sweep that goes through each case once, and random ones.

use crate::mishaps::{
    beside, damage, filled, foreign_entry, jumbled, lie, overrunning, LIES, LONGEST,
};
use crate::packet::{noise, shapes, size_of, Message, Packet, Shape, MAGICS, MESSAGES};
use crate::random::Random;

pub fn sweep(random: &mut Random) -> Vec<Vec<u8>> {
    let mut packets = prefixes(random);
    packets.extend(stray_ends(random));
    packets.extend(kinds(random));
    packets.extend(wrong_magics(random));
    packets.extend(lengths(random));
    packets.extend(wrong_sizes(random));
    packets.extend(playing_bytes(random));
    packets
}

/// Each readable shape, cut at every byte.
fn prefixes(random: &mut Random) -> Vec<Vec<u8>> {
    let mut packets = Vec::new();
    for shape in shapes() {
        let whole = Packet::of(random, &shape).bytes;
        packets.extend((0..=whole.len()).map(|length| whole[..length].to_vec()));
    }
    packets
}

/// Each readable shape with 1 to 20 bytes after it.
fn stray_ends(random: &mut Random) -> Vec<Vec<u8>> {
    let mut packets = Vec::new();
    for shape in shapes() {
        for length in 1..=20 {
            let bytes = Packet::of(random, &shape).bytes;
            packets.push([bytes, noise(random, length)].concat());
        }
    }
    packets
}

/// Both magics with every kind, before all entries of a message.
fn kinds(random: &mut Random) -> Vec<Vec<u8>> {
    let mut packets = Vec::new();
    for message in [Message::Alive, Message::Pong] {
        for kind in 0..=255 {
            let mut packet = whole(random, message);
            packet.bytes[8] = kind;
            packets.push(packet.bytes);
        }
    }
    packets
}

/// A magic with one byte wrong, by one bit or any way.
fn wrong_magics(random: &mut Random) -> Vec<Vec<u8>> {
    let mut packets = Vec::new();
    for message in MESSAGES {
        for place in 0..8 {
            let other = 1 + random.below(255) as u8;
            for change in [1, 0x20, 0x80, other] {
                let mut packet = whole(random, message);
                packet.bytes[place] ^= change;
                packets.push(packet.bytes);
            }
        }
    }
    packets
}

/// Every length: random bytes, and each message filled up or cut to it.
fn lengths(random: &mut Random) -> Vec<Vec<u8>> {
    let mut packets = Vec::new();
    for length in 0..=LONGEST {
        packets.push(noise(random, length));
        for message in MESSAGES {
            let packet = whole(random, message);
            packets.push(filled(random, packet, length));
        }
    }
    packets
}

/// Each entry of each message with a wrong size: before, after or in place of a right one, or only said.
fn wrong_sizes(random: &mut Random) -> Vec<Vec<u8>> {
    let mut packets = Vec::new();
    for message in MESSAGES {
        for place in 0..message.keys().len() {
            let right = size_of(&message.keys()[place]);
            for size in [0, right - 1, right, right + 1, right + 256] {
                packets.extend(beside_a_right_one(random, message, place, size));
            }
            for which in 0..LIES {
                let mut packet = whole(random, message);
                let at = packet.entries[place];
                lie(random, &mut packet.bytes, at, which);
                packets.push(packet.bytes);
            }
        }
    }
    packets
}

/// A message with one entry of that size after a right one of the same key, before it, and alone.
fn beside_a_right_one(
    random: &mut Random,
    message: Message,
    place: usize,
    size: usize,
) -> [Vec<u8>; 3] {
    let right = size_of(&message.keys()[place]);
    [vec![right, size], vec![size, right], vec![size]].map(|sizes| {
        let mut packet = Packet::new(random, message);
        for (index, key) in message.keys().iter().enumerate() {
            if index == place {
                for &size in &sizes {
                    packet.sized(random, key, size);
                }
            } else {
                packet.right(random, key);
            }
        }
        packet.bytes
    })
}

fn playing_bytes(random: &mut Random) -> Vec<Vec<u8>> {
    (0..=255)
        .map(|byte| {
            let mut packet = Packet::of(random, &(Message::Alive, vec![*b"stst"]));
            let value = packet.entries[0] + 8;
            packet.bytes[value] = byte;
            packet.bytes
        })
        .collect()
}

/// A message with all its entries.
fn whole(random: &mut Random, message: Message) -> Packet {
    Packet::of(random, &(message, message.keys().to_vec()))
}

/// A readable shape, each message as likely as the others.
fn shape(random: &mut Random, shapes: &[Shape]) -> Shape {
    let kind = random.below(MESSAGES.len() as u64) as usize;
    let mut of_kind = shapes.to_vec();
    of_kind.retain(|(message, _)| *message as usize == kind);
    of_kind.swap_remove(random.below(of_kind.len() as u64) as usize)
}

pub fn random(random: &mut Random, shapes: &[Shape]) -> Vec<u8> {
    let shape = shape(random, shapes);
    let mut packet = match random.below(2) {
        0 => Packet::of(random, &shape),
        _ => jumbled(random, &shape),
    };
    match random.below(12) {
        0 | 1 => {}
        2 | 3 => damage(random, &mut packet.bytes),
        4 => one_lie(random, &mut packet),
        5 => overrunning(random, &mut packet),
        6 => {
            let length = random.between(1, 20) as usize;
            packet.bytes.extend(noise(random, length));
        }
        7 => {
            let length = random.below(LONGEST as u64 + 1) as usize;
            return filled(random, packet, length);
        }
        8 => packet = incomplete(random, shape.0),
        9 => return noise_after_head(random, shape.0),
        10 => packet.bytes[8] = random.below(5) as u8,
        _ => foreign_entry(random, &mut packet, 300),
    }
    packet.bytes.truncate(LONGEST);
    packet.bytes
}

fn one_lie(random: &mut Random, packet: &mut Packet) {
    if !packet.entries.is_empty() {
        let at = random.pick(&packet.entries);
        let which = random.below(LIES as u64) as usize;
        lie(random, &mut packet.bytes, at, which);
    }
}

/// A message with some entries, needed or not, each right, of a wrong size or absent.
fn incomplete(random: &mut Random, message: Message) -> Packet {
    let mut packet = Packet::new(random, message);
    for key in message.keys() {
        match random.below(4) {
            0 => {}
            1 => {
                let size = beside(random, size_of(key));
                packet.sized(random, key, size);
            }
            _ => {
                packet.right(random, key);
            }
        }
    }
    packet
}

/// Random bytes after nothing, a magic, or a head.
fn noise_after_head(random: &mut Random, message: Message) -> Vec<u8> {
    let head = match random.below(3) {
        0 => Vec::new(),
        1 => random.pick(&MAGICS).to_vec(),
        _ => Packet::new(random, message).bytes,
    };
    let length = random.of_digits_up_to(9) as usize;
    [head, noise(random, length)].concat()
}
