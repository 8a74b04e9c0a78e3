//! Packets, put together from a head and entries.

use crate::integers;
use crate::random::Random;

pub type Key = [u8; 4];

#[derive(Clone, Copy)]
pub enum Message {
    Alive,
    Response,
    Bye,
    Ping,
    Pong,
}

use Message::{Alive, Bye, Ping, Pong, Response};

pub const MESSAGES: [Message; 5] = [Alive, Response, Bye, Ping, Pong];
pub const MAGICS: [&[u8; 8]; 2] = [b"_asdp_v\x01", b"_link_v\x01"];
const TTL_AND_GROUP: std::ops::Range<usize> = 9..12;

const ALIVE_KEYS: [Key; 4] = [*b"tmln", *b"sess", *b"stst", *b"mep4"];
const PING_KEYS: [Key; 2] = [*b"__ht", *b"_pgt"];
const PONG_KEYS: [Key; 4] = [*b"sess", *b"__gt", *b"__ht", *b"_pgt"];

/// Every known key, of whatever message.
pub const KEYS: [Key; 7] = [
    *b"tmln", *b"sess", *b"stst", *b"mep4", *b"__ht", *b"_pgt", *b"__gt",
];

impl Message {
    pub fn magic(self) -> &'static [u8; 8] {
        match self {
            Alive | Response | Bye => MAGICS[0],
            Ping | Pong => MAGICS[1],
        }
    }

    pub fn kind(self) -> u8 {
        match self {
            Alive | Ping => 1,
            Response | Pong => 2,
            Bye => 3,
        }
    }

    /// The keys of its entries, in the order in which they are written.
    pub fn keys(self) -> &'static [Key] {
        match self {
            Alive | Response => &ALIVE_KEYS,
            Bye => &[],
            Ping => &PING_KEYS,
            Pong => &PONG_KEYS,
        }
    }

    /// Whether it cannot be read without that entry.
    fn needs(self, key: &Key) -> bool {
        matches!((self, key), (Ping, b"__ht") | (Pong, b"__gt" | b"__ht"))
    }
}

/// A message and the entries that it has.
pub type Shape = (Message, Vec<Key>);

/// Every message that can be read, with each choice of its entries.
pub fn shapes() -> Vec<Shape> {
    MESSAGES.into_iter().flat_map(shapes_of).collect()
}

fn shapes_of(message: Message) -> impl Iterator<Item = Shape> {
    let keys = message.keys();
    (0..1u32 << keys.len())
        .map(move |choice| {
            let chosen = |&place: &usize| choice >> place & 1 == 1;
            (0..keys.len()).filter(chosen).map(|i| keys[i]).collect()
        })
        .filter(move |chosen: &Vec<Key>| {
            let mut needed = keys.iter().filter(|key| message.needs(key));
            needed.all(|key| chosen.contains(key))
        })
        .map(move |chosen| (message, chosen))
}

/// The size that the value of a known key has.
pub fn size_of(key: &Key) -> usize {
    match key {
        b"tmln" => 24,
        b"stst" => 17,
        b"mep4" => 6,
        _ => 8,
    }
}

#[derive(Default)]
pub struct Packet {
    pub bytes: Vec<u8>,
    /// Where each entry begins.
    pub entries: Vec<usize>,
}

impl Packet {
    /// The head of a message as it is written; a measurement has no node.
    pub fn headed(message: Message, node: [u8; 8]) -> Self {
        let mut packet = Self::default();
        packet.bytes.extend(message.magic());
        packet.bytes.push(message.kind());
        if message.magic() == MAGICS[0] {
            let ttl = if matches!(message, Bye) { 0 } else { 5 };
            packet.bytes.extend([ttl, 0, 0]);
            packet.bytes.extend(node);
        }
        packet
    }

    /// The head of a message, at times with any TTL and group.
    pub fn new(random: &mut Random, message: Message) -> Self {
        let mut packet = Self::headed(message, id(random));
        if message.magic() == MAGICS[0] && random.below(3) == 0 {
            packet.bytes[TTL_AND_GROUP].copy_from_slice(&noise(random, TTL_AND_GROUP.len()));
        }
        packet
    }

    /// A packet of that shape, its entries in the order given.
    pub fn of(random: &mut Random, (message, keys): &Shape) -> Self {
        let mut packet = Self::new(random, *message);
        for key in keys {
            packet.right(random, key);
        }
        packet
    }

    pub fn entry(&mut self, key: &Key, value: &[u8]) -> &mut Self {
        self.entries.push(self.bytes.len());
        self.bytes.extend(key);
        self.bytes.extend((value.len() as u32).to_be_bytes());
        self.bytes.extend(value);
        self
    }

    /// An entry of the right size.
    pub fn right(&mut self, random: &mut Random, key: &Key) -> &mut Self {
        let value = value(random, key);
        self.entry(key, &value)
    }

    /// An entry of that size, right or wrong.
    pub fn sized(&mut self, random: &mut Random, key: &Key, size: usize) -> &mut Self {
        let mut value = value(random, key);
        while value.len() < size {
            value.push(random.bits() as u8);
        }
        self.entry(key, &value[..size])
    }
}

/// A value that fits the key.
pub fn value(random: &mut Random, key: &Key) -> Vec<u8> {
    match key {
        b"tmln" => [integers::tempo(random), int(random), int(random)]
            .map(i64::to_be_bytes)
            .concat(),
        b"stst" => {
            let numbers = [int(random), int(random)].map(i64::to_be_bytes).concat();
            [vec![random.flag()], numbers].concat()
        }
        b"mep4" => address(random).to_vec(),
        b"sess" => id(random).to_vec(),
        _ => int(random).to_be_bytes().to_vec(),
    }
}

pub fn int(random: &mut Random) -> i64 {
    match random.below(4) {
        0 => random.between(-1_000_000, 1_000_000_000),
        _ => integers::special(random),
    }
}

/// An id; at times with leading zeros, or at an end.
pub fn id(random: &mut Random) -> [u8; 8] {
    let few = random.of_digits_up_to(64);
    let any = random.bits();
    random.pick(&[0, 1, u64::MAX, few, any, any]).to_be_bytes()
}

pub fn address(random: &mut Random) -> [u8; 6] {
    let any = random.bits();
    let ip = random.pick(&[0, u64::from(u32::MAX), 0xc0a8_0001, any, any]) as u32;
    let port = random.pick(&[0, u64::from(u16::MAX), 20_808, any >> 32, any >> 32]) as u16;
    let mut bytes = [0; 6];
    bytes[..4].copy_from_slice(&ip.to_be_bytes());
    bytes[4..].copy_from_slice(&port.to_be_bytes());
    bytes
}

pub fn noise(random: &mut Random, length: usize) -> Vec<u8> {
    (0..length).map(|_| random.bits() as u8).collect()
}
