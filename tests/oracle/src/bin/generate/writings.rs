//! Records of the writers: a sweep over rooms and echoes, and random ones.

use crate::integers;
use crate::mishaps::{damage, jumbled, LONGEST};
use crate::packet::{address, id, int, noise, Message, Packet};
use crate::random::Random;
use crate::record::Script;

/// Where the echo of a ping begins.
const ECHO: usize = 9;
const LARGEST_ROOM: usize = 8_192;

/// A writer with the fields that decide its packet's size.
#[derive(Clone)]
pub enum Writer {
    Alive { mep4: bool, response: bool },
    Bye,
    Ping { prev: bool },
    Pong { echo: Vec<u8> },
}

use Writer::{Alive, Bye, Ping, Pong};

impl Writer {
    pub fn size(&self) -> usize {
        match self {
            Alive { mep4: false, .. } => 93,
            Alive { mep4: true, .. } => 107,
            Bye => 20,
            Ping { prev: false } => 25,
            Ping { prev: true } => 41,
            Pong { echo } => 41 + echo.len(),
        }
    }

    /// A record with that room, and any values in the other fields.
    fn record(&self, random: &mut Random, room: usize) -> Vec<u8> {
        let mut script = Script::default();
        match self {
            Alive { mep4, response } => {
                script
                    .byte(0x21)
                    .short(room)
                    .raw(&id(random))
                    .raw(&id(random));
                script
                    .int(integers::tempo(random))
                    .int(int(random))
                    .int(int(random));
                script.byte(random.flag()).int(int(random)).int(int(random));
                script.optional(mep4.then(|| address(random)).as_ref().map(|a| &a[..]));
                script.byte(if *response { random.flag().max(1) } else { 0 });
            }
            Bye => {
                script.byte(0x22).short(room).raw(&id(random));
            }
            Ping { prev } => {
                script.byte(0x23).short(room).int(int(random));
                let time = int(random).to_be_bytes();
                script.optional(prev.then_some(&time[..]));
            }
            Pong { echo } => {
                script
                    .byte(0x24)
                    .short(room)
                    .raw(&id(random))
                    .int(int(random));
                script.short(echo.len()).raw(echo);
            }
        }
        script.bytes
    }
}

pub fn sweep(random: &mut Random) -> Vec<Vec<u8>> {
    let mut records = Vec::new();
    for writer in each(random) {
        for room in 0..=writer.size() + 3 {
            records.push(writer.record(random, room));
        }
        records.push(writer.record(random, LARGEST_ROOM));
    }
    for length in 0..=LONGEST {
        let writer = Pong {
            echo: noise(random, length),
        };
        let size = writer.size();
        for room in [size - 1, size, size + 1] {
            records.push(writer.record(random, room));
        }
    }
    records
}

/// Each writer with each choice of what it may leave out; pongs to pings, and with echoes at the bound.
fn each(random: &mut Random) -> Vec<Writer> {
    let choices = [(false, false), (false, true), (true, false), (true, true)];
    let mut writers: Vec<Writer> = choices
        .map(|(mep4, response)| Alive { mep4, response })
        .to_vec();
    writers.extend([Bye, Ping { prev: false }, Ping { prev: true }]);
    for keys in [vec![], vec![*b"__ht"], vec![*b"__ht", *b"_pgt"]] {
        let ping = Packet::of(random, &(Message::Ping, keys)).bytes;
        writers.push(Pong {
            echo: ping[ECHO..].to_vec(),
        });
    }
    for length in [503, 504] {
        writers.push(Pong {
            echo: noise(random, length),
        });
    }
    writers
}

pub fn random(random: &mut Random) -> Vec<u8> {
    let writer = match random.below(4) {
        0 => Alive {
            mep4: random.coin(),
            response: random.coin(),
        },
        1 => Bye,
        2 => Ping {
            prev: random.coin(),
        },
        _ => Pong { echo: echo(random) },
    };
    let room = room(random, writer.size());
    writer.record(random, room)
}

/// A room, mostly near the packet's size.
fn room(random: &mut Random, size: usize) -> usize {
    let below = random.below(size as u64) as usize;
    let above = size + random.below(300) as usize;
    let any = random.below(LARGEST_ROOM as u64 + 1) as usize;
    match random.below(16) {
        0 => any,
        1 => random.pick(&[0, 512, 4_096, LARGEST_ROOM]),
        _ => random.pick(&[size, size, size + 1, size - 1, below, above, above]),
    }
}

/// What follows byte 8 of a ping, right, jumbled or damaged; or any bytes.
fn echo(random: &mut Random) -> Vec<u8> {
    let prev = random.coin();
    let keys = &Message::Ping.keys()[..1 + usize::from(prev)];
    let shape = (Message::Ping, keys.to_vec());
    match random.below(5) {
        0 | 1 => Packet::of(random, &shape).bytes.split_off(ECHO),
        2 => jumbled(random, &shape).bytes.split_off(ECHO),
        3 => {
            let mut bytes = jumbled(random, &shape).bytes.split_off(ECHO);
            damage(random, &mut bytes);
            bytes
        }
        _ => {
            let any = random.below(LONGEST as u64 + 1) as usize;
            let length = random.pick(&[any, any / 2, 502, 503, 504, 505]);
            noise(random, length)
        }
    }
}
