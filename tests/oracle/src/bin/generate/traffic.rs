//! The ordinary packets of a session, as the reader gets them and as the writers make them, for timing.

use crate::music;
use crate::packet::Message::{self, Alive, Bye, Ping, Pong, Response};
use crate::packet::Packet;
use crate::random::Random;
use crate::record::{Script, State};

/// How often each message comes, of 100.
const SHARES: [(Message, u64); 5] = [
    (Alive, 40),
    (Response, 18),
    (Bye, 2),
    (Ping, 20),
    (Pong, 20),
];

/// How many bytes of a state are its line.
const LINE: usize = 24;
const ADDRESS: [u8; 6] = [192, 168, 1, 20, 0x51, 0x48];

/// What one packet of a session says.
struct Said {
    message: Message,
    node: [u8; 8],
    session: [u8; 8],
    state: State,
    time: i64,
    shared_time: i64,
    /// The previous shared time, which the first ping of a measurement has not.
    prev: Option<i64>,
}

/// A script of packets for the reader.
pub fn received(random: &mut Random, count: usize) -> Vec<u8> {
    let mut script = Script::default();
    for _ in 0..count {
        script.packet(&said(random).packet());
    }
    script.bytes
}

/// A script of calls of the writers, each with a room of the packet's size.
pub fn sent(random: &mut Random, count: usize) -> Vec<u8> {
    let mut script = Script::default();
    for _ in 0..count {
        said(random).record(&mut script);
    }
    script.bytes
}

fn said(random: &mut Random) -> Said {
    let state = music::state(random);
    let time = music::time(random, &state);
    let shared_time = time + random.between(-1_000_000, 1_000_000);
    Said {
        message: random.share(&SHARES),
        node: random.bits().to_be_bytes(),
        session: random.bits().to_be_bytes(),
        state,
        time,
        shared_time,
        prev: (random.below(20) > 0).then_some(shared_time - 30_000),
    }
}

impl Said {
    fn packet(&self) -> Vec<u8> {
        let mut packet = Packet::headed(self.message, self.node);
        match self.message {
            Alive | Response => {
                let mut state = Script::default();
                let (line, start_stop) = state.state(&self.state).bytes.split_at(LINE);
                packet.entry(b"tmln", line);
                packet.entry(b"sess", &self.session);
                packet.entry(b"stst", start_stop);
                packet.entry(b"mep4", &ADDRESS);
            }
            Bye => {}
            Ping => packet.bytes.extend(self.echo()),
            Pong => {
                packet.entry(b"sess", &self.session);
                packet.entry(b"__gt", &self.shared_time.to_be_bytes());
                packet.bytes.extend(self.echo());
            }
        }
        packet.bytes
    }

    /// The entries of a ping.
    fn echo(&self) -> Vec<u8> {
        let mut packet = Packet::default();
        packet.entry(b"__ht", &self.time.to_be_bytes());
        if let Some(time) = self.prev {
            packet.entry(b"_pgt", &time.to_be_bytes());
        }
        packet.bytes
    }

    fn record(&self, script: &mut Script) {
        let room = self.packet().len();
        match self.message {
            Alive | Response => {
                script
                    .byte(0x21)
                    .short(room)
                    .raw(&self.node)
                    .raw(&self.session);
                script.state(&self.state).optional(Some(&ADDRESS));
                script.byte(u8::from(matches!(self.message, Response)));
            }
            Bye => {
                script.byte(0x22).short(room).raw(&self.node);
            }
            Ping => {
                let prev = self.prev.map(i64::to_be_bytes);
                script.byte(0x23).short(room).int(self.time);
                script.optional(prev.as_ref().map(|time| &time[..]));
            }
            Pong => {
                let echo = self.echo();
                script.byte(0x24).short(room).raw(&self.session);
                script.int(self.shared_time).short(echo.len()).raw(&echo);
            }
        }
    }
}
