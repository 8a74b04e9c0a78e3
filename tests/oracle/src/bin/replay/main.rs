//! `replay [--at-once] [--times]`: reads the records of a script on standard input and writes one answer for each, with
//! `--at-once` before it waits for more. Ping times are kept while rooms are tested, and with `--times` always.

mod answer;
mod calls;
mod dump;
mod fields;
mod outputs;
mod packets;
mod preview;
mod tempo_lists;
mod values;

use answer::Answers;
use fields::{Fields, Stop};
use oracle::engine::Engine;
use oracle::pongs::PingTimes;
use oracle::wire::NodeId;
use std::fs::File;
use std::io::{self, Read, Write};
use std::os::fd::AsFd;

/// The size of a piece of input, and how much output is gathered before it is written.
const PIECE: usize = 1 << 18;

/// What one record leaves to the next.
struct Held {
    engine: Engine,
    /// None while they are not kept: no pong is turned down then. The benchmark, which has none to turn down, times the Rust alone.
    times: Option<PingTimes>,
    times_always: bool,
    /// Whether an answer tells that the rest of its room is untouched.
    rooms_tested: bool,
}

impl Held {
    fn new(times_always: bool) -> Self {
        Held {
            engine: Engine::new(NodeId([0; 8])),
            times: Some(PingTimes::default()),
            times_always,
            rooms_tested: true,
        }
    }

    fn test_rooms(&mut self, tested: bool) {
        self.rooms_tested = tested;
        let times = self.times.take().unwrap_or_default();
        self.times = (tested || self.times_always).then_some(times);
    }
}

/// Answers one record. Its fields are read to the end before anything is written or changed.
fn answer(held: &mut Held, fields: &mut Fields, out: &mut Answers) -> Result<(), Stop> {
    match fields.u8()? {
        first @ 0x01..=0x09 => calls::answer(first, held, fields, out),
        0x0a => fields.flag().map(|flag| held.test_rooms(flag)),
        // Here every call is made in place.
        0x0b => fields.flag().map(drop),
        first @ 0x10..=0x1b => values::answer(first, fields, out),
        first @ 0x20..=0x24 => packets::answer(first, fields, out),
        first @ 0x30..=0x31 => tempo_lists::answer(first, fields, out),
        0x32 => preview::answer(&held.engine, fields, out),
        _ => Err(Stop::Unreadable),
    }
}

/// Answers the records of one piece; gives how many bytes they had and why it ended.
fn answer_piece(
    held: &mut Held,
    piece: &[u8],
    out: &mut Answers,
    to: &mut impl Write,
) -> io::Result<(usize, Stop)> {
    let mut used = 0;
    loop {
        let mut fields = Fields::new(&piece[used..]);
        if let Err(stop) = answer(held, &mut fields, out) {
            return Ok((used, stop));
        }
        used = piece.len() - fields.left();
        if out.bytes.len() >= PIECE {
            to.write_all(&out.bytes)?;
            out.bytes.clear();
        }
    }
}

fn replay(
    mut held: Held,
    from: &mut impl Read,
    to: &mut impl Write,
    at_once: bool,
) -> io::Result<()> {
    let mut out = Answers::default();
    let mut buffer = vec![0; PIECE];
    let mut unread = 0;
    loop {
        let got = from.read(&mut buffer[unread..])?;
        let (used, stop) = answer_piece(&mut held, &buffer[..unread + got], &mut out, to)?;
        if got == 0 || matches!(stop, Stop::Unreadable) {
            return to.write_all(&out.bytes);
        }
        if at_once {
            to.write_all(&out.bytes)?;
            out.bytes.clear();
        }
        buffer.copy_within(used..unread + got, 0);
        unread = unread + got - used;
    }
}

fn main() -> io::Result<()> {
    // Plain files: pieces are read and written as they are, with no further buffer.
    let mut from = File::from(io::stdin().as_fd().try_clone_to_owned()?);
    let mut to = File::from(io::stdout().as_fd().try_clone_to_owned()?);
    let given = |option| std::env::args().skip(1).any(|argument| argument == option);
    let held = Held::new(given("--times"));
    replay(held, &mut from, &mut to, given("--at-once"))
}
