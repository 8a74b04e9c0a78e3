//! First bytes 01 to 09: the engine's calls. A refused call is answered here and never reaches it.

use crate::answer::Answers;
use crate::dump::dump;
use crate::fields::{Fields, Stop};
use crate::outputs::write_outputs;
use crate::Held;
use oracle::engine::{Engine, InterfaceId, IoErrorKind, Output};
use oracle::full::{self, is_full_for};
use oracle::pongs::{self, Pong};
use oracle::time::HostTime;
use oracle::SocketAddrPlain;

const LATEST: i64 = 1_000_000_000_000_000;
const SMALLEST_ROOM: usize = 4_096;
const LONGEST_PACKET: usize = 512;
const MOST_INTERFACES: usize = 4;

/// The number that a refused call answers.
pub struct Refusal(pub u8);

const TIME_OUT_OF_RANGE: Refusal = Refusal(1);
const ROOM_TOO_SMALL: Refusal = Refusal(2);
const PACKET_TOO_LONG: Refusal = Refusal(3);
const NEIGHBOURS_FULL: Refusal = Refusal(full::NEIGHBOURS_FULL);
const INTERFACES_FULL: Refusal = Refusal(6);
const DOUBLED_PONG: Refusal = Refusal(pongs::DOUBLED_PONG);

/// The outputs of a call with an answer buffer, or its refusal.
type Answer = Result<Vec<Output>, Refusal>;

pub fn answer(
    first: u8,
    held: &mut Held,
    fields: &mut Fields,
    out: &mut Answers,
) -> Result<(), Stop> {
    let rooms_tested = held.rooms_tested;
    let engine = &mut held.engine;
    match first {
        0x01 => {
            *engine = Engine::new(fields.node()?);
            out.u8(0);
        }
        0x02 => write_answer(packet(held, fields)?, rooms_tested, out),
        0x03 => write_answer(tick(engine, fields)?, rooms_tested, out),
        0x04 => write_answer(commit(engine, fields)?, rooms_tested, out),
        0x05 => write_answer(switch(engine, fields)?, rooms_tested, out),
        0x06 => {
            let added = add_interface(engine, fields.interface()?, fields.addr()?);
            out.u8(added.map_or_else(|refusal| refusal.0, |()| 0));
        }
        0x07 => {
            engine.remove_interface(fields.interface()?);
            out.u8(0);
        }
        0x08 => {
            engine.handle_io_error(fields.interface()?, io_error(fields.u8()?), HostTime(0));
            out.u8(0);
        }
        _ => dump(engine, held.times.as_ref(), out),
    }
    if let Some(times) = &mut held.times {
        times.follow(&held.engine);
    }
    Ok(())
}

fn packet(held: &mut Held, fields: &mut Fields) -> Result<Answer, Stop> {
    let interface = fields.interface()?;
    let from = fields.addr()?;
    let now = fields.time()?;
    let room = fields.room()?;
    let bytes = fields.counted()?;
    let times = held.times.as_ref();
    let pong = times.and_then(|_| Pong::heard(&held.engine, from, bytes));
    let taken = timely(now, room).and_then(|()| packet_taken(held, bytes, pong.as_ref()));
    Ok(taken.map(|()| {
        let outputs = held.engine.handle_packet(interface, from, bytes, now);
        if let (Some(times), Some(pong)) = (&mut held.times, pong) {
            times.take(pong);
        }
        outputs
    }))
}

fn tick(engine: &mut Engine, fields: &mut Fields) -> Result<Answer, Stop> {
    let now = fields.time()?;
    let room = fields.room()?;
    Ok(timely(now, room).map(|()| engine.handle_timer(now)))
}

fn commit(engine: &mut Engine, fields: &mut Fields) -> Result<Answer, Stop> {
    let now = fields.time()?;
    let room = fields.room()?;
    let state = fields.state()?;
    Ok(timely(now, room).map(|()| engine.commit_app_state(state, now)))
}

fn switch(engine: &mut Engine, fields: &mut Fields) -> Result<Answer, Stop> {
    let enabled = fields.flag()?;
    let now = fields.time()?;
    let room = fields.room()?;
    Ok(timely(now, room).map(|()| engine.set_enabled(enabled, now)))
}

/// Refusal 1.
pub fn in_time(now: HostTime) -> Result<(), Refusal> {
    if !(0..=LATEST).contains(&now.0) {
        return Err(TIME_OUT_OF_RANGE);
    }
    Ok(())
}

/// Refusals 1 and 2.
fn timely(now: HostTime, room: usize) -> Result<(), Refusal> {
    in_time(now)?;
    if room < SMALLEST_ROOM {
        return Err(ROOM_TOO_SMALL);
    }
    Ok(())
}

/// Refusals 3, 5 and 11.
fn packet_taken(held: &Held, bytes: &[u8], pong: Option<&Pong>) -> Result<(), Refusal> {
    if bytes.len() > LONGEST_PACKET {
        return Err(PACKET_TOO_LONG);
    }
    if is_full_for(&held.engine, bytes) {
        return Err(NEIGHBOURS_FULL);
    }
    let times = held.times.as_ref();
    if times.is_some_and(|times| times.is_doubled(pong)) {
        return Err(DOUBLED_PONG);
    }
    Ok(())
}

fn add_interface(
    engine: &mut Engine,
    interface: InterfaceId,
    addr: SocketAddrPlain,
) -> Result<(), Refusal> {
    let held = &engine.interfaces;
    if held.len() >= MOST_INTERFACES && !held.contains_key(&interface) {
        return Err(INTERFACES_FULL);
    }
    engine.add_interface(interface, addr);
    Ok(())
}

fn io_error(kind: u8) -> IoErrorKind {
    match kind % 3 {
        0 => IoErrorKind::JoinMulticastFailed,
        1 => IoErrorKind::OpenUnicastFailed,
        _ => IoErrorKind::SendFailed,
    }
}

/// The number, the answer's size, the answer, and where rooms are tested the byte that says that the rest is untouched.
fn write_answer(answer: Answer, rooms_tested: bool, out: &mut Answers) {
    match answer {
        Err(refusal) => {
            out.u8(refusal.0);
            out.u16(0);
        }
        Ok(outputs) => {
            out.u8(0);
            write_outputs(&outputs, out);
        }
    }
    if rooms_tested {
        out.u8(1);
    }
}
