//! First bytes 20 to 24: the reader and the four writers of wire.rs, with the refusals in front of them.

use crate::answer::Answers;
use crate::fields::{Fields, Stop};
use oracle::wire::{
    parse_message, serialize_discovery_alive, serialize_discovery_byebye,
    serialize_measurement_ping, serialize_measurement_pong, DiscoveryMsg, MeasurementMsg, Message,
};

/// What every byte of a room holds before the call.
const UNTOUCHED: u8 = 0xa5;
const ECHO_BOUND: usize = 503;

const ECHO_TOO_LONG: u8 = 3;
const UNREADABLE: u8 = 4;
pub const ROOM_TOO_SMALL: u8 = 7;

pub fn answer(first: u8, fields: &mut Fields, out: &mut Answers) -> Result<(), Stop> {
    match first {
        0x20 => read(fields.counted()?, out),
        0x21 => write_alive(fields, out)?,
        0x22 => {
            let room = fields.room()?;
            written(room, &serialize_discovery_byebye(&fields.node()?), out);
        }
        0x23 => {
            let room = fields.room()?;
            let ping = serialize_measurement_ping(fields.time()?, fields.optional(Fields::time)?);
            written(room, &ping, out);
        }
        _ => write_pong(fields, out)?,
    }
    Ok(())
}

fn read(packet: &[u8], out: &mut Answers) {
    match parse_message(packet) {
        None => out.u8(UNREADABLE),
        Some(message) => {
            out.u8(0);
            write_message(&message, out);
        }
    }
}

fn write_message(message: &Message, out: &mut Answers) {
    match message {
        Message::Discovery(discovery) => write_discovery(discovery, out),
        Message::Measurement(measurement) => write_measurement(measurement, out),
    }
}

fn write_discovery(message: &DiscoveryMsg, out: &mut Answers) {
    match message {
        DiscoveryMsg::Alive {
            node_id,
            timeline,
            start_stop,
            session_id,
            mep4,
        } => {
            out.u8(1);
            out.node(node_id);
            out.optional(timeline.as_ref(), Answers::line);
            out.optional(start_stop.as_ref(), Answers::start_stop);
            out.optional(session_id.as_ref(), Answers::node);
            out.optional(mep4.as_ref(), Answers::addr);
        }
        DiscoveryMsg::ByeBye { node_id } => {
            out.u8(2);
            out.node(node_id);
        }
    }
}

fn write_measurement(message: &MeasurementMsg, out: &mut Answers) {
    match message {
        MeasurementMsg::Ping {
            host_time,
            prev_ghost_time,
        } => {
            out.u8(3);
            out.time(host_time);
            out.optional(prev_ghost_time.as_ref(), Answers::time);
        }
        MeasurementMsg::Pong {
            session_id,
            ghost_time,
            ping_host_time,
            ping_prev_ghost_time,
        } => {
            out.u8(4);
            out.optional(session_id.as_ref(), Answers::node);
            out.time(ghost_time);
            out.time(ping_host_time);
            out.optional(ping_prev_ghost_time.as_ref(), Answers::time);
        }
    }
}

fn write_alive(fields: &mut Fields, out: &mut Answers) -> Result<(), Stop> {
    let room = fields.room()?;
    let packet = serialize_discovery_alive(
        &fields.node()?,
        &fields.node()?,
        &fields.line()?,
        &fields.start_stop()?,
        fields.optional(Fields::addr)?,
        fields.flag()?,
    );
    written(room, &packet, out);
    Ok(())
}

fn write_pong(fields: &mut Fields, out: &mut Answers) -> Result<(), Stop> {
    let room = fields.room()?;
    let session = fields.node()?;
    let shared_time = fields.time()?;
    let echo = fields.counted()?;
    if echo.len() > ECHO_BOUND {
        refused(ECHO_TOO_LONG, room, out);
    } else {
        written(
            room,
            &serialize_measurement_pong(&session, shared_time, echo),
            out,
        );
    }
    Ok(())
}

/// A writer's answer: the packet, and the rest of the room as it was.
fn written(room: usize, packet: &[u8], out: &mut Answers) {
    if packet.len() > room {
        refused(ROOM_TOO_SMALL, room, out);
    } else {
        out.u8(0);
        out.raw(packet);
        untouched(room - packet.len(), out);
    }
}

fn refused(number: u8, room: usize, out: &mut Answers) {
    out.u8(number);
    untouched(room, out);
}

pub fn untouched(length: usize, out: &mut Answers) {
    out.bytes.resize(out.bytes.len() + length, UNTOUCHED);
}
