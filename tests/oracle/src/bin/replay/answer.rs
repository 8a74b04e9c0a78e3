//! The answers, written one after another. Every number is big-endian.

use oracle::time::HostTime;
use oracle::timeline::{SessionState, StartStopState, Timeline};
use oracle::wire::NodeId;
use oracle::SocketAddrPlain;

/// Every NaN is written as this one.
const NAN: u64 = 0x7ff8_0000_0000_0000;

#[derive(Default)]
pub struct Answers {
    pub bytes: Vec<u8>,
}

impl Answers {
    pub fn raw(&mut self, bytes: &[u8]) {
        self.bytes.extend_from_slice(bytes);
    }

    pub fn u8(&mut self, value: u8) {
        self.bytes.push(value);
    }

    pub fn u16(&mut self, value: u16) {
        self.raw(&value.to_be_bytes());
    }

    pub fn u32(&mut self, value: u32) {
        self.raw(&value.to_be_bytes());
    }

    pub fn i64(&mut self, value: i64) {
        self.raw(&value.to_be_bytes());
    }

    pub fn float(&mut self, value: f64) {
        let bits = if value.is_nan() { NAN } else { value.to_bits() };
        self.raw(&bits.to_be_bytes());
    }

    pub fn time(&mut self, time: &HostTime) {
        self.i64(time.0);
    }

    pub fn node(&mut self, node: &NodeId) {
        self.raw(&node.0);
    }

    pub fn addr(&mut self, addr: &SocketAddrPlain) {
        self.raw(&addr.ip);
        self.u16(addr.port);
    }

    pub fn line(&mut self, line: &Timeline) {
        self.i64(line.tempo.0);
        self.i64(line.beat_origin.0);
        self.i64(line.time_origin.0);
    }

    pub fn start_stop(&mut self, start_stop: &StartStopState) {
        self.u8(u8::from(start_stop.is_playing));
        self.i64(start_stop.beat.0);
        self.i64(start_stop.time.0);
    }

    pub fn state(&mut self, state: &SessionState) {
        self.line(&state.timeline);
        self.start_stop(&state.start_stop);
    }

    /// A byte 0, or a byte 1 and the field.
    pub fn optional<T>(&mut self, field: Option<&T>, write: impl FnOnce(&mut Self, &T)) {
        self.u8(u8::from(field.is_some()));
        if let Some(value) = field {
            write(self, value);
        }
    }
}
