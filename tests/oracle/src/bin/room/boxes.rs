//! A box of the room: an engine with a clock, cables and a timer.

use crate::network::Packet;
use crate::scenario::Declared;
use oracle::engine::{Engine, InterfaceId, Output};
use oracle::full::{is_full_for, NEIGHBOURS_FULL};
use oracle::pongs::{PingTimes, Pong, DOUBLED_PONG};
use oracle::time::HostTime;
use oracle::timeline::SessionState;
use oracle::wire::NodeId;
use oracle::SocketAddrPlain;

/// The ids of box number i begin at this times i + 1: an engine takes the next one when it is switched off.
pub const IDS: u64 = 256;

const FIRST_PORT: u16 = 20_808;

pub struct RoomBox {
    pub name: char,
    pub shift: i64,
    pub engine: Engine,
    pub times: PingTimes,
    /// Whether doubled pongs count, as in the Rust.
    alone: bool,
    pub cables_in: bool,
    /// When its timer fires, in the room's time.
    pub timer: Option<i64>,
}

impl RoomBox {
    pub fn new(number: usize, declared: &Declared, alone: bool) -> Self {
        let node_id = IDS * (number as u64 + 1);
        let mut engine = Engine::new(NodeId(node_id.to_be_bytes()));
        for interface in 1..=declared.ports as u8 {
            let addr = SocketAddrPlain {
                ip: [10, 0, interface, number as u8 + 1],
                port: FIRST_PORT + number as u16,
            };
            engine.add_interface(InterfaceId(interface.into()), addr);
        }
        RoomBox {
            name: declared.name,
            shift: declared.shift,
            engine,
            times: PingTimes::default(),
            alone,
            cables_in: true,
            timer: None,
        }
    }

    pub fn host_time(&self, now: i64) -> HostTime {
        HostTime(now + self.shift)
    }

    /// The outputs of its engine on a packet, or the number of the refusal. `times.follow` comes next.
    pub fn hear(
        &mut self,
        interface: InterfaceId,
        packet: &Packet,
        now: HostTime,
    ) -> Result<Vec<Output>, u8> {
        let Packet { from, bytes, .. } = packet;
        if is_full_for(&self.engine, bytes) {
            return Err(NEIGHBOURS_FULL);
        }
        let pong = Pong::heard(&self.engine, *from, bytes);
        if !self.alone && self.times.is_doubled(pong.as_ref()) {
            return Err(DOUBLED_PONG);
        }
        let outputs = self.engine.handle_packet(interface, *from, bytes, now);
        if let Some(pong) = pong {
            self.times.take(pong);
        }
        Ok(outputs)
    }

    /// Its state with a line of so many beats a minute from a time on.
    pub fn with_tempo(&self, tempo: i64, from: HostTime) -> SessionState {
        let mut state = self.engine.state.clone();
        state.set_tempo(tempo as f64, from);
        state
    }

    /// Sets the timer to a host time. One for this moment or before it fires a microsecond later: a neighbour
    /// that was seen exactly 6 seconds ago is kept, with a timer for the moment itself.
    pub fn set_timer(&mut self, at: HostTime, now: i64) {
        self.timer = Some((at.0 - self.shift).max(now + 1));
    }
}
