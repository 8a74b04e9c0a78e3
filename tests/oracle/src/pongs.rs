//! The ping times of the pongs that were counted, which the Rust engine does not keep: it counts a pong as often as it comes.
//! So this table is kept beside it, from what it holds before and after each call, and a doubled pong is turned down in front
//! of it.

use crate::engine::{Engine, SocketAddrPlain};
use crate::time::HostTime;
use crate::wire::{parse_message, MeasurementMsg, Message, NodeId};
use std::collections::BTreeMap;

/// The number of the refusal.
pub const DOUBLED_PONG: u8 = 11;

/// A pong that has an owner, and what the engine holds of that one as the call begins.
pub struct Pong {
    owner: NodeId,
    ping_time: HostTime,
    measured: bool,
    /// Whether it names another session than the held one.
    moves: bool,
}

impl Pong {
    /// The pong that a packet is, if it is one and a neighbour has its address. An engine that is off hears none.
    pub fn heard(engine: &Engine, from: SocketAddrPlain, bytes: &[u8]) -> Option<Self> {
        if !engine.enabled {
            return None;
        }
        let Some(Message::Measurement(MeasurementMsg::Pong {
            session_id,
            ping_host_time,
            ..
        })) = parse_message(bytes)
        else {
            return None;
        };
        let (&owner, held) = engine.peers.iter().find(|(_, peer)| peer.addr == from)?;
        Some(Pong {
            owner,
            ping_time: ping_host_time,
            measured: held.measuring,
            moves: session_id.is_some() && session_id != held.session_id,
        })
    }
}

/// The ping times of each neighbour that has samples, one for each of them and in their order.
#[derive(Default)]
pub struct PingTimes {
    of: BTreeMap<NodeId, Vec<HostTime>>,
}

impl PingTimes {
    pub fn of(&self, neighbour: &NodeId) -> &[HostTime] {
        self.of.get(neighbour).map_or(&[], Vec::as_slice)
    }

    /// Whether a packet is to be turned down for the pong that is heard in it.
    pub fn is_doubled(&self, pong: Option<&Pong>) -> bool {
        pong.is_some_and(|pong| {
            let counted = self.of(&pong.owner).contains(&pong.ping_time);
            counted && pong.measured && !pong.moves
        })
    }

    /// After a call that took the pong; `follow` comes next.
    pub fn take(&mut self, pong: Pong) {
        if pong.moves {
            self.of.remove(&pong.owner);
        }
        if pong.measured {
            self.of.entry(pong.owner).or_default().push(pong.ping_time);
        }
    }

    /// After each call: forgets what was cleared or is gone.
    pub fn follow(&mut self, engine: &Engine) {
        let held = &engine.peers;
        self.of
            .retain(|id, _| held.get(id).is_some_and(|peer| !peer.offsets.is_empty()));
        for (id, peer) in &engine.peers {
            assert_eq!(
                self.of(id).len(),
                peer.offsets.len(),
                "a ping time for each sample"
            );
        }
    }
}
