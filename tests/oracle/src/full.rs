//! The refusal of one neighbour too many. The Rust engine has no bound, so this stands in front of it.

use crate::engine::Engine;
use crate::wire::{parse_message, DiscoveryMsg, Message};

/// The number of the refusal.
pub const NEIGHBOURS_FULL: u8 = 5;

const MOST_NEIGHBOURS: usize = 16;

/// Whether the packet is of one neighbour more than an engine can have. It is read only where no further one fits.
pub fn is_full_for(engine: &Engine, bytes: &[u8]) -> bool {
    if !engine.enabled || engine.peers.len() < MOST_NEIGHBOURS {
        return false;
    }
    match parse_message(bytes) {
        Some(Message::Discovery(DiscoveryMsg::Alive { node_id, .. })) => {
            node_id != engine.node_id && !engine.peers.contains_key(&node_id)
        }
        _ => false,
    }
}
