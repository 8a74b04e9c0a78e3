//! First byte 09: all that the engine holds, and the ping times.

use crate::answer::Answers;
use oracle::engine::{Engine, PeerState};
use oracle::pongs::PingTimes;
use oracle::time::HostTime;

pub fn dump(engine: &Engine, times: Option<&PingTimes>, out: &mut Answers) {
    out.node(&engine.node_id);
    out.u8(u8::from(engine.enabled));
    out.node(&engine.session_id);
    out.i64(engine.session_offset);
    out.state(&engine.state);
    out.time(&engine.next_broadcast);
    out.u32(engine.num_session_peers);
    out.u8(engine.interfaces.len() as u8);
    for (interface, addr) in &engine.interfaces {
        out.u32(interface.0);
        out.addr(addr);
    }
    out.u8(engine.peers.len() as u8);
    for (id, peer) in &engine.peers {
        out.node(id);
        let times = times.map_or(&[][..], |times| times.of(id));
        dump_peer(peer, times, out);
    }
}

fn dump_peer(peer: &PeerState, times: &[HostTime], out: &mut Answers) {
    assert_eq!(times.len(), peer.offsets.len(), "ping times are kept");
    out.optional(peer.session_id.as_ref(), Answers::node);
    out.optional(peer.timeline_ghost.as_ref(), Answers::line);
    out.optional(peer.start_stop_ghost.as_ref(), Answers::start_stop);
    out.time(&peer.last_seen);
    out.addr(&peer.addr);
    out.u8(peer.offsets.len() as u8);
    for &sample in &peer.offsets {
        out.i64(sample);
    }
    for time in times {
        out.time(time);
    }
    out.time(&peer.next_ping_time);
    out.u32(peer.ping_timeouts);
    out.u8(u8::from(peer.measuring));
}
