//! What a commit would report. The core has no preview, so the commit is made, on a copy of the engine.

use crate::engine::{Engine, Output, PeerState};
use crate::time::HostTime;
use crate::timeline::SessionState;

/// The state that a commit of the asked one would report first, or the held one where it would report none; and the
/// micro-beats from the asked beat origin to its own.
pub fn preview(engine: &Engine, asked: &SessionState, at: HostTime) -> (SessionState, i64) {
    let outputs = copy_of(engine).commit_app_state(asked.clone(), at);
    let reported = outputs.into_iter().find_map(|output| match output {
        Output::StateChanged { state } => Some(state),
        _ => None,
    });
    let given = reported.unwrap_or_else(|| engine.state.clone());
    let (to, from) = (given.timeline.beat_origin, asked.timeline.beat_origin);
    (given, to.0.wrapping_sub(from.0))
}

/// The published engine cannot be cloned as a whole.
fn copy_of(engine: &Engine) -> Engine {
    let peers = engine.peers.iter();
    Engine {
        state: engine.state.clone(),
        interfaces: engine.interfaces.clone(),
        peers: peers.map(|(&id, peer)| (id, copy_of_peer(peer))).collect(),
        ..*engine
    }
}

fn copy_of_peer(peer: &PeerState) -> PeerState {
    PeerState {
        timeline_ghost: peer.timeline_ghost.clone(),
        start_stop_ghost: peer.start_stop_ghost.clone(),
        offsets: peer.offsets.clone(),
        ..*peer
    }
}
