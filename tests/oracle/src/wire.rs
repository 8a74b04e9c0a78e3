use crate::engine::SocketAddrPlain;
// SPDX-License-Identifier: Apache-2.0

use crate::time::{HostTime, MicroBeats, TempoWire};
use crate::timeline::{StartStopState, Timeline};

pub const ASDP_MAGIC: &[u8; 8] = b"_asdp_v\x01";
pub const LINK_MAGIC: &[u8; 8] = b"_link_v\x01";

#[derive(Debug, Clone, Copy, PartialEq, Eq, PartialOrd, Ord, Hash)]
pub struct NodeId(pub [u8; 8]);

#[derive(Debug, Clone, PartialEq)]
pub enum DiscoveryMsg {
    Alive {
        node_id: NodeId,
        timeline: Option<Timeline>,
        start_stop: Option<StartStopState>,
        session_id: Option<NodeId>,
        mep4: Option<crate::SocketAddrPlain>,
    },
    ByeBye {
        node_id: NodeId,
    },
}

#[derive(Debug, Clone, PartialEq)]
pub enum MeasurementMsg {
    Ping {
        host_time: HostTime,
        prev_ghost_time: Option<HostTime>,
    },
    Pong {
        session_id: Option<NodeId>,
        ghost_time: HostTime,
        ping_host_time: HostTime,
        ping_prev_ghost_time: Option<HostTime>,
    },
}

#[derive(Debug, Clone, PartialEq)]
pub enum Message {
    Discovery(DiscoveryMsg),
    Measurement(MeasurementMsg),
}

pub fn parse_message(bytes: &[u8]) -> Option<Message> {
    if bytes.len() < 8 {
        return None;
    }
    let magic = &bytes[0..8];
    if magic == ASDP_MAGIC {
        if bytes.len() < 20 {
            return None;
        }
        let msg_type = bytes[8];
        let mut node_id = [0u8; 8];
        node_id.copy_from_slice(&bytes[12..20]);
        let node_id = NodeId(node_id);

        if msg_type == 3 {
            return Some(Message::Discovery(DiscoveryMsg::ByeBye { node_id }));
        } else if msg_type == 1 || msg_type == 2 {
            let mut timeline = None;
            let mut start_stop = None;
            let mut session_id = None;
            let mut mep4: Option<crate::SocketAddrPlain> = None;

            let mut offset = 20;
            while offset + 8 <= bytes.len() {
                let key = &bytes[offset..offset + 4];
                let size =
                    u32::from_be_bytes(bytes[offset + 4..offset + 8].try_into().unwrap()) as usize;
                offset += 8;
                if offset + size > bytes.len() {
                    break;
                }
                let value = &bytes[offset..offset + size];
                match key {
                    b"tmln" if size == 24 => {
                        let tempo = TempoWire(i64::from_be_bytes(value[0..8].try_into().unwrap()));
                        let beat_origin =
                            MicroBeats(i64::from_be_bytes(value[8..16].try_into().unwrap()));
                        let time_origin =
                            HostTime(i64::from_be_bytes(value[16..24].try_into().unwrap()));
                        timeline = Some(Timeline {
                            tempo,
                            beat_origin,
                            time_origin,
                        });
                    }
                    b"stst" if size == 17 => {
                        let is_playing = value[0] != 0;
                        let beat = MicroBeats(i64::from_be_bytes(value[1..9].try_into().unwrap()));
                        let time = HostTime(i64::from_be_bytes(value[9..17].try_into().unwrap()));
                        start_stop = Some(StartStopState {
                            is_playing,
                            beat,
                            time,
                        });
                    }
                    b"sess" if size == 8 => {
                        let mut sess = [0u8; 8];
                        sess.copy_from_slice(value);
                        session_id = Some(NodeId(sess));
                    }
                    b"mep4" if size == 6 => {
                        let mut ip = [0u8; 4];
                        ip.copy_from_slice(&value[0..4]);
                        let port = u16::from_be_bytes(value[4..6].try_into().unwrap());
                        mep4 = Some(crate::SocketAddrPlain { ip, port });
                        // println!("PARSED MEP4: ip={:?} port={}", ip, port);
                    }
                    _ => {}
                }
                offset += size;
            }
            return Some(Message::Discovery(DiscoveryMsg::Alive {
                node_id,
                timeline,
                start_stop,
                session_id,
                mep4,
            }));
        }
    } else if magic == LINK_MAGIC {
        if bytes.len() < 9 {
            return None;
        }
        let msg_type = bytes[8];
        let mut host_time = None;
        let mut prev_ghost_time = None;
        let mut ghost_time = None;
        let mut session_id = None;
        let mut ping_host_time = None;
        let mut ping_prev_ghost_time = None;

        let mut offset = 9;
        if msg_type == 1 {
            while offset + 8 <= bytes.len() {
                let key = &bytes[offset..offset + 4];
                let size =
                    u32::from_be_bytes(bytes[offset + 4..offset + 8].try_into().unwrap()) as usize;
                offset += 8;
                if offset + size > bytes.len() {
                    break;
                }
                let value = &bytes[offset..offset + size];
                match key {
                    b"__ht" if size == 8 => {
                        host_time = Some(HostTime(i64::from_be_bytes(value.try_into().unwrap())))
                    }
                    b"_pgt" if size == 8 => {
                        prev_ghost_time =
                            Some(HostTime(i64::from_be_bytes(value.try_into().unwrap())))
                    }
                    _ => {}
                }
                offset += size;
            }
            if let Some(ht) = host_time {
                return Some(Message::Measurement(MeasurementMsg::Ping {
                    host_time: ht,
                    prev_ghost_time,
                }));
            }
        } else if msg_type == 2 {
            while offset + 8 <= bytes.len() {
                let key = &bytes[offset..offset + 4];
                let size =
                    u32::from_be_bytes(bytes[offset + 4..offset + 8].try_into().unwrap()) as usize;
                offset += 8;
                if offset + size > bytes.len() {
                    break;
                }
                let value = &bytes[offset..offset + size];
                match key {
                    b"sess" if size == 8 => {
                        let mut sess = [0u8; 8];
                        sess.copy_from_slice(value);
                        session_id = Some(NodeId(sess));
                    }
                    b"__gt" if size == 8 => {
                        ghost_time = Some(HostTime(i64::from_be_bytes(value.try_into().unwrap())))
                    }
                    b"__ht" if size == 8 => {
                        ping_host_time =
                            Some(HostTime(i64::from_be_bytes(value.try_into().unwrap())))
                    }
                    b"_pgt" if size == 8 => {
                        ping_prev_ghost_time =
                            Some(HostTime(i64::from_be_bytes(value.try_into().unwrap())))
                    }
                    _ => {}
                }
                offset += size;
            }
            if let (Some(gt), Some(ht)) = (ghost_time, ping_host_time) {
                return Some(Message::Measurement(MeasurementMsg::Pong {
                    session_id,
                    ghost_time: gt,
                    ping_host_time: ht,
                    ping_prev_ghost_time,
                }));
            }
        }
    }
    None
}

pub fn serialize_discovery_alive(
    node_id: &NodeId,
    session_id: &NodeId,
    timeline: &Timeline,
    start_stop: &StartStopState,
    mep4: Option<SocketAddrPlain>,
    is_response: bool,
) -> Vec<u8> {
    let mut out = Vec::new();
    out.extend_from_slice(ASDP_MAGIC);
    out.push(if is_response { 2 } else { 1 }); // type Alive or Response
    out.push(5); // TTL
    out.extend_from_slice(&[0, 0]); // GroupId = 0
    out.extend_from_slice(&node_id.0);

    // Timeline
    out.extend_from_slice(b"tmln");
    out.extend_from_slice(&24u32.to_be_bytes());
    out.extend_from_slice(&timeline.tempo.0.to_be_bytes());
    out.extend_from_slice(&timeline.beat_origin.0.to_be_bytes());
    out.extend_from_slice(&timeline.time_origin.0.to_be_bytes());

    // SessionMembership
    out.extend_from_slice(b"sess");
    out.extend_from_slice(&8u32.to_be_bytes());
    out.extend_from_slice(&session_id.0);

    // StartStopState
    out.extend_from_slice(b"stst");
    out.extend_from_slice(&17u32.to_be_bytes());
    out.push(if start_stop.is_playing { 1 } else { 0 });
    out.extend_from_slice(&start_stop.beat.0.to_be_bytes());
    out.extend_from_slice(&start_stop.time.0.to_be_bytes());

    if let Some(mep) = mep4 {
        out.extend_from_slice(b"mep4");
        out.extend_from_slice(&6u32.to_be_bytes());
        out.extend_from_slice(&mep.ip);
        out.extend_from_slice(&mep.port.to_be_bytes());
        // Also advertise aep4 just in case
    }

    out
}

pub fn serialize_discovery_byebye(node_id: &NodeId) -> Vec<u8> {
    let mut out = Vec::new();
    out.extend_from_slice(ASDP_MAGIC);
    out.push(3); // type ByeBye
    out.push(0); // TTL = 0
    out.extend_from_slice(&[0, 0]); // GroupId = 0
    out.extend_from_slice(&node_id.0);
    out
}

pub fn serialize_measurement_ping(
    host_time: HostTime,
    prev_ghost_time: Option<HostTime>,
) -> Vec<u8> {
    let mut out = Vec::new();
    out.extend_from_slice(LINK_MAGIC);
    out.push(1); // type Ping

    out.extend_from_slice(b"__ht");
    out.extend_from_slice(&8u32.to_be_bytes());
    out.extend_from_slice(&host_time.0.to_be_bytes());

    if let Some(pgt) = prev_ghost_time {
        out.extend_from_slice(b"_pgt");
        out.extend_from_slice(&8u32.to_be_bytes());
        out.extend_from_slice(&pgt.0.to_be_bytes());
    }

    out
}

pub fn serialize_measurement_pong(
    session_id: &NodeId,
    ghost_time: HostTime,
    ping_payload: &[u8],
) -> Vec<u8> {
    let mut out = Vec::new();
    out.extend_from_slice(LINK_MAGIC);
    out.push(2); // type Pong

    out.extend_from_slice(b"sess");
    out.extend_from_slice(&8u32.to_be_bytes());
    out.extend_from_slice(&session_id.0);

    out.extend_from_slice(b"__gt");
    out.extend_from_slice(&8u32.to_be_bytes());
    out.extend_from_slice(&ghost_time.0.to_be_bytes());

    out.extend_from_slice(ping_payload);
    out
}

