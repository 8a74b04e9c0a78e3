//! The Rust core of tempo-sync, as published but for ordered maps: the reference that `replay` and `room` run. With it the
//! refusals of a 17th neighbour and of a doubled pong, which stand in front of the core, the preview of a commit, which the core
//! makes on a copy, and `smf`, which has nothing of it.

pub mod engine;
pub mod full;
pub mod pongs;
pub mod preview;
pub mod smf;
pub mod time;
pub mod timeline;
pub mod wire;

pub use engine::SocketAddrPlain;
