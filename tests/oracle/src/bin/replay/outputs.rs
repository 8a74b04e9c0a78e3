//! The outputs of a call, laid out as in its answer buffer.

use crate::answer::Answers;
use oracle::engine::Output;

/// The answer's size, then n and L, the kinds, the lengths and the contents.
pub fn write_outputs(outputs: &[Output], out: &mut Answers) {
    let count = outputs.len() as u16;
    let length: u16 = outputs.iter().map(|output| shape(output).1).sum();
    out.u16(4 + 3 * count + length);
    out.u16(count);
    out.u16(length);
    for output in outputs {
        out.u8(shape(output).0);
    }
    for output in outputs {
        out.u16(shape(output).1);
    }
    for output in outputs {
        write_content(output, out);
    }
}

const NEVER_EMITTED: &str = "engine.rs emits no such output";

/// An output's kind and the length of its content.
fn shape(output: &Output) -> (u8, u16) {
    match output {
        Output::Send { bytes, .. } => (1, 10 + bytes.len() as u16),
        Output::StateChanged { .. } => (2, 41),
        Output::NumPeersChanged(_) => (3, 4),
        Output::SetTimer { .. } => (4, 8),
        _ => unreachable!("{NEVER_EMITTED}"),
    }
}

fn write_content(output: &Output, out: &mut Answers) {
    match output {
        Output::Send {
            iface_id,
            to,
            bytes,
        } => {
            out.u32(iface_id.0);
            out.addr(to);
            out.raw(bytes);
        }
        Output::StateChanged { state } => out.state(state),
        Output::NumPeersChanged(count) => out.u32(*count),
        Output::SetTimer { at } => out.time(at),
        _ => unreachable!("{NEVER_EMITTED}"),
    }
}
