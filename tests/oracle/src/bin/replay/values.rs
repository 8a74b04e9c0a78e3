//! First bytes 10 to 1b: the methods of time.rs and timeline.rs.

use crate::answer::Answers;
use crate::fields::{Fields, Stop};
use oracle::time::{MicroBeats, Tempo, TempoWire};

pub fn answer(first: u8, fields: &mut Fields, out: &mut Answers) -> Result<(), Stop> {
    match first {
        0x10 => out.i64(MicroBeats::from_beats(fields.float()?).0),
        0x11 => out.float(MicroBeats(fields.i64()?).to_beats()),
        0x12 => out.i64(TempoWire::from_tempo(Tempo(fields.float()?)).0),
        0x13 => out.float(TempoWire(fields.i64()?).to_tempo().0),
        0x14 => out.float(Tempo(fields.float()?).micros_per_beat()),
        0x15..=0x17 => read_state(first, fields, out)?,
        _ => change_state(first, fields, out)?,
    }
    Ok(())
}

/// 15 to 17: what a state says of a time or a beat.
fn read_state(first: u8, fields: &mut Fields, out: &mut Answers) -> Result<(), Stop> {
    let state = fields.state()?;
    match first {
        0x15 => out.float(state.beat_at_time(fields.time()?, fields.float()?)),
        0x16 => out.float(state.phase_at_time(fields.time()?, fields.float()?)),
        _ => out.i64(state.time_at_beat(fields.float()?, fields.float()?).0),
    }
    Ok(())
}

/// 18 to 1b: the state after a change.
fn change_state(first: u8, fields: &mut Fields, out: &mut Answers) -> Result<(), Stop> {
    let mut state = fields.state()?;
    match first {
        0x18 => state.request_beat_at_time(fields.time()?, fields.float()?, fields.float()?),
        0x19 => state.force_beat_at_time(fields.time()?, fields.float()?),
        0x1a => state.set_tempo(fields.float()?, fields.time()?),
        _ => state.set_is_playing(fields.flag()?, fields.time()?),
    }
    out.state(&state);
    Ok(())
}
