//! First byte 32: the preview of a commit.

use crate::answer::Answers;
use crate::calls::in_time;
use crate::fields::{Fields, Stop};
use oracle::engine::Engine;
use oracle::preview::preview;

pub fn answer(engine: &Engine, fields: &mut Fields, out: &mut Answers) -> Result<(), Stop> {
    let now = fields.time()?;
    let asked = fields.state()?;
    match in_time(now) {
        Err(refusal) => out.u8(refusal.0),
        Ok(()) => {
            let (given, moved) = preview(engine, &asked, now);
            out.u8(0);
            out.state(&given);
            out.i64(moved);
        }
    }
    Ok(())
}
