//! First bytes 30 and 31: tempo lists written to Standard MIDI Files and read from them.

use crate::answer::Answers;
use crate::fields::{Fields, Stop};
use crate::packets::{untouched, ROOM_TOO_SMALL};
use oracle::smf::{self, Pair};

/// A record has no more pairs than this, whatever its count.
const MOST_PAIRS: usize = 64;
const NOT_SUCH_A_FILE: u8 = 10;

pub fn answer(first: u8, fields: &mut Fields, out: &mut Answers) -> Result<(), Stop> {
    match first {
        0x30 => write(fields, out)?,
        _ => read(fields.counted()?, out),
    }
    Ok(())
}

fn write(fields: &mut Fields, out: &mut Answers) -> Result<(), Stop> {
    let room = fields.room()?;
    let count = usize::from(fields.u16()?);
    let pairs: Vec<Pair> = (0..count.min(MOST_PAIRS))
        .map(|_| Ok((fields.i64()?, fields.i64()?)))
        .collect::<Result<_, Stop>>()?;
    match smf::write(count, &pairs) {
        Ok(file) if file.len() <= room => {
            out.u8(0);
            out.u16(u16::try_from(file.len()).expect("a file is short"));
            out.raw(&file);
            untouched(room - file.len(), out);
        }
        Ok(_) => refused(ROOM_TOO_SMALL, room, out),
        Err(refusal) => refused(refusal as u8, room, out),
    }
    Ok(())
}

fn refused(number: u8, room: usize, out: &mut Answers) {
    out.u8(number);
    out.u16(0);
    untouched(room, out);
}

fn read(file: &[u8], out: &mut Answers) {
    let (number, pairs) = match smf::read(file) {
        Some(pairs) => (0, pairs),
        None => (NOT_SUCH_A_FILE, Vec::new()),
    };
    out.u8(number);
    out.u8(u8::try_from(pairs.len()).expect("a list is short"));
    for (tempo, beat_origin) in pairs {
        out.i64(tempo);
        out.i64(beat_origin);
    }
}
