//! What is printed.

use crate::boxes::{RoomBox, IDS};
use crate::scenario::Action;
use oracle::timeline::Timeline;
use std::io::{self, Write};

/// The beats at which two lines are compared.
const BEATS: [i64; 3] = [0, 100, 10_000];

const MILLION: i64 = 1_000_000;

pub struct Report<W> {
    out: W,
}

impl<W: Write> Report<W> {
    pub fn new(out: W) -> Self {
        Report { out }
    }

    /// What happens at a time of the room.
    pub fn line(&mut self, now: i64, text: &str) -> io::Result<()> {
        let (seconds, micros) = (now / MILLION, now % MILLION);
        writeln!(self.out, "{seconds:4}.{micros:06} s  {text}")
    }

    /// How the boxes stand at the end.
    pub fn end(&mut self, pairs: &[String]) -> io::Result<()> {
        writeln!(self.out)?;
        for pair in pairs {
            writeln!(self.out, "{pair}")?;
        }
        Ok(())
    }
}

pub fn event_line(name: char, action: Action) -> String {
    match action {
        Action::On => format!("{name} is switched on"),
        Action::Off => format!("{name} is switched off"),
        Action::Silent => format!("{name} is silent"),
        Action::Heard => format!("{name} is heard again"),
        Action::Tempo(tempo) => format!("{name} commits {tempo} beats a minute"),
        Action::Preview(tempo) => format!("{name} previews {tempo} beats a minute"),
    }
}

pub fn state_line(number: usize, boxes: &[RoomBox], line: &Timeline) -> String {
    let name = boxes[number].name;
    let session = session_name(number, boxes);
    let line = beats_of(line);
    format!("{name} reports session {session}, {line}")
}

pub fn preview_line(name: char, line: &Timeline, moved: i64) -> String {
    let line = beats_of(line);
    format!("{name} would report {line}, moved by {moved}")
}

fn beats_of(line: &Timeline) -> String {
    let (tempo, beat, time) = (line.tempo.0, line.beat_origin.0, line.time_origin.0);
    format!("{tempo} us a beat, beat {beat} at {time} us of its clock")
}

pub fn count_line(number: usize, boxes: &[RoomBox], count: u32) -> String {
    let name = boxes[number].name;
    let session = session_name(number, boxes);
    let others = if count == 1 { "other" } else { "others" };
    format!("{name} counts {count} {others} in session {session}")
}

/// The session of this box: the name of the box that has its id among its own.
fn session_name(number: usize, boxes: &[RoomBox]) -> char {
    let id = u64::from_be_bytes(boxes[number].engine.session_id.0);
    let mut declared = boxes.iter().zip(1..);
    let owner = declared.find(|(_, number)| *number == id / IDS);
    owner.map_or('?', |(room_box, _)| room_box.name)
}

/// A line for each pair of boxes that are on.
pub fn pair_lines(boxes: &[RoomBox]) -> Vec<String> {
    let mut lines = Vec::new();
    for (number, x) in boxes.iter().enumerate() {
        for y in &boxes[number + 1..] {
            if x.engine.enabled && y.engine.enabled {
                lines.push(format!("{} and {} {}", x.name, y.name, standing(x, y)));
            }
        }
    }
    lines
}

/// How two boxes that are on stand to each other.
fn standing(x: &RoomBox, y: &RoomBox) -> String {
    if !x.cables_in || !y.cables_in {
        return "do not hear each other".to_string();
    }
    if x.engine.session_id != y.engine.session_id {
        return "are not in one session".to_string();
    }
    let [d0, d1, d2] = BEATS.map(|beat| time_at(x, beat).wrapping_sub(time_at(y, beat)));
    let [b0, b1, b2] = BEATS;
    format!("stand {d0}, {d1}, {d2} millionths of a microsecond apart at beats {b0}, {b1}, {b2}")
}

/// When the box's line has the beat, in millionths of a microsecond of the room's time, modulo 2^64.
fn time_at(room_box: &RoomBox, beat: i64) -> i64 {
    let line = &room_box.engine.state.timeline;
    let origin = line.time_origin.0.wrapping_sub(room_box.shift);
    let beats = (beat * MILLION).wrapping_sub(line.beat_origin.0);
    let past_origin = beats.wrapping_mul(line.tempo.0);
    origin.wrapping_mul(MILLION).wrapping_add(past_origin)
}
