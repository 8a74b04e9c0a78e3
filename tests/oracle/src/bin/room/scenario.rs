//! A scenario: what its text says, or why it is bad.

use crate::words::{Reason, Words, UNKNOWN_STATEMENT};
use std::fmt;
use std::ops::RangeInclusive;

/// The most bytes of a scenario.
pub const LONGEST: usize = 65_536;

const MOST_EVENTS: usize = 64;

const VERBS: [&[u8]; 6] = [b"on", b"off", b"silent", b"heard", b"tempo", b"preview"];

const DELAYS: RangeInclusive<i64> = 0..=100_000;
const SHIFTS: RangeInclusive<i64> = 0..=100_000_000_000_000;
const PORTS: RangeInclusive<i64> = 1..=4;
const TIMES: RangeInclusive<i64> = 0..=600_000;
const TEMPOS: RangeInclusive<i64> = 20..=999;

pub const BUILT_IN: &[u8] = b"\
delay 350
box A shift 0
box B shift 1500000
box C shift 987654321
box D shift 40000007 ports 2
at 0 on A
at 300 on B
at 700 on C
at 1000 on D
at 5000 preview A 128
at 5000 tempo A 128
at 8000 silent C
at 20000 heard C
at 24000 off B
end 25000
";

/// Times are microseconds of the room; the events stand in the order in which they happen.
#[derive(Default)]
pub struct Scenario {
    pub delay: i64,
    pub boxes: Vec<Declared>,
    pub events: Vec<Event>,
    pub end: i64,
}

/// A box as it is declared.
pub struct Declared {
    pub name: char,
    pub shift: i64,
    pub ports: i64,
}

/// An `at` line, with the number of the box that it names.
pub struct Event {
    pub time: i64,
    pub number: usize,
    pub action: Action,
}

#[derive(Clone, Copy)]
pub enum Action {
    On,
    Off,
    Silent,
    Heard,
    Tempo(i64),
    Preview(i64),
}

/// Why a scenario is bad.
pub enum Fault {
    TooLong,
    Line(usize, Reason),
}

impl fmt::Display for Fault {
    fn fmt(&self, f: &mut fmt::Formatter) -> fmt::Result {
        match self {
            Fault::TooLong => write!(f, "the scenario is too long"),
            Fault::Line(line, reason) => write!(f, "line {line}: {reason}"),
        }
    }
}

/// Reads the lines of a scenario up to the first that is bad.
pub fn read(text: &[u8]) -> Result<Scenario, Fault> {
    if text.len() > LONGEST {
        return Err(Fault::TooLong);
    }
    let mut reader = Reader::default();
    let mut lines = 0;
    for line in text.split_inclusive(|&byte| byte == b'\n') {
        lines += 1;
        let line = line.strip_suffix(b"\n").unwrap_or(line);
        let read = reader.read_line(Words::of(line));
        read.map_err(|reason| Fault::Line(lines, reason))?;
    }
    let finished = reader.finish();
    finished.map_err(|reason| Fault::Line(lines + 1, reason))
}

/// The scenario that the lines so far give, and whether one of them is `end`.
#[derive(Default)]
struct Reader {
    scenario: Scenario,
    ended: bool,
}

impl Reader {
    fn read_line(&mut self, mut words: Words) -> Result<(), Reason> {
        match words.word() {
            b"" => Ok(()),
            b"delay" => self.read_delay(words),
            b"box" => self.read_box(words),
            b"at" => self.read_event(words),
            b"end" => self.read_end(words),
            _ => Err(UNKNOWN_STATEMENT),
        }
    }

    fn read_delay(&mut self, mut words: Words) -> Result<(), Reason> {
        self.scenario.delay = words.number(DELAYS)?;
        words.end()
    }

    fn read_box(&mut self, mut words: Words) -> Result<(), Reason> {
        let name = words.name()?;
        if self.number_of(name).is_some() {
            return Err("the box is there already");
        }
        words.exactly(b"shift")?;
        let shift = words.number(SHIFTS)?;
        let ports = match words.word() {
            b"" => 1,
            b"ports" => words.number(PORTS)?,
            _ => return Err(UNKNOWN_STATEMENT),
        };
        words.end()?;
        self.scenario.boxes.push(Declared { name, shift, ports });
        Ok(())
    }

    fn read_event(&mut self, mut words: Words) -> Result<(), Reason> {
        let time = words.number(TIMES)? * 1_000;
        let verb = words.word();
        if !VERBS.contains(&verb) {
            return Err(UNKNOWN_STATEMENT);
        }
        let number = self.number_of(words.name()?).ok_or("no such box")?;
        let action = match verb {
            b"on" => Action::On,
            b"off" => Action::Off,
            b"silent" => Action::Silent,
            b"heard" => Action::Heard,
            b"tempo" => Action::Tempo(words.number(TEMPOS)?),
            _ => Action::Preview(words.number(TEMPOS)?),
        };
        words.end()?;
        if self.scenario.events.len() == MOST_EVENTS {
            return Err("too many events");
        }
        self.scenario.events.push(Event {
            time,
            number,
            action,
        });
        Ok(())
    }

    fn read_end(&mut self, mut words: Words) -> Result<(), Reason> {
        let time = words.number(TIMES)? * 1_000;
        words.end()?;
        if self.ended {
            return Err("a second end");
        }
        self.scenario.end = time;
        self.ended = true;
        Ok(())
    }

    fn number_of(&self, name: char) -> Option<usize> {
        let mut boxes = self.scenario.boxes.iter();
        boxes.position(|declared| declared.name == name)
    }

    fn finish(mut self) -> Result<Scenario, Reason> {
        if !self.ended {
            return Err("the end is missing");
        }
        // Events of one time stay in the order of their lines.
        self.scenario.events.sort_by_key(|event| event.time);
        Ok(self.scenario)
    }
}
