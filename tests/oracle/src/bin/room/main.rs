//! `room [--alone] [--late MICROS]`: runs the scenario on standard input, or the built-in one where there is none, and prints
//! what happens. For trials: with `--alone` doubled pongs are not turned down, and with `--late` each packet takes up to so many
//! microseconds longer, always the same ones.

mod boxes;
mod network;
mod report;
mod room;
mod scenario;
mod words;

use room::Room;
use std::io::{self, BufWriter, Read, Write};

/// What a trial changes.
#[derive(Default)]
struct Trial {
    alone: bool,
    late: u64,
}

impl Trial {
    fn asked() -> Self {
        let mut trial = Trial::default();
        let mut words = std::env::args().skip(1);
        while let Some(word) = words.next() {
            match word.as_str() {
                "--alone" => trial.alone = true,
                "--late" => trial.late = words.next().and_then(|n| n.parse().ok()).unwrap_or(0),
                _ => {}
            }
        }
        trial
    }
}

fn main() -> io::Result<()> {
    let mut input = Vec::new();
    let most = scenario::LONGEST as u64 + 1;
    io::stdin().lock().take(most).read_to_end(&mut input)?;
    let mut out = BufWriter::new(io::stdout().lock());
    let text = if input.is_empty() {
        scenario::BUILT_IN
    } else {
        &input
    };
    match scenario::read(text) {
        Ok(scenario) => Room::new(&scenario, &Trial::asked(), &mut out).run(&scenario)?,
        Err(fault) => writeln!(out, "{fault}")?,
    }
    out.flush()
}
