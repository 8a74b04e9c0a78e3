//! `generate`: writes a replay script to standard output, always the same for the same arguments.

mod floats;
mod integers;
mod midi_files;
mod mishaps;
mod music;
mod packet;
mod packets;
mod random;
mod readings;
mod record;
mod tempo_lists;
mod traffic;
mod values;
mod writings;

use random::Random;
use std::io::{self, Write};
use std::process::ExitCode;

const USAGE: &str = "usage: generate TOPIC SEED COUNT
  values    the value calls, 10 to 1b, on special and random values
  music     the same calls on the ordinary values of a session, for timing
  packets   the reader and the writers, 20 to 24, on right, wrong and random packets
  received  the reader on the ordinary packets of a session, for timing
  sent      the writers of such packets, for timing
  tempos    tempo lists written and read, 30 and 31: right, wrong and damaged ones
  lists     lists of 64 pairs written, for timing
  files     their files read, for timing";

/// The script that the arguments ask for, or nothing where they are wrong.
fn script(arguments: &[String]) -> Option<Vec<u8>> {
    let [topic, seed, count] = arguments else {
        return None;
    };
    let mut random = Random::new(seed.parse().ok()?);
    let count = count.parse().ok()?;
    match topic.as_str() {
        "values" => Some(values::script(&mut random, count)),
        "music" => Some(music::script(&mut random, count)),
        "packets" => Some(packets::script(&mut random, count)),
        "received" => Some(traffic::received(&mut random, count)),
        "sent" => Some(traffic::sent(&mut random, count)),
        "tempos" => Some(tempo_lists::script(&mut random, count)),
        "lists" => Some(tempo_lists::lists(&mut random, count)),
        "files" => Some(tempo_lists::files(&mut random, count)),
        _ => None,
    }
}

fn main() -> io::Result<ExitCode> {
    let arguments: Vec<String> = std::env::args().skip(1).collect();
    let Some(script) = script(&arguments) else {
        eprintln!("{USAGE}");
        return Ok(ExitCode::from(2));
    };
    io::stdout().lock().write_all(&script)?;
    Ok(ExitCode::SUCCESS)
}
