//! Tempo lists as Standard MIDI Files, written and read from that document and the order's words, with nothing of the core.
//! The reader takes any file of one track and then asks whether writing what it found gives the same bytes.

/// Microseconds per quarter note, and the beat from which on it holds, in millionths.
pub type Pair = (i64, i64);

const MOST_PAIRS: usize = 64;
const TICKS_PER_QUARTER: u16 = 1_000;
const MICRO_BEATS_PER_TICK: i128 = 1_000;
const TEMPOS: std::ops::RangeInclusive<i64> = 1..=16_777_215;
const MOST_TICKS: i128 = 268_435_455;

/// Why a list has no file, by the order's numbers.
#[derive(Debug, PartialEq, Eq)]
pub enum Refusal {
    Tempo = 8,
    BeatOrigin = 9,
}

/// The file of a list that is said to have `count` pairs, of which those over 64 need not be given.
pub fn write(count: usize, pairs: &[Pair]) -> Result<Vec<u8>, Refusal> {
    if count > MOST_PAIRS || pairs.iter().any(|(tempo, _)| !TEMPOS.contains(tempo)) {
        return Err(Refusal::Tempo);
    }
    let mut track = Vec::new();
    for (delta, &(tempo, _)) in deltas(pairs)?.into_iter().zip(pairs) {
        track.extend(quantity(delta));
        track.extend([0xff, 0x51, 0x03]);
        track.extend(&tempo.to_be_bytes()[5..]);
    }
    track.extend([0x00, 0xff, 0x2f, 0x00]);
    let head = [0u16, 1, TICKS_PER_QUARTER].map(u16::to_be_bytes).concat();
    Ok([chunk(b"MThd", &head), chunk(b"MTrk", &track)].concat())
}

/// The ticks from each pair to the next; the first counts from 0.
fn deltas(pairs: &[Pair]) -> Result<Vec<i128>, Refusal> {
    let origins: Vec<i128> = std::iter::once(0)
        .chain(pairs.iter().map(|pair| i128::from(pair.1)))
        .collect();
    origins
        .windows(2)
        .map(|two| {
            let gap = two[1] - two[0];
            let on_tick = two[1] % MICRO_BEATS_PER_TICK == 0;
            let ticks = gap / MICRO_BEATS_PER_TICK;
            let good = two[1] >= 0 && on_tick && gap >= 0 && ticks <= MOST_TICKS;
            good.then_some(ticks).ok_or(Refusal::BeatOrigin)
        })
        .collect()
}

/// A variable-length quantity: seven bits a byte, all but the last with the highest bit set.
fn quantity(value: i128) -> Vec<u8> {
    let mut bytes = vec![(value % 128) as u8];
    let mut rest = value / 128;
    while rest > 0 {
        bytes.insert(0, 128 + (rest % 128) as u8);
        rest /= 128;
    }
    bytes
}

fn chunk(kind: &[u8; 4], body: &[u8]) -> Vec<u8> {
    let length = u32::try_from(body.len()).expect("a chunk is short");
    [&kind[..], &length.to_be_bytes(), body].concat()
}

/// The pairs of a file that `write` gives of some list.
pub fn read(file: &[u8]) -> Option<Vec<Pair>> {
    let pairs = tempos(track(file)?)?;
    let again = write(pairs.len(), &pairs).ok()?;
    (again == file).then_some(pairs)
}

/// What the first track chunk holds, whatever the header says.
fn track(file: &[u8]) -> Option<&[u8]> {
    let (kind, _, rest) = split_chunk(file)?;
    let (next, body, _) = split_chunk(rest)?;
    (kind == b"MThd" && next == b"MTrk").then_some(body)
}

fn split_chunk(bytes: &[u8]) -> Option<(&[u8], &[u8], &[u8])> {
    let (kind, rest) = bytes.split_at_checked(4)?;
    let (length, rest) = rest.split_at_checked(4)?;
    let length = u32::from_be_bytes(length.try_into().ok()?);
    let (body, rest) = rest.split_at_checked(usize::try_from(length).ok()?)?;
    Some((kind, body, rest))
}

/// The tempo events of a track up to its end; nothing where there is another event or the track breaks off.
fn tempos(track: &[u8]) -> Option<Vec<Pair>> {
    let mut bytes = track.iter().copied();
    let mut tick = 0i128;
    let mut pairs = Vec::new();
    loop {
        tick += split_quantity(&mut bytes)?;
        let event: Vec<u8> = bytes.by_ref().take(3).collect();
        match event[..] {
            [0xff, 0x51, 0x03] => {
                let tempo =
                    (0..3).try_fold(0, |high, _| Some(high * 256 + i64::from(bytes.next()?)))?;
                let beat = i64::try_from(tick * MICRO_BEATS_PER_TICK).ok()?;
                pairs.push((tempo, beat));
            }
            [0xff, 0x2f, 0x00] => return Some(pairs),
            _ => return None,
        }
    }
}

/// A quantity of any number of bytes that the ticks can bear.
fn split_quantity(bytes: &mut impl Iterator<Item = u8>) -> Option<i128> {
    let mut value = 0i128;
    loop {
        let byte = bytes.next()?;
        value = value.checked_mul(128)? + i128::from(byte % 128);
        if byte < 128 {
            return Some(value);
        }
    }
}
