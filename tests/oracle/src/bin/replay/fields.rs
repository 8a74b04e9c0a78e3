//! The fields of a record, read in order. Every number is big-endian.

use oracle::engine::InterfaceId;
use oracle::time::{HostTime, MicroBeats, TempoWire};
use oracle::timeline::{SessionState, StartStopState, Timeline};
use oracle::wire::NodeId;
use oracle::SocketAddrPlain;

/// The longest packet or echo of a record, and the largest room.
const LENGTH_BOUND: usize = 1_024;
const ROOM_BOUND: usize = 8_192;

/// Why a record has no answer.
pub enum Stop {
    /// It goes on past the input read so far.
    CutShort,
    /// Its first byte is unknown, or a room or length is over its bound.
    Unreadable,
}

pub struct Fields<'a> {
    rest: &'a [u8],
}

impl<'a> Fields<'a> {
    pub fn new(rest: &'a [u8]) -> Self {
        Self { rest }
    }

    pub fn left(&self) -> usize {
        self.rest.len()
    }

    fn bytes(&mut self, length: usize) -> Result<&'a [u8], Stop> {
        if self.rest.len() < length {
            return Err(Stop::CutShort);
        }
        let (taken, rest) = self.rest.split_at(length);
        self.rest = rest;
        Ok(taken)
    }

    fn array<const N: usize>(&mut self) -> Result<[u8; N], Stop> {
        let (taken, rest) = self.rest.split_first_chunk().ok_or(Stop::CutShort)?;
        self.rest = rest;
        Ok(*taken)
    }

    pub fn u8(&mut self) -> Result<u8, Stop> {
        self.array::<1>().map(|[byte]| byte)
    }

    pub fn flag(&mut self) -> Result<bool, Stop> {
        self.u8().map(|byte| byte != 0)
    }

    pub fn u16(&mut self) -> Result<u16, Stop> {
        self.array().map(u16::from_be_bytes)
    }

    pub fn i64(&mut self) -> Result<i64, Stop> {
        self.array().map(i64::from_be_bytes)
    }

    pub fn float(&mut self) -> Result<f64, Stop> {
        self.array().map(f64::from_be_bytes)
    }

    pub fn time(&mut self) -> Result<HostTime, Stop> {
        self.i64().map(HostTime)
    }

    pub fn node(&mut self) -> Result<NodeId, Stop> {
        self.array().map(NodeId)
    }

    pub fn interface(&mut self) -> Result<InterfaceId, Stop> {
        self.array()
            .map(|bytes| InterfaceId(u32::from_be_bytes(bytes)))
    }

    pub fn addr(&mut self) -> Result<SocketAddrPlain, Stop> {
        let ip = self.array()?;
        let port = self.u16()?;
        Ok(SocketAddrPlain { ip, port })
    }

    pub fn line(&mut self) -> Result<Timeline, Stop> {
        Ok(Timeline {
            tempo: TempoWire(self.i64()?),
            beat_origin: MicroBeats(self.i64()?),
            time_origin: self.time()?,
        })
    }

    pub fn start_stop(&mut self) -> Result<StartStopState, Stop> {
        Ok(StartStopState {
            is_playing: self.flag()?,
            beat: MicroBeats(self.i64()?),
            time: self.time()?,
        })
    }

    pub fn state(&mut self) -> Result<SessionState, Stop> {
        Ok(SessionState {
            timeline: self.line()?,
            start_stop: self.start_stop()?,
        })
    }

    fn bounded(&mut self, bound: usize) -> Result<usize, Stop> {
        let length = usize::from(self.u16()?);
        if length > bound {
            return Err(Stop::Unreadable);
        }
        Ok(length)
    }

    pub fn room(&mut self) -> Result<usize, Stop> {
        self.bounded(ROOM_BOUND)
    }

    /// A length and as many bytes.
    pub fn counted(&mut self) -> Result<&'a [u8], Stop> {
        let length = self.bounded(LENGTH_BOUND)?;
        self.bytes(length)
    }

    /// A flag byte, and the field where it is true.
    pub fn optional<T>(
        &mut self,
        field: impl FnOnce(&mut Self) -> Result<T, Stop>,
    ) -> Result<Option<T>, Stop> {
        if self.flag()? {
            field(self).map(Some)
        } else {
            Ok(None)
        }
    }
}
