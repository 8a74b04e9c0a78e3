//! The fields of a record, written in order. A float is given as its bits, so that every NaN stays as it is.

/// A session state as a record holds it; any playing byte may be written.
pub struct State {
    pub tempo: i64,
    pub beat_origin: i64,
    pub time_origin: i64,
    pub playing: u8,
    pub beat: i64,
    pub time: i64,
}

#[derive(Default)]
pub struct Script {
    pub bytes: Vec<u8>,
}

impl Script {
    pub fn byte(&mut self, value: u8) -> &mut Self {
        self.bytes.push(value);
        self
    }

    pub fn raw(&mut self, bytes: &[u8]) -> &mut Self {
        self.bytes.extend_from_slice(bytes);
        self
    }

    /// A length or a room.
    pub fn short(&mut self, length: usize) -> &mut Self {
        let length = u16::try_from(length).expect("a record's lengths fit into 16 bits");
        self.raw(&length.to_be_bytes())
    }

    /// A field that may be absent.
    pub fn optional(&mut self, field: Option<&[u8]>) -> &mut Self {
        self.byte(u8::from(field.is_some()));
        self.raw(field.unwrap_or_default())
    }

    /// A record of the reader.
    pub fn packet(&mut self, bytes: &[u8]) -> &mut Self {
        self.byte(0x20).short(bytes.len()).raw(bytes)
    }

    pub fn int(&mut self, value: i64) -> &mut Self {
        self.raw(&value.to_be_bytes())
    }

    pub fn float(&mut self, bits: u64) -> &mut Self {
        self.raw(&bits.to_be_bytes())
    }

    pub fn state(&mut self, state: &State) -> &mut Self {
        self.int(state.tempo)
            .int(state.beat_origin)
            .int(state.time_origin)
            .byte(state.playing)
            .int(state.beat)
            .int(state.time)
    }
}
