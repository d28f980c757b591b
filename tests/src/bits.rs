//! Fields of a serialized message, a bit at a time (RULES 9).
//!
//! A number is cut into octets from its low end; each, the last one perhaps short, goes highest
//! bit first into bytes filled from the top. Numbers are held in 128 bits, wider than any field, so
//! that one too large or too small for its field is still known as such.

/// Why a message is not read or written.
#[derive(Clone, Copy, Debug, PartialEq, Eq)]
pub enum Refusal {
    OutputTooSmall,
    PayloadEnds,
    TooMany,
    PaddingNotZero,
    UnknownTag,
    NotAllowed,
}

impl Refusal {
    pub fn number(self) -> u32 {
        match self {
            Refusal::OutputTooSmall => 8,
            Refusal::PayloadEnds => 15,
            Refusal::TooMany => 16,
            Refusal::PaddingNotZero => 25,
            Refusal::UnknownTag => 27,
            Refusal::NotAllowed => 17,
        }
    }
}

/// The fewest bits that hold `most`: of a length, or of the last tag of a union.
fn fewest_bits(most: usize) -> u32 {
    (0..usize::BITS)
        .find(|&bits| most >> bits == 0)
        .unwrap_or(usize::BITS)
}

/// The widths of a number's octets, from its low end.
fn octets(bits: u32) -> impl Iterator<Item = (u32, u32)> {
    (0..bits)
        .step_by(8)
        .map(move |low| (low, 8.min(bits - low)))
}

/// The number that so many bits stand for in two's complement.
pub fn signed(pattern: i128, bits: u32) -> i128 {
    let negative = pattern >> (bits - 1) & 1 == 1;
    pattern - if negative { 1 << bits } else { 0 }
}

pub struct Reader<'a> {
    payload: &'a [u8],
    position: usize,
}

impl<'a> Reader<'a> {
    pub fn new(payload: &'a [u8]) -> Reader<'a> {
        Reader {
            payload,
            position: 0,
        }
    }

    pub fn number(&mut self, bits: u32) -> Result<i128, Refusal> {
        let mut value = 0;
        for (low, width) in octets(bits) {
            for place in (0..width).rev() {
                value |= self.bit()? << (low + place);
            }
        }
        Ok(value)
    }

    fn bit(&mut self) -> Result<i128, Refusal> {
        let byte = self
            .payload
            .get(self.position / 8)
            .ok_or(Refusal::PayloadEnds)?;
        let bit = byte >> (7 - self.position % 8) & 1;
        self.position += 1;
        Ok(bit.into())
    }

    /// So many bytes as a part of the payload. Every list of bytes of every type starts at a byte.
    pub fn bytes(&mut self, count: usize) -> Result<&'a [u8], Refusal> {
        assert_eq!(self.position % 8, 0, "a list inside a byte");
        let rest = &self.payload[self.position / 8..];
        let bytes = rest.get(..count).ok_or(Refusal::PayloadEnds)?;
        self.position += 8 * count;
        Ok(bytes)
    }

    /// The tag of a union of so many cases.
    pub fn tag(&mut self, cases: usize) -> Result<i128, Refusal> {
        let tag = self.number(fewest_bits(cases - 1))?;
        if tag >= cases as i128 {
            return Err(Refusal::UnknownTag);
        }
        Ok(tag)
    }

    /// A list after its length field.
    pub fn list(&mut self, most: usize) -> Result<&'a [u8], Refusal> {
        let count = self.number(fewest_bits(most))? as usize;
        let bytes = self.bytes(count)?;
        if count > most {
            return Err(Refusal::TooMany);
        }
        Ok(bytes)
    }

    /// A list that ends the transfer: the rest of the payload, without a length field.
    pub fn last_list(&mut self, most: usize) -> Result<&'a [u8], Refusal> {
        let bytes = self.bytes(self.payload.len() - self.position / 8)?;
        if bytes.len() > most {
            return Err(Refusal::TooMany);
        }
        Ok(bytes)
    }

    /// A list that ends the transfer, of items of 8 bits or more: as many as the rest of the
    /// payload holds. The bits left over are padding.
    pub fn last_numbers(&mut self, bits: u32, most: usize) -> Result<Vec<i128>, Refusal> {
        let rest = 8 * self.payload.len() - self.position;
        let (count, left) = (rest / bits as usize, rest % bits as usize);
        if count > most || left >= 8 {
            return Err(Refusal::TooMany);
        }
        let mut numbers = Vec::with_capacity(count);
        for _ in 0..count {
            numbers.push(self.number(bits)?);
        }
        self.end()?;
        Ok(numbers)
    }

    /// The end of a message: fewer than 8 bits are left, and all are zero.
    pub fn end(&mut self) -> Result<(), Refusal> {
        let left = 8 * self.payload.len() - self.position;
        if left >= 8 {
            return Err(Refusal::TooMany);
        }
        for _ in 0..left {
            if self.bit()? == 1 {
                return Err(Refusal::PaddingNotZero);
            }
        }
        Ok(())
    }
}

/// Gathers bits, whether any tag was given that no case has, and whether anything else was that its
/// field does not take.
#[derive(Default)]
pub struct Writer {
    bytes: Vec<u8>,
    bits: usize,
    unknown: bool,
    refused: bool,
}

impl Writer {
    /// Writes a number into a saturated field: the nearest that the field holds.
    pub fn number(&mut self, value: i128, bits: u32) {
        self.truncated(value.clamp(0, (1 << bits) - 1), bits);
    }

    /// Writes a signed number into a saturated field, in two's complement.
    pub fn signed(&mut self, value: i128, bits: u32) {
        let half = 1 << (bits - 1);
        self.truncated(value.clamp(-half, half - 1), bits);
    }

    /// Writes a number into a truncated field, signed or not: its low bits.
    pub fn truncated(&mut self, value: i128, bits: u32) {
        for (low, width) in octets(bits) {
            for place in (0..width).rev() {
                self.bit(value >> (low + place) & 1 == 1);
            }
        }
    }

    fn bit(&mut self, bit: bool) {
        if self.bits.is_multiple_of(8) {
            self.bytes.push(0);
        }
        if bit {
            *self.bytes.last_mut().expect("pushed") |= 128 >> (self.bits % 8);
        }
        self.bits += 1;
    }

    /// Writes the tag of a union of so many cases.
    pub fn tag(&mut self, tag: i128, cases: usize) {
        self.unknown |= !(0..cases as i128).contains(&tag);
        self.number(tag, fewest_bits(cases - 1));
    }

    pub fn require(&mut self, allowed: bool) {
        self.refused |= !allowed;
    }

    pub fn bytes(&mut self, bytes: &[u8]) {
        for &byte in bytes {
            self.number(byte.into(), 8);
        }
    }

    pub fn list(&mut self, items: &[u8], most: usize) {
        self.number(items.len() as i128, fewest_bits(most));
        self.last_list(items, most);
    }

    pub fn last_list(&mut self, items: &[u8], most: usize) {
        self.require(items.len() <= most);
        self.bytes(items);
    }

    /// The bytes written, the last one filled up with zero bits, whatever was refused.
    pub fn into_bytes(self) -> Vec<u8> {
        self.bytes
    }

    /// Puts what was written to the front of the output and gives its length.
    pub fn finish(self, out: &mut [u8]) -> Result<usize, Refusal> {
        if self.unknown {
            return Err(Refusal::UnknownTag);
        }
        if self.refused {
            return Err(Refusal::NotAllowed);
        }
        let bytes = self.into_bytes();
        let room = out.get_mut(..bytes.len()).ok_or(Refusal::OutputTooSmall)?;
        room.copy_from_slice(&bytes);
        Ok(bytes.len())
    }
}
