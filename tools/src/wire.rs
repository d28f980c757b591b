//! How many bits a frame takes on the wire.

/// Of a data frame with an ID of 29 bits: its bits, the stuff bits among them, and the three of the space behind it.
pub fn bits(id: u32, data: &[u8]) -> u64 {
    let mut line = Line::new();
    line.put(0, 1);
    line.put(id >> 18 & 0x7FF, 11);
    // substitute remote request and identifier extension
    line.put(3, 2);
    line.put(id & 0x3FFFF, 18);
    // remote request, two reserved
    line.put(0, 3);
    line.put(data.len() as u32, 4);
    data.iter().for_each(|byte| line.put(u32::from(*byte), 8));
    line.put(u32::from(line.checksum), 15);
    // delimiter of the checksum, acknowledgement and its delimiter, end of frame, space
    line.count + 1 + 2 + 7 + 3
}

struct Line {
    count: u64,
    checksum: u16,
    last: u32,
    /// How many bits in a row are like the last one.
    run: u32,
}

impl Line {
    fn new() -> Line {
        Line {
            count: 0,
            checksum: 0,
            last: 1,
            run: 0,
        }
    }

    /// The low bits of a number, the highest of them first.
    fn put(&mut self, number: u32, width: u32) {
        for place in (0..width).rev() {
            let bit = number >> place & 1;
            let top = u32::from(self.checksum >> 14) ^ bit;
            self.checksum = (self.checksum << 1 & 0x7FFF) ^ if top == 1 { 0x4599 } else { 0 };
            self.run = if bit == self.last { self.run + 1 } else { 1 };
            (self.last, self.count) = (bit, self.count + 1);
            // after five like bits comes one of the other kind, which counts as the first of the next five
            if self.run == 5 {
                (self.last, self.run, self.count) = (1 - bit, 1, self.count + 1);
            }
        }
    }
}

#[cfg(test)]
mod tests {
    use super::*;

    /// Without stuff bits and space a frame of n bytes has 64 + 8 × n bits, and a stuff bit comes after every four at most.
    #[test]
    fn bounds() {
        for length in 0..=8 {
            let plain = 67 + 8 * length as u64;
            let most = plain + (54 + 8 * length as u64 - 1) / 4;
            for number in 0..2000_u32 {
                let id = number.wrapping_mul(0x9E3779B1) >> 3;
                let bytes = u64::from(number)
                    .wrapping_mul(0x9E3779B97F4A7C15)
                    .to_le_bytes();
                let count = bits(id, &bytes[..length]);
                assert!(
                    (plain..=most).contains(&count),
                    "{id:08X} {length}: {count}"
                );
            }
        }
    }

    /// Worked out by hand: an ID of zeros and no data is 1 + 11 zeros, two ones, 25 zeros and a checksum of its own.
    #[test]
    fn of_zeros() {
        let mut line = Line::new();
        line.put(0, 12);
        // after 5, then each 5 that begin with the stuff bit before
        assert_eq!((line.count, line.run, line.last), (14, 2, 0));
        let mut line = Line::new();
        line.put(0b0_0000_1111_0000_1111, 17);
        // 0 0 0 0 0 (1) 1 1 1 1 (0) 0 0 0 0 (1) 1 1 1 1 (0): each stuff bit is the first of the next five
        assert_eq!(line.count, 17 + 4);
    }

    /// The checksum of CAN over the bits of "123456789", as published for CRC-15/CAN.
    #[test]
    fn checksum() {
        let mut line = Line::new();
        b"123456789"
            .iter()
            .for_each(|byte| line.put(u32::from(*byte), 8));
        assert_eq!(line.checksum, 0x059E);
    }
}
