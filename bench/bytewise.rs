//! A plain codec, byte by byte, as one writes it by hand for one message: the opponent of messages.rs. It answers as the proved one
//! does, by the same rules, and gives the same numbers through C.

/// The nearest number to the given one that a field of so many bits holds.
fn clip(number: i64, bits: u32) -> i64 {
    number.clamp(0, (1 << bits) - 1)
}

fn byte(number: i64) -> u8 {
    clip(number, 8) as u8
}

/// The five numbers of a status. The sub-mode is zero both ways.
pub struct Status {
    pub uptime: u32,
    pub health: u8,
    pub mode: u8,
    pub vendor: u16,
}

impl Status {
    pub fn read(b: &[u8; 7]) -> Status {
        Status {
            uptime: u32::from_le_bytes([b[0], b[1], b[2], b[3]]),
            health: b[4] >> 6,
            mode: b[4] >> 3 & 7,
            vendor: u16::from_le_bytes([b[5], b[6]]),
        }
    }

    fn of(v: &[i64; 5]) -> Status {
        Status {
            uptime: clip(v[0], 32) as u32,
            health: clip(v[1], 2) as u8,
            mode: clip(v[2], 3) as u8,
            vendor: clip(v[4], 16) as u16,
        }
    }

    pub fn write(&self, out: &mut [u8; 7]) {
        out[..4].copy_from_slice(&self.uptime.to_le_bytes());
        out[4] = self.health << 6 | self.mode << 3;
        out[5..].copy_from_slice(&self.vendor.to_le_bytes());
    }

    fn number(&self) -> u64 {
        let (health, mode) = (u64::from(self.health), u64::from(self.mode));
        u64::from(self.uptime) ^ health << 32 ^ mode << 34 ^ u64::from(self.vendor) << 40
    }
}

struct Info<'a> {
    status: Status,
    software: [u8; 3],
    commit: u32,
    image_crc: u64,
    hardware: [u8; 2],
    unique_id: &'a [u8; 16],
    certificate: &'a [u8],
    name: &'a [u8],
}

fn part<const N: usize>(b: &[u8], at: usize) -> &[u8; N] {
    b[at..at + N].try_into().expect("N bytes")
}

fn is_name(name: &[u8]) -> bool {
    let allowed = |b: &u8| matches!(b, b'a'..=b'z' | b'0'..=b'9' | b'.' | b'-' | b'_');
    !name.is_empty() && name.iter().all(allowed)
}

impl<'a> Info<'a> {
    fn read(b: &'a [u8]) -> Result<Info<'a>, u64> {
        let count = usize::from(*b.get(40).ok_or(15u64)?);
        let name = b.get(41 + count..).ok_or(15u64)?;
        if name.len() > 80 {
            return Err(16);
        }
        if !is_name(name) {
            return Err(17);
        }
        Ok(Info {
            status: Status::read(part(b, 0)),
            software: *part(b, 7),
            commit: u32::from_le_bytes(*part(b, 10)),
            image_crc: u64::from_le_bytes(*part(b, 14)),
            hardware: *part(b, 22),
            unique_id: part(b, 24),
            certificate: &b[41..41 + count],
            name,
        })
    }

    /// None for a list that is not allowed.
    fn of(
        v: &[i64; 11],
        image_crc: u64,
        unique_id: &'a [u8],
        certificate: &'a [u8],
        name: &'a [u8],
    ) -> Option<Info<'a>> {
        if certificate.len() > 255 || name.len() > 80 || !is_name(name) {
            return None;
        }
        Some(Info {
            status: Status::of(v.first_chunk()?),
            software: [byte(v[5]), byte(v[6]), byte(v[7])],
            commit: clip(v[8], 32) as u32,
            image_crc,
            hardware: [byte(v[9]), byte(v[10])],
            unique_id: unique_id.try_into().ok()?,
            certificate,
            name,
        })
    }

    fn write(&self, out: &mut [u8]) -> Result<u64, u64> {
        let name_at = 41 + self.certificate.len();
        let length = name_at + self.name.len();
        let out = out.get_mut(..length).ok_or(8u64)?;
        self.status.write(out.first_chunk_mut().expect("41 bytes"));
        out[7..10].copy_from_slice(&self.software);
        out[10..14].copy_from_slice(&self.commit.to_le_bytes());
        out[14..22].copy_from_slice(&self.image_crc.to_le_bytes());
        out[22..24].copy_from_slice(&self.hardware);
        out[24..40].copy_from_slice(self.unique_id);
        out[40] = self.certificate.len() as u8;
        out[41..name_at].copy_from_slice(self.certificate);
        out[name_at..].copy_from_slice(self.name);
        Ok(length as u64)
    }

    fn number(&self) -> u64 {
        let [major, minor, flags] = self.software.map(u64::from);
        let [hardware_major, hardware_minor] = self.hardware.map(u64::from);
        let (certificate, name) = (self.certificate.len() as u64, self.name.len() as u64);
        let places = 24
            ^ (self.unique_id.len() as u64) << 9
            ^ 41 << 18
            ^ certificate << 27
            ^ (41 + certificate) << 36
            ^ name << 45;
        let software = major << 8 ^ minor << 16 ^ flags << 24 ^ u64::from(self.commit) << 32;
        self.status.number()
            ^ software
            ^ self.image_crc
            ^ hardware_major << 48
            ^ hardware_minor << 56
            ^ places
    }
}

/// A binary16 as an f32; the machine multiplies for a subnormal one.
fn widen(half: u16) -> f32 {
    let (sign, code) = (u32::from(half & 0x8000) << 16, u32::from(half & 0x7FFF));
    let bits = match code {
        0..0x400 => (code as f32 * f32::from_bits(0x3380_0000)).to_bits(),
        0x400..0x7C00 => (code << 13) + (112 << 23),
        0x7C00 => 0x7F80_0000,
        _ => return f32::NAN,
    };
    f32::from_bits(sign | bits)
}

/// An f32 as its nearest binary16; the machine rounds a subnormal one by an addition.
fn narrow(float: f32) -> u16 {
    let bits = float.to_bits();
    let (sign, code) = ((bits >> 16) as u16 & 0x8000, bits & 0x7FFF_FFFF);
    let half = match code {
        0..0x3880_0000 => (f32::from_bits(code) + 0.5).to_bits() - 0x3F00_0000,
        0x3880_0000..0x477F_F000 => (code + 0xFFF + (code >> 13 & 1)) / 8192 - (112 << 10),
        0x477F_F000..0x7F80_0000 => 0x7BFF,
        0x7F80_0000 => 0x7C00,
        _ => return 0x7E00,
    };
    sign | half as u16
}

pub struct Battery<'a> {
    pub floats: [f32; 7],
    pub flags: u16,
    pub health: u8,
    pub charge: u8,
    pub deviation: u8,
    pub id: u8,
    pub model: u32,
    pub name: &'a [u8],
}

impl<'a> Battery<'a> {
    pub fn read(b: &'a [u8]) -> Result<Battery<'a>, u64> {
        let name = b.get(23..).ok_or(15u64)?;
        if name.len() > 31 {
            return Err(16);
        }
        let half = |at: usize| widen(u16::from_le_bytes([b[at], b[at + 1]]));
        Ok(Battery {
            floats: [
                half(0),
                half(2),
                half(4),
                half(6),
                half(8),
                half(10),
                half(12),
            ],
            flags: u16::from(b[14]) | u16::from(b[15] >> 5) << 8,
            health: b[15] << 2 & 0x7C | b[16] >> 6,
            charge: b[16] << 1 & 0x7E | b[17] >> 7,
            deviation: b[17] & 0x7F,
            id: b[18],
            model: u32::from_le_bytes(*part(b, 19)),
            name,
        })
    }

    /// None for a name that is too long.
    fn of(floats: &[f32; 7], v: &[i64; 6], name: &'a [u8]) -> Option<Battery<'a>> {
        if name.len() > 31 {
            return None;
        }
        Some(Battery {
            floats: *floats,
            flags: clip(v[0], 11) as u16,
            health: clip(v[1], 7) as u8,
            charge: clip(v[2], 7) as u8,
            deviation: clip(v[3], 7) as u8,
            id: byte(v[4]),
            model: clip(v[5], 32) as u32,
            name,
        })
    }

    pub fn write(&self, out: &mut [u8]) -> Result<u64, u64> {
        let length = 23 + self.name.len();
        let out = out.get_mut(..length).ok_or(8u64)?;
        for (place, float) in out.chunks_exact_mut(2).zip(self.floats) {
            place.copy_from_slice(&narrow(float).to_le_bytes());
        }
        out[14] = self.flags as u8;
        out[15] = (self.flags >> 8 << 5) as u8 | self.health >> 2;
        out[16] = self.health << 6 | self.charge >> 1;
        out[17] = self.charge << 7 | self.deviation;
        out[18] = self.id;
        out[19..23].copy_from_slice(&self.model.to_le_bytes());
        out[23..].copy_from_slice(self.name);
        Ok(length as u64)
    }

    fn number(&self) -> u64 {
        let [health, charge, deviation, id] =
            [self.health, self.charge, self.deviation, self.id].map(u64::from);
        let state =
            u64::from(self.flags) ^ health << 11 ^ charge << 18 ^ deviation << 25 ^ id << 32;
        state ^ u64::from(self.model) << 28 ^ 23 ^ (self.name.len() as u64) << 5
    }
}

fn word(result: Result<u64, u64>) -> u64 {
    result.unwrap_or_else(|refusal| u64::MAX - refusal)
}

unsafe fn bytes<'a>(at: *const u8, length: usize) -> &'a [u8] {
    std::slice::from_raw_parts(at, length)
}

#[inline(never)]
pub unsafe extern "C" fn status_decode(payload: *const u8, length: usize) -> u64 {
    let payload = bytes(payload, length);
    word(match payload.try_into() {
        Ok(seven) => Ok(Status::read(seven).number()),
        Err(_) if length < 7 => Err(15),
        Err(_) => Err(16),
    })
}

#[inline(never)]
pub unsafe extern "C" fn status_encode(v: &[i64; 5], out: *mut u8, room: usize) -> u64 {
    let out = std::slice::from_raw_parts_mut(out, room);
    word(match out.first_chunk_mut() {
        None => Err(8),
        Some(seven) => {
            Status::of(v).write(seven);
            Ok(7)
        }
    })
}

#[inline(never)]
pub unsafe extern "C" fn info_decode(payload: *const u8, length: usize) -> u64 {
    word(Info::read(bytes(payload, length)).map(|info| info.number()))
}

#[inline(never)]
pub unsafe extern "C" fn info_encode(
    v: &[i64; 11],
    image_crc: u64,
    unique_id: *const u8,
    unique_id_length: usize,
    certificate: *const u8,
    certificate_length: usize,
    name: *const u8,
    name_length: usize,
    out: *mut u8,
    room: usize,
) -> u64 {
    let unique_id = bytes(unique_id, unique_id_length);
    let (certificate, name) = (
        bytes(certificate, certificate_length),
        bytes(name, name_length),
    );
    let info = Info::of(v, image_crc, unique_id, certificate, name).ok_or(17);
    word(info.and_then(|info| info.write(std::slice::from_raw_parts_mut(out, room))))
}

#[inline(never)]
pub unsafe extern "C" fn battery_decode(
    payload: *const u8,
    length: usize,
    floats: &mut [f32; 7],
) -> u64 {
    let battery = Battery::read(bytes(payload, length));
    word(battery.map(|battery| {
        *floats = battery.floats;
        battery.number()
    }))
}

#[inline(never)]
pub unsafe extern "C" fn battery_encode(
    floats: &[f32; 7],
    v: &[i64; 6],
    name: *const u8,
    name_length: usize,
    out: *mut u8,
    room: usize,
) -> u64 {
    let battery = Battery::of(floats, v, bytes(name, name_length)).ok_or(17);
    word(battery.and_then(|battery| battery.write(std::slice::from_raw_parts_mut(out, room))))
}
