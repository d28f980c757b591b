//! binary16 and binary32, one from the other (RULES 9.12), on whole numbers: no float of the machine takes part.

const INFINITY: u16 = 0x7C00;
const INFINITY_32: u32 = 0x7F80_0000;
const NAN: u16 = 0x7E00;
const NAN_32: u32 = 0x7FC0_0000;
/// The largest finite binary16: 65504.
pub const LARGEST: u16 = 0x7BFF;

/// The binary32 of exactly that value.
pub fn widen(half: u16) -> u32 {
    let (sign, code) = (u32::from(half >> 15) << 31, half & 0x7FFF);
    match code {
        0..INFINITY => sign | exact(size(code)),
        INFINITY => sign | INFINITY_32,
        _ => NAN_32,
    }
}

/// The nearest binary16.
pub fn narrow(single: u32) -> u16 {
    let (sign, code) = (((single >> 31) as u16) << 15, single & 0x7FFF_FFFF);
    match code {
        0..INFINITY_32 => sign | nearest(code),
        INFINITY_32 => sign | INFINITY,
        _ => NAN,
    }
}

/// The size of a finite binary16 without its sign: so many times 2^-24.
pub fn size(code: u16) -> u64 {
    let (exponent, digits) = (code >> 10, u64::from(code & 0x3FF));
    match exponent {
        0 => digits,
        _ => (1024 + digits) << (exponent - 1),
    }
}

/// The binary32 of so many times 2^-24, a number of 24 digits at most and zeros after them.
fn exact(size: u64) -> u32 {
    if size == 0 {
        return 0;
    }
    // 24 digits that count 2^-24 are at least 2^-1, which has the exponent 126
    let (mut digits, mut exponent) = (size, 126);
    while digits < 1 << 23 {
        (digits, exponent) = (digits * 2, exponent - 1);
    }
    while digits >= 1 << 24 {
        (digits, exponent) = (digits / 2, exponent + 1);
    }
    exponent << 23 | (digits as u32 - (1 << 23))
}

/// Of a finite binary32 without its sign: of the two binary16 around it the nearer one, of two
/// as near the even one.
fn nearest(code: u32) -> u16 {
    let Some(wanted) = scaled(code) else {
        return LARGEST;
    };
    let scaled = |half: u16| u128::from(size(half)) << 36;
    let (mut low, mut high) = (0, LARGEST + 1);
    while high - low > 1 {
        let middle = (low + high) / 2;
        if scaled(middle) <= wanted {
            low = middle;
        } else {
            high = middle;
        }
    }
    if low == LARGEST {
        return LARGEST;
    }
    let (down, up) = (wanted - scaled(low), scaled(low + 1) - wanted);
    match down.cmp(&up) {
        std::cmp::Ordering::Less => low,
        std::cmp::Ordering::Equal => low + low % 2,
        std::cmp::Ordering::Greater => low + 1,
    }
}

/// A size in units of 2^-60: none from 65536 on, and 0 below 2^-36, which is far nearer to 0
/// than to 2^-24.
fn scaled(code: u32) -> Option<u128> {
    let (exponent, digits) = (code >> 23, u128::from(code & 0x7F_FFFF));
    match exponent {
        0..90 => Some(0),
        90..143 => Some(((1 << 23) + digits) << (exponent - 90)),
        _ => None,
    }
}
