//! Wrong variants of the reference's conversions: each must be caught, or the comparison shows
//! nothing.

use crate::{Side, REFERENCE};
use reference::binary16::{narrow, widen};

pub fn all() -> Vec<(&'static str, Side)> {
    let out = |narrow| Side {
        narrow,
        ..REFERENCE
    };
    let value = |from_f32| Side {
        from_f32,
        ..REFERENCE
    };
    let coming = |widen| Side { widen, ..REFERENCE };
    vec![
        ("ties-away", out(ties_away)),
        ("truncated", out(truncated)),
        ("subnormals-flushed", out(subnormals_flushed)),
        ("65520-to-infinity", out(to_infinity)),
        ("zero-sign-lost", out(zero_sign_lost)),
        ("nan-payload-kept", out(nan_payload_kept)),
        ("value-ties-away", value(ties_away)),
        ("nan-payload-kept-in", coming(nan_payload_kept_in)),
        ("subnormals-flushed-in", coming(subnormals_flushed_in)),
    ]
}

/// A finite binary32's next binary16 towards zero.
fn truncated(single: u32) -> u16 {
    let nearest = narrow(single);
    let above = widen(nearest) & 0x7FFF_FFFF > single & 0x7FFF_FFFF;
    match single & 0x7FFF_FFFF {
        0..0x7F80_0000 if above => nearest - 1,
        _ => nearest,
    }
}

fn ties_away(single: u32) -> u16 {
    let below = truncated(single & 0x7FFF_FFFF);
    let ends = [below, below + 1].map(|half| u64::from(widen(half)));
    match single & 0x7FFF_FFFF {
        code @ 1..0x477F_F000 if ends[0] + ends[1] == 2 * u64::from(code) => truncated(single) + 1,
        _ => narrow(single),
    }
}

fn subnormals_flushed(single: u32) -> u16 {
    match narrow(single) {
        half if half & 0x7C00 == 0 => half & 0x8000,
        half => half,
    }
}

fn to_infinity(single: u32) -> u16 {
    match single & 0x7FFF_FFFF {
        0x477F_F000..0x7F80_0000 => narrow(single) + 1,
        _ => narrow(single),
    }
}

fn zero_sign_lost(single: u32) -> u16 {
    match single {
        0x8000_0000 => 0,
        _ => narrow(single),
    }
}

fn nan_payload_kept(single: u32) -> u16 {
    match single & 0x7FFF_FFFF {
        0x7F80_0001.. => 0x7E00 | (single >> 13) as u16 & 0x1FF,
        _ => narrow(single),
    }
}

fn nan_payload_kept_in(half: u16) -> u32 {
    match half & 0x7FFF {
        0x7C01.. => 0x7FC0_0000 | u32::from(half & 0x1FF) << 13,
        _ => widen(half),
    }
}

fn subnormals_flushed_in(half: u16) -> u32 {
    match half & 0x7C00 {
        0 => widen(half & 0x8000),
        _ => widen(half),
    }
}
