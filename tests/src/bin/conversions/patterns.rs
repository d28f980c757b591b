//! The binary32 that go out, by sort.

use reference::binary16::{widen, LARGEST};

type Patterns = Box<dyn Iterator<Item = u32>>;

/// How far around a point all neighbours are taken.
const AROUND: u32 = 16;

pub fn sorts() -> Vec<(&'static str, Patterns)> {
    let halves = || 0..LARGEST;
    let halfway = |half| ((u64::from(widen(half)) + u64::from(widen(half + 1))) / 2) as u32;
    vec![
        ("around every binary16", around(halves().map(widen), AROUND)),
        (
            "around every tie",
            // the tie between 0 and the smallest is 2^-25
            around(halves().skip(1).map(halfway).chain([0x3300_0000]), AROUND),
        ),
        (
            "around every power of 2",
            around(
                (0..23).map(|k| 1 << k).chain((1..=255).map(|k| k << 23)),
                256,
            ),
        ),
        ("from 65504 to 65536 and on", around([0x4780_0000], 0x4000)),
        (
            "subnormal as binary16, in steps",
            both_signs((0x3280_0000..0x3880_0000).step_by(61)),
        ),
        ("any", Box::new(random(1).take(6_000_000))),
        (
            "any between 2^-26 and 2^17",
            Box::new(random(2).take(4_000_000).map(in_range)),
        ),
    ]
}

/// All within so many patterns of the points, with both signs.
fn around(points: impl IntoIterator<Item = u32> + 'static, distance: u32) -> Patterns {
    let all = points.into_iter().flat_map(move |point| {
        point.saturating_sub(distance)..=(point + distance).min(0x7FFF_FFFF)
    });
    both_signs(all)
}

fn both_signs(patterns: impl Iterator<Item = u32> + 'static) -> Patterns {
    Box::new(patterns.flat_map(|pattern| [pattern, pattern | 0x8000_0000]))
}

fn in_range(pattern: u32) -> u32 {
    let exponent = 101 + (pattern >> 23 & 255) % 44;
    pattern & 0x807F_FFFF | exponent << 23
}

/// Repeatable random patterns: splitmix64's high half.
fn random(seed: u64) -> impl Iterator<Item = u32> {
    let mut state = seed;
    std::iter::repeat_with(move || {
        state = state.wrapping_add(0x9E37_79B9_7F4A_7C15);
        let mixed = (state ^ state >> 30).wrapping_mul(0xBF58_476D_1CE4_E5B9);
        let mixed = (mixed ^ mixed >> 27).wrapping_mul(0x94D0_49BB_1331_11EB);
        (mixed >> 32) as u32
    })
}
