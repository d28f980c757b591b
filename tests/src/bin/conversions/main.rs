//! Compares the proved conversions of floats with those of the reference (RULES 9.12): every
//! binary16 one way and back, and more than ten million binary32 the other way. First, wrong
//! variants of the reference must be caught.
//!
//! The feature `conversions` links the archive; without it only the wrong variants are tried.

#[cfg(feature = "conversions")]
mod linked;
mod patterns;
mod wrong;

use reference::binary16::{narrow, widen};
use std::process::ExitCode;

/// The conversions under comparison.
#[derive(Clone, Copy)]
pub struct Side {
    pub widen: fn(u16) -> u32,
    pub narrow: fn(u32) -> u16,
    /// The same at a float of the machine, by its bits.
    pub to_f32: fn(u16) -> u32,
    pub from_f32: fn(u32) -> u16,
}

pub const REFERENCE: Side = Side {
    widen,
    narrow,
    to_f32: widen,
    from_f32: narrow,
};

fn main() -> ExitCode {
    let caught = wrong::all().into_iter().filter(|(name, side)| {
        let result = compare(side);
        match &result {
            Ok(_) => println!("{name}: NOT CAUGHT"),
            Err(difference) => println!("{name}: caught, {difference}"),
        }
        result.is_err()
    });
    if caught.count() < wrong::all().len() {
        return ExitCode::FAILURE;
    }
    let Some(side) = archive() else {
        println!("no archive: build with the feature `conversions`");
        return ExitCode::SUCCESS;
    };
    match compare(&side) {
        Ok(counts) => {
            for (name, count) in counts {
                println!("{count:>10}  {name}");
            }
            println!("ALIKE");
            ExitCode::SUCCESS
        }
        Err(difference) => {
            println!("{difference}\nDIFFERENT");
            ExitCode::FAILURE
        }
    }
}

#[cfg(feature = "conversions")]
fn archive() -> Option<Side> {
    Some(linked::ARCHIVE)
}

#[cfg(not(feature = "conversions"))]
fn archive() -> Option<Side> {
    None
}

/// How many of each sort were compared, or the first difference.
fn compare(side: &Side) -> Result<Vec<(&'static str, u64)>, String> {
    for half in 0..=u16::MAX {
        come_in(side, half)?;
    }
    let mut counts = vec![("binary16, in and back", 1 << 16)];
    for (name, all) in patterns::sorts() {
        let mut count = 0;
        for single in all {
            go_out(side, single)?;
            count += 1;
        }
        counts.push((name, count));
    }
    Ok(counts)
}

fn come_in(side: &Side, half: u16) -> Result<(), String> {
    let (expected, is_nan) = (widen(half), half & 0x7FFF > 0x7C00);
    let pattern = (side.widen)(half);
    if pattern != expected {
        return Err(format!(
            "widen {half:#06x}: expected {expected:#010x}, got {pattern:#010x}"
        ));
    }
    // which NaN an f32 is, no contract says
    let value = (side.to_f32)(half);
    if value != expected && !(is_nan && value & 0x7FFF_FFFF > 0x7F80_0000) {
        return Err(format!(
            "to_f32 {half:#06x}: expected {expected:#010x}, got {value:#010x}"
        ));
    }
    let wanted = if is_nan { 0x7E00 } else { half };
    let back = [(side.narrow)(pattern), (side.from_f32)(value)];
    if back != [wanted; 2] {
        return Err(format!("back from {pattern:#010x}: {back:04x?}"));
    }
    Ok(())
}

fn go_out(side: &Side, single: u32) -> Result<(), String> {
    let expected = narrow(single);
    for (name, call) in [("narrow", side.narrow), ("from_f32", side.from_f32)] {
        let actual = call(single);
        if actual != expected {
            return Err(format!(
                "{name} {single:#010x}: expected {expected:#06x}, got {actual:#06x}"
            ));
        }
    }
    Ok(())
}
