//! Signatures of type definitions, microseconds per call: the proved call through its C entry tecelume_signatures_word, beside the
//! second implementation of ../tests in Rust, which was written to be compared and not to be fast.
//!
//! Each row is one call with 8 texts of 4,096 bytes. First both must give the same word, forms and records. Then they take turns in one
//! process, and the best of ROUNDS rounds counts. All memory is warm. The goal for every row is under 5,000 microseconds; it is not
//! enforced here, since figures of one run vary.

#[path = "../tests/src/crc.rs"]
#[allow(dead_code)]
mod crc;
#[path = "../tests/src/dsdl/mod.rs"]
#[allow(dead_code)]
mod dsdl;

use dsdl::RULES;
use std::hint::black_box;
use std::time::Instant;

extern "C" {
    fn tecelume_signatures_word(
        source: *const u8,
        source_length: usize,
        lengths: *const u8,
        lengths_length: usize,
        out: *mut u8,
        out_length: usize,
        records: *mut u8,
        records_length: usize,
    ) -> u64;
}

const ROUNDS: usize = 101;
const TEXTS: usize = 8;
const TEXT: usize = 4096;
const GOAL: f64 = 5000.0;
/// More than any of the rows' forms.
const ROOM: usize = 1 << 20;

/// Source and lengths of 8 definitions a.T0 to a.T7.
struct Row {
    name: &'static str,
    source: Vec<u8>,
    lengths: Vec<u8>,
}

/// Texts of as many lines as fit, and blanks; `line` gets the definition and the line.
fn row(name: &'static str, line: impl Fn(usize, usize) -> String) -> Row {
    let (mut source, mut lengths) = (vec![], vec![]);
    for definition in 0..TEXTS {
        let mut text = String::new();
        for number in 0.. {
            let line = line(definition, number);
            if line.is_empty() || text.len() + line.len() >= TEXT {
                break;
            }
            text = text + &line + "\n";
        }
        source.extend(format!("a.T{definition}{text:TEXT$}").bytes());
        lengths.extend([4u32, TEXT as u32].map(u32::to_le_bytes).concat());
    }
    Row {
        name,
        source,
        lengths,
    }
}

/// A short name for each number.
fn short(number: usize) -> String {
    let letter = |index: usize| char::from(b'a' + (index % 26) as u8);
    format!("{}{}{}", letter(number), letter(number / 26), number / 676)
}

fn rows() -> Vec<Row> {
    vec![
        row("fields", |_, number| {
            format!("uint8[<=20] {}", short(number))
        }),
        row("short fields", |_, number| {
            format!("bool {}", short(number))
        }),
        row("comments", |_, _| format!("# {}", "comment ".repeat(8))),
        row("constants", |_, number| {
            format!("float64 {} = -1.7976931348623157e+308", short(number))
        }),
        row("nested fields, four deep", |definition, number| {
            match definition % 4 {
                3 => String::new(),
                _ => format!("T{} {}", definition + 1, short(number)),
            }
        }),
        row(
            "all nested in the last",
            |definition, number| match definition {
                7 => String::new(),
                _ => format!("T7 {}", short(number)),
            },
        ),
        row(
            "a size of 4,000 hexadecimal digits",
            |_, number| match number {
                0 => format!("bool[0x{}] x", "f".repeat(4000)),
                _ => String::new(),
            },
        ),
        row("a constant of 4,000 digits", |_, number| match number {
            0 => format!("float64 X = 1.{}e1", "9".repeat(4000)),
            _ => String::new(),
        }),
    ]
}

struct Output {
    out: Vec<u8>,
    records: Vec<u8>,
}

fn proved(row: &Row, output: &mut Output) -> u64 {
    unsafe {
        tecelume_signatures_word(
            row.source.as_ptr(),
            row.source.len(),
            row.lengths.as_ptr(),
            row.lengths.len(),
            output.out.as_mut_ptr(),
            output.out.len(),
            output.records.as_mut_ptr(),
            output.records.len(),
        )
    }
}

fn second(row: &Row, output: &mut Output) -> u64 {
    RULES.call(
        &row.source,
        &row.lengths,
        &mut output.out,
        &mut output.records,
    )
}

fn time(call: fn(&Row, &mut Output) -> u64, row: &Row, output: &mut Output) -> f64 {
    let began = Instant::now();
    black_box(call(black_box(row), output));
    began.elapsed().as_nanos() as f64 / 1000.0
}

fn main() {
    let empty = || Output {
        out: vec![0; ROOM],
        records: vec![0; TEXTS * 12],
    };
    let (mut one, mut other) = (empty(), empty());
    println!("signatures, us per call of 8 texts of 4,096 bytes; goal under {GOAL}");
    println!("{:>12} {:>12} {:>7}", "tecelume", "second", "ratio");
    for row in rows() {
        let words = (proved(&row, &mut one), second(&row, &mut other));
        assert_eq!(words, (0, 0), "{}", row.name);
        assert!(
            one.out == other.out && one.records == other.records,
            "{}",
            row.name
        );
        let mut best = (f64::MAX, f64::MAX);
        for _ in 0..ROUNDS {
            best.0 = best.0.min(time(proved, &row, &mut one));
            best.1 = best.1.min(time(second, &row, &mut other));
        }
        let late = if best.0 < GOAL { "" } else { "  OVER THE GOAL" };
        println!(
            "{:>12.1} {:>12.1} {:>7.2}  {}{late}",
            best.0,
            best.1,
            best.0 / best.1,
            row.name
        );
    }
}
