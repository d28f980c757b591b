//! Compiles the proved library, dist/tecelume.c, with the system's C compiler, and takes version and sentences from its header, so that there
//! is one copy of each.

use std::env;
use std::fmt::Write;
use std::fs;
use std::path::{Path, PathBuf};
use std::process::Command;

fn main() {
    let dist = Path::new("../dist");
    let out = PathBuf::from(env::var_os("OUT_DIR").expect("cargo gives it"));
    println!("cargo::rerun-if-env-changed=CC");
    for name in ["tecelume.c", "tecelume.h"] {
        println!("cargo::rerun-if-changed={}", dist.join(name).display());
    }
    compile(dist, &out.join("tecelume.o"));
    let header = fs::read_to_string(dist.join("tecelume.h")).expect("dist/tecelume.h is there");
    fs::write(out.join("header.rs"), constants(&header)).expect("cargo's folder can be written");
}

fn compile(dist: &Path, object: &Path) {
    let compiler = env::var("CC").unwrap_or_else(|_| "cc".to_string());
    let done = Command::new(&compiler)
        .args(["-std=c99", "-O3", "-c", "-I"])
        .arg(dist)
        .arg(dist.join("tecelume.c"))
        .arg("-o")
        .arg(object)
        .status();
    match done {
        Ok(status) if status.success() => println!("cargo::rustc-link-arg={}", object.display()),
        Ok(status) => println!("cargo::error={compiler} on dist/tecelume.c: {status}"),
        Err(error) => {
            println!("cargo::error=a C compiler is needed, and '{compiler}' did not start: {error}")
        }
    }
}

const VERSION: [&str; 3] = ["VERSION_MAJOR", "VERSION_MINOR", "VERSION_PATCH"];
const SIZES: [&str; 8] = [
    "RECEIVER_SIZE",
    "OUTPUT_SIZE",
    "SUBSCRIPTION_SIZE",
    "STAMPED_SIZE",
    "TRAILER_SIZE",
    "SUBSCRIPTIONS_MAX",
    "DEFINITIONS_MAX",
    "TEXT_MAX",
];

/// The header's version, sizes and sentences as Rust.
fn constants(header: &str) -> String {
    let mut text = String::new();
    for (names, kind) in [(VERSION.as_slice(), "u32"), (SIZES.as_slice(), "usize")] {
        for name in names {
            let number = number(header, &format!("TECELUME_{name}"));
            writeln!(text, "pub const {name}: {kind} = {number};").unwrap();
        }
    }
    writeln!(text, "pub const SENTENCES: &[(u32, &str)] = &[").unwrap();
    for (number, sentence) in sentences(header) {
        writeln!(text, "    ({number}, {sentence}),").unwrap();
    }
    text.push_str("];\n");
    text
}

/// `#define NAME 5`.
fn number(header: &str, name: &str) -> usize {
    let line = header.lines().find_map(|line| {
        let rest = line.strip_prefix("#define ")?.strip_prefix(name)?;
        rest.strip_prefix(' ')
    });
    let word = line.and_then(|rest| rest.split_whitespace().next());
    word.and_then(|word| word.parse().ok())
        .unwrap_or_else(|| panic!("tecelume.h has no number {name}"))
}

/// `case 5: return "tail byte does not fit the frame";` in tecelume_text.
fn sentences(header: &str) -> impl Iterator<Item = (&str, &str)> {
    let (_, body) = header
        .split_once("*tecelume_text(")
        .expect("tecelume.h has tecelume_text");
    let (body, _) = body
        .split_once("default:")
        .expect("tecelume_text has a default");
    let cases = body
        .lines()
        .filter_map(|line| line.trim().strip_prefix("case "));
    cases.map(|case| {
        let (number, sentence) = case
            .split_once(": return ")
            .expect("a case of tecelume_text");
        (number, sentence.trim_end_matches(';'))
    })
}
