//! The comparison itself: it passes on what is alike, and fails on what is not or was not seen.

use std::process::Command;

/// The exit status of a short run.
fn status(options: &[&str]) -> Option<i32> {
    let short = "--rounds 1 --frames 100000 --setups 3000 --sends 100000 --allocations 100000 \
        --messages 20000 --lines 20000 --minimum 1";
    Command::new(env!("CARGO_BIN_EXE_compare"))
        .args(short.split(' '))
        .args(options)
        .output()
        .expect("the comparison runs")
        .status
        .code()
}

#[test]
fn reference_is_like_itself() {
    assert_eq!(status(&["--self"]), Some(0));
}

#[test]
fn every_mutant_is_caught() {
    assert_eq!(status(&["--mutants"]), Some(0));
}

#[test]
fn difference_fails() {
    assert_eq!(status(&["--mutant", "age-from-last-frame"]), Some(1));
    assert_eq!(
        status(&["--mutant", "checksum-sent-high-byte-first"]),
        Some(1)
    );
    assert_eq!(status(&["--mutant", "id-given-twice"]), Some(1));
    assert_eq!(status(&["--mutant", "first-letter-is-length"]), Some(1));
}

#[test]
fn other_program_fails() {
    assert_eq!(status(&["--codec", "/bin/cat"]), Some(1));
}

#[test]
fn rare_answers_fail() {
    assert_eq!(status(&["--self", "--minimum", "1000000"]), Some(1));
}

/// The exit status of a short run of the comparison of type definitions.
fn dsdl(options: &[&str]) -> Option<i32> {
    Command::new(env!("CARGO_BIN_EXE_dsdl"))
        .args(["--texts", "20000", "--minimum", "10"])
        .args(options)
        .output()
        .expect("the comparison runs")
        .status
        .code()
}

#[test]
fn type_definitions_are_compared() {
    assert_eq!(dsdl(&["--self"]), Some(0));
    assert_eq!(dsdl(&["--self", "--minimum", "1000000"]), Some(1));
    assert_eq!(dsdl(&["--mutant", "union-without-at"]), Some(1));
    assert_eq!(dsdl(&["--mutant", "no-such"]), Some(2));
}
