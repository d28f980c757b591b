//! The log program (RULES 12): its listing, the allocation log, and lines that are not well formed.

use crate::allocation_log::ALLOCATION_LOG;
use reference::logs::run;

/// The output's lines between heading and end, and the end line.
fn output(input: &[u8]) -> (Vec<String>, String) {
    let text = String::from_utf8(run(input)).unwrap();
    let text = text.strip_suffix('\n').expect("a line feed at the end");
    let mut lines: Vec<String> = text.split('\n').map(str::to_string).collect();
    assert_eq!(
        lines.remove(0),
        "time kind type from to prio id len payload"
    );
    let end = lines.pop().unwrap();
    (lines, end)
}

#[test]
fn listing_of_01() {
    let input = "1.000 1001552A 01 00 00 00 00 00 00 C0\n\
                 1.001 1001552A 01 00 00 00 00 00 00 C0\n\
                 2.000 1001552A 01 81\n\
                 2.500 1001562A C1\n";
    let expected = "time kind type from to prio id len payload\n\
                    1.000 M 341 42 0 16 0 7 01000000000000\n\
                    1.001 - 32\n\
                    2.000 - 5\n\
                    2.500 - 7\n\
                    end 4 1\n";
    assert_eq!(String::from_utf8(run(input.as_bytes())).unwrap(), expected);
}

#[test]
fn allocation_log_of_003() {
    let mut input = String::new();
    for (time, id, data) in ALLOCATION_LOG {
        input.push_str(&format!("{}.{:03} {id:08X}", time / 1000, time % 1000));
        for byte in data {
            input.push_str(&format!(" {byte:02X}"));
        }
        input.push('\n');
    }
    let (lines, end) = output(input.as_bytes());
    assert_eq!(
        lines,
        [
            "1.117 M 1 0 0 30 0 7 0144C08B635E05",
            "1.117 M 1 1 0 30 0 7 0044C08B635E05",
            "1.406 M 1 0 0 30 1 7 00F4BC1096DF11",
            "1.406 + 0",
            "1.406 + 0",
            "1.406 M 1 1 0 30 1 13 0044C08B635E05F4BC1096DF11",
            "1.485 M 1 0 0 30 2 5 00A8BA5447",
            "1.485 + 0",
            "1.485 + 0",
            "1.485 M 1 1 0 30 2 17 FA44C08B635E05F4BC1096DF11A8BA5447",
        ]
    );
    assert_eq!(end, "end 10 6");
}

#[test]
fn services_and_empty_payloads() {
    let (lines, end) = output(b"0.000 1E018182 C4\n0.000 1E010182 C4\n9.000 1E018282 C4\n");
    assert_eq!(
        lines,
        [
            "0.000 Q 1 2 1 30 4 0 -",
            "0.000 R 1 2 1 30 4 0 -",
            "9.000 - 6"
        ]
    );
    assert_eq!(end, "end 3 2");
}

#[test]
fn refused_frames_are_well_formed_lines() {
    let (lines, _) = output(b"1.000 20000000 C0\n1.000 1001552A\n1.000 1E018082 C4\n");
    assert_eq!(lines, ["1.000 - 2", "1.000 - 3", "1.000 - 4"]);
}

#[test]
fn times_as_written() {
    let (lines, _) = output(b"0.000 1001552A C0\n999999999.999 1001552A C5\n");
    assert_eq!(
        lines,
        [
            "0.000 M 341 42 0 16 0 0 -",
            "999999999.999 M 341 42 0 16 5 0 -"
        ]
    );
}

#[test]
fn two_seconds_in_a_log() {
    let start = "1.000 1001552A 01 02 03 04 05 06 07 80\n";
    let next = |time: &str| format!("{start}{time} 1001552A 01 02 03 04 05 06 07 20\n");
    assert_eq!(output(next("3.000").as_bytes()).0[1], "3.000 + 0");
    assert_eq!(output(next("3.001").as_bytes()).0[1], "3.001 - 30");
}

/// A log has one cable: only there does the switch delay show (RULES 4.5).
#[test]
fn repeated_start_in_a_log() {
    let start = "1.000 1001552A 01 02 03 04 05 06 07 80\n";
    let again = |time: &str| format!("{start}{time} 1001552A 01 02 03 04 05 06 07 80\n");
    assert_eq!(output(again("2.000").as_bytes()).0[1], "2.000 - 33");
    assert_eq!(output(again("2.001").as_bytes()).0[1], "2.001 + 0");
}

#[test]
fn lines_not_well_formed() {
    let bad: [&[u8]; 24] = [
        b"",
        b" ",
        b"1.000",
        b"1.000 ",
        b"1 1001552A C0",
        b"1.00 1001552A C0",
        b"1.0000 1001552A C0",
        b"01.000 1001552A C0",
        b"00.000 1001552A C0",
        b".000 1001552A C0",
        b"1234567890.000 1001552A C0",
        b"+1.000 1001552A C0",
        b"1.000 1001552a C0",
        b"1.000 001552A C0",
        b"1.000 01001552A C0",
        b"1.000 1001552A c0",
        b"1.000 1001552A C",
        b"1.000 1001552A  C0",
        b"1.000 1001552A C0 ",
        b"1.000\t1001552A C0",
        b"1.000 1001552A C0\r",
        b"1.000 1001552A 01 02 03 04 05 06 07 08 C0",
        b"1.000 1001552A C0\0",
        b"1.000 1001552A \xC3\xA9",
    ];
    for line in bad {
        let (lines, end) = output(&[line, b"\n"].concat());
        assert_eq!(lines, ["? - 18"], "{line:?}");
        assert_eq!(end, "end 1 0");
    }
}

#[test]
fn input_without_a_last_line_feed() {
    assert_eq!(output(b""), (vec![], "end 0 0".to_string()));
    let (lines, end) = output(b"1.000 1001552A C0\n1.000 1001552A C1");
    assert_eq!(lines, ["1.000 M 341 42 0 16 0 0 -", "? - 18"]);
    assert_eq!(end, "end 2 1");
}

#[test]
fn line_of_any_length_is_one_line() {
    let long = [vec![b'0'; 100_000], b"\n1.000 1001552A C0\n".to_vec()].concat();
    let (lines, end) = output(&long);
    assert_eq!(lines, ["? - 18", "1.000 M 341 42 0 16 0 0 -"]);
    assert_eq!(end, "end 2 1");
}
