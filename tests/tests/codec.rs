//! The stored test of the codec program, answered by the reference.

use reference::codec::answer;
use reference::messages::{decode, encode};

#[test]
fn stored_lines_are_answered_alike() {
    let lines = include_bytes!("../../crates/codec/stdin").split(|&byte| byte == b'\n');
    let answers = include_str!("../../crates/codec/stdout").lines();
    assert_eq!(lines.clone().count(), answers.clone().count());
    for (line, expected) in lines.zip(answers) {
        assert_eq!(
            answer(decode, encode, line),
            expected,
            "{:?}",
            String::from_utf8_lossy(line)
        );
    }
}
