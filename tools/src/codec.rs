//! The front of `codec`: texts in quotes and decimals become the forms that the proved program reads, and where that prints `?` this says why. The
//! program below decides; what is printed is its answer.

use crate::failure::Failure;
use crate::input::lines::Lines;
use crate::input::{Opened, Source};
use crate::library::sentence;
use crate::messages::{Given, Type, TYPES};
use crate::options::{unknown, Words};
use crate::output;
use crate::text;
use std::ffi::{OsStr, OsString};
use std::io::{BufRead, BufReader, Write};
use std::process::{Child, ChildStdin, ChildStdout, Command, Stdio};

const VALUE_NOT_ALLOWED: u32 = 17;
/// The longest line of the program below.
const LONGEST: usize = 8192;

pub fn run(words: Vec<OsString>) -> Result<(), Failure> {
    let (mut below, mut as_text) = (None, false);
    let mut words = Words::new(words);
    while let Some(option) = words.option() {
        match option.as_str() {
            "--below" => below = Some(words.value(&option)?),
            "--text" => as_text = true,
            option => return Err(unknown(option)),
        }
    }
    let source = Source::of_words(&words.plain)?;
    let below = below
        .ok_or_else(|| Failure::Words("--below, the proved program, is missing".to_string()))?;
    let Opened::File(file) = source.open()? else {
        unreachable!("words name no interface");
    };
    let mut lines = Lines::new(file, LONGEST + 1);
    let mut codec = Codec::start(&below, as_text)?;
    while let Some(block) = lines.next().map_err(|_| Failure::reading())? {
        let block = &block[..block.len() - 1];
        block
            .split(|byte| *byte == b'\n')
            .try_for_each(|line| codec.line(line))?;
        output::write(&mut codec.out)?;
    }
    if !lines.rest().is_empty() {
        codec.line(lines.rest())?;
    }
    output::write(&mut codec.out)?;
    codec.end()
}

/// The program below, and what is to be written.
struct Codec {
    below: Child,
    to: ChildStdin,
    from: BufReader<ChildStdout>,
    as_text: bool,
    out: Vec<u8>,
}

fn gone<E>(_: E) -> Failure {
    Failure::Reading("the program below ended".to_string())
}

impl Codec {
    fn start(path: &OsStr, as_text: bool) -> Result<Codec, Failure> {
        let mut command = Command::new(path);
        command.stdin(Stdio::piped()).stdout(Stdio::piped());
        let mut below = command.spawn().map_err(gone)?;
        let (to, from) = (below.stdin.take(), below.stdout.take());
        Ok(Codec {
            below,
            to: to.ok_or_else(|| gone(()))?,
            from: BufReader::new(from.ok_or_else(|| gone(()))?),
            as_text,
            out: Vec::new(),
        })
    }

    fn line(&mut self, line: &[u8]) -> Result<(), Failure> {
        match translated(line) {
            Ok(asked) if asked.len() <= LONGEST => {
                let answer = self.ask(&asked)?;
                self.tell(&asked, &answer);
            }
            Ok(_) => self.wrong("the line has over 8,192 bytes, texts as digits"),
            Err(reason) => self.wrong(&reason),
        }
        Ok(())
    }

    fn ask(&mut self, line: &[u8]) -> Result<Vec<u8>, Failure> {
        let asked = [line, b"\n"].concat();
        self.to.write_all(&asked).map_err(gone)?;
        let mut answer = Vec::new();
        self.from.read_until(b'\n', &mut answer).map_err(gone)?;
        answer
            .pop()
            .filter(|last| *last == b'\n')
            .ok_or_else(|| gone(()))?;
        Ok(answer)
    }

    fn tell(&mut self, asked: &[u8], answer: &[u8]) {
        let answer = String::from_utf8_lossy(answer);
        let number = answer
            .split(' ')
            .next()
            .and_then(|number| number.parse().ok());
        match number {
            None => self.wrong(&fault(asked)),
            Some(0) if self.as_text => told(&mut self.out, asked, &answer),
            Some(0) => self.out.extend_from_slice(answer.as_bytes()),
            Some(number) => {
                put!(&mut self.out, "{answer} {}", sentence(number));
                if number == VALUE_NOT_ALLOWED {
                    self.out.extend_from_slice(not_float(asked).as_bytes());
                }
            }
        }
        if number.is_some() {
            self.out.push(b'\n');
        }
    }

    fn wrong(&mut self, reason: &str) {
        put!(&mut self.out, "? {reason}\n");
    }

    fn end(mut self) -> Result<(), Failure> {
        drop(self.to);
        self.below.wait().map(drop).map_err(gone)
    }
}

/// In the forms of the program below; or what is wrong with a text or a decimal.
fn translated(line: &[u8]) -> Result<Vec<u8>, String> {
    let fields = type_in(line).map(Type::given).unwrap_or_default();
    let mut out = Vec::new();
    let mut rest = line;
    loop {
        let (word, after) = next_word(rest)?;
        match word.iter().position(|byte| *byte == b'=') {
            Some(at) => {
                let (name, value) = (&word[..at], &word[at + 1..]);
                out.extend_from_slice(&word[..=at]);
                let given = fields.iter().find(|(known, _)| known.as_bytes() == name);
                out.extend(value_of(value, given.map(|(_, given)| *given))?);
            }
            None => out.extend_from_slice(word),
        }
        let Some(after) = after else { return Ok(out) };
        out.push(b' ');
        rest = after;
    }
}

/// The type that a line names, in either form.
fn type_in(line: &[u8]) -> Option<&'static Type> {
    let name = line.split(|byte| *byte == b' ').nth(1)?;
    TYPES.iter().find(|one| one.name.as_bytes() == name)
}

/// Up to the next blank outside of quotes, and what comes after it.
fn next_word(line: &[u8]) -> Result<(&[u8], Option<&[u8]>), String> {
    let (mut quoted, mut escaped, mut last) = (false, false, 0);
    for (at, byte) in line.iter().enumerate() {
        match byte {
            _ if escaped => escaped = false,
            b'\\' if quoted => escaped = true,
            // only a value begins with a quote
            b'"' if quoted || last == b'=' => quoted = !quoted,
            b' ' if !quoted => return Ok((&line[..at], Some(&line[at + 1..]))),
            _ => (),
        }
        last = *byte;
    }
    match quoted {
        true => Err("a quote is not closed".to_string()),
        false => Ok((line, None)),
    }
}

fn value_of(value: &[u8], given: Option<Given>) -> Result<Vec<u8>, String> {
    let told = String::from_utf8_lossy(value);
    match given {
        Some(Given::Bytes | Given::Text) if value.starts_with(b"\"") => {
            let mut out = Vec::new();
            text::hex(&mut out, &letters(value)?);
            Ok(out)
        }
        Some(Given::Float) if !is_integer(value) => {
            let number: f32 = told
                .parse()
                .map_err(|_| format!("{} is no decimal number", named(&told)))?;
            let says_so = told.to_ascii_lowercase().contains("inf");
            match number.is_infinite() && !says_so {
                true => Err(format!("{} is beyond the floats of 32 bits", named(&told))),
                false => Ok(number.to_bits().to_string().into_bytes()),
            }
        }
        _ => Ok(value.to_vec()),
    }
}

/// Digits and signs are for the program below, so that +1 is not 1.0 where 1 is the number of a float's bits.
fn is_integer(value: &[u8]) -> bool {
    let is_part = |byte: &u8| matches!(byte, b'+' | b'-' | b'0'..=b'9');
    value.iter().all(is_part)
}

/// The bytes of a text in quotes, with the escapes that `show` prints.
fn letters(quoted: &[u8]) -> Result<Vec<u8>, String> {
    let inside = quoted
        .strip_prefix(b"\"")
        .and_then(|rest| rest.strip_suffix(b"\""));
    let mut rest = inside.ok_or("behind a quote comes a blank or the end of the line")?;
    let mut out = Vec::new();
    while let Some((byte, after)) = rest.split_first() {
        rest = after;
        match byte {
            b'\\' => rest = escape(rest, &mut out)?,
            b'"' => return Err("a quote inside of a text is written \\\"".to_string()),
            byte => out.push(*byte),
        }
    }
    Ok(out)
}

/// What comes behind a backslash; gives what is left.
fn escape<'a>(rest: &'a [u8], out: &mut Vec<u8>) -> Result<&'a [u8], String> {
    let wrong = "a backslash is followed by one of \\ \" n r t 0, xNN or u{N}";
    let (kind, rest) = rest.split_first().ok_or(wrong)?;
    let single = match kind {
        b'\\' | b'"' | b'\'' => Some(*kind),
        b'n' => Some(b'\n'),
        b'r' => Some(b'\r'),
        b't' => Some(b'\t'),
        b'0' => Some(0),
        _ => None,
    };
    if let Some(byte) = single {
        out.push(byte);
        return Ok(rest);
    }
    let (digits, rest) = match kind {
        b'x' => rest.split_at_checked(2).ok_or(wrong)?,
        b'u' => {
            let rest = rest.strip_prefix(b"{").ok_or(wrong)?;
            let end = rest.iter().position(|byte| *byte == b'}').ok_or(wrong)?;
            (&rest[..end], &rest[end + 1..])
        }
        _ => return Err(wrong.to_string()),
    };
    let digits = std::str::from_utf8(digits).map_err(|_| wrong)?;
    let is_number = digits.bytes().all(|digit| digit.is_ascii_hexdigit());
    let number = u32::from_str_radix(digits, 16)
        .ok()
        .filter(|_| is_number)
        .ok_or(wrong)?;
    match kind {
        b'x' => out.push(number as u8),
        _ => {
            let letter = char::from_u32(number).ok_or("there is no such letter")?;
            out.extend_from_slice(letter.encode_utf8(&mut [0; 4]).as_bytes());
        }
    }
    Ok(rest)
}

/// Of a line that 17 refuses: the first number that is not one of a float's bits, and what may have been meant; empty if there is none.
fn not_float(line: &[u8]) -> String {
    let fields = type_in(line).map(Type::given).unwrap_or_default();
    let line = String::from_utf8_lossy(line);
    let is_float = |name: &str| fields.contains(&(name.to_string(), Given::Float));
    let words = line.split(' ').filter_map(|word| word.split_once('='));
    let is_bits = |value: &str| value.parse().is_ok_and(|bits: i64| bits >> 32 == 0);
    let mut wrong = words.filter(|(name, value)| is_float(name) && !is_bits(value));
    wrong.next().map_or(String::new(), |(name, value)| {
        let value = named(value);
        format!(": {name} is {value}, not the number of a float's 32 bits; a decimal has a dot, as -25.0")
    })
}

/// What is wrong with a line at which the program below prints `?`.
fn fault(line: &[u8]) -> String {
    fault_in(line).unwrap_or_else(|| "this is no line of the form that --help tells".to_string())
}

fn fault_in(line: &[u8]) -> Option<String> {
    if line.contains(&b'\r') {
        return Some("there is a carriage return; lines end with a line feed alone".to_string());
    }
    let Ok(line) = std::str::from_utf8(line) else {
        return Some("there is a byte that is no letter".to_string());
    };
    if line.is_empty() {
        return Some("the line is empty".to_string());
    }
    let words: Vec<&str> = line.split(' ').collect();
    if words.iter().any(|word| word.is_empty()) {
        return Some("words are separated by one blank, and there is none at an end".to_string());
    }
    if !matches!(words[0], "decode" | "encode") {
        return Some(format!("{} is neither decode nor encode", named(words[0])));
    }
    let Some(of) = words.get(1) else {
        return Some("the type is missing".to_string());
    };
    let Some(of) = TYPES.iter().find(|one| one.name == *of) else {
        let names: Vec<&str> = TYPES.iter().map(|one| one.name).collect();
        return Some(format!(
            "there is no type {}; there are {}",
            named(of),
            names.join(", ")
        ));
    };
    match words[0] {
        "decode" => payload_fault(&words[2..]),
        _ => fields_fault(of, &words[2..]),
    }
}

const DIGITS: &str = "pairs of capital hexadecimal digits, or - for none";

fn payload_fault(words: &[&str]) -> Option<String> {
    match words {
        [] => Some(format!("the payload is missing: {DIGITS}")),
        [payload] if !is_list(payload) => Some(format!("the payload is not {DIGITS}")),
        [_] => None,
        [_, more, ..] => Some(format!("behind the payload there is {}", named(more))),
    }
}

fn fields_fault(of: &Type, words: &[&str]) -> Option<String> {
    let Some((room, words)) = words.split_first() else {
        return Some("the room, a number of bytes, is missing; 512 is always enough".to_string());
    };
    if room.contains('=') {
        return Some("the room, a number of bytes, is missing before the fields".to_string());
    }
    if !is_digits(room) {
        return Some(format!(
            "the room is a number of bytes, and {} is none",
            named(room)
        ));
    }
    let fields = of.given();
    let mut seen: Vec<&str> = Vec::new();
    for word in words {
        let Some((name, value)) = word.split_once('=') else {
            return Some(format!("{} is not name=value", named(word)));
        };
        let Some((_, given)) = fields.iter().find(|(known, _)| known == name) else {
            let mut names = fields
                .iter()
                .map(|(name, _)| name.as_str())
                .collect::<Vec<_>>();
            if names.is_empty() {
                names.push("none");
            }
            let (of, name, names) = (of.name, named(name), names.join(", "));
            return Some(format!("{of} has no field {name}; its fields: {names}"));
        };
        if seen.contains(&name) {
            return Some(format!("{name} comes twice"));
        }
        seen.push(name);
        let (is_right, wanted) = values(*given);
        if !is_right(value) {
            return Some(format!("{name} is {wanted}, and {} is not", named(value)));
        }
    }
    None
}

/// Which values a field takes, and how that is said.
fn values(given: Given) -> (fn(&str) -> bool, &'static str) {
    match given {
        Given::Number => (is_number, "a decimal number"),
        Given::Float => (
            is_number,
            "a decimal with a dot, as 25.0, or the number of the float's 32 bits",
        ),
        Given::Bytes | Given::Text => (
            is_list,
            "a text in quotes, pairs of capital hexadecimal digits, or - for none",
        ),
        Given::Numbers => (
            is_numbers,
            "decimal numbers with a comma between two, or - for none",
        ),
    }
}

/// The front of a word, in quotes.
fn named(word: &str) -> String {
    let front: String = word.chars().take(40).collect();
    let mut out = Vec::new();
    text::escaped(&mut out, front.as_bytes());
    let dots = if front.len() < word.len() { "…" } else { "" };
    format!("'{}{dots}'", String::from_utf8_lossy(&out))
}

fn is_digits(text: &str) -> bool {
    !text.is_empty() && text.bytes().all(|byte| byte.is_ascii_digit())
}

fn is_number(text: &str) -> bool {
    is_digits(text.strip_prefix('-').unwrap_or(text))
}

fn is_numbers(text: &str) -> bool {
    text == "-" || text.split(',').all(is_number)
}

fn is_list(text: &str) -> bool {
    let is_digit = |byte: u8| matches!(byte, b'0'..=b'9' | b'A'..=b'F');
    text == "-" || !text.is_empty() && text.len() % 2 == 0 && text.bytes().all(is_digit)
}

/// An answer with texts in quotes and floats as decimals.
fn told(out: &mut Vec<u8>, asked: &[u8], answer: &str) {
    let fields = type_in(asked).map(Type::given).unwrap_or_default();
    for (place, word) in answer.split(' ').enumerate() {
        if place > 0 {
            out.push(b' ');
        }
        let (name, value) = word.split_once('=').unwrap_or(("", word));
        if !name.is_empty() {
            put!(out, "{name}=");
        }
        match fields.iter().find(|(known, _)| known == name) {
            Some((_, Given::Float)) => {
                let bits = value.parse().unwrap_or_default();
                text::float(out, f32::from_bits(bits));
            }
            Some((_, Given::Text)) => text::quoted(out, &bytes_of(value)),
            _ => out.extend_from_slice(value.as_bytes()),
        }
    }
}

/// The bytes of pairs of digits.
fn bytes_of(digits: &str) -> Vec<u8> {
    let digit = |byte: u8| (byte as char).to_digit(16).unwrap_or_default() as u8;
    let pairs = digits.as_bytes().chunks_exact(2);
    pairs
        .map(|pair| digit(pair[0]) << 4 | digit(pair[1]))
        .collect()
}

#[cfg(test)]
mod tests {
    use super::*;
    use crate::test::Random;

    fn of(line: &str) -> Result<String, String> {
        translated(line.as_bytes()).map(|line| String::from_utf8(line).unwrap())
    }

    #[test]
    fn forms() {
        // today's forms stay
        for line in [
            "",
            "decode NodeStatus 0100",
            "encode KeyValue 512 value=25 key=74",
            " x  y ",
            "encode KeyValue 512 value=-25 value",
            "encode KeyValue 512 value=+1",
            "frob a=\"b\"",
        ] {
            assert_eq!(of(line).as_deref(), Ok(line));
        }
        assert_eq!(
            of("encode KeyValue 9 value=25.0 key=\"te mp\"").unwrap(),
            "encode KeyValue 9 value=1103626240 key=7465206D70"
        );
        assert_eq!(
            of("encode KeyValue 9 key=\"\" value=-1e0").unwrap(),
            "encode KeyValue 9 key=- value=3212836864"
        );
        assert_eq!(
            of("encode KeyValue 9 value=nan").unwrap(),
            "encode KeyValue 9 value=2143289344"
        );
        assert_eq!(
            of("encode KeyValue 9 value=-inf").unwrap(),
            "encode KeyValue 9 value=4286578688"
        );
        assert_eq!(
            of("encode KeyValue 9 key=\"\\\"\\\\\\n\\0\\x1B\\u{e9}=\"").unwrap(),
            "encode KeyValue 9 key=225C0A001BC3A93D"
        );
        assert_eq!(
            of("encode GetSet.Request 9 value.tag=2 value.real_value=0.5 name=\"é\"").unwrap(),
            "encode GetSet.Request 9 value.tag=2 value.real_value=1056964608 name=C3A9"
        );
        // a number of another kind is left to the program below
        assert_eq!(
            of("encode NodeStatus 7 uptime_sec=1.5").unwrap(),
            "encode NodeStatus 7 uptime_sec=1.5"
        );
        assert_eq!(
            of("encode KeyValue 9 key=a\"b c\"").unwrap(),
            "encode KeyValue 9 key=a\"b c\""
        );
    }

    #[test]
    fn wrong_texts() {
        for (value, reason) in [
            ("key=\"abc", "not closed"),
            ("key=\"abc\\\"", "not closed"),
            ("key=\"abc\"d", "behind a quote"),
            ("key=\"\\q\"", "a backslash"),
            ("key=\"\\x1\"", "a backslash"),
            ("key=\"\\u{d800}\"", "no such letter"),
            ("value=1.2.3", "is no decimal"),
            ("value=1e39", "beyond the floats"),
            ("value=\u{1b}", "'\\u{1b}' is no decimal"),
        ] {
            let refused = of(&format!("encode KeyValue 9 {value}")).unwrap_err();
            assert!(refused.contains(reason), "{value}: {refused}");
        }
    }

    #[test]
    fn reasons() {
        let fault = |line: &str| fault(line.as_bytes());
        assert_eq!(
            fault("encode KeyValue key=61"),
            "the room, a number of bytes, is missing before the fields"
        );
        assert_eq!(
            fault("encode NodeStatus 7 health=\"OK\""),
            "health is a decimal number, and '\"OK\"' is not"
        );
        let not_float = |line: &str| not_float(line.as_bytes());
        for value in ["-25", "4294967296", "99999999999999999999"] {
            let told = not_float(&format!("encode KeyValue 9 value={value}"));
            assert!(told.contains(&format!("value is '{value}', not")), "{told}");
        }
        for line in ["value=-0", "value=4294967295", "key=-25", ""] {
            assert_eq!(not_float(&format!("encode KeyValue 9 {line}")), "");
        }
    }

    /// A line is at fault exactly if the second implementation says that it is not of the form: the lines that the gate's program is run on, each
    /// changed in one byte or one word.
    #[test]
    fn faults() {
        let stored = include_str!("../../crates/codec/stdin");
        let lines: Vec<&str> = stored.lines().filter(|line| line.len() < 400).collect();
        let mut random = Random(4);
        let (mut right, mut wrong) = (0, 0);
        for round in 0..60_000 {
            let mut line = lines[round % lines.len()].as_bytes().to_vec();
            let place = random.below(line.len().max(1) as u64) as usize;
            match random.below(7) {
                0 if !line.is_empty() => line[place] = random.pick(b"0aF-=., \r\xff\"zN"),
                1 if !line.is_empty() => drop(line.remove(place)),
                2 => line.insert(place, random.pick(b"0aF-=., \r\xff\"zN")),
                3 => line.truncate(place),
                4 => line.extend_from_slice(random.pick(&[
                    b" index=1".as_slice(),
                    b" key=-",
                    b" cmd=1,2",
                    b" x",
                    b" ",
                ])),
                _ => (),
            }
            let form = reference::codec::asked(&line).is_some();
            let fault = fault_in(&line);
            assert_eq!(
                form,
                fault.is_none(),
                "{:?}: {fault:?}",
                String::from_utf8_lossy(&line)
            );
            *(if form { &mut right } else { &mut wrong }) += 1;
        }
        assert!(right > 10_000 && wrong > 10_000, "{right} {wrong}");
    }

    #[test]
    fn told_as_text() {
        let of = |asked: &str, answer: &str| {
            let mut out = Vec::new();
            told(&mut out, asked.as_bytes(), answer);
            String::from_utf8(out).unwrap()
        };
        assert_eq!(
            of("decode KeyValue 00", "0 value=1103626240 key=74656D70"),
            "0 value=25.0 key=\"temp\""
        );
        assert_eq!(
            of("decode KeyValue 00", "0 value=2143289344 key=-"),
            "0 value=NaN key=\"\""
        );
        assert_eq!(
            of("encode KeyValue 9", "0 0000C84174656D70"),
            "0 0000C84174656D70"
        );
        assert_eq!(
            of("decode Allocation 00", "0 node_id=0 unique_id=0102"),
            "0 node_id=0 unique_id=0102"
        );
    }
}
