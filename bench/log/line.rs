// Reading a log line by hand, for speed.

fn digit(c: u8) -> u32 {
    match c {
        b'0'..=b'9' => (c - b'0') as u32,
        b'A'..=b'F' => (c - b'A') as u32 + 10,
        _ => 16,
    }
}

fn number(text: &[u8], base: u32) -> Option<u32> {
    text.iter().try_fold(0u32, |value, &c| {
        let d = digit(c);
        (d < base).then(|| value.wrapping_mul(base).wrapping_add(d))
    })
}

pub struct Line {
    pub head: usize,
    pub id: u32,
    pub time: u64,
    pub len: usize,
    pub bytes: [u8; 8],
}

pub fn parse(line: &[u8]) -> Option<Line> {
    let n = line.len();
    if n > 47 || line.last() != Some(&b'\n') {
        return None;
    }
    let s = line.iter().take(10).position(|&c| c == b'.')?;
    if !(1..=9).contains(&s)
        || n < s + 14
        || (n - s - 14) % 3 != 0
        || n > s + 38
        || line[s + 4] != b' '
        || s > 1 && line[0] == b'0'
    {
        return None;
    }
    let seconds = number(&line[..s], 10)? as u64;
    let thousandths = number(&line[s + 1..s + 4], 10)? as u64;
    let id = number(&line[s + 5..s + 13], 16)?;
    let mut bytes = [0; 8];
    let len = (n - s - 14) / 3;
    for (byte, text) in bytes.iter_mut().zip(line[s + 13..n - 1].chunks_exact(3)) {
        if text[0] != b' ' {
            return None;
        }
        *byte = number(&text[1..], 16)? as u8;
    }
    Some(Line {
        head: s + 4,
        id,
        time: seconds * 1_000_000 + thousandths * 1_000,
        len,
        bytes,
    })
}
