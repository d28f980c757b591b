//! Blocks of whole lines, with fixed memory: of a line that is longer than its form has any, the front is kept.

use crate::interrupt;
use std::io::{self, ErrorKind, Read};

const BLOCK: usize = 1 << 16;

pub struct Lines<R> {
    from: R,
    longest: usize,
    buffer: Vec<u8>,
    /// The bytes at the buffer's front that are no whole line yet, or after `next` gave a block, those behind it.
    kept: usize,
    /// Where they are.
    at: usize,
    /// More of their line was dropped.
    cut: bool,
}

impl<R: Read> Lines<R> {
    /// No line has so many bytes. A longer one may come whole, or as its first so many.
    pub fn new(from: R, longest: usize) -> Lines<R> {
        Lines {
            from,
            longest,
            buffer: vec![0; longest + BLOCK],
            kept: 0,
            at: 0,
            cut: false,
        }
    }

    /// What has come, up to the last line feed; none at the end of the input, or after Ctrl-C.
    pub fn next(&mut self) -> io::Result<Option<&[u8]>> {
        loop {
            if interrupt::came() {
                return Ok(None);
            }
            self.buffer.copy_within(self.at..self.at + self.kept, 0);
            self.at = 0;
            let read = match self.from.read(&mut self.buffer[self.kept..]) {
                Ok(0) => return Ok(None),
                Ok(read) => read,
                Err(error) if error.kind() == ErrorKind::Interrupted => continue,
                Err(error) => return Err(error),
            };
            let end = self.after_cut(self.kept + read);
            let whole = self.buffer[..end].iter().rposition(|byte| *byte == b'\n');
            let whole = whole.map_or(0, |last| last + 1);
            (self.at, self.kept) = (whole, end - whole);
            if self.kept > self.longest {
                (self.kept, self.cut) = (self.longest, true);
            }
            if whole > 0 {
                return Ok(Some(&self.buffer[..whole]));
            }
        }
    }

    /// Takes what came of a line that was cut out of the first `end` bytes, and gives how many are left.
    fn after_cut(&mut self, end: usize) -> usize {
        if !self.cut {
            return end;
        }
        let came = &self.buffer[self.kept..end];
        match came.iter().position(|byte| *byte == b'\n') {
            None => self.kept,
            Some(dropped) => {
                self.cut = false;
                self.buffer.copy_within(self.kept + dropped..end, self.kept);
                end - dropped
            }
        }
    }

    /// After the end: the bytes behind the last line feed, or the front of them.
    pub fn rest(&self) -> &[u8] {
        &self.buffer[self.at..self.at + self.kept]
    }
}

#[cfg(test)]
mod tests {
    use super::*;

    const LONGEST: usize = 512;

    /// Gives so many bytes at a time.
    struct Slow<'a>(&'a [u8], usize);

    impl Read for Slow<'_> {
        fn read(&mut self, into: &mut [u8]) -> io::Result<usize> {
            let count = self.1.min(self.0.len()).min(into.len());
            into[..count].copy_from_slice(&self.0[..count]);
            self.0 = &self.0[count..];
            Ok(count)
        }
    }

    fn lines(input: &[u8], step: usize) -> (Vec<Vec<u8>>, Vec<u8>) {
        let mut lines = Lines::new(Slow(input, step), LONGEST);
        let mut all = Vec::new();
        while let Some(block) = lines.next().unwrap() {
            assert_eq!(block.last(), Some(&b'\n'));
            let block = &block[..block.len() - 1];
            all.extend(block.split(|byte| *byte == b'\n').map(<[u8]>::to_vec));
        }
        (all, lines.rest().to_vec())
    }

    /// However the input comes, lines are the same, but that long ones may be cut.
    #[test]
    fn any_steps() {
        let lengths = [
            0,
            1,
            40,
            LONGEST - 1,
            LONGEST,
            LONGEST + 1,
            0,
            3 * BLOCK,
            BLOCK,
            BLOCK - 1,
            5,
            0,
        ];
        let mut input = Vec::new();
        for (place, length) in lengths.iter().enumerate() {
            input.extend(vec![b'a' + place as u8; *length]);
            input.push(b'\n');
        }
        input.extend_from_slice(b"rest");
        for step in [1, 2, 7, 511, 512, 513, 4096, BLOCK - 1, BLOCK, 10 * BLOCK] {
            let (all, rest) = lines(&input, step);
            assert_eq!(rest, b"rest");
            assert_eq!(all.len(), lengths.len());
            for (place, (line, length)) in all.iter().zip(lengths).enumerate() {
                assert!(line.iter().all(|byte| *byte == b'a' + place as u8));
                match length < LONGEST {
                    true => assert_eq!(line.len(), length),
                    false => assert!((LONGEST..=length).contains(&line.len()), "{step} {length}"),
                }
            }
        }
    }

    #[test]
    fn unclosed() {
        assert_eq!(lines(b"", 1), (vec![], vec![]));
        assert_eq!(lines(b"a", 1), (vec![], b"a".to_vec()));
        assert_eq!(
            lines(&[b'x'; 3 * BLOCK], 1000),
            (vec![], vec![b'x'; LONGEST])
        );
    }
}
