//! Wrong variants of what the call answers and leaves.

use crate::calls::{Buffers, Call};
use reference::dsdl::call::{given, told, RECORD_SIZE};
use reference::dsdl::{Rules, RULES};

pub const ALL: [(&str, Call); 13] = [
    ("definitions-counted-from-0", |buffers| {
        match call(buffers) {
            word if word & 255 == 40 => word - (1 << 8),
            word => word,
        }
    }),
    ("line-not-told", |buffers| call(buffers) & 0xFFFF),
    ("last-definition-decides", last_definition_decides),
    ("text-before-name", text_before_name),
    ("40-before-43", fault_first),
    ("41-before-40", nested_first),
    ("42-before-41", chain_first),
    ("8-before-41", |buffers| match call(buffers) {
        41 if buffers.out.length() == 0 => 8,
        word => word,
    }),
    ("records-not-counted", records_not_counted),
    ("output-touched-by-8", |buffers| {
        let word = call(buffers);
        if word == 8 {
            touch(buffers.out.content_mut());
        }
        word
    }),
    ("records-touched-by-41", |buffers| {
        let word = call(buffers);
        if word == 41 {
            touch(buffers.records.content_mut());
        }
        word
    }),
    ("ends-in-place-of-lengths", ends_in_place_of_lengths),
    ("writes-past-the-output", |buffers| {
        let word = call(buffers);
        if word == 0 {
            buffers.out.touch_guard();
        }
        word
    }),
];

fn call(buffers: &mut Buffers) -> u64 {
    RULES.call(
        buffers.source.content(),
        buffers.lengths.content(),
        buffers.out.content_mut(),
        buffers.records.content_mut(),
    )
}

fn touch(bytes: &mut [u8]) {
    if let Some(byte) = bytes.first_mut() {
        *byte ^= 1;
    }
}

/// The words of the definitions that are at fault, in their order.
fn faults(buffers: &Buffers) -> Vec<u64> {
    let given = given(buffers.source.content(), buffers.lengths.content()).unwrap_or_default();
    let numbered = given.iter().zip(1u64..);
    numbered
        .filter_map(|((name, text), number)| {
            let fault = RULES.definition(name, text).err()?;
            Some(40 | number << 8 | (fault.line as u64) << 16)
        })
        .collect()
}

fn last_definition_decides(buffers: &mut Buffers) -> u64 {
    match call(buffers) {
        word if word & 255 == 40 => *faults(buffers).last().expect("a fault"),
        word => word,
    }
}

fn text_before_name(buffers: &mut Buffers) -> u64 {
    let word = call(buffers);
    if word & 255 != 40 || word >> 16 != 0 {
        return word;
    }
    let given = given(buffers.source.content(), buffers.lengths.content()).unwrap_or_default();
    let (_, text) = given[(word >> 8) as usize - 1];
    let fault = RULES.definition(b"a.T", text).err();
    fault.map_or(word, |fault| word | (fault.line as u64) << 16)
}

fn fault_first(buffers: &mut Buffers) -> u64 {
    match call(buffers) {
        43 => faults(buffers).first().map_or(43, |&word| word),
        word => word,
    }
}

/// Takes a text at fault for an empty one while nested types are looked at.
fn nested_first(buffers: &mut Buffers) -> u64 {
    let word = call(buffers);
    let given = given(buffers.source.content(), buffers.lengths.content()).unwrap_or_default();
    let readable = |(name, text)| match RULES.definition(name, text) {
        Ok(_) => (name, text),
        Err(_) => (name, &[][..]),
    };
    let given: Vec<_> = given.into_iter().map(readable).collect();
    match RULES.signatures(&given) {
        Err(refusal) if word & 255 == 40 && refusal.number == 41 => 41,
        _ => word,
    }
}

fn chain_first(buffers: &mut Buffers) -> u64 {
    let word = call(buffers);
    let rules = Rules {
        may_be_nested: |_| true,
        ..RULES
    };
    let given = given(buffers.source.content(), buffers.lengths.content()).unwrap_or_default();
    match rules.signatures(&given) {
        Err(refusal) if word == 41 && refusal.number == 42 => 42,
        _ => word,
    }
}

/// Writes as many records as there is room for.
fn records_not_counted(buffers: &mut Buffers) -> u64 {
    let (source, lengths) = (buffers.source.content(), buffers.lengths.content());
    let answer = RULES.answer(source, lengths, buffers.out.length(), usize::MAX);
    told(
        &answer,
        buffers.out.content_mut(),
        buffers.records.content_mut(),
    )
}

fn ends_in_place_of_lengths(buffers: &mut Buffers) -> u64 {
    let word = call(buffers);
    if word == 0 {
        let count = buffers.lengths.length() / 8;
        let records = buffers.records.content_mut().chunks_exact_mut(RECORD_SIZE);
        let mut end = 0;
        for record in records.take(count) {
            let length: [u8; 4] = record[..4].try_into().expect("four bytes");
            end += u32::from_le_bytes(length);
            record[..4].copy_from_slice(&end.to_le_bytes());
        }
    }
    word
}
