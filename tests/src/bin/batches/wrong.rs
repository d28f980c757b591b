//! Wrong variants of the call on several frames: each must be caught.

use crate::sides::{receive_many, Call, Many};
use reference::batch::{self, RECORD, RESULT};
use reference::entry::FAULT;
use reference::receive::LONGEST_PAYLOAD;
use reference::state::{get_u64, put_u64};

pub const ALL: [(&str, Many); 19] = [
    ("fault-not-told", |call| match receive_many(call) {
        20 => 0,
        word => word,
    }),
    ("fault-writes-a-result", |call| {
        let word = receive_many(call);
        if word == u64::from(FAULT) && call.results.length() >= RESULT {
            put_u64(call.results.content_mut(), 0, word);
        }
        word
    }),
    ("fault-not-told-without-records", |call| {
        let records = call.records.length() / RECORD;
        match receive_many(call) {
            20 if records == 0 => 0,
            word => word,
        }
    }),
    ("count-one-more", |call| match receive_many(call) {
        20 => 20,
        word => word + 256,
    }),
    ("count-one-less", |call| match receive_many(call) {
        word if word < 256 => word,
        word => word - 256,
    }),
    ("frame-received-twice", |call| {
        let mut records = call.records.content().to_vec();
        if records.len() >= 2 * RECORD {
            records.copy_within(0..RECORD, RECORD);
        }
        with_records(call, &records)
    }),
    ("frame-left-out", |call| {
        let records = call.records.content().to_vec();
        if records.len() < 3 * RECORD {
            return receive_many(call);
        }
        let without = [&records[..RECORD], &records[2 * RECORD..]].concat();
        with_records(call, &without)
    }),
    ("payload-written-over", |call| {
        let given = call.out.content().to_vec();
        let word = receive_many(call);
        let payloads = payloads(call, word);
        if payloads.len() > 1 {
            call.out.content_mut().copy_from_slice(&given);
            for payload in &payloads {
                call.out.content_mut()[..payload.len()].copy_from_slice(payload);
            }
        }
        word
    }),
    ("ends-at-every-payload", |call| {
        ended_after(call, |word| word & 255 == 1 && word >> 8 & 1023 > 0)
    }),
    ("ends-at-an-empty-payload", |call| {
        ended_after(call, |word| word & 0x3_FFFF == 1)
    }),
    ("ends-at-a-refusal", |call| {
        ended_after(call, |word| (2..=8).contains(&(word & 255)))
    }),
    ("goes-on-with-511-bytes-left", |call| {
        on_after_end(call, LONGEST_PAYLOAD - 1)
    }),
    ("never-ends-for-room", |call| on_after_end(call, 0)),
    ("output-512-not-enough", |call| {
        let room = call.out.length();
        if room != LONGEST_PAYLOAD {
            return receive_many(call);
        }
        let mut out = call.out.content()[..room - 1].to_vec();
        let (bytes, results) = (call.state.content_mut(), call.results.content_mut());
        batch::receive_many(bytes, call.records.content(), results, &mut out)
    }),
    ("length-above-8-cut", |call| {
        changed(call, |record| record[13] = record[13].min(8))
    }),
    ("length-above-8-is-none", |call| {
        changed(call, |record| {
            if record[13] > 8 {
                record[8..12].fill(0);
                record[13] = 0;
            }
        })
    }),
    ("interface-not-read", |call| {
        changed(call, |record| record[12] = 0)
    }),
    ("time-high-byte-first", |call| {
        changed(call, |record| record[..8].reverse())
    }),
    ("results-high-byte-first", |call| {
        let word = receive_many(call);
        let used = (word >> 8) as usize;
        let results = call.results.content_mut().chunks_exact_mut(RESULT);
        results.take(used).for_each(<[u8]>::reverse);
        word
    }),
];

/// Receives other records than those that are lent.
fn with_records(call: &mut Call, records: &[u8]) -> u64 {
    batch::receive_many(
        call.state.content_mut(),
        records,
        call.results.content_mut(),
        call.out.content_mut(),
    )
}

fn changed(call: &mut Call, change: fn(&mut [u8])) -> u64 {
    let mut records = call.records.content().to_vec();
    records.chunks_exact_mut(RECORD).for_each(change);
    with_records(call, &records)
}

/// The payloads that a call handed out, from the results and the output buffer.
fn payloads(call: &Call, word: u64) -> Vec<Vec<u8>> {
    let mut past = 0;
    let mut payloads = Vec::new();
    for i in 0..(word >> 8) as usize {
        let length = (get_u64(call.results.content(), i * RESULT) >> 8 & 1023) as usize;
        if length > 0 {
            payloads.push(call.out.content()[past..past + length].to_vec());
        }
        past += length;
    }
    payloads
}

/// Ends after the first record with such a result.
fn ended_after(call: &mut Call, ends: fn(u64) -> bool) -> u64 {
    let mut bytes = call.state.content().to_vec();
    let mut results = call.results.content().to_vec();
    let mut out = call.out.content().to_vec();
    let records = call.records.content().to_vec();
    let word = batch::receive_many(&mut bytes, &records, &mut results, &mut out);
    let used = (word >> 8) as usize;
    let at = (0..used).find(|i| ends(get_u64(&results, i * RESULT)));
    match at {
        Some(at) => with_records(call, &records[..(at + 1) * RECORD]),
        None => receive_many(call),
    }
}

/// Where the call ends for want of room, but so many bytes are left, goes on with one more record.
fn on_after_end(call: &mut Call, left: usize) -> u64 {
    let word = receive_many(call);
    if word == u64::from(FAULT) {
        return word;
    }
    let used = (word >> 8) as usize;
    let past: usize = payloads(call, word).iter().map(Vec::len).sum();
    let rest = &call.records.content().to_vec()[used * RECORD..];
    if rest.len() < RECORD || call.out.length() - past < left {
        return word;
    }
    let results = call.results.content_mut();
    if results.len() < (used + 1) * RESULT {
        return word;
    }
    let more = batch::receive_many(
        call.state.content_mut(),
        &rest[..RECORD],
        &mut results[used * RESULT..],
        &mut call.out.content_mut()[past..],
    );
    word + (more & !255)
}
