//! Lines of text.

use super::{Counts, Teller};
use crate::frame::{Frame, Stream};
use crate::input::Fault;
use crate::library::{sentence, Transfer, LINE_NOT_WELL_FORMED};
use crate::messages::{Message, Value};
use crate::refusals::{Group, Seen, GROUPS_MAX};
use crate::text::{self, counted, grouped};
use crate::types::Types;

pub static TELLER: Teller = Teller {
    transfer,
    refusal,
    fault,
    end,
};

/// Groups that are told at the end.
const GROUPS_TOLD: usize = 200;

/// `42`, of a service `42>1`, and `anon` where the source is 0.
fn nodes(out: &mut Vec<u8>, stream: &Stream) {
    match stream.source {
        0 => out.extend_from_slice(b"anon"),
        source => text::number(out, source.into()),
    }
    if stream.transfer_type.is_service() {
        out.push(b'>');
        text::number(out, stream.destination.into());
    }
}

/// Time, nodes and type in columns; a frame whose ID is none has no more than its time.
fn columns(out: &mut Vec<u8>, types: &Types, time: u64, stream: Option<Stream>) {
    let begun = out.len();
    text::seconds(out, time);
    let blanks = 11_usize.saturating_sub(out.len() - begun);
    out.splice(begun..begun, std::iter::repeat_n(b' ', blanks));
    out.extend_from_slice(b"  ");
    if let Some(stream) = stream {
        let begun = out.len();
        nodes(out, &stream);
        pad(out, begun, 7);
        let begun = out.len();
        types.name(&stream, out);
        pad(out, begun, 20);
    }
}

/// Blanks up to a width, and two more.
fn pad(out: &mut Vec<u8>, begun: usize, width: usize) {
    out.resize(out.len().max(begun + width) + 2, b' ');
}

fn transfer(out: &mut Vec<u8>, types: &Types, transfer: &Transfer) {
    columns(out, types, transfer.time, Some(transfer.stream));
    let readable = types.readable(&transfer.stream);
    match readable.map(|readable| readable.read(transfer.payload)) {
        Some(Ok(message)) => fields(out, &message),
        Some(Err(number)) => {
            put!(out, "- {number} {}: payload=", sentence(number));
            text::hex(out, transfer.payload);
        }
        None => {
            out.extend_from_slice(b"payload=");
            text::hex(out, transfer.payload);
        }
    }
    out.truncate(out.trim_ascii_end().len());
    out.push(b'\n');
}

fn fields(out: &mut Vec<u8>, message: &Message) {
    message.each(|name, case, value| {
        out.extend_from_slice(name.as_bytes());
        match (case, &value) {
            ("", _) => out.push(b'='),
            (_, Value::Empty) => put!(out, "={case}"),
            _ => put!(out, ".{case}="),
        }
        value.told(out);
        out.push(b' ');
    });
}

fn refusal(out: &mut Vec<u8>, types: &Types, frame: &Frame, number: u32) {
    columns(out, types, frame.time, frame.stream());
    put!(out, "- {number} {}\n", sentence(number));
}

fn fault(out: &mut Vec<u8>, line: u64, fault: &Fault) {
    put!(out, "line {line}: ");
    match fault {
        Fault::NotWellFormed(front) => {
            put!(out, "- {LINE_NOT_WELL_FORMED} {}: ", fault.sentence());
            text::quoted(out, front);
        }
        Fault::LeftOut(reason) => put!(out, "left out: {reason}"),
    }
    out.push(b'\n');
}

fn end(out: &mut Vec<u8>, types: &Types, counts: &Counts) {
    let refusals = &counts.refusals;
    let lines = counted(counts.lines, "line");
    let transfers = counted(counts.transfers, "transfer");
    let refused = grouped(refusals.all());
    put!(out, "end: {lines}, {transfers}, {refused} refused\n");
    groups(out, types, &refusals.groups());
    if refusals.beyond() > 0 {
        let beyond = refusals.beyond();
        put!(
            out,
            "{beyond:>9} x refused in streams beyond the first {GROUPS_MAX}\n"
        );
    }
    for (reason, count) in &counts.left_out {
        put!(out, "{count:>9} x left out: {reason}\n");
    }
    for hint in refusals.hints() {
        put!(out, "{hint}\n");
    }
}

fn groups(out: &mut Vec<u8>, types: &Types, groups: &[(Group, Seen)]) {
    for (group, seen) in groups.iter().take(GROUPS_TOLD) {
        put!(out, "{:>9} x ", seen.count);
        if let Some(stream) = &group.stream {
            types.name(stream, out);
            out.extend_from_slice(b" of ");
            nodes(out, stream);
            out.push(b' ');
        }
        put!(out, "- {} {}\n", group.number, sentence(group.number));
    }
    if groups.len() > GROUPS_TOLD {
        let more = groups.len() - GROUPS_TOLD;
        put!(out, "{more:>9} streams more, which --json tells\n");
    }
}
