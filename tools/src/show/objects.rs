//! An object of JSON a line.

use super::{Counts, Teller};
use crate::frame::{Frame, Stream};
use crate::input::Fault;
use crate::json::Object;
use crate::library::{sentence, Transfer, LINE_NOT_WELL_FORMED};
use crate::types::Types;

pub static TELLER: Teller = Teller {
    transfer,
    refusal,
    fault,
    end,
};

/// One object on a line of its own.
fn line(out: &mut Vec<u8>, fields: impl FnOnce(&mut Object)) {
    let mut object = Object::new(out);
    fields(&mut object);
    object.end();
    out.push(b'\n');
}

/// The fields of a stream, if there is one.
fn told(object: &mut Object, types: &Types, stream: Option<Stream>) {
    let Some(stream) = stream else { return };
    object.text("kind", stream.transfer_type.name());
    match types.of(&stream) {
        Some(known) => object.text("type", &known.full_name),
        None => object.null("type"),
    }
    object.number("type_id", stream.type_id);
    object.number("source", stream.source);
    object.number("destination", stream.destination);
}

fn refused(object: &mut Object, number: u32) {
    object.number("refusal", number);
    object.text("sentence", sentence(number));
}

fn transfer(out: &mut Vec<u8>, types: &Types, transfer: &Transfer) {
    line(out, |object| {
        object.time("time", Some(transfer.time));
        object.number("interface", transfer.interface);
        told(object, types, Some(transfer.stream));
        object.number("priority", transfer.priority);
        object.number("transfer_id", transfer.transfer_id);
        object.hex("payload", transfer.payload);
        let readable = types.readable(&transfer.stream);
        match readable.map(|readable| readable.read(transfer.payload)) {
            None => (),
            Some(Err(number)) => {
                object.number("not_read", number);
                object.text("sentence", sentence(number));
            }
            Some(Ok(message)) => object.object("fields", |fields| {
                message.each(|name, case, value| match case {
                    "" => value.json(fields.field(name)),
                    case => value.json(fields.field(&format!("{name}.{case}"))),
                });
            }),
        }
    });
}

fn refusal(out: &mut Vec<u8>, types: &Types, frame: &Frame, number: u32) {
    line(out, |object| {
        object.time("time", Some(frame.time));
        refused(object, number);
        told(object, types, frame.stream());
        object.hex("data", frame.data());
    });
}

fn fault(out: &mut Vec<u8>, number: u64, fault: &Fault) {
    line(out, |object| {
        object.number("line", number);
        match fault {
            Fault::NotWellFormed(front) => {
                refused(object, LINE_NOT_WELL_FORMED);
                object.text("front", front);
            }
            Fault::LeftOut(reason) => object.text("left_out", reason),
        }
    });
}

fn end(out: &mut Vec<u8>, types: &Types, counts: &Counts) {
    for (group, seen) in counts.refusals.groups() {
        line(out, |object| {
            object.number("refused", seen.count);
            refused(object, group.number);
            object.time("first", seen.first);
            object.time("last", seen.last);
            told(object, types, group.stream);
        });
    }
    line(out, |object| {
        object.field("end").extend_from_slice(b"true");
        object.number("lines", counts.lines);
        object.number("transfers", counts.transfers);
        object.object("refused", |object| {
            let numbers = counts.refusals.numbers();
            numbers.for_each(|(number, count)| object.number(&number.to_string(), count));
        });
        object.object("left_out", |object| {
            let reasons = counts.left_out.iter();
            reasons.for_each(|(reason, count)| object.number(reason, *count));
        });
        object.number("refused_beyond", counts.refusals.beyond());
    });
}
