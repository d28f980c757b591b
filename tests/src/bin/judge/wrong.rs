//! Wrong variants of the judge: each must be caught, or the comparison shows nothing.

use crate::sides::Side;
use reference::captures::{find_records, Fields, RECORD, TRAILER};
use reference::crc::crc16;
use reference::entry::NOT_ALLOWED;
use reference::frame::{next_transfer_id, Stream, TransferType};
use reference::judge::pass::{Entered, InHand, Kept, Last, Plain, Rules, Table};
use reference::judge::*;
use reference::receive::{well_shaped, Receiver, Subscription};

/// One rule, or a few, replaced.
macro_rules! variants {
    ($($name:literal $variant:ident { $($methods:tt)* })*) => {
        $(
            struct $variant;
            impl Rules for $variant { $($methods)* }
        )*
        const VARIANTS: &[(&str, fn(&[u8], &[u8]) -> u64)] = &[
            $(($name, |list, capture| judge_by(&$variant, list, capture).word()),)*
        ];
    };
}

pub fn all() -> Vec<(&'static str, Side)> {
    let others: [(_, fn(&[u8], &[u8]) -> u64); 9] = [
        ("frames-counted-from-1", counted_from_1),
        ("frame-of-16-bits", frame_of_16_bits),
        ("no-frame-told", |list, capture| right(list, capture) & 255),
        ("last-frame-named", last_named),
        ("22-before-13", trailer_first),
        ("list-not-checked", list_not_checked),
        ("checksum-of-the-capture-not-checked", sum_not_checked),
        ("preface-refused", preface_refused),
        ("no-frames-refused", no_frames_refused),
    ];
    let all = VARIANTS.iter().copied().chain(others);
    all.map(|(name, call)| (name, Side::Word(call))).collect()
}

variants! {
    // transfer IDs
    "ids-free-for-messages" MessagesFree {
        fn may_start(&self, kept: &Kept, frame: &Frame) -> bool {
            is(frame, TransferType::Message) || Plain.may_start(kept, frame)
        }
    }
    "ids-free-for-requests" RequestsFree {
        fn may_start(&self, kept: &Kept, frame: &Frame) -> bool {
            is(frame, TransferType::Request) || Plain.may_start(kept, frame)
        }
    }
    "responses-held-to-ids" ResponsesHeld {
        fn may_start(&self, kept: &Kept, frame: &Frame) -> bool {
            let held = as_message(frame);
            Plain.may_start(kept, &held)
        }
    }
    "first-id-must-be-0" FirstMustBe0 {
        fn may_start(&self, kept: &Kept, frame: &Frame) -> bool {
            Plain.may_start(kept, frame) && (kept.last.is_some() || frame.tail().transfer_id == 0)
        }
    }
    "0-at-any-time" ZeroAtAnyTime {
        fn is_gap(&self, _: &Last, _: &Frame) -> bool {
            true
        }
    }
    "0-never" ZeroNever {
        fn is_gap(&self, _: &Last, _: &Frame) -> bool {
            false
        }
    }
    "gap-of-1999999" GapShorter {
        fn is_gap(&self, last: &Last, frame: &Frame) -> bool {
            frame.time >= last.start && frame.time - last.start >= GAP - 1
        }
    }
    "gap-above-2000000" GapLonger {
        fn is_gap(&self, last: &Last, frame: &Frame) -> bool {
            frame.time >= last.start && frame.time - last.start > GAP
        }
    }
    "time-back-is-a-gap" BackIsGap {
        fn is_gap(&self, last: &Last, frame: &Frame) -> bool {
            frame.time.wrapping_sub(last.start) >= GAP
        }
    }
    "gap-either-way" EitherWay {
        fn is_gap(&self, last: &Last, frame: &Frame) -> bool {
            frame.time.abs_diff(last.start) >= GAP
        }
    }
    "gap-in-32-bits" GapIn32Bits {
        fn is_gap(&self, last: &Last, frame: &Frame) -> bool {
            frame.time >= last.start && u64::from((frame.time - last.start) as u32) >= GAP
        }
    }
    "any-id-after-a-gap" AnyAfterGap {
        fn may_start(&self, kept: &Kept, frame: &Frame) -> bool {
            Plain.may_start(kept, frame) || kept.last.is_some_and(|last| Plain.is_gap(&last, frame))
        }
    }
    "only-0-after-a-gap" OnlyZero {
        fn may_start(&self, kept: &Kept, frame: &Frame) -> bool {
            let gap = kept.last.is_some_and(|last| Plain.is_gap(&last, frame));
            let other = gap && frame.tail().transfer_id != 0 && !is(frame, TransferType::Response);
            Plain.may_start(kept, frame) && !other
        }
    }
    "age-from-last-frame" FromLastFrame {
        fn follow(&self, kept: &mut Kept, frame: &Frame) -> Result<(), u32> {
            Plain.follow(kept, frame)?;
            set_start(kept, frame.time);
            Ok(())
        }
    }
    "age-from-last-end" FromLastEnd {
        fn follow(&self, kept: &mut Kept, frame: &Frame) -> Result<(), u32> {
            Plain.follow(kept, frame)?;
            if frame.tail().end {
                set_start(kept, frame.time);
            }
            Ok(())
        }
    }
    "age-from-first-start" FromFirstStart {
        fn start(&self, kept: &mut Kept, frame: &Frame) {
            let first = kept.last;
            Plain.start(kept, frame);
            set_start(kept, first.map_or(frame.time, |first| first.start));
        }
    }
    "age-from-the-latest-start" FromLatest {
        fn start(&self, kept: &mut Kept, frame: &Frame) {
            let before = kept.last.map_or(0, |last| last.start);
            Plain.start(kept, frame);
            set_start(kept, before.max(frame.time));
        }
    }
    "31-is-not-followed-by-0" NoWrap {
        fn may_start(&self, kept: &Kept, frame: &Frame) -> bool {
            let wraps = kept.last.is_some_and(|last| {
                last.transfer_id == 31 && !Plain.is_gap(&last, frame)
            });
            Plain.may_start(kept, frame) && (!wraps || is(frame, TransferType::Response))
        }
    }
    "same-id-accepted" SameId {
        fn may_start(&self, kept: &Kept, frame: &Frame) -> bool {
            let same = |last: Last| last.transfer_id == frame.tail().transfer_id;
            Plain.may_start(kept, frame) || kept.last.is_some_and(same)
        }
    }
    "one-left-out-accepted" OneLeftOut {
        fn may_start(&self, kept: &Kept, frame: &Frame) -> bool {
            let second = |last: Last| next_transfer_id(next_transfer_id(last.transfer_id));
            let left_out = |last| second(last) == frame.tail().transfer_id;
            Plain.may_start(kept, frame) || kept.last.is_some_and(left_out)
        }
    }
    // the frames of a transfer
    "seven-bytes-in-two-frames" SevenInTwo {
        fn close(&self, transfer: &InHand) -> Result<(), u32> {
            same_sum(transfer)
        }
    }
    "six-bytes-in-two-frames" SixInTwo {
        fn close(&self, transfer: &InHand) -> Result<(), u32> {
            if transfer.carried == 8 { same_sum(transfer) } else { Plain.close(transfer) }
        }
    }
    "eight-bytes-refused" EightRefused {
        fn close(&self, transfer: &InHand) -> Result<(), u32> {
            Plain.close(transfer)?;
            if transfer.carried == 10 { Err(NOT_SENT_SO) } else { Ok(()) }
        }
    }
    "24-before-12" ShortFirst {
        fn close(&self, transfer: &InHand) -> Result<(), u32> {
            if transfer.carried <= 9 { Err(NOT_SENT_SO) } else { Plain.close(transfer) }
        }
    }
    "checksum-not-looked-at" SumIgnored {
        fn close(&self, transfer: &InHand) -> Result<(), u32> {
            if transfer.carried <= 9 { Plain.close(transfer) } else { Ok(()) }
        }
    }
    "checksum-low-byte-only" LowByteOnly {
        fn close(&self, transfer: &InHand) -> Result<(), u32> {
            let register = transfer.register & 255 | transfer.checksum & 0xFF00;
            Plain.close(&InHand { register, ..*transfer })
        }
    }
    "checksum-high-byte-first" HighFirst {
        fn close(&self, transfer: &InHand) -> Result<(), u32> {
            let checksum = transfer.checksum.swap_bytes();
            Plain.close(&InHand { checksum, ..*transfer })
        }
    }
    "checksum-without-signature" NoSignature {
        fn first_register(&self, _: u64) -> u16 {
            0xFFFF
        }
    }
    "signature-high-byte-first" SignatureReversed {
        fn first_register(&self, signature: u64) -> u16 {
            Plain.first_register(signature.swap_bytes())
        }
    }
    "signature-of-the-first-subscription" FirstSignature {
        fn signature(&self, receiver: &Receiver, frame: &Frame) -> Option<u64> {
            signature(receiver, frame)?;
            Some(receiver.subscriptions[0].signature)
        }
    }
    "512-bytes-refused" LongestRefused {
        fn extend(&self, transfer: InHand, frame: &Frame) -> Result<Option<InHand>, u32> {
            let carried = transfer.carried + frame.payload().len();
            if carried > 513 { Err(TOO_LONG) } else { Plain.extend(transfer, frame) }
        }
    }
    "513-bytes-accepted" LongerAccepted {
        fn extend(&self, transfer: InHand, frame: &Frame) -> Result<Option<InHand>, u32> {
            let extra = usize::from(transfer.carried + frame.payload().len() == 515);
            let carried = transfer.carried - extra;
            let grown = Plain.extend(InHand { carried, ..transfer }, frame)?;
            Ok(grown.map(|grown| InHand { carried: grown.carried + extra, ..grown }))
        }
    }
    "74-frames-without-end" NoEnd {
        fn extend(&self, transfer: InHand, frame: &Frame) -> Result<Option<InHand>, u32> {
            let length = frame.payload().len();
            if frame.tail().end || transfer.carried + length <= MOST_CARRIED {
                return Plain.extend(transfer, frame);
            }
            Ok(Some(InHand {
                toggle: !transfer.toggle,
                carried: transfer.carried + length,
                ..transfer
            }))
        }
    }
    "73-frames-without-end-refused" Last73Refused {
        fn extend(&self, transfer: InHand, frame: &Frame) -> Result<Option<InHand>, u32> {
            let grown = Plain.extend(transfer, frame)?;
            if grown.is_some_and(|grown| grown.carried > 504) { Err(TOO_LONG) } else { Ok(grown) }
        }
    }
    "12-before-11" SumFirst {
        fn extend(&self, transfer: InHand, frame: &Frame) -> Result<Option<InHand>, u32> {
            let register = reference::crc::crc16_from(transfer.register, frame.payload());
            if frame.tail().end && register != transfer.checksum {
                return Err(CHECKSUM_DIFFERS);
            }
            Plain.extend(transfer, frame)
        }
    }
    "priority-free-inside" PriorityFree {
        fn continues(&self, transfer: &InHand, frame: &Frame) -> bool {
            let frame = Frame { id: transfer.id, ..*frame };
            Plain.continues(transfer, &frame)
        }
    }
    "priority-stays-for-good" PriorityStays {
        fn key(&self, frame: &Frame) -> u32 {
            frame.id
        }
    }
    "toggle-not-looked-at" ToggleFree {
        fn continues(&self, transfer: &InHand, frame: &Frame) -> bool {
            let toggle = frame.tail().toggle;
            Plain.continues(&InHand { toggle, ..*transfer }, frame)
        }
    }
    "transfer-id-free-inside" IdFree {
        fn continues(&self, transfer: &InHand, frame: &Frame) -> bool {
            let transfer_id = frame.tail().transfer_id;
            Plain.continues(&InHand { transfer_id, ..*transfer }, frame)
        }
    }
    "12-where-it-does-not-continue" WrongSumFirst {
        fn follow(&self, kept: &mut Kept, frame: &Frame) -> Result<(), u32> {
            let differs = |transfer: InHand| {
                let register = reference::crc::crc16_from(transfer.register, frame.payload());
                register != transfer.checksum
            };
            let tail = frame.tail();
            let wrong = !tail.start && tail.end && kept.in_hand.is_some_and(differs);
            let followed = Plain.follow(kept, frame);
            if wrong && followed == Err(NOT_SENT_SO) { Err(CHECKSUM_DIFFERS) } else { followed }
        }
    }
    "11-where-it-does-not-continue" TooLongFirst {
        fn follow(&self, kept: &mut Kept, frame: &Frame) -> Result<(), u32> {
            let length = frame.payload().len();
            let long = kept.in_hand.is_some_and(|one| one.carried + length > MOST_CARRIED);
            if long && !frame.tail().start { Err(TOO_LONG) } else { Plain.follow(kept, frame) }
        }
    }
    "start-inside-is-new" StartInside {
        fn follow(&self, kept: &mut Kept, frame: &Frame) -> Result<(), u32> {
            if frame.tail().start {
                kept.in_hand = None;
            }
            Plain.follow(kept, frame)
        }
    }
    "repeated-frame-passed-over" RepeatPassed {
        fn follow(&self, kept: &mut Kept, frame: &Frame) -> Result<(), u32> {
            let repeats = kept.in_hand.is_some_and(|one| one.toggle != frame.tail().toggle);
            if repeats { Ok(()) } else { Plain.follow(kept, frame) }
        }
    }
    "begins-inside-accepted" BeginsInside {
        fn follow(&self, kept: &mut Kept, frame: &Frame) -> Result<(), u32> {
            if kept.last.is_none() && !frame.tail().start {
                return Ok(());
            }
            Plain.follow(kept, frame)
        }
    }
    "12-for-any-other-rule" AlwaysTwelve {
        fn follow(&self, kept: &mut Kept, frame: &Frame) -> Result<(), u32> {
            let inside = kept.in_hand.is_some();
            Plain.follow(kept, frame).map_err(|number| if inside { 12 } else { number })
        }
    }
    "cut-transfer-refused" CutRefused {
        fn at_the_end(&self, table: &Table, frames: usize) -> Verdict {
            if table.values().any(|kept| kept.in_hand.is_some()) {
                return Verdict::Fails { number: NOT_SENT_SO, frame: frames - 1 };
            }
            Verdict::Passes
        }
    }
    // streams
    "65-streams" Streams65 {
        fn most_streams(&self) -> usize {
            65
        }
    }
    "63-streams" Streams63 {
        fn most_streams(&self) -> usize {
            63
        }
    }
    "streams-not-counted" StreamsNotCounted {
        fn most_streams(&self) -> usize {
            usize::MAX
        }
    }
    "anonymous-counted" AnonymousCounted {
        fn is_followed(&self, _: &Frame) -> bool {
            true
        }
        fn may_start(&self, kept: &Kept, frame: &Frame) -> bool {
            frame.stream().is_anonymous() || Plain.may_start(kept, frame)
        }
    }
    "anonymous-held-to-ids" AnonymousHeld {
        fn is_followed(&self, _: &Frame) -> bool {
            true
        }
        fn most_streams(&self) -> usize {
            MOST_STREAMS + 4
        }
        fn key(&self, frame: &Frame) -> u32 {
            let anonymous = frame.stream().is_anonymous();
            if anonymous { frame.id & 0x300 } else { frame.id & 0x00FF_FFFF }
        }
    }
    "anonymous-refused" AnonymousRefused {
        fn signature(&self, receiver: &Receiver, frame: &Frame) -> Option<u64> {
            signature(receiver, frame).filter(|_| !frame.stream().is_anonymous())
        }
    }
    "24-before-9" FollowFirst {
        fn enter<'a>(&self, receiver: &Receiver, table: &'a mut Table, frame: &Frame) -> Entered<'a> {
            let new = !table.contains_key(&self.key(frame)) && !frame.stream().is_anonymous();
            signature(receiver, frame).ok_or(7u32)?;
            if new && !frame.tail().start {
                return Err(NOT_SENT_SO);
            }
            Plain.enter(receiver, table, frame)
        }
    }
    "7-after-9" SubscriptionLast {
        fn enter<'a>(&self, receiver: &Receiver, table: &'a mut Table, frame: &Frame) -> Entered<'a> {
            let new = !table.contains_key(&self.key(frame)) && !frame.stream().is_anonymous();
            if new && table.len() == MOST_STREAMS {
                return Err(TOO_MANY_STREAMS);
            }
            Plain.enter(receiver, table, frame)
        }
    }
    "65th-stream-takes-a-place" TakesAPlace {
        fn kept<'a>(&self, table: &'a mut Table, frame: &Frame, signature: u64) -> Option<&'a mut Kept> {
            if table.len() == MOST_STREAMS && !table.contains_key(&self.key(frame)) {
                // the place of another stream, which is lost
                let lost = *table.keys().min()?;
                table.remove(&lost);
            }
            Plain.kept(table, frame, signature)
        }
    }
    "type-no-part-of-the-stream" NoType {
        fn key(&self, frame: &Frame) -> u32 {
            let service = frame.stream().transfer_type.is_service();
            frame.id & if service { 0xFFFF } else { 0xFF }
        }
    }
    "source-no-part-of-the-stream" NoSource {
        fn key(&self, frame: &Frame) -> u32 {
            frame.id & 0x00FF_FF80
        }
    }
    "destination-no-part-of-the-stream" NoDestination {
        fn key(&self, frame: &Frame) -> u32 {
            let service = frame.stream().transfer_type.is_service();
            frame.id & if service { 0x00FF_80FF } else { 0x00FF_FFFF }
        }
    }
    "request-and-response-one-stream" OneService {
        fn key(&self, frame: &Frame) -> u32 {
            let service = frame.stream().transfer_type.is_service();
            frame.id & if service { 0x00FF_7FFF } else { 0x00FF_FFFF }
        }
    }
    // frames and checks
    "unused-bytes-looked-at" UnusedLookedAt {
        fn check(&self, frame: &Frame) -> Option<u32> {
            let unused = frame.data.get(frame.length..).unwrap_or(&[]);
            let right = check(frame).or(Some(NOT_SENT_SO));
            if unused.iter().all(|&byte| byte == 0) { check(frame) } else { right }
        }
    }
    "tail-in-the-eighth-byte" TailLast {
        fn frame(&self, record: &[u8; RECORD]) -> Frame {
            let mut frame = Frame::of_record(record);
            if (1..8).contains(&frame.length) && record[20] != 0 {
                frame.data[frame.length - 1] = record[20];
            }
            frame
        }
    }
    "length-9-cut-to-8" NineCut {
        fn frame(&self, record: &[u8; RECORD]) -> Frame {
            let frame = Frame::of_record(record);
            Frame { length: frame.length.min(8), ..frame }
        }
    }
    "length-of-4-bits" LengthOf4Bits {
        fn frame(&self, record: &[u8; RECORD]) -> Frame {
            let frame = Frame::of_record(record);
            Frame { length: frame.length & 15, ..frame }
        }
    }
    "id-cut-to-29-bits" IdCut {
        fn frame(&self, record: &[u8; RECORD]) -> Frame {
            let frame = Frame::of_record(record);
            Frame { id: frame.id & 0x1FFF_FFFF, ..frame }
        }
    }
    "time-of-32-bits" TimeOf32Bits {
        fn frame(&self, record: &[u8; RECORD]) -> Frame {
            let frame = Frame::of_record(record);
            Frame { time: frame.time & 0xFFFF_FFFF, ..frame }
        }
    }
    "3-before-2" LengthFirst {
        fn check(&self, frame: &Frame) -> Option<u32> {
            let right = check(frame);
            if frame.length == 0 || frame.length > 8 { Some(3) } else { right }
        }
    }
    "4-before-3" ServiceFirst {
        fn check(&self, frame: &Frame) -> Option<u32> {
            let stream = frame.stream();
            let unnamed = stream.source == 0 || stream.destination == 0;
            let first = frame.id >> 29 == 0 && stream.transfer_type.is_service() && unnamed;
            if first { Some(4) } else { check(frame) }
        }
    }
    "5-before-4" TailFirst {
        fn check(&self, frame: &Frame) -> Option<u32> {
            let right = check(frame);
            let shape = |frame: &Frame| well_shaped(frame.tail(), frame.length - 1, false);
            if right == Some(4) && !shape(frame) { Some(5) } else { right }
        }
    }
    "7-before-5" TypeBeforeTail {
        fn check(&self, frame: &Frame) -> Option<u32> {
            check(frame).filter(|&number| number != 5)
        }
        fn enter<'a>(&self, receiver: &Receiver, table: &'a mut Table, frame: &Frame) -> Entered<'a> {
            signature(receiver, frame).ok_or(7u32)?;
            check(frame).map_or(Ok(()), Err)?;
            Plain.enter(receiver, table, frame)
        }
    }
    "6-looked-at" OwnNode {
        fn check(&self, frame: &Frame) -> Option<u32> {
            let service = frame.stream().transfer_type.is_service();
            check(frame).or(service.then_some(6))
        }
    }
    "start-with-toggle-accepted" ToggleAtStart {
        fn check(&self, frame: &Frame) -> Option<u32> {
            let right = check(frame);
            let toggled = right == Some(5) && frame.tail().start && frame.tail().toggle;
            if toggled { check(&without_toggle(frame)) } else { right }
        }
    }
    "end-with-the-tail-alone-accepted" EndAlone {
        fn check(&self, frame: &Frame) -> Option<u32> {
            let right = check(frame);
            let alone = right == Some(5) && frame.length == 1 && frame.data[0] & 0xC0 == 0x40;
            if alone { None } else { right }
        }
    }
    "kind-not-looked-at" KindIgnored {
        fn signature(&self, receiver: &Receiver, frame: &Frame) -> Option<u64> {
            let same = |one: &&Subscription| one.type_id == frame.stream().type_id;
            let found = signature(receiver, frame);
            found.or(receiver.subscriptions.iter().find(same).map(|one| one.signature))
        }
    }
}

fn is(frame: &Frame, transfer_type: TransferType) -> bool {
    frame.stream().transfer_type == transfer_type
}

/// The frame as one of a message from the same source.
fn as_message(frame: &Frame) -> Frame {
    let stream = Stream {
        transfer_type: TransferType::Message,
        destination: 0,
        ..frame.stream()
    };
    Frame {
        id: stream.id(0, 0),
        ..*frame
    }
}

fn without_toggle(frame: &Frame) -> Frame {
    let mut frame = *frame;
    frame.data[frame.length - 1] &= !0x20;
    frame
}

fn set_start(kept: &mut Kept, start: u64) {
    if let Some(last) = &mut kept.last {
        last.start = start;
    }
}

fn same_sum(transfer: &InHand) -> Result<(), u32> {
    if transfer.checksum == transfer.register {
        Ok(())
    } else {
        Err(CHECKSUM_DIFFERS)
    }
}

fn right(list: &[u8], capture: &[u8]) -> u64 {
    judge(list, capture).word()
}

fn counted_from_1(list: &[u8], capture: &[u8]) -> u64 {
    match judge(list, capture) {
        Answer::Judged(Verdict::Fails { number, frame }) => {
            let frame = frame + 1;
            Answer::Judged(Verdict::Fails { number, frame }).word()
        }
        other => other.word(),
    }
}

fn frame_of_16_bits(list: &[u8], capture: &[u8]) -> u64 {
    right(list, capture) & 0xFF_FFFF
}

/// The last frame of the capture in place of the first at fault.
fn last_named(list: &[u8], capture: &[u8]) -> u64 {
    let word = right(list, capture);
    let records = find_records(capture).unwrap_or_default();
    if matches!(word & 255, 0 | 13 | 22) {
        return word;
    }
    word & 255 | ((records.len() / RECORD - 1) as u64) << 8
}

fn trailer_first(list: &[u8], capture: &[u8]) -> u64 {
    if find_records(capture).is_none() {
        return u64::from(NO_CAPTURE);
    }
    right(list, capture)
}

/// A list that 13 refuses counts as an empty one.
fn list_not_checked(list: &[u8], capture: &[u8]) -> u64 {
    match right(list, capture) {
        word if word == u64::from(NOT_ALLOWED) => right(&[], capture),
        word => word,
    }
}

fn sum_not_checked(list: &[u8], capture: &[u8]) -> u64 {
    let Some((before, trailer)) = capture.split_last_chunk::<TRAILER>() else {
        return right(list, capture);
    };
    let distance = Fields::read(trailer).distance;
    let start = (before.len() as u64).saturating_sub(distance) as usize;
    let mut capture = capture.to_vec();
    let sum = crc16(&before[start..]);
    let at = before.len() + 12;
    capture[at..at + 2].copy_from_slice(&sum.to_le_bytes());
    right(list, &capture)
}

fn preface_refused(list: &[u8], capture: &[u8]) -> u64 {
    match find_records(capture) {
        Some(records) if records.len() + TRAILER < capture.len() => u64::from(NO_CAPTURE),
        _ => right(list, capture),
    }
}

fn no_frames_refused(list: &[u8], capture: &[u8]) -> u64 {
    match (find_records(capture), right(list, capture)) {
        (Some([]), 0) => u64::from(NO_CAPTURE),
        (_, word) => word,
    }
}
