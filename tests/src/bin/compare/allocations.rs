//! Handing out node IDs compared: one call after the other over allocators that setup made or that
//! were lent, with ones at fault among them.

use crate::entry_points::{Allocating, Question};
use crate::lent::Pair;
use crate::questions::{Bus, Call, MOST_PAYLOAD, MOST_ROOM};
use crate::random::Random;
use crate::tables::{self, FAULTS, TOO_SHORT};
use crate::tally::{compare, Difference, Tally};
use reference::allocator::{
    expected_stage, is_marked, preference, rank, Allocator, Answer, Ignored, Request, UniqueId,
    ENTRIES, LAST_ID, LONGEST_REPLY, MOST_ENTRIES, SIZE, TIMEOUT, UNIQUE_ID,
};
use reference::entry::{self, FAULT};

const CASES: [&str; 44] = [
    "0: stage 1",
    "0: stage 1 of 4 bytes",
    "0: stage 1 of 16 bytes",
    "0: stage 1 after the timeout, other bytes gathered",
    "0: stage 2",
    "0: stage 2 that completes a unique ID",
    "0: stage 3",
    "0: stage 2 or 3 at an age of 500,000",
    "0: stage 2 or 3, earlier than the last message",
    "0: known unique ID",
    "0: known unique ID, its node ID is marked",
    "0: known unique ID, its node ID is the own one",
    "0: new unique ID, preferred ID",
    "0: new unique ID, lowest free ID above",
    "0: new unique ID, highest free ID below",
    "0: new unique ID, 0 preferred",
    "0: new unique ID, 126 preferred",
    "0: new unique ID, 127 preferred",
    "0: new unique ID, the only free ID",
    "0: new unique ID, before others in the table",
    "0: new unique ID, after all in the table",
    "0: new unique ID, the last place of the table",
    "0: output of just the reply's length",
    "ignored: named source",
    "ignored: named source, above 127",
    "ignored: named source, after the timeout",
    "ignored: length without a stage",
    "ignored: 16 bytes, not the first part",
    "ignored: stage 1, bytes are gathered",
    "ignored: stage 2, nothing is gathered",
    "ignored: stage 3, nothing is gathered",
    "ignored: stage 3, stage 2 is expected",
    "ignored: stage 2, stage 3 is expected",
    "ignored: 1 to 5 bytes are gathered",
    "ignored: more than 16 bytes together",
    "ignored: at an age of 500,001, gathered bytes dropped",
    "8: one byte too few",
    "8: after the timeout, gathered bytes stay",
    "13: own ID 0",
    "13: own ID above 127",
    "13: own ID above 255 with a low byte that is allowed",
    "15 or 16, named source",
    "21: full table",
    "21: marks and own ID on all that the table leaves",
];
const EXTRA: usize = 40;

pub struct Allocations {
    side: Allocating,
    random: Random,
    pub tally: Tally,
    pub setups: Tally,
    state: Pair,
    spoiled: Pair,
    payload: Pair,
    out: Pair,
}

impl Allocations {
    pub fn new(side: Allocating, seed: u64) -> Allocations {
        let mut random = Random::new(seed);
        let faults = FAULTS.iter().map(|one| one.0);
        let cases: Vec<&str> = CASES.into_iter().chain(faults).chain([TOO_SHORT]).collect();
        Allocations {
            side,
            tally: Tally::new("allocate", &[0, 8, 13, 15, 16, 20, 21], &cases),
            setups: Tally::new("allocator setup", &[0, 20], &[]),
            state: Pair::new(SIZE + EXTRA, &mut random),
            spoiled: Pair::new(SIZE + EXTRA, &mut random),
            payload: Pair::new(MOST_PAYLOAD, &mut random),
            out: Pair::new(MOST_ROOM, &mut random),
            random,
        }
    }

    pub fn run(&mut self, calls: u64) -> Result<(), Difference> {
        let (expected, actual) = (SIZE as u64, (self.side.size)());
        compare((expected, actual), &[], || "allocator size".to_string())?;
        while self.setups.calls() < calls / 100 {
            self.setup_each()?;
        }
        while self.tally.calls() < calls {
            let mut bus = Bus::new(&mut self.random);
            self.open(&bus)?;
            for _ in 0..self.random.pick(&[10, 60, 200]) {
                self.one(&mut bus)?;
            }
        }
        Ok(())
    }

    /// Setups of a buffer that is too short, of one that fits, and of a longer one.
    fn setup_each(&mut self) -> Result<(), Difference> {
        for length in [self.random.pick(&[0, 1, SIZE - 1]), SIZE, SIZE + EXTRA] {
            let null = self.random.coin();
            self.state.lend(length, null);
            self.random.fill(self.state.expected.content_mut());
            self.state.level();
            let expected = entry::allocator_setup(self.state.expected.content_mut());
            let actual = (self.side.setup)(&mut self.state.actual);
            self.setups.number(expected);
            compare((expected, actual), &[("allocator", &self.state)], || {
                format!("allocator setup of {length} bytes")
            })?;
        }
        Ok(())
    }

    /// An allocator to begin with, by setup or lent as it is.
    fn open(&mut self, bus: &Bus) -> Result<(), Difference> {
        self.setup_each()?;
        if self.random.coin() {
            self.state.lend(SIZE, false);
        }
        if !self.random.once_in(4) {
            let allocator = tables::allocator(&mut self.random, &bus.unique_ids, bus.clock);
            self.random.fill(self.state.expected.content_mut());
            allocator.write(self.state.expected.content_mut());
            self.state.level();
        }
        Ok(())
    }

    fn one(&mut self, bus: &mut Bus) -> Result<(), Difference> {
        let mut before = Allocator::read(self.state.expected.content()).expect("no fault");
        if self.random.once_in(16) {
            before.gathered = tables::gathered(&mut self.random, &bus.unique_ids);
            before.write(self.state.expected.content_mut());
            self.state.level();
        }
        let call = bus.call(&mut self.random, &before);
        let null = self.random.coin();
        self.payload.lend_content(&call.payload, null);
        self.out.lend(call.room, null);
        if self.random.once_in(16) {
            return self.on_faulty(&call);
        }
        for case in cases(&before, &call) {
            self.tally.case(case);
        }
        let state = &mut self.state;
        let words = Self::allocate(&self.side, state, &mut self.payload, &mut self.out, &call);
        self.judge(words, &call, false)
    }

    fn on_faulty(&mut self, call: &Call) -> Result<(), Difference> {
        self.spoiled.copy(&self.state);
        let case = match FAULTS.get(self.random.index(FAULTS.len() + 1)) {
            Some((name, spoil)) => {
                spoil(&mut self.random, self.spoiled.expected.content_mut());
                name
            }
            None => {
                let length = self.random.pick(&[0, 1, ENTRIES, SIZE - 1]);
                let null = self.random.coin();
                self.spoiled.lend(length, null);
                TOO_SHORT
            }
        };
        self.spoiled.level();
        let state = &mut self.spoiled;
        let words = Self::allocate(&self.side, state, &mut self.payload, &mut self.out, call);
        let fault = u64::from(FAULT);
        assert_eq!(words.0, fault, "{case} is no fault to the reference");
        self.tally.case(case);
        self.judge(words, call, true)
    }

    /// Both sides' result words.
    fn allocate(
        side: &Allocating,
        state: &mut Pair,
        payload: &mut Pair,
        out: &mut Pair,
        call: &Call,
    ) -> (u64, u64) {
        let request = call.context.with_payload(payload.expected.content());
        let expected = entry::allocate(
            state.expected.content_mut(),
            &request,
            out.expected.content_mut(),
        );
        let actual = (side.allocate)(&mut Question {
            state: &mut state.actual,
            context: call.context,
            payload: &mut payload.actual,
            out: &mut out.actual,
        });
        (expected, actual)
    }

    fn judge(&mut self, words: (u64, u64), call: &Call, spoiled: bool) -> Result<(), Difference> {
        self.tally.number((words.0 & 255) as u32);
        let state = if spoiled { &self.spoiled } else { &self.state };
        let buffers = [
            ("allocator", state),
            ("payload", &self.payload),
            ("output", &self.out),
        ];
        compare(words, &buffers, || {
            format!("allocate call {}, {call:x?}", self.tally.calls())
        })
    }
}

/// The cases that a call belongs to; `before` is the allocator that it meets.
fn cases(before: &Allocator, call: &Call) -> Vec<&'static str> {
    let request = call.context.with_payload(&call.payload);
    let late = before.is_late(request.time) && !before.gathered.is_empty();
    let mut after = before.clone();
    match after.allocate(&request, call.room) {
        Answer::OwnIdNotAllowed => vec![own_id_case(request.own)],
        Answer::NoAllocation(_) if request.source != 0 => vec!["15 or 16, named source"],
        Answer::NoAllocation(_) => vec![],
        Answer::Ignored(Ignored::NamedSource) => named_cases(&request, late),
        Answer::Ignored(reason) => ignored_cases(before, &request, reason),
        Answer::NoneFree if before.table.len() == MOST_ENTRIES => vec!["21: full table"],
        Answer::NoneFree => vec!["21: marks and own ID on all that the table leaves"],
        Answer::OutputTooSmall => room_cases(before, call, late),
        Answer::Reply(reply) => {
            let mut cases = stage_cases(before, &request, late);
            if reply.len() == call.room {
                cases.push("0: output of just the reply's length");
            }
            if reply.len() == LONGEST_REPLY {
                cases.extend(node_id_cases(before, &after, &request, &reply));
            }
            cases
        }
    }
}

fn own_id_case(own: u32) -> &'static str {
    match own {
        0 => "13: own ID 0",
        _ if own > 255 && (1..=127).contains(&(own & 255)) => {
            "13: own ID above 255 with a low byte that is allowed"
        }
        _ => "13: own ID above 127",
    }
}

fn named_cases(request: &Request, late: bool) -> Vec<&'static str> {
    let mut cases = vec![match request.source {
        1..=127 => "ignored: named source",
        _ => "ignored: named source, above 127",
    }];
    if late {
        cases.push("ignored: named source, after the timeout");
    }
    cases
}

fn ignored_cases(before: &Allocator, request: &Request, reason: Ignored) -> Vec<&'static str> {
    let late = before.is_late(request.time);
    let gathered = if late { 0 } else { before.gathered.len() };
    let first_part = request.payload[0] & 1 == 1;
    let length = request.payload.len() - 1;
    let expected = expected_stage(gathered);
    let mut cases = vec![match (reason, length, first_part, expected) {
        (Ignored::NoStage, UNIQUE_ID, ..) => "ignored: 16 bytes, not the first part",
        (Ignored::NoStage, ..) => "ignored: length without a stage",
        (Ignored::TooManyBytes, ..) => "ignored: more than 16 bytes together",
        (.., None) => "ignored: 1 to 5 bytes are gathered",
        (_, _, true, _) => "ignored: stage 1, bytes are gathered",
        (_, 6, _, Some(1)) => "ignored: stage 2, nothing is gathered",
        (_, _, _, Some(1)) => "ignored: stage 3, nothing is gathered",
        (_, 6, ..) => "ignored: stage 2, stage 3 is expected",
        _ => "ignored: stage 3, stage 2 is expected",
    }];
    if late && !before.gathered.is_empty() && request.time - before.time == TIMEOUT + 1 {
        cases.push("ignored: at an age of 500,001, gathered bytes dropped");
    }
    cases
}

fn room_cases(before: &Allocator, call: &Call, late: bool) -> Vec<&'static str> {
    let gathered = if late { 0 } else { before.gathered.len() };
    let mut cases = vec![];
    if call.room + 1 == gathered + call.payload.len() {
        cases.push("8: one byte too few");
    }
    if late {
        cases.push("8: after the timeout, gathered bytes stay");
    }
    cases
}

/// Cases of a message that is processed, up to its reply.
fn stage_cases(before: &Allocator, request: &Request, late: bool) -> Vec<&'static str> {
    let first_part = request.payload[0] & 1 == 1;
    let length = request.payload.len() - 1;
    let completes = before.gathered.len() + length == UNIQUE_ID;
    let mut cases = vec![match (length, first_part) {
        (4, true) => "0: stage 1 of 4 bytes",
        (UNIQUE_ID, _) => "0: stage 1 of 16 bytes",
        (_, true) => "0: stage 1",
        (6, _) if completes => "0: stage 2 that completes a unique ID",
        (6, _) => "0: stage 2",
        _ => "0: stage 3",
    }];
    if first_part {
        if late {
            cases.push("0: stage 1 after the timeout, other bytes gathered");
        }
        return cases;
    }
    match request.time.checked_sub(before.time) {
        Some(TIMEOUT) => cases.push("0: stage 2 or 3 at an age of 500,000"),
        None => cases.push("0: stage 2 or 3, earlier than the last message"),
        _ => (),
    }
    cases
}

/// Cases of a reply with a whole unique ID.
fn node_id_cases(
    before: &Allocator,
    after: &Allocator,
    request: &Request,
    reply: &[u8],
) -> Vec<&'static str> {
    let unique_id: UniqueId = reply[1..].try_into().expect("a whole unique ID");
    let Some(node_id) = before.node_id_of(&unique_id) else {
        return new_cases(before, after, request, &unique_id, reply[0] >> 1);
    };
    let mut cases = vec!["0: known unique ID"];
    if is_marked(request.marks, node_id) {
        cases.push("0: known unique ID, its node ID is marked");
    }
    if u32::from(node_id) == request.own {
        cases.push("0: known unique ID, its node ID is the own one");
    }
    cases
}

fn new_cases(
    before: &Allocator,
    after: &Allocator,
    request: &Request,
    unique_id: &UniqueId,
    node_id: u8,
) -> Vec<&'static str> {
    let said = request.payload[0] >> 1;
    let preferred = preference(said);
    let mut cases = vec![match node_id {
        _ if node_id == preferred => "0: new unique ID, preferred ID",
        _ if node_id > preferred => "0: new unique ID, lowest free ID above",
        _ => "0: new unique ID, highest free ID below",
    }];
    match said {
        0 => cases.push("0: new unique ID, 0 preferred"),
        126 => cases.push("0: new unique ID, 126 preferred"),
        127 => cases.push("0: new unique ID, 127 preferred"),
        _ => (),
    }
    let free = (1..=LAST_ID).filter(|&one| before.is_free(request, one));
    if free.count() == 1 {
        cases.push("0: new unique ID, the only free ID");
    }
    let last = after.table.last().expect("the new entry");
    cases.push(match rank(unique_id) < rank(&last.unique_id) {
        true => "0: new unique ID, before others in the table",
        false => "0: new unique ID, after all in the table",
    });
    if after.table.len() == MOST_ENTRIES {
        cases.push("0: new unique ID, the last place of the table");
    }
    cases
}
