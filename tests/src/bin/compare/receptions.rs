//! Reception compared: one frame after the other into states that setup made or that were lent,
//! with states at fault among them.

use crate::entry_points::{Arrival, Reception};
use crate::faults::{FAULTS, TOO_SHORT};
use crate::lent::Pair;
use crate::random::Random;
use crate::setups::records;
use crate::situations::{Found, CASES};
use crate::states;
use crate::supply::{Supply, BLOCK_CASES};
use crate::tally::{compare, Difference, Tally};
use crate::traffic::{Call, Traffic, MOST_DATA, MOST_ROOM};
use reference::blocks::BLOCK;
use reference::entry::{self, FAULT};
use reference::receive::{Frame, Receiver};
use reference::state::{self, BLOCK_BYTES, SIZE};

const NUMBERS: [u32; 20] = [
    0, 1, 2, 3, 4, 5, 6, 7, 8, 9, 11, 12, 19, 20, 26, 30, 31, 32, 33, 34,
];
const STILL_VALID: &str = "bytes altered, no fault";
const ALTERED: &str = "20: bytes altered";
const AS_NULL: &str = "20: NULL";
/// A lent state may be longer than its layout by so much.
const EXTRA: usize = 40;

pub struct Receptions {
    side: Reception,
    random: Random,
    pub tally: Tally,
    /// The state that goes from call to call.
    state: Pair,
    /// A state for one call.
    spoiled: Pair,
    buffers: Buffers,
}

struct Buffers {
    data: Pair,
    out: Pair,
}

impl Receptions {
    pub fn new(side: Reception, seed: u64) -> Receptions {
        let mut random = Random::new(seed);
        let faults = FAULTS.iter().map(|(name, _)| *name);
        let other = [TOO_SHORT, AS_NULL, ALTERED, STILL_VALID];
        let cases = CASES.into_iter().chain(BLOCK_CASES);
        let cases: Vec<&str> = cases.chain(faults).chain(other).collect();
        Receptions {
            side,
            tally: Tally::new("receive", &NUMBERS, &cases),
            state: Pair::new(SIZE + EXTRA, &mut random),
            spoiled: Pair::new(SIZE + EXTRA, &mut random),
            buffers: Buffers {
                data: Pair::new(MOST_DATA, &mut random),
                out: Pair::new(MOST_ROOM, &mut random),
            },
            random,
        }
    }

    /// Compares so many calls of receive, or up to the first difference.
    pub fn run(&mut self, calls: u64) -> Result<(), Difference> {
        while self.tally.calls() < calls {
            let clock = match self.random.below(8) {
                0 => self.random.below(1000),
                1 => u64::MAX - self.random.below(8_000_000),
                _ => self.random.below(1 << 40),
            };
            let pressed = !self.random.once_in(6);
            let mut receiver = self.open(clock, pressed)?;
            let random = &mut self.random;
            let mut traffic = match pressed {
                true => Traffic::pressed(random, &receiver, clock),
                false => Traffic::new(random, &receiver, clock),
            };
            for _ in 0..traffic.length(&mut self.random) {
                let call = traffic.next(&mut self.random, &receiver);
                self.one(&mut receiver, &call)?;
            }
            let kept = state::read(self.state.expected.content());
            assert_eq!(kept, Some(receiver), "the reference lost its state");
        }
        Ok(())
    }

    /// A state to begin with, by setup or lent as it is, and if so perhaps a crowded one.
    fn open(&mut self, clock: u64, crowded: bool) -> Result<Receiver, Difference> {
        let length = SIZE + self.random.pick(&[0, 0, 1, EXTRA]);
        self.state.lend(length, false);
        self.random.fill(self.state.expected.content_mut());
        if !crowded && self.random.once_in(3) {
            let receiver = states::empty(&mut self.random);
            self.state.level();
            self.setup(&receiver)?;
            return Ok(receiver);
        }
        let crowded = crowded || self.random.once_in(4);
        let receiver = states::receiver(&mut self.random, clock, crowded);
        state::write(&receiver, self.state.expected.content_mut());
        self.state.level();
        Ok(receiver)
    }

    fn setup(&mut self, receiver: &Receiver) -> Result<(), Difference> {
        let list = records(&receiver.subscriptions);
        let mut lent = Pair::new(list.len(), &mut self.random);
        lent.lend_content(&list, true);
        let own = u32::from(receiver.own);
        let expected = entry::setup(self.state.expected.content_mut(), own, &list);
        let actual = (self.side.setup)(&mut self.state.actual, own, &mut lent.actual);
        let buffers = [("state", &self.state), ("subscriptions", &lent)];
        compare((expected, actual), &buffers, || {
            format!("setup before receive call {}", self.tally.calls() + 1)
        })
    }

    /// One call: most often on the state, else on a spoiled copy.
    fn one(&mut self, receiver: &mut Receiver, call: &Call) -> Result<(), Difference> {
        match self.random.below(32) {
            0 => self.on_faulty(call),
            1 => self.on_altered(call),
            _ => self.on_state(receiver, call),
        }
    }

    /// The reference goes on from the receiver it kept, the other side from the bytes alone.
    fn on_state(&mut self, receiver: &mut Receiver, call: &Call) -> Result<(), Difference> {
        let found = Found::new(receiver, call);
        let supply = Supply::new(receiver, call);
        let answer = receiver.receive(&frame(call), call.room);
        state::write(receiver, self.state.expected.content_mut());
        self.tally.number(answer.number());
        for case in found.cases(&answer) {
            self.tally.case(case);
        }
        for case in supply.cases(&answer, receiver) {
            self.tally.case(case);
        }
        self.buffers.lend(call);
        let word = entry::hand_over(&answer, self.buffers.out.expected.content_mut());
        let state = &mut self.state;
        self.buffers
            .call(&self.side, state, call, word, &self.tally)
    }

    /// A copy of the state with one fault.
    fn on_faulty(&mut self, call: &Call) -> Result<(), Difference> {
        self.spoiled.copy(&self.state);
        let index = self.random.index(FAULTS.len() + 2);
        let case = match FAULTS.get(index) {
            Some((name, spoil)) => {
                spoil(&mut self.random, self.spoiled.expected.content_mut());
                name
            }
            None if index == FAULTS.len() => {
                let length = self
                    .random
                    .pick(&[SIZE - 1, SIZE - BLOCK, BLOCK_BYTES, 8, 1]);
                self.spoiled.lend(length, false);
                TOO_SHORT
            }
            None => {
                self.spoiled.lend(0, true);
                AS_NULL
            }
        };
        self.tally.case(case);
        let number = self.on_spoiled(call)?;
        assert_eq!(number, FAULT, "{case} is no fault to the reference");
        Ok(())
    }

    /// A copy of the state with some bytes of its tables altered, at fault or not.
    fn on_altered(&mut self, call: &Call) -> Result<(), Difference> {
        self.spoiled.copy(&self.state);
        for _ in 0..self.random.between(1, 3) {
            let at = self.random.index(BLOCK_BYTES);
            let byte = match self.random.below(3) {
                0 => self.random.byte(),
                1 => self.random.below(4) as u8,
                _ => self.spoiled.expected.content()[at] ^ 1 << self.random.below(8),
            };
            self.spoiled.expected.content_mut()[at] = byte;
        }
        let number = self.on_spoiled(call)?;
        let case = if number == FAULT {
            ALTERED
        } else {
            STILL_VALID
        };
        self.tally.case(case);
        Ok(())
    }

    fn on_spoiled(&mut self, call: &Call) -> Result<u32, Difference> {
        self.spoiled.level();
        self.buffers.lend(call);
        let state = self.spoiled.expected.content_mut();
        let out = self.buffers.out.expected.content_mut();
        let word = entry::receive(state, &frame(call), out);
        let number = (word & 255) as u32;
        self.tally.number(number);
        let state = &mut self.spoiled;
        self.buffers
            .call(&self.side, state, call, word, &self.tally)?;
        Ok(number)
    }
}

impl Buffers {
    fn lend(&mut self, call: &Call) {
        self.data.lend_content(&call.data, call.null);
        self.out.lend(call.room, call.null);
    }

    /// Calls the other side, and compares its result and every buffer.
    fn call(
        &mut self,
        side: &Reception,
        state: &mut Pair,
        call: &Call,
        expected: u64,
        tally: &Tally,
    ) -> Result<(), Difference> {
        let actual = (side.receive)(&mut Arrival {
            state: &mut state.actual,
            id: call.id,
            data: &mut self.data.actual,
            interface: call.interface,
            time: call.time,
            out: &mut self.out.actual,
        });
        let buffers = [
            ("state", &*state),
            ("data", &self.data),
            ("output", &self.out),
        ];
        compare((expected, actual), &buffers, || {
            format!("receive call {}, {call:x?}", tally.calls())
        })
    }
}

fn frame(call: &Call) -> Frame<'_> {
    Frame {
        id: call.id,
        data: &call.data,
        interface: call.interface,
        time: call.time,
    }
}
