//! Setup compared, each reason of its refusals alone and several together.

use crate::entry_points::Reception;
use crate::lent::Pair;
use crate::random::Random;
use crate::states;
use crate::tally::{compare, Difference, Tally};
use reference::entry::{self, SUBSCRIPTION};
use reference::receive::Subscription;
use reference::state::{BLOCK_BYTES, SIZE};

/// The arguments of a setup but its state.
struct Arguments {
    own: u32,
    list: Vec<u8>,
}

type Reason = (&'static str, fn(&mut Random, &mut Arguments));

const REASONS: [Reason; 7] = [
    ("13: own ID over 127", |random, arguments| {
        arguments.own = random.pick(&[128, 129, 255, 256, 1 << 16, u32::MAX]);
    }),
    ("13: over 64 subscriptions", |random, arguments| {
        let count = random.pick(&[65, 66, 128]);
        let types = (0..count).map(|type_id| record(0, type_id, random.next()));
        arguments.list = types.collect::<Vec<_>>().concat();
    }),
    ("13: kind unknown", |random, arguments| {
        let kind = random.between(2, 255) as u8;
        let type_id = random.below(256) as u32;
        arguments.add(random, kind, type_id, 1);
    }),
    ("13: message type over 65535", |random, arguments| {
        let type_id = random.pick(&[65536, 65537, 1 << 24, u32::MAX]);
        arguments.add(random, 0, type_id, 1);
    }),
    ("13: service type over 255", |random, arguments| {
        let type_id = random.pick(&[256, 257, 65535, 65536, u32::MAX]);
        arguments.add(random, 1, type_id, 1);
    }),
    ("13: one kind and type twice", |random, arguments| {
        let (kind, type_id) = (random.below(2) as u8, random.below(256) as u32);
        arguments.add(random, kind, type_id, 2);
    }),
    ("13: length no multiple of 13", |random, arguments| {
        let count = random.between(1, 12) as usize;
        arguments.list.extend(random.bytes(count));
    }),
];

const ALLOWED: &str = "0: allowed";
const SEVERAL: &str = "13: several reasons";
const TOO_SHORT: &str = "20: state too short";
const TOO_SHORT_AND_13: &str = "20: state too short, setup not allowed";
const MOST_RECORDS: usize = 130;
const EXTRA: usize = 40;

pub struct Setups {
    side: Reception,
    random: Random,
    pub tally: Tally,
    state: Pair,
    list: Pair,
}

impl Setups {
    pub fn new(side: Reception, seed: u64) -> Setups {
        let mut random = Random::new(seed);
        let other = [ALLOWED, SEVERAL, TOO_SHORT, TOO_SHORT_AND_13];
        let cases: Vec<&str> = REASONS.iter().map(|one| one.0).chain(other).collect();
        Setups {
            side,
            tally: Tally::new("setup", &[0, 13, 20], &cases),
            state: Pair::new(SIZE + EXTRA, &mut random),
            list: Pair::new(SUBSCRIPTION * (MOST_RECORDS + 4), &mut random),
            random,
        }
    }

    pub fn run(&mut self, calls: u64) -> Result<(), Difference> {
        let (expected, actual) = (SIZE as u64, (self.side.size)());
        compare((expected, actual), &[], || "receiver size".to_string())?;
        while self.tally.calls() < calls {
            let mut arguments = self.allowed();
            let mut case = self.refuse(&mut arguments);
            let short = self.random.once_in(8);
            if short {
                case = if case == ALLOWED {
                    TOO_SHORT
                } else {
                    TOO_SHORT_AND_13
                };
            }
            self.lend(&arguments, short);
            self.one(&arguments, case)?;
        }
        Ok(())
    }

    fn allowed(&mut self) -> Arguments {
        Arguments {
            own: self.random.below(128) as u32,
            list: records(&states::subscriptions(&mut self.random)),
        }
    }

    /// Leaves the arguments allowed, or gives one reason or several to refuse them.
    fn refuse(&mut self, arguments: &mut Arguments) -> &'static str {
        let random = &mut self.random;
        match random.below(4) {
            0 => ALLOWED,
            1 => {
                for _ in 0..2 {
                    random.pick(&REASONS).1(random, arguments);
                }
                SEVERAL
            }
            _ => {
                let (name, reason) = random.pick(&REASONS);
                reason(random, arguments);
                name
            }
        }
    }

    fn lend(&mut self, arguments: &Arguments, short: bool) {
        let length = if short {
            self.random
                .pick(&[0, 1, 8, BLOCK_BYTES, SIZE / 2, SIZE - 1])
        } else {
            SIZE + self.random.pick(&[0, 1, EXTRA])
        };
        let null = self.random.coin();
        self.state.lend(length, null);
        self.list.lend_content(&arguments.list, null);
        let filled = self.tally.calls().is_multiple_of(4);
        if filled {
            self.random.fill(self.state.expected.content_mut());
            self.state.level();
        }
    }

    fn one(&mut self, arguments: &Arguments, case: &'static str) -> Result<(), Difference> {
        let own = arguments.own;
        let expected = entry::setup(self.state.expected.content_mut(), own, &arguments.list);
        let actual = (self.side.setup)(&mut self.state.actual, own, &mut self.list.actual);
        assert!(
            case.starts_with(&format!("{expected}:")),
            "{case}: the reference answers {expected}"
        );
        self.tally.number(expected);
        self.tally.case(case);
        let buffers = [("state", &self.state), ("subscriptions", &self.list)];
        compare((expected, actual), &buffers, || {
            let call = self.tally.calls();
            format!(
                "setup call {call}, {case}, own {own}, {:x?}",
                arguments.list
            )
        })
    }
}

/// Subscriptions as the bytes that C gives.
pub fn records(subscriptions: &[Subscription]) -> Vec<u8> {
    let of = |one: &Subscription| record(u8::from(one.service), one.type_id.into(), one.signature);
    subscriptions.iter().flat_map(of).collect()
}

fn record(kind: u8, type_id: u32, signature: u64) -> Vec<u8> {
    let mut record = vec![kind];
    record.extend(type_id.to_le_bytes());
    record.extend(signature.to_le_bytes());
    record
}

impl Arguments {
    /// Puts records of one kind and type anywhere into the list, cut first so that 64 are not
    /// passed.
    fn add(&mut self, random: &mut Random, kind: u8, type_id: u32, count: usize) {
        self.list.truncate(SUBSCRIPTION * (64 - count));
        for _ in 0..count {
            let at = SUBSCRIPTION * random.index(self.list.len() / SUBSCRIPTION + 1);
            let added = record(kind, type_id, random.next());
            self.list.splice(at..at, added);
        }
    }
}
