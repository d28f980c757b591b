//! Sending compared: one call after the other over maps that setup made or that were lent, with
//! maps at fault among them.

use crate::entry_points::{frames_in, Departure, Sending};
use crate::lent::Pair;
use crate::maps::{self, FAULTS, TOO_SHORT};
use crate::outgoing::{Call, REASONS};
use crate::random::Random;
use crate::tally::{compare, Difference, Tally};
use reference::entry::{self, FAULT};
use reference::frame::{TransferType, TRANSFER_IDS};
use reference::map::{Descriptor, Map, NEXT_IDS, SIZE, UNUSED};
use reference::receive::LONGEST_PAYLOAD;
use reference::send::{frame_count, MOST_FRAMES, RECORD};

const CASES: [&str; 13] = [
    "0: response",
    "0: anonymous",
    "0: new entry in an empty place",
    "0: new entry in place of one unused for 2,000,000",
    "0: new entry in place of one unused for longer",
    "0: entry goes on",
    "0: entry goes on, long unused",
    "0: entry goes on, earlier than its last use",
    "0: transfer ID 31, 0 comes next",
    "0: 74 frames",
    "8: one byte too few",
    "9: oldest entry unused for 1,999,999",
    "11: payload over 512",
];
const MOST_PAYLOAD: usize = 600;
const MOST_ROOM: usize = RECORD * 90;
const EXTRA: usize = 40;

pub struct Sends {
    side: Sending,
    random: Random,
    pub tally: Tally,
    pub setups: Tally,
    map: Pair,
    spoiled: Pair,
    payload: Pair,
    out: Pair,
    /// Whether times run far ahead and back.
    leaps: bool,
}

impl Sends {
    pub fn new(side: Sending, seed: u64) -> Sends {
        let mut random = Random::new(seed);
        let reasons = REASONS.iter().map(|one| one.0);
        let faults = FAULTS.iter().map(|one| one.0);
        let cases: Vec<&str> = CASES
            .into_iter()
            .chain(reasons)
            .chain(faults)
            .chain([TOO_SHORT])
            .collect();
        Sends {
            side,
            tally: Tally::new("send", &[0, 8, 9, 11, 14, 20], &cases),
            setups: Tally::new("map setup", &[0, 20], &[]),
            map: Pair::new(SIZE + EXTRA, &mut random),
            spoiled: Pair::new(SIZE + EXTRA, &mut random),
            payload: Pair::new(MOST_PAYLOAD, &mut random),
            out: Pair::new(MOST_ROOM, &mut random),
            leaps: false,
            random,
        }
    }

    pub fn run(&mut self, calls: u64) -> Result<(), Difference> {
        let (expected, actual) = (SIZE as u64, (self.side.size)());
        compare((expected, actual), &[], || "map size".to_string())?;
        while self.setups.calls() < calls / 10 {
            self.setup_each()?;
        }
        while self.tally.calls() < calls {
            let mut clock = self.random.below(1 << 40);
            let pace = self.random.pick(&[1, 1000, 60_000, 400_000]);
            let count = self.random.pick(&[1, 10, 50, 90]);
            self.leaps = self.random.coin();
            let descriptors: Vec<Descriptor> = (0..count)
                .map(|_| maps::descriptor(&mut self.random))
                .collect();
            self.open(&descriptors, clock)?;
            for _ in 0..self.random.pick(&[10, 200, 1000]) {
                clock += self.random.below(pace);
                self.one(&descriptors, clock)?;
            }
        }
        Ok(())
    }

    /// Setups of a buffer that is too short, of one that fits, and of a longer one.
    fn setup_each(&mut self) -> Result<(), Difference> {
        for length in [self.random.pick(&[0, 1, SIZE - 1]), SIZE, SIZE + EXTRA] {
            let null = self.random.coin();
            self.map.lend(length, null);
            self.random.fill(self.map.expected.content_mut());
            self.map.level();
            self.setup()?;
        }
        Ok(())
    }

    /// A map to begin with, by setup or lent as it is.
    fn open(&mut self, descriptors: &[Descriptor], clock: u64) -> Result<(), Difference> {
        self.setup_each()?;
        if self.random.coin() {
            self.map.lend(SIZE, false);
        }
        if self.random.coin() {
            let map = maps::map(&mut self.random, descriptors, clock);
            self.random.fill(self.map.expected.content_mut());
            map.write(self.map.expected.content_mut());
            self.map.level();
        }
        Ok(())
    }

    fn setup(&mut self) -> Result<(), Difference> {
        let expected = entry::map_setup(self.map.expected.content_mut());
        let actual = (self.side.setup)(&mut self.map.actual);
        self.setups.number(expected);
        let calls = self.setups.calls();
        compare((expected, actual), &[("map", &self.map)], || {
            format!("map setup call {calls}")
        })
    }

    fn one(&mut self, descriptors: &[Descriptor], clock: u64) -> Result<(), Difference> {
        let map = Map::read(self.map.expected.content()).expect("a map without fault");
        let descriptor = self.random.pick(descriptors);
        let time = self.time(&map, clock);
        let mut call = Call::allowed(&mut self.random, descriptor, time);
        let mut case = None;
        if self.random.once_in(6) {
            let (name, reason) = self.random.pick(&REASONS);
            reason(&mut self.random, &mut call);
            case = Some(name);
        }
        self.lend(&call);
        if self.random.once_in(16) {
            return self.on_faulty(&call);
        }
        let word = Self::send(
            &self.side,
            &mut self.map,
            &mut self.payload,
            &mut self.out,
            &call,
        );
        for case in case.into_iter().chain(self.cases(&map, &call, word.0)) {
            self.tally.case(case);
        }
        self.judge(word, &call, false)
    }

    /// The clock's time, or one near the edge of an entry's age, or an earlier one.
    fn time(&mut self, map: &Map, clock: u64) -> u64 {
        let oldest = map.places.iter().flatten().map(|entry| entry.time).min();
        match (self.random.below(12), oldest) {
            (0..=2, Some(oldest)) => oldest.saturating_add(UNUSED - 1 + self.random.below(3)),
            (3, _) if self.leaps => clock.saturating_sub(self.random.below(3 * UNUSED)),
            (4, _) if self.leaps => clock.saturating_add(self.random.below(3 * UNUSED)),
            _ => clock,
        }
    }

    fn lend(&mut self, call: &Call) {
        let null = self.random.coin();
        let needed = RECORD * frame_count(call.payload);
        let room = match self.random.below(8) {
            0 => needed - 1,
            1 => self.random.index(needed),
            2..=4 => needed,
            _ => MOST_ROOM,
        };
        let payload = self.random.bytes(call.payload);
        self.payload.lend_content(&payload, null);
        self.out.lend(room, null);
    }

    fn on_faulty(&mut self, call: &Call) -> Result<(), Difference> {
        self.spoiled.copy(&self.map);
        let case = match FAULTS.get(self.random.index(FAULTS.len() + 1)) {
            Some((name, spoil)) => {
                spoil(&mut self.random, self.spoiled.expected.content_mut());
                name
            }
            None => {
                let length = self.random.pick(&[0, 1, NEXT_IDS, SIZE - 1]);
                let null = self.random.coin();
                self.spoiled.lend(length, null);
                TOO_SHORT
            }
        };
        self.spoiled.level();
        let map = &mut self.spoiled;
        let word = Self::send(&self.side, map, &mut self.payload, &mut self.out, call);
        assert_eq!(
            word.0,
            u64::from(FAULT),
            "{case} is no fault to the reference"
        );
        self.tally.case(case);
        self.judge(word, call, true)
    }

    /// Both sides' result words.
    fn send(
        side: &Sending,
        map: &mut Pair,
        payload: &mut Pair,
        out: &mut Pair,
        call: &Call,
    ) -> (u64, u64) {
        let outgoing = call.numbers.with_payload(payload.expected.content());
        let expected = entry::send(
            map.expected.content_mut(),
            &outgoing,
            out.expected.content_mut(),
        );
        let actual = (side.send)(&mut Departure {
            map: &mut map.actual,
            numbers: call.numbers,
            payload: &mut payload.actual,
            out: &mut out.actual,
        });
        (expected, actual)
    }

    fn judge(&mut self, words: (u64, u64), call: &Call, spoiled: bool) -> Result<(), Difference> {
        self.tally.number((words.0 & 255) as u32);
        let map = if spoiled { &self.spoiled } else { &self.map };
        let buffers = [
            ("map", map),
            ("payload", &self.payload),
            ("output", &self.out),
        ];
        compare(words, &buffers, || {
            format!("send call {}, {call:x?}", self.tally.calls())
        })
    }

    /// The cases that a call with this word belongs to; `map` is the one before it.
    fn cases(&self, map: &Map, call: &Call, word: u64) -> Vec<&'static str> {
        match word & 255 {
            0 => success_cases(map, call, frames_in(word)),
            8 if self.out.expected.length() + 1 == RECORD * frame_count(call.payload) => {
                vec!["8: one byte too few"]
            }
            9 if oldest_age(map, call.numbers.time) == UNUSED - 1 => {
                vec!["9: oldest entry unused for 1,999,999"]
            }
            11 if call.payload > LONGEST_PAYLOAD => vec!["11: payload over 512"],
            _ => vec![],
        }
    }
}

fn oldest_age(map: &Map, time: u64) -> u64 {
    let age = |time_of: u64| time.saturating_sub(time_of);
    let ages = map.places.iter().flatten().map(|entry| age(entry.time));
    ages.max().unwrap_or(0)
}

fn success_cases(map: &Map, call: &Call, frames: u64) -> Vec<&'static str> {
    let numbers = &call.numbers;
    let transfer_type = TransferType::of_number(numbers.transfer_type).expect("sent");
    if transfer_type == TransferType::Response {
        return vec!["0: response"];
    }
    let descriptor = Descriptor {
        transfer_type,
        type_id: numbers.type_id as u16,
        destination: numbers.destination as u8,
    };
    let mut cases = vec![entry_case(map, &descriptor, numbers.time)];
    if numbers.own == 0 {
        cases.push("0: anonymous");
    }
    if frames == MOST_FRAMES as u64 {
        cases.push("0: 74 frames");
    }
    let place = map.place_of(&descriptor);
    let entry = place.and_then(|place| map.places[place].as_ref());
    if entry.is_some_and(|entry| entry.next_id == TRANSFER_IDS - 1) {
        cases.push("0: transfer ID 31, 0 comes next");
    }
    cases
}

fn entry_case(map: &Map, descriptor: &Descriptor, time: u64) -> &'static str {
    let known = map.place_of(descriptor);
    let place = known.or_else(|| map.free_place(time)).expect("sent");
    let age = map.places[place]
        .as_ref()
        .map(|entry| time.checked_sub(entry.time));
    match (known, age) {
        (Some(_), Some(None)) => "0: entry goes on, earlier than its last use",
        (Some(_), Some(Some(age))) if age >= UNUSED => "0: entry goes on, long unused",
        (Some(_), _) => "0: entry goes on",
        (None, None) => "0: new entry in an empty place",
        (None, Some(Some(UNUSED))) => "0: new entry in place of one unused for 2,000,000",
        (None, Some(_)) => "0: new entry in place of one unused for longer",
    }
}
