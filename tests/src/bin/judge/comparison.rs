//! Captures at random, judged by both sides: result word, both inputs and guards.

use crate::damage::{places, DAMAGES, LARGE};
use crate::files;
use crate::lent::Pair;
use crate::random::Random;
use crate::sides::{Side, REFERENCE};
use crate::tally::{compare, Difference, Tally};
use crate::traffic::{self, anonymous_frame, anonymous_type, Traffic};
use reference::judge::{search, subscribed, Answer, Verdict};
use Verdict::{Fails, Passes};

/// How many captures of each sort a round has, on average.
pub struct Amounts {
    pub whole: u64,
    pub damaged: u64,
    pub large: u64,
    pub refused: u64,
    /// Captures with more than 2^16 frames.
    pub huge: u64,
}

pub struct Comparison {
    side: Side,
    random: Random,
    pub tally: Tally,
}

const NUMBERS: [u32; 12] = [0, 2, 3, 4, 5, 7, 9, 11, 12, 13, 22, 24];
const PREFIX: &str = "a beginning of a small capture";
const SEARCHED: &str = "by search as well";
const BOTH: &str = "13: list and trailer both wrong";
const NO_LIST: &str = "an empty list";
const HUGE: &str = "a frame after the 65,536th";
/// So many frames are a small capture.
const SMALL: usize = 8;
const HUGE_FRAMES: usize = 70_000;

impl Comparison {
    pub fn new(side: Side, seed: u64) -> Comparison {
        let mut cases = vec![PREFIX, SEARCHED, BOTH, NO_LIST];
        cases.extend(traffic::sorts());
        cases.extend(DAMAGES.iter().map(|damage| damage.0));
        cases.extend(LARGE.iter().map(|large| large.0));
        cases.extend(files::LISTS.iter().map(|list| list.0));
        cases.extend(files::CAPTURES.iter().map(|capture| capture.0));
        Comparison {
            side,
            random: Random::new(seed),
            tally: Tally::new("judge", &NUMBERS, &cases),
        }
    }

    pub fn run(&mut self, amounts: &Amounts) -> Result<(), Difference> {
        let [whole, damaged, large, refused] = [
            amounts.whole,
            amounts.damaged,
            amounts.large,
            amounts.refused,
        ];
        let all = whole + damaged + large + refused;
        for _ in 0..all {
            match self.random.below(all) {
                at if at < whole => self.whole(),
                at if at < whole + damaged => self.damaged(),
                at if at < whole + damaged + large => self.large(),
                _ => self.refused(),
            }?;
        }
        (0..amounts.huge).try_for_each(|_| self.huge())
    }

    fn traffic(&mut self) -> (&'static str, Traffic) {
        let list = traffic::subscriptions(&mut self.random);
        traffic::any(&mut self.random, list)
    }

    fn whole(&mut self) -> Result<(), Difference> {
        let (name, traffic) = self.traffic();
        self.tally.case(name);
        self.judged(&traffic, name, Some(Passes))
    }

    fn damaged(&mut self) -> Result<(), Difference> {
        let (_, traffic) = self.traffic();
        let places = places(&traffic.frames);
        loop {
            let (name, damage) = self.random.pick(&DAMAGES);
            let mut changed = traffic.clone();
            if let Some(verdict) = damage(&mut self.random, &mut changed, &places) {
                self.tally.case(name);
                return self.judged(&changed, name, verdict);
            }
        }
    }

    fn large(&mut self) -> Result<(), Difference> {
        let (name, make) = self.random.pick(&LARGE);
        let (traffic, verdict) = make(&mut self.random);
        self.tally.case(name);
        self.judged(&traffic, name, verdict)
    }

    fn judged(
        &mut self,
        traffic: &Traffic,
        name: &str,
        verdict: Option<Verdict>,
    ) -> Result<(), Difference> {
        let list = files::list(&traffic.subscriptions);
        let capture = files::capture(&traffic.frames);
        let preface = files::preface(&mut self.random, traffic);
        let capture = [preface, capture].concat();
        let known = verdict.map(|verdict| Answer::Judged(verdict).word());
        let word = self.call(&list, &capture, name, known)?;
        if traffic.frames.len() <= SMALL && self.random.once_in(8) {
            self.prefixes(traffic, name, word)?;
        }
        Ok(())
    }

    /// Every beginning of a small capture, and the search's verdict on it.
    fn prefixes(&mut self, traffic: &Traffic, name: &str, word: u64) -> Result<(), Difference> {
        let list = files::list(&traffic.subscriptions);
        for length in 0..=traffic.frames.len() {
            self.tally.case(PREFIX);
            let named = (word >> 8) as usize;
            let known = if word == 0 || length <= named {
                0
            } else {
                word
            };
            let capture = files::capture(&traffic.frames[..length]);
            self.call(&list, &capture, name, Some(known))?;
        }
        let receiver = subscribed(&list).expect("a list that is allowed");
        let searched = search::verdict(&receiver, &traffic.frames);
        self.tally.case(SEARCHED);
        if Answer::Judged(searched).word() != word {
            let frames = &traffic.frames;
            let text = format!("{name}: {word:#x}, by search {searched:?}: {frames:?}");
            return Err(Difference(text));
        }
        Ok(())
    }

    /// 13, 22 and both.
    fn refused(&mut self) -> Result<(), Difference> {
        let (_, traffic) = self.traffic();
        let mut list = files::list(&traffic.subscriptions);
        let mut capture = files::capture(&traffic.frames);
        let (bad_list, spoil_list) = self.random.pick(&files::LISTS);
        let (bad_capture, spoil_capture) = self.random.pick(&files::CAPTURES);
        let records = !traffic.frames.is_empty();
        let (name, known) = match self.random.below(8) {
            0..=2 => (bad_list, 13),
            3..=5 if records => (bad_capture, 22),
            6 if records => (BOTH, 13),
            _ => return self.no_list(&traffic),
        };
        if name != bad_capture {
            spoil_list(&mut self.random, &mut list);
        }
        if name != bad_list {
            spoil_capture(&mut self.random, &mut capture);
        }
        self.tally.case(name);
        self.call(&list, &capture, name, Some(known)).map(|_| ())
    }

    fn no_list(&mut self, traffic: &Traffic) -> Result<(), Difference> {
        self.tally.case(NO_LIST);
        let known = match traffic.frames.is_empty() {
            true => Passes,
            false => Fails {
                number: 7,
                frame: 0,
            },
        };
        let word = Answer::Judged(known).word();
        let capture = files::capture(&traffic.frames);
        self.call(&[], &capture, NO_LIST, Some(word)).map(|_| ())
    }

    /// One that fails at a frame whose number does not fit into 16 bits.
    fn huge(&mut self) -> Result<(), Difference> {
        let (traffic, type_id) = loop {
            let (_, traffic) = self.traffic();
            if let Some(type_id) = anonymous_type(&traffic.subscriptions) {
                break (traffic, type_id);
            }
        };
        let between = self.random.between(65_536, HUGE_FRAMES as u64) as usize;
        let frame = anonymous_frame(&mut self.random, type_id);
        let mut frames = vec![frame; between];
        let mut bad = frame;
        bad.id |= 1 << 30;
        frames.push(bad);
        frames.extend(traffic.frames);
        let traffic = Traffic { frames, ..traffic };
        let verdict = Fails {
            number: 2,
            frame: between,
        };
        self.judged(&traffic, HUGE, Some(verdict))
    }

    /// Judges by both sides. The word must be the known one, if there is one.
    fn call(
        &mut self,
        list: &[u8],
        capture: &[u8],
        name: &str,
        known: Option<u64>,
    ) -> Result<u64, Difference> {
        let null = self.random.coin();
        let mut lists = Pair::new(list.len(), &mut self.random);
        lists.lend_content(list, null);
        let mut captures = Pair::new(capture.len(), &mut self.random);
        captures.lend_content(capture, null);
        let expected = REFERENCE.judge(&mut lists.expected, &mut captures.expected);
        let actual = self.side.judge(&mut lists.actual, &mut captures.actual);
        let described = || format!("{name}, list {}, capture {}", text(list), text(capture));
        compare(
            (expected, actual),
            &[("list", &lists), ("capture", &captures)],
            described,
        )?;
        if known.is_some_and(|known| known != actual) {
            let text = format!("{}: {actual:#x}, not {known:#x?}", described());
            return Err(Difference(text));
        }
        self.tally.number((actual & 255) as u32);
        Ok(actual)
    }
}

/// The start of a file, for the eye.
fn text(bytes: &[u8]) -> String {
    let start = bytes.iter().take(200);
    let start: String = start.map(|byte| format!("{byte:02X}")).collect();
    format!("{} bytes {start}", bytes.len())
}
