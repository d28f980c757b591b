//! Checking a sender (RULES 19): the sample values, as the rules print them; both ways to a verdict
//! against each other, on every capture that a few frames make; each edge.

use reference::captures::{trailer, RECORD};
use reference::crc::{crc16, crc16_by_table, crc16_from};
use reference::judge::pass::{self, Plain};
use reference::judge::{judge, list, search, subscribed, Answer, Frame, Verdict};
use reference::receive::Receiver;
use reference::send::split;

const LIST: &str = "# NodeStatus, GetNodeInfo\nM 341 0F0868D0C1A7C6F1\nS 1 EE468A8121C46A9E\n";
const SIGNATURE: u64 = 0x0F08_68D0_C1A7_C6F1;
const ID: u32 = 0x1001_552A;

fn capture(frames: &[Frame]) -> Vec<u8> {
    let records: Vec<u8> = frames.iter().flat_map(Frame::record).collect();
    sealed(&records)
}

fn sealed(records: &[u8]) -> Vec<u8> {
    let trailer = trailer((records.len() / RECORD) as u32, crc16(records));
    [records, &trailer].concat()
}

fn subscriptions() -> Vec<u8> {
    list::read(LIST.as_bytes()).unwrap()
}

fn receiver() -> Receiver {
    subscribed(&subscriptions()).unwrap()
}

/// What the call says, and behind a preface; a few frames are judged by search as well.
fn judged(frames: &[Frame]) -> String {
    let whole = capture(frames);
    let answer = judge(&subscriptions(), &whole);
    let prefaced = [b"vendor".as_slice(), &whole].concat();
    assert_eq!(judge(&subscriptions(), &prefaced), answer);
    assert_eq!(Answer::Judged(search::verdict(&receiver(), frames)), answer);
    answer.line()
}

fn hex(text: &str) -> Option<Vec<u8>> {
    let byte = |word: &str| match word.len() {
        2 => u8::from_str_radix(word, 16).ok(),
        _ => None,
    };
    text.split(' ').map(byte).collect()
}

/// The rows of a table of docs/RULES.md 19.12 whose heading begins so, cell by cell.
fn table(heading: &str) -> Vec<Vec<String>> {
    let rules = concat!(env!("CARGO_MANIFEST_DIR"), "/../docs/RULES.md");
    let rules = std::fs::read_to_string(rules).unwrap();
    let (_, section) = rules.split_once("### 19.12 Sample values").unwrap();
    let mut lines = section
        .lines()
        .skip_while(|line| !line.starts_with(heading));
    lines.next().unwrap();
    lines
        .skip(1)
        .take_while(|line| line.starts_with('|'))
        .map(|line| {
            line.split('|')
                .map(|cell| cell.trim().to_string())
                .collect()
        })
        .collect()
}

/// A frame as the table shows it: perhaps a time, perhaps an ID, and data or a letter for them.
fn shown(text: &str, letters: &[(String, Vec<u8>)]) -> Frame {
    let (time, text) = match text.strip_prefix('(') {
        Some(text) => text.split_once(") ").unwrap(),
        None => ("0", text),
    };
    let (id, data) = match text.split_once(' ') {
        Some((id, data)) if id.len() == 8 => (u32::from_str_radix(id, 16).unwrap(), data),
        _ => (ID, text),
    };
    let letter = letters.iter().find(|(letter, _)| letter == data);
    let bytes = match (data, letter) {
        ("no data", _) => Vec::new(),
        (_, Some((_, bytes))) => bytes.clone(),
        _ => hex(data).unwrap_or_else(|| panic!("no data: {data}")),
    };
    Frame::new(time.parse().unwrap(), id, &bytes)
}

fn letters() -> Vec<(String, Vec<u8>)> {
    let rows = table("| letter |");
    let rows = rows
        .iter()
        .map(|row| (row[1].clone(), hex(&row[2]).unwrap()));
    rows.collect()
}

fn letter(name: &str) -> Vec<u8> {
    let letters = letters();
    letters.iter().find(|row| row.0 == name).unwrap().1.clone()
}

#[test]
fn samples_of_19_12() {
    let letters = letters();
    assert_eq!(letters.len(), 7);
    let rows = table("| capture | verdict |");
    assert!(rows.len() > 30, "{} rows", rows.len());
    for row in rows {
        let frames: Vec<Frame> = match row[1].as_str() {
            "none" => Vec::new(),
            text => text.split("; ").map(|text| shown(text, &letters)).collect(),
        };
        assert_eq!(judged(&frames), row[2], "{row:?}");
    }
}

/// What the letters are, by the sender and by hand.
#[test]
fn letters_of_19_12() {
    let payload: Vec<u8> = (0..13).collect();
    assert_eq!(
        split(&payload[..8], SIGNATURE, 5),
        [letter("a"), letter("b")]
    );
    let three = [letter("c"), letter("d"), letter("e")];
    assert_eq!(split(&payload, SIGNATURE, 5), three);
    let register = crc16_from(crc16(&SIGNATURE.to_le_bytes()), &payload[..7]);
    assert_eq!(letter("f")[..2], register.to_le_bytes());
    assert_eq!(
        [&letter("f")[2..7], &letter("g")[..2]].concat(),
        payload[..7]
    );
}

/// The table of captures in words.
#[test]
fn more_samples_of_19_12() {
    let node = |node: u32, data: &[u8]| Frame::new(0, ID - 42 + node, data);
    let mut streams: Vec<Frame> = (1..=64).map(|one| node(one, &[0xC0])).collect();
    assert_eq!(fast(&streams), "0");
    streams.push(node(65, &[0xC0]));
    assert_eq!(fast(&streams), "9 64");
    streams[64] = node(65, &letter("e"));
    assert_eq!(fast(&streams), "9 64");

    let mut long = vec![Frame::new(0, ID, &letter("c"))];
    long.extend((1..74).map(|at| Frame::new(0, ID, &[0, 0, 0, 0, 0, 0, 0, 5 + at % 2 * 32])));
    assert_eq!(judged(&long[..73]), "0");
    assert_eq!(judged(&long), "11 73");

    let (a, b) = (letter("a"), letter("b"));
    let mut nine = [Frame::new(0, ID, &a), Frame::new(0, ID, &b)];
    nine[1].length = 9;
    assert_eq!(judged(&nine), "3 1");
    nine[1].length = 4;
    nine[1].data[4..].fill(0xC5);
    assert_eq!(judged(&nine), "0");

    let mut whole = capture(&nine);
    *whole.last_mut().unwrap() ^= 1;
    assert_eq!(judge(&subscriptions(), &whole).line(), "22");
    let twice = [LIST, "M 341 0000000000000000\n"].concat();
    assert_eq!(list::read(twice.as_bytes()), None);
    let records = [subscriptions(), list::record(0, 341, 0).to_vec()].concat();
    assert_eq!(judge(&records, &whole).line(), "13");
}

/// By one pass alone, where a search would take too long.
fn fast(frames: &[Frame]) -> String {
    judge(&subscriptions(), &capture(frames)).line()
}

/// Frames of two streams and more, right and wrong in all ways, from which captures are made.
fn pool() -> Vec<Frame> {
    let at = |time, name: &str| Frame::new(time, ID, &letter(name));
    let mut pool: Vec<Frame> = ["a", "b", "c", "d", "e", "f", "g"]
        .map(|name| at(0, name))
        .into();
    let mut other = at(0, "b");
    other.id = 0x0301_552A;
    let mut wrong = at(0, "b");
    wrong.data[0] ^= 1;
    let mut toggle = at(0, "d");
    toggle.data[7] ^= 0x20;
    pool.extend([other, wrong, toggle]);
    pool.extend([0xC5, 0xC6, 0xC0].map(|tail| Frame::new(0, ID, &[tail])));
    pool.push(Frame::new(2_000_000, ID, &[0xC0]));
    pool.push(Frame::new(1_999_999, ID, &[0xC0]));
    pool.push(Frame::new(2_000_000, ID, &letter("a")));
    pool.push(Frame::new(0, 0x1001_2AAB, &[0xC5]));
    pool.push(Frame::new(0, 0x1001_AAAB, &letter("b")));
    pool.push(Frame::new(0, ID, &[0x65]));
    pool
}

/// Every capture of up to four frames of the pool. Where one does not pass by the definition, none
/// that begins with it does, and the pass names the same frame and number as the search.
#[test]
fn every_capture_of_four_frames() {
    let (pool, receiver) = (pool(), receiver());
    let mut counts = std::collections::BTreeMap::new();
    tree(
        &receiver,
        &pool,
        &mut Vec::new(),
        true,
        &mut |frames, passes| {
            let verdict = pass::verdict(&Plain, &receiver, frames.iter().copied());
            assert_eq!(verdict == Verdict::Passes, passes, "{frames:?}");
            assert_eq!(verdict, search::verdict(&receiver, frames), "{frames:?}");
            let number = match verdict {
                Verdict::Passes => 0,
                Verdict::Fails { number, .. } => number,
            };
            *counts.entry(number).or_insert(0) += 1;
        },
    );
    assert_eq!(counts.keys().copied().collect::<Vec<_>>(), [0, 5, 12, 24]);
    assert!(counts.values().all(|&count| count > 100), "{counts:?}");
}

fn tree(
    receiver: &Receiver,
    pool: &[Frame],
    frames: &mut Vec<Frame>,
    before: bool,
    visit: &mut impl FnMut(&[Frame], bool),
) {
    let passes = search::passes(receiver, frames);
    // a beginning of what passes passes
    assert!(before || !passes, "{frames:?}");
    // what passes could do so with every transfer whole
    if passes {
        let more = search::completion(receiver, frames).unwrap();
        assert!(search::passes(receiver, &[frames, &more[..]].concat()));
    }
    visit(frames, passes);
    if frames.len() < 4 {
        for &frame in pool {
            frames.push(frame);
            tree(receiver, pool, frames, passes, visit);
            frames.pop();
        }
    }
}

/// After a failing frame no single frame mends it, whatever its tail; nor do two.
#[test]
fn no_continuation_mends() {
    let receiver = receiver();
    let failing = [
        vec![(ID, letter("f")), (ID, letter("g"))],
        vec![(ID, letter("c")), (ID, letter("e"))],
        vec![(ID, letter("a")), (ID, letter("a"))],
        vec![(ID, letter("d"))],
        vec![(ID, letter("a")), (0x0301_552A, letter("b"))],
    ];
    for frames in failing {
        let frames: Vec<Frame> = frames
            .iter()
            .map(|(id, data)| Frame::new(0, *id, data))
            .collect();
        assert!(!search::could_pass(&receiver, &frames));
        for tail in 0..=255 {
            let mut more = vec![Frame::new(0, ID, &[1, 2, 3, 4, 5, 6, 7, tail])];
            let next = Frame::new(0, ID, &[1, tail]);
            assert!(!search::passes(&receiver, &[&frames[..], &more].concat()));
            more.push(next);
            assert!(!search::passes(&receiver, &[&frames[..], &more].concat()));
            assert!(!search::passes(&receiver, &[&frames[..], &[next]].concat()));
        }
    }
}

/// A gap in times that have no room above them.
#[test]
fn times_at_the_end() {
    let at = |time, tail| Frame::new(time, ID, &[tail]);
    let last = u64::MAX;
    assert_eq!(
        judged(&[at(last - 1_999_999, 0xC5), at(last, 0xC0)]),
        "24 1"
    );
    assert_eq!(judged(&[at(last - 2_000_000, 0xC5), at(last, 0xC0)]), "0");
    assert_eq!(judged(&[at(last, 0xC5), at(0, 0xC0)]), "24 1");
    assert_eq!(judged(&[at(last, 0xC5), at(1_999_999, 0xC0)]), "24 1");
    assert_eq!(judged(&[at(0, 0xC5), at(last, 0xC0)]), "0");
}

/// 512 bytes, whole and cut; 513 and 514, whose last frame passes 514 bytes by one and two.
#[test]
fn long_transfers() {
    for (length, verdict) in [(511, "0"), (512, "0"), (513, "11 73"), (517, "11 74")] {
        let data = split(&vec![0xA5; length], SIGNATURE, 5);
        let sent: Vec<Frame> = data.iter().map(|data| Frame::new(7, ID, data)).collect();
        let expected = if length == 517 { "11 73" } else { verdict };
        assert_eq!(judged(&sent), expected, "{length} bytes");
    }
    // the end of 514 bytes with a wrong checksum is too long all the same
    let data = split(&[1; 514], SIGNATURE, 5);
    let mut sent: Vec<Frame> = data.iter().map(|data| Frame::new(7, ID, data)).collect();
    sent[1].data[0] ^= 1;
    assert_eq!(judged(&sent), "11 73");
}

/// Every form of a list that is a bad file, and those that are good.
#[test]
fn lists_as_text() {
    let two = [
        list::record(0, 341, SIGNATURE),
        list::record(1, 1, 0xEE46_8A81_21C4_6A9E),
    ];
    assert_eq!(list::read(LIST.as_bytes()), Some(two.concat()));
    assert_eq!(list::read(LIST.trim_end().as_bytes()), Some(two.concat()));
    for none in ["", "\n", "#", "# M 1\n\n\n#\n"] {
        assert_eq!(list::read(none.as_bytes()), Some(Vec::new()), "{none:?}");
    }
    let digits = "0F0868D0C1A7C6F1";
    for good in ["M 0", "M 65535", "S 255", "S 0"] {
        assert!(list::read(format!("{good} {digits}").as_bytes()).is_some());
    }
    for bad in [
        "M 341",
        "m 341 ",
        "Q 341 ",
        "0 341 ",
        "M 65536 ",
        "S 256 ",
        "M 0341 ",
        "M 00 ",
        "M -1 ",
        "M +1 ",
        "M  341 ",
        " M 341 ",
        "M 4294967637 ",
        "M 18446744073709551957 ",
        "M 0x1 ",
        "M  ",
    ] {
        let text = format!("{bad}{digits}\n");
        assert_eq!(list::read(text.as_bytes()), None, "{text:?}");
    }
    for bad in [
        "0F0868D0C1A7C6F",
        "0f0868d0c1a7c6f1",
        "00F0868D0C1A7C6F1",
        "0F0868D0C1A7C6FG",
    ] {
        assert_eq!(list::read(format!("M 341 {bad}").as_bytes()), None, "{bad}");
    }
    for after in [
        " ",
        "\r\n",
        "\r",
        " #",
        "\nM 341 0000000000000000",
        "\n \n",
        "\n #\n",
    ] {
        let text = format!("M 341 {digits}{after}");
        assert_eq!(list::read(text.as_bytes()), None, "{text:?}");
    }
    let many = |count| -> String {
        (0..count)
            .map(|one| format!("M {one} {digits}\n"))
            .collect()
    };
    assert!(list::read(many(64).as_bytes()).is_some());
    assert_eq!(list::read(many(65).as_bytes()), None);
}

#[test]
fn standard_types() {
    assert_eq!(list::standard().len(), 9 * 13);
    assert!(subscribed(&list::standard()).is_some());
    let frame = Frame::new(1, ID, &[0xC0]);
    assert_eq!(judge(&list::standard(), &capture(&[frame])).line(), "0");
    assert_eq!(judge(&[], &capture(&[frame])).line(), "7 0");
    assert_eq!(judge(&[], &capture(&[])).line(), "0");
}

#[test]
fn the_table_makes_the_same_checksum() {
    let bytes: Vec<u8> = (0..=255).chain((0..=255).rev()).collect();
    for start in [0, 1, 0x1021, 0x8000, 0xFFFF] {
        for length in 0..=bytes.len() {
            let bytes = &bytes[..length];
            assert_eq!(crc16_by_table(start, bytes), crc16_from(start, bytes));
        }
    }
}

/// A record's bytes come back.
#[test]
fn records_are_frames() {
    let record: [u8; RECORD] = std::array::from_fn(|at| 12 * at as u8);
    let read = Frame::of_record(&record);
    assert_eq!(read.record(), record);
    assert_eq!(read.length, 144);
}
