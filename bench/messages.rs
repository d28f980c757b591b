//! Messages, ns per call: the proved codec beside a plain one in Rust (bytewise.rs), both through C calls that are not inlined.
//!
//! First both must answer alike and write the same bytes over many messages, whole and cut, with numbers in and out of range. Then they
//! take turns in one process, over 64 messages each that go through, and the best of ROUNDS rounds counts. Decoding ends in one number
//! made of all fields and the lists' places; no list is copied. Encoding writes into one warm buffer. Read the figures as ratios.

mod bytewise;

use std::hint::black_box;
use std::time::Instant;

type Decode = unsafe extern "C" fn(*const u8, usize) -> u64;
type EncodeStatus = unsafe extern "C" fn(&[i64; 5], *mut u8, usize) -> u64;
type EncodeInfo = unsafe extern "C" fn(
    &[i64; 11],
    u64,
    *const u8,
    usize,
    *const u8,
    usize,
    *const u8,
    usize,
    *mut u8,
    usize,
) -> u64;

type DecodeBattery = unsafe extern "C" fn(*const u8, usize, &mut [f32; 7]) -> u64;
type EncodeBattery =
    unsafe extern "C" fn(&[f32; 7], &[i64; 6], *const u8, usize, *mut u8, usize) -> u64;

extern "C" {
    fn bench_battery_decode(payload: *const u8, length: usize, floats: &mut [f32; 7]) -> u64;
    fn bench_battery_encode(
        floats: &[f32; 7],
        v: &[i64; 6],
        name: *const u8,
        name_length: usize,
        out: *mut u8,
        room: usize,
    ) -> u64;
    fn bench_status_decode(payload: *const u8, length: usize) -> u64;
    fn bench_status_encode(v: &[i64; 5], out: *mut u8, room: usize) -> u64;
    fn bench_info_decode(payload: *const u8, length: usize) -> u64;
    fn bench_info_encode(
        v: &[i64; 11],
        image_crc: u64,
        unique_id: *const u8,
        unique_id_length: usize,
        certificate: *const u8,
        certificate_length: usize,
        name: *const u8,
        name_length: usize,
        out: *mut u8,
        room: usize,
    ) -> u64;
}

const ROUNDS: usize = 1001;
const MESSAGES: usize = 64;
const TURNS: usize = 200;
const ROOM: usize = 512;

/// What a response is made of.
#[derive(Clone)]
struct Info {
    numbers: [i64; 11],
    image_crc: u64,
    unique_id: Vec<u8>,
    certificate: Vec<u8>,
    name: Vec<u8>,
}

/// What a pack's state is made of.
#[derive(Clone)]
struct Battery {
    floats: [f32; 7],
    numbers: [i64; 6],
    name: Vec<u8>,
}

/// Repeatable numbers: a linear congruential generator's high half.
struct Numbers(u64);

impl Numbers {
    fn below(&mut self, end: u64) -> u64 {
        self.0 = self
            .0
            .wrapping_mul(6364136223846793005)
            .wrapping_add(1442695040888963407);
        (self.0 >> 33) % end
    }

    fn bits(&mut self, bits: u32) -> i64 {
        (self.bits_64() >> (64 - bits)) as i64
    }

    fn bits_64(&mut self) -> u64 {
        self.below(1 << 31) << 33 ^ self.below(1 << 31) << 2
    }

    fn status(&mut self) -> [i64; 5] {
        [self.bits(32), self.bits(2), self.bits(3), 0, self.bits(16)]
    }

    /// A pack's state as packs send it: floats of everyday size, a name of up to 31 bytes.
    fn battery(&mut self) -> Battery {
        let mut float = |end: u64| self.below(end * 1000) as f32 / 1000.0;
        let floats = [330.0, 50.0, 90.0, 2000.0, 300.0, 300.0, 5.0].map(|end| float(end as u64));
        Battery {
            floats,
            numbers: [11, 7, 7, 7, 8, 32].map(|bits| self.bits(bits)),
            name: b"org.example.pack-of-six_cells-7"[..16 + self.below(16) as usize].to_vec(),
        }
    }

    /// A response as nodes send it: with a certificate or without, and a name like org.example.node.
    fn info(&mut self, certificate: usize) -> Info {
        let mut numbers = [0; 11];
        numbers[..5].copy_from_slice(&self.status());
        for (at, bits) in [(5, 8), (6, 8), (7, 8), (8, 32), (9, 8), (10, 8)] {
            numbers[at] = self.bits(bits);
        }
        let image_crc = self.bits_64();
        let mut list = |length: usize| (0..length).map(|_| self.below(256) as u8).collect();
        Info {
            numbers,
            image_crc,
            unique_id: list(16),
            certificate: list(certificate),
            name: b"org.example.flight-controller_7"[..16 + numbers[0] as usize % 15].to_vec(),
        }
    }
}

fn encode_battery(call: EncodeBattery, battery: &Battery, out: &mut [u8]) -> u64 {
    let (n, room) = (&battery.name, out.len());
    unsafe {
        call(
            &battery.floats,
            &battery.numbers,
            n.as_ptr(),
            n.len(),
            out.as_mut_ptr(),
            room,
        )
    }
}

fn decode_battery(call: DecodeBattery, payload: &[u8], floats: &mut [f32; 7]) -> u64 {
    unsafe { call(payload.as_ptr(), payload.len(), floats) }
}

fn encode_info(call: EncodeInfo, info: &Info, out: &mut [u8]) -> u64 {
    let (u, c, n) = (&info.unique_id, &info.certificate, &info.name);
    unsafe {
        call(
            &info.numbers,
            info.image_crc,
            u.as_ptr(),
            u.len(),
            c.as_ptr(),
            c.len(),
            n.as_ptr(),
            n.len(),
            out.as_mut_ptr(),
            out.len(),
        )
    }
}

fn encode_status(call: EncodeStatus, numbers: &[i64; 5], out: &mut [u8]) -> u64 {
    unsafe { call(numbers, out.as_mut_ptr(), out.len()) }
}

fn decode(call: Decode, payload: &[u8]) -> u64 {
    unsafe { call(payload.as_ptr(), payload.len()) }
}

/// Both answer alike to the payload, each of its cuts and one byte more.
fn same_readings(ours: Decode, plain: Decode, payload: &[u8]) {
    let longer = [payload, b"a"].concat();
    for end in 0..=longer.len() {
        assert_eq!(
            decode(ours, &longer[..end]),
            decode(plain, &longer[..end]),
            "{:x?}",
            &longer[..end]
        );
    }
}

fn same_writings(ours: impl Fn(&mut [u8]) -> u64, plain: impl Fn(&mut [u8]) -> u64, room: usize) {
    let (mut first, mut second) = ([0xA5; ROOM], [0xA5; ROOM]);
    assert_eq!(ours(&mut first[..room]), plain(&mut second[..room]));
    assert_eq!(first, second);
}

/// The numbers themselves, and with each of them outside of its field, to either side.
fn strange<const N: usize>(numbers: &[i64; N]) -> Vec<[i64; N]> {
    let mut all = vec![*numbers];
    for (at, number) in numbers.iter().enumerate() {
        for outside in [i64::MIN, -1 - number, number + (1 << 32), i64::MAX] {
            let mut one = *numbers;
            one[at] = outside;
            all.push(one);
        }
    }
    all
}

fn check(statuses: &[[i64; 5]], infos: &[Info]) {
    for numbers in statuses {
        for strange in strange(numbers) {
            for room in 0..9 {
                let by = |call| move |out: &mut [u8]| encode_status(call, &strange, out);
                same_writings(by(bench_status_encode), by(bytewise::status_encode), room);
            }
        }
        let mut out = [0; 7];
        encode_status(bench_status_encode, numbers, &mut out);
        same_readings(bench_status_decode, bytewise::status_decode, &out);
    }
    for info in infos {
        for strange in infos_like(info) {
            for room in [0, 40, 41, 60, 300, ROOM] {
                let by = |call| {
                    let strange = &strange;
                    move |out: &mut [u8]| encode_info(call, strange, out)
                };
                same_writings(by(bench_info_encode), by(bytewise::info_encode), room);
            }
        }
        let mut out = [0; ROOM];
        let length = encode_info(bench_info_encode, info, &mut out) as usize;
        same_readings(bench_info_decode, bytewise::info_decode, &out[..length]);
    }
}

/// The response itself, with strange numbers, and with each list as it is not allowed.
fn infos_like(info: &Info) -> Vec<Info> {
    let spoilt: [fn(&mut Info); 5] = [
        |info| info.unique_id.truncate(15),
        |info| info.certificate.resize(256, 0),
        |info| info.name.clear(),
        |info| info.name.resize(81, b'a'),
        |info| info.name.push(b'A'),
    ];
    let with_numbers = |numbers| Info {
        numbers,
        ..info.clone()
    };
    let mut all: Vec<_> = strange(&info.numbers)
        .into_iter()
        .map(with_numbers)
        .collect();
    for spoil in spoilt {
        let mut one = info.clone();
        spoil(&mut one);
        all.push(one);
    }
    all
}

/// Everyday floats, and those at the edges, on both sides.
fn check_batteries(batteries: &[Battery]) {
    let edges = [
        0x0000_0000,
        0x8000_0000,
        0x3300_0000,
        0x3300_0001,
        0x387F_E000,
        0x3F80_1000,
        0x3F80_3000,
        0x477F_EFFF,
        0x477F_F000,
        0x7F7F_FFFF,
        0x7F80_0000,
        0xFF80_0000,
        0x7FC0_0000,
        0xB380_0000,
    ];
    for (at, battery) in batteries.iter().enumerate() {
        let mut floats = battery.floats;
        for (place, float) in floats.iter_mut().enumerate().skip(at % 4) {
            *float = f32::from_bits(edges[(at + place) % edges.len()]);
        }
        let edged = Battery {
            floats,
            ..battery.clone()
        };
        for numbers in strange(&battery.numbers) {
            let strange = Battery {
                numbers,
                ..edged.clone()
            };
            for room in [0, 22, 23, 40, ROOM] {
                let by = |call| {
                    let strange = &strange;
                    move |out: &mut [u8]| encode_battery(call, strange, out)
                };
                same_writings(by(bench_battery_encode), by(bytewise::battery_encode), room);
            }
        }
        let mut out = [0; ROOM];
        let length = encode_battery(bench_battery_encode, &edged, &mut out) as usize;
        for end in (0..=length).chain([55]) {
            let (mut first, mut second) = ([1.0; 7], [1.0; 7]);
            let ours = decode_battery(bench_battery_decode, &out[..end], &mut first);
            let plain = decode_battery(bytewise::battery_decode, &out[..end], &mut second);
            assert_eq!(ours, plain);
            assert_eq!(first.map(f32::to_bits), second.map(f32::to_bits));
        }
    }
}

/// The best of the rounds of each, in ns per call; they take turns.
fn measure(mut ours: impl FnMut(usize) -> u64, mut plain: impl FnMut(usize) -> u64) -> (f64, f64) {
    let mut best = (f64::MAX, f64::MAX);
    for _ in 0..ROUNDS {
        best.0 = best.0.min(round(&mut ours));
        best.1 = best.1.min(round(&mut plain));
    }
    best
}

fn round(call: &mut impl FnMut(usize) -> u64) -> f64 {
    let mut sum = 0u64;
    let began = Instant::now();
    for turn in 0..TURNS {
        for message in 0..MESSAGES {
            sum = sum.wrapping_add(call(message)) ^ turn as u64;
        }
    }
    let took = began.elapsed().as_nanos() as f64;
    black_box(sum);
    took / (TURNS * MESSAGES) as f64
}

fn row(name: &str, goal: f64, (ours, plain): (f64, f64)) {
    println!(
        "{name:<46}{ours:>8.1}{plain:>8.1}{:>8.2}{goal:>8.1}",
        ours / plain
    );
}

fn status_rows(statuses: &[[i64; 5]]) {
    let mut out = [0; ROOM];
    let mut payloads = vec![[0; 7]; statuses.len()];
    for (numbers, payload) in statuses.iter().zip(&mut payloads) {
        encode_status(bytewise::status_encode, numbers, payload);
    }
    let reading = |call: Decode| {
        let payloads = &payloads;
        move |message: usize| decode(call, &payloads[message])
    };
    row(
        "NodeStatus, decode",
        1.5,
        measure(
            reading(bench_status_decode),
            reading(bytewise::status_decode),
        ),
    );
    let mut other = out;
    let writing = measure(
        |message| encode_status(bench_status_encode, &statuses[message], &mut out),
        |message| encode_status(bytewise::status_encode, &statuses[message], &mut other),
    );
    row("NodeStatus, encode", 1.5, writing);
}

fn battery_rows(batteries: &[Battery]) {
    let mut payloads = Vec::new();
    for battery in batteries {
        let mut payload = vec![0; ROOM];
        let length = encode_battery(bytewise::battery_encode, battery, &mut payload) as usize;
        payload.truncate(length);
        payloads.push(payload);
    }
    let reading = |call: DecodeBattery| {
        let (payloads, mut floats) = (&payloads, [0.0; 7]);
        move |message: usize| {
            let number = decode_battery(call, &payloads[message], &mut floats);
            number ^ u64::from(floats[message % 7].to_bits())
        }
    };
    let figures = measure(
        reading(bench_battery_decode),
        reading(bytewise::battery_decode),
    );
    row("BatteryInfo, decode", 1.5, figures);
    let (mut out, mut other) = ([0; ROOM], [0; ROOM]);
    let figures = measure(
        |message| encode_battery(bench_battery_encode, &batteries[message], &mut out),
        |message| encode_battery(bytewise::battery_encode, &batteries[message], &mut other),
    );
    row("BatteryInfo, encode", 1.5, figures);
}

fn info_rows(what: &str, infos: &[Info]) {
    let mut payloads = Vec::new();
    for info in infos {
        let mut payload = vec![0; ROOM];
        let length = encode_info(bytewise::info_encode, info, &mut payload) as usize;
        payload.truncate(length);
        payloads.push(payload);
    }
    let reading = |call: Decode| {
        let payloads = &payloads;
        move |message: usize| decode(call, &payloads[message])
    };
    let figures = measure(reading(bench_info_decode), reading(bytewise::info_decode));
    row(
        &format!("GetNodeInfo response, {what}, decode"),
        2.0,
        figures,
    );
    let (mut out, mut other) = ([0; ROOM], [0; ROOM]);
    let figures = measure(
        |message| encode_info(bench_info_encode, &infos[message], &mut out),
        |message| encode_info(bytewise::info_encode, &infos[message], &mut other),
    );
    row(
        &format!("GetNodeInfo response, {what}, encode"),
        2.0,
        figures,
    );
}

fn main() {
    let mut numbers = Numbers(1);
    let statuses: Vec<_> = (0..MESSAGES).map(|_| numbers.status()).collect();
    let plain: Vec<_> = (0..MESSAGES).map(|_| numbers.info(0)).collect();
    let signed: Vec<_> = (0..MESSAGES).map(|_| numbers.info(255)).collect();
    let batteries: Vec<_> = (0..MESSAGES).map(|_| numbers.battery()).collect();
    check(&statuses, &plain);
    check(&statuses, &signed);
    check_batteries(&batteries);
    println!(
        "{:<46}{:>8}{:>8}{:>8}{:>8}",
        "messages, ns per call", "proved", "plain", "ratio", "at most"
    );
    status_rows(&statuses);
    info_rows("no certificate", &plain);
    info_rows("255 bytes", &signed);
    battery_rows(&batteries);
}
