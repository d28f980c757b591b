//! What a page tells of a bus, gathered frame by frame in fixed memory. Each table has a bound; what comes beyond it is counted.

use crate::bus::{Bus, Own};
use crate::failure::Failure;
use crate::frame::{Frame, Stream};
use crate::input::{Fault, Sink};
use crate::library::{sentence, Answer, Transfer, LINE_NOT_WELL_FORMED};
use crate::messages::Message;
use crate::options::Listening;
use crate::refusals::{Group, Refusals};
use crate::text;
use crate::types::Types;
use crate::wire;
use std::collections::{BTreeMap, HashMap, VecDeque};

mod json;

/// Streams with a row of their own.
const STREAMS_MAX: usize = 1000;
/// Columns of the time line.
const COLUMNS_MAX: u64 = 400;
/// Spans of time in the bus load.
const SPANS_MAX: u64 = 1000;
const BATTERIES_MAX: usize = 16;
/// Points of a battery's plots.
const POINTS_MAX: usize = 1000;
/// The last of these are kept.
const LOG_MESSAGES_MAX: usize = 200;
const KEYS_MAX: usize = 500;
const NOTES_MAX: usize = 20;
const INTERFACES: usize = 3;

const SECOND: u64 = 1_000_000;

pub struct Model {
    bus: Bus,
    tables: Tables,
}

/// What was heard.
pub struct Tables {
    source: String,
    own: Own,
    bit_rate: u64,
    types: Types,
    notes: Vec<String>,
    interfaces: Vec<String>,
    lines: u64,
    taken: u64,
    transfers: u64,
    first: Option<u64>,
    last: u64,
    nodes: Vec<Node>,
    streams: HashMap<Stream, Row>,
    streams_beyond: u64,
    columns: Axis,
    spans: Axis,
    /// By interface and span.
    load: [Vec<Load>; INTERFACES],
    refusals: Refusals,
    /// Payloads that were handed out and that the type's reader refuses.
    not_read: Refusals,
    left_out: BTreeMap<&'static str, u64>,
    batteries: Vec<Battery>,
    batteries_beyond: u64,
    log_messages: VecDeque<LogMessage>,
    log_message_count: u64,
    keys: BTreeMap<(u8, Vec<u8>), Key>,
    keys_beyond: u64,
}

#[derive(Clone, Default)]
struct Node {
    transfers: u64,
    first: u64,
    last: u64,
    status: Option<Status>,
    info: Option<Info>,
}

#[derive(Clone)]
struct Status {
    uptime: u64,
    health: u64,
    mode: u64,
    vendor_code: u64,
}

#[derive(Clone)]
struct Info {
    name: Vec<u8>,
    software: String,
    hardware: String,
    unique_id: Vec<u8>,
}

#[derive(Default)]
struct Row {
    count: u64,
    first: u64,
    last: u64,
    columns: Vec<u64>,
}

#[derive(Clone, Copy, Default)]
struct Load {
    frames: u64,
    bits: u64,
}

struct Battery {
    node: u8,
    battery_id: u64,
    model_name: Vec<u8>,
    count: u64,
    /// Samples that are gathered in one point.
    samples: u64,
    points: Vec<Point>,
}

#[derive(Clone, Copy)]
struct Point {
    time: u64,
    count: u64,
    voltage: Range,
    temperature: Range,
}

/// The least and the largest; of values that are no numbers none.
#[derive(Clone, Copy)]
struct Range {
    low: f32,
    high: f32,
}

struct LogMessage {
    time: u64,
    node: u8,
    level: u64,
    source: Vec<u8>,
    text: Vec<u8>,
}

struct Key {
    value: f32,
    count: u64,
    last: u64,
}

/// Time cut into equal parts, which are doubled when there would be too many.
struct Axis {
    origin: u64,
    width: u64,
    most: u64,
}

impl Axis {
    fn new(width: u64, most: u64) -> Axis {
        Axis {
            origin: 0,
            width,
            most,
        }
    }

    /// The part of a time, and how often parts were doubled for it. A time before the first counts as the first.
    fn part(&mut self, time: u64) -> (usize, u32) {
        let (since, mut doubled) = (time.saturating_sub(self.origin), 0);
        while since / self.width >= self.most {
            self.width *= 2;
            doubled += 1;
        }
        ((since / self.width) as usize, doubled)
    }
}

/// Neighbours together, so often.
fn merge<T: Copy>(parts: &mut Vec<T>, times: u32, add: fn(T, T) -> T) {
    for _ in 0..times {
        let merged = parts.chunks(2).map(|pair| match pair {
            [one, other] => add(*one, *other),
            pair => pair[0],
        });
        *parts = merged.collect();
    }
}

/// The place of a part, made if it is not there.
fn at<T: Clone + Default>(parts: &mut Vec<T>, place: usize) -> &mut T {
    if parts.len() <= place {
        parts.resize(place + 1, T::default());
    }
    &mut parts[place]
}

impl Model {
    pub fn new(source: String, listening: Listening) -> Result<Model, Failure> {
        Ok(Model {
            bus: Bus::new(listening.own, &listening.types)?,
            tables: Tables::new(source, listening),
        })
    }

    /// It changes with all that comes.
    pub fn version(&self) -> (u64, usize) {
        (self.tables.lines, self.tables.notes.len())
    }

    pub fn json(&self, out: &mut Vec<u8>) {
        self.tables.json(out);
    }
}

impl Tables {
    fn new(source: String, listening: Listening) -> Tables {
        Tables {
            source,
            own: listening.own,
            bit_rate: listening.bit_rate,
            types: listening.types,
            notes: Vec::new(),
            interfaces: Vec::new(),
            lines: 0,
            taken: 0,
            transfers: 0,
            first: None,
            last: 0,
            nodes: vec![Node::default(); 128],
            streams: HashMap::new(),
            streams_beyond: 0,
            columns: Axis::new(1000, COLUMNS_MAX),
            spans: Axis::new(SECOND, SPANS_MAX),
            load: Default::default(),
            refusals: Refusals::default(),
            not_read: Refusals::default(),
            left_out: BTreeMap::new(),
            batteries: Vec::new(),
            batteries_beyond: 0,
            log_messages: VecDeque::new(),
            log_message_count: 0,
            keys: BTreeMap::new(),
            keys_beyond: 0,
        }
    }

    /// A frame's time and its bits on the wire.
    fn on_wire(&mut self, frame: &Frame) {
        if self.first.is_none() {
            self.first = Some(frame.time);
            self.columns.origin = frame.time;
            self.spans.origin = frame.time / SECOND * SECOND;
        }
        self.last = self.last.max(frame.time);
        let (span, doubled) = self.spans.part(frame.time);
        let add = |one: Load, other: Load| Load {
            frames: one.frames + other.frames,
            bits: one.bits + other.bits,
        };
        self.load
            .iter_mut()
            .for_each(|load| merge(load, doubled, add));
        // an ID of more bits was on no wire
        if let (Some(load), Some(_)) = (self.load.get_mut(frame.interface as usize), frame.stream())
        {
            let load = at(load, span);
            load.frames += 1;
            load.bits += wire::bits(frame.id, frame.data());
        }
    }

    fn transfer(&mut self, transfer: &Transfer) {
        self.transfers += 1;
        self.row(transfer);
        let node = &mut self.nodes[usize::from(transfer.stream.source)];
        if node.transfers == 0 {
            node.first = transfer.time;
        }
        node.transfers += 1;
        node.last = transfer.time;
        let Some(readable) = self.types.readable(&transfer.stream) else {
            return;
        };
        match readable.read(transfer.payload) {
            Ok(message) => self.message(transfer, &message),
            Err(number) => {
                let stream = Some(transfer.stream);
                self.not_read
                    .add(Group { number, stream }, Some(transfer.time));
            }
        }
    }

    fn row(&mut self, transfer: &Transfer) {
        let (column, doubled) = self.columns.part(transfer.time);
        if doubled > 0 {
            let rows = self.streams.values_mut();
            rows.for_each(|row| merge(&mut row.columns, doubled, |one, other| one + other));
        }
        let full = self.streams.len() == STREAMS_MAX;
        if full && !self.streams.contains_key(&transfer.stream) {
            self.streams_beyond += 1;
            return;
        }
        let row = self.streams.entry(transfer.stream).or_default();
        if row.count == 0 {
            row.first = transfer.time;
        }
        row.count += 1;
        row.last = transfer.time;
        *at(&mut row.columns, column) += 1;
    }

    fn message(&mut self, transfer: &Transfer, message: &Message) {
        let node = usize::from(transfer.stream.source);
        match message.of.name {
            "NodeStatus" => self.nodes[node].status = Some(Status::of(message, "")),
            "GetNodeInfo.Response" => {
                self.nodes[node].status = Some(Status::of(message, "status."));
                self.nodes[node].info = Some(Info::of(message));
            }
            "BatteryInfo" => self.battery(transfer, message),
            "LogMessage" => self.log_message(transfer, message),
            "KeyValue" => self.key(transfer, message),
            _ => (),
        }
    }

    fn battery(&mut self, transfer: &Transfer, message: &Message) {
        let (node, battery_id) = (transfer.stream.source, message.number("battery_id"));
        let known = self
            .batteries
            .iter()
            .position(|one| one.node == node && one.battery_id == battery_id);
        let place = match known {
            Some(place) => place,
            None if self.batteries.len() == BATTERIES_MAX => {
                self.batteries_beyond += 1;
                return;
            }
            None => {
                self.batteries.push(Battery {
                    node,
                    battery_id,
                    model_name: Vec::new(),
                    count: 0,
                    samples: 1,
                    points: Vec::new(),
                });
                self.batteries.len() - 1
            }
        };
        let battery = &mut self.batteries[place];
        battery.model_name = message.bytes("model_name").to_vec();
        battery.add(Point {
            time: transfer.time,
            count: 1,
            voltage: Range::of(message.float("voltage")),
            temperature: Range::of(message.float("temperature")),
        });
    }

    fn log_message(&mut self, transfer: &Transfer, message: &Message) {
        self.log_message_count += 1;
        if self.log_messages.len() == LOG_MESSAGES_MAX {
            self.log_messages.pop_front();
        }
        self.log_messages.push_back(LogMessage {
            time: transfer.time,
            node: transfer.stream.source,
            level: message.number("level.value"),
            source: message.bytes("source").to_vec(),
            text: message.bytes("text").to_vec(),
        });
    }

    fn key(&mut self, transfer: &Transfer, message: &Message) {
        let key = (transfer.stream.source, message.bytes("key").to_vec());
        let full = self.keys.len() == KEYS_MAX;
        if full && !self.keys.contains_key(&key) {
            self.keys_beyond += 1;
            return;
        }
        let value = message.float("value");
        let entry = self.keys.entry(key).or_insert(Key {
            value,
            count: 0,
            last: 0,
        });
        *entry = Key {
            value,
            count: entry.count + 1,
            last: transfer.time,
        };
    }
}

impl Status {
    fn of(message: &Message, prefix: &str) -> Status {
        let number = |name: &str| message.number(&format!("{prefix}{name}"));
        Status {
            uptime: number("uptime_sec"),
            health: number("health"),
            mode: number("mode"),
            vendor_code: number("vendor_specific_status_code"),
        }
    }
}

impl Info {
    fn of(message: &Message) -> Info {
        let version = |of: &str| {
            let number = |name: &str| message.number(&format!("{of}_version.{name}"));
            format!("{}.{}", number("major"), number("minor"))
        };
        let commit = message.number("software_version.vcs_commit");
        let has_commit = message.number("software_version.optional_field_flags") & 1 != 0;
        let mut software = version("software");
        if has_commit {
            software.push_str(&format!(" {commit:08X}"));
        }
        Info {
            name: message.bytes("name").to_vec(),
            software,
            hardware: version("hardware"),
            unique_id: message.bytes("hardware_version.unique_id").to_vec(),
        }
    }
}

impl Range {
    fn of(value: f32) -> Range {
        match value.is_finite() {
            true => Range {
                low: value,
                high: value,
            },
            false => Range {
                low: f32::INFINITY,
                high: f32::NEG_INFINITY,
            },
        }
    }

    fn with(self, other: Range) -> Range {
        Range {
            low: self.low.min(other.low),
            high: self.high.max(other.high),
        }
    }
}

impl Battery {
    fn add(&mut self, point: Point) {
        self.count += 1;
        let together = |one: Point, other: Point| Point {
            time: one.time,
            count: one.count + other.count,
            voltage: one.voltage.with(other.voltage),
            temperature: one.temperature.with(other.temperature),
        };
        match self.points.last_mut() {
            Some(last) if last.count < self.samples => *last = together(*last, point),
            _ => self.points.push(point),
        }
        if self.points.len() > POINTS_MAX {
            merge(&mut self.points, 1, together);
            self.samples *= 2;
        }
    }
}

impl Sink for Model {
    fn frame(&mut self, frame: &Frame) -> Result<(), Failure> {
        let tables = &mut self.tables;
        tables.lines += 1;
        tables.on_wire(frame);
        match self.bus.receive(frame)? {
            Answer::Taken => tables.taken += 1,
            Answer::HandedOut(transfer) => tables.transfer(&transfer),
            Answer::Refused(number) => {
                let stream = frame.stream();
                tables
                    .refusals
                    .add(Group { number, stream }, Some(frame.time));
            }
        }
        Ok(())
    }

    fn fault(&mut self, _: u64, fault: &Fault) -> Result<(), Failure> {
        let tables = &mut self.tables;
        tables.lines += 1;
        match fault {
            Fault::NotWellFormed(_) => {
                let (number, stream) = (LINE_NOT_WELL_FORMED, None);
                tables.refusals.add(Group { number, stream }, None);
            }
            Fault::LeftOut(reason) => *tables.left_out.entry(reason).or_default() += 1,
        }
        Ok(())
    }

    fn interface(&mut self, name: &str) -> Result<(), Failure> {
        self.tables.interfaces.push(name.to_string());
        Ok(())
    }

    fn note(&mut self, text: &str) -> Result<(), Failure> {
        if self.tables.notes.len() < NOTES_MAX {
            self.tables.notes.push(text.to_string());
        }
        Ok(())
    }
}

#[cfg(test)]
mod tests {
    use super::*;
    use crate::test::Random;

    fn model() -> Model {
        Model::new("test".to_string(), Listening::new()).unwrap()
    }

    fn frame(time: u64, id: u32, data: &[u8]) -> Frame {
        let mut bytes = [0; 8];
        bytes[..data.len()].copy_from_slice(data);
        Frame {
            time,
            id,
            interface: 0,
            length: data.len() as u8,
            bytes,
        }
    }

    /// However long the time, no bound is passed, and each part has what came in its span of time.
    #[test]
    fn bounds() {
        let mut random = Random(5);
        for longest in [
            1_000,
            1_000_000,
            400_000_000,
            5_000_000_000,
            999_999_999_999_999,
        ] {
            let mut model = model();
            let (mut transfer_id, mut frames, mut transfers) = ([0; 128], Vec::new(), Vec::new());
            for _ in 0..3000 {
                let node = 1 + random.below(30) as u32;
                let id = &mut transfer_id[node as usize];
                let data = [1, 0, 0, 0, 0, 0, 0, 0xC0 | *id];
                *id = (*id + 1) % 32;
                let (time, before) = (random.below(longest), model.tables.transfers);
                model
                    .frame(&frame(time, 0x1001_5500 | node, &data))
                    .unwrap();
                frames.push(time);
                if model.tables.transfers > before {
                    transfers.push(time);
                }
            }
            let tables = &model.tables;
            assert_eq!(
                (tables.lines, tables.transfers),
                (3000, transfers.len() as u64)
            );
            assert_eq!(tables.transfers + tables.refusals.all(), 3000);
            let of_nodes: u64 = tables.nodes.iter().map(|node| node.transfers).sum();
            assert_eq!(of_nodes, tables.transfers);
            let load: Vec<u64> = tables.load[0].iter().map(|load| load.frames).collect();
            assert_eq!(load, parts(&tables.spans, &frames));
            let mut columns = vec![0; COLUMNS_MAX as usize];
            for row in tables.streams.values() {
                assert_eq!(row.columns.iter().sum::<u64>(), row.count);
                row.columns
                    .iter()
                    .zip(&mut columns)
                    .for_each(|(count, sum)| *sum += count);
            }
            let expected = parts(&tables.columns, &transfers);
            assert_eq!(columns[..expected.len()], expected);
        }
    }

    /// How many of the times are in each part of the axis, worked out at once.
    fn parts(axis: &Axis, times: &[u64]) -> Vec<u64> {
        let mut parts = Vec::new();
        for time in times {
            let place = time.saturating_sub(axis.origin) / axis.width;
            assert!(place < axis.most);
            *at(&mut parts, place as usize) += 1;
        }
        parts
    }

    /// A column holds the transfers of its own span of time, also after doubling.
    #[test]
    fn columns() {
        let mut axis = Axis::new(1000, 4);
        let mut parts: Vec<u64> = Vec::new();
        for time in [0, 999, 1000, 3999, 4000, 15_999, 16_000] {
            let (place, doubled) = axis.part(time);
            merge(&mut parts, doubled, |one, other| one + other);
            *at(&mut parts, place) += 1;
        }
        assert_eq!((axis.width, parts), (8000, vec![5, 1, 1]));
        axis.origin = 10_000;
        assert_eq!(axis.part(5), (0, 0));
    }

    #[test]
    fn batteries() {
        let mut battery = Battery {
            node: 1,
            battery_id: 0,
            model_name: Vec::new(),
            count: 0,
            samples: 1,
            points: Vec::new(),
        };
        let values: Vec<f32> = (0..10_000).map(|at| (at * 7919 % 1009) as f32).collect();
        for (at, value) in values.iter().enumerate() {
            battery.add(Point {
                time: at as u64,
                count: 1,
                voltage: Range::of(*value),
                temperature: Range::of(f32::NAN),
            });
        }
        assert_eq!(battery.count, 10_000);
        assert!(battery.points.len() <= POINTS_MAX && battery.samples == 16);
        // each point is of the samples from its time on
        let mut before = 0;
        for point in &battery.points {
            let samples = &values[before..before + point.count as usize];
            assert_eq!(point.time, before as u64);
            assert!(samples.contains(&point.voltage.low) && samples.contains(&point.voltage.high));
            assert!(samples
                .iter()
                .all(|value| (point.voltage.low..=point.voltage.high).contains(value)));
            assert!(point.temperature.low > point.temperature.high);
            before += samples.len();
        }
        assert_eq!(before, 10_000);
    }
}
