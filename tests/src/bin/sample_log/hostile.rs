//! Buses that mean harm to who looks at them.

use crate::bus::{message, Bus};
use reference::definitions as types;
use reference::logs::Line;
use reference::messages::{BatteryInfo, KeyValue, LogMessage, Message, NodeStatus};

/// What texts would like to be: a terminal's commands, elements and scripts, an end of the page's own data, letters that turn the line round, no letters at all.
pub const TEXTS: [&[u8]; 16] = [
    b"<script>document.title='ran'</script>",
    b"<img src=x onerror=\"document.title='ran'\">",
    b"</script><script>document.title='ran'//",
    b"<!--<script>",
    b"<!-- <script x",
    b"</script x",
    b"]]></script>&lt;&amp;&#60;b&#62;",
    b"\"><svg onload=document.title='ran'>",
    b"javascript:document.title='ran'",
    b"\x1b[2J\x1b]0;ran\x07\x1b[31mred",
    b"a\r\nb\tc\0d\x7f\xc2\x9b31m",
    b"\xff\xfe\xc0\xaf\xed\xa0\x80",
    b"\xe2\x80\xae\xe2\x81\xa6gnihton\xe2\x80\xa8\xe2\x80\xa9",
    b"{{constructor.constructor('document.title=1')()}}",
    b"__proto__",
    b"\\u003cscript\\u003e ' \" ` $ % \\",
];

pub fn log() -> Vec<u8> {
    let mut bus = Bus::default();
    for (place, text) in TEXTS.into_iter().enumerate() {
        // so far apart that the streams of the first are old when the last come
        let (time, node) = (700 * place as u64, 1 + place as u32);
        for (step, (type_of, said)) in messages(place, text).into_iter().enumerate() {
            bus.say(time + 10 * step as u64, node, message(type_of, 16), &said);
        }
        // a node whose name is no name: 41 bytes that are in order, and the text behind them
        let info = [[0; 41].as_slice(), text].concat();
        let topic = crate::bus::response(types::GET_NODE_INFO, 1);
        let (frames, _) = bus.frames(time + 40, node.max(2), topic, &info, 0);
        bus.put(time + 40, &frames);
        // and as a line
        bus.raw(time + 50, &[text, b"\n"].concat());
    }
    bus.log()
}

/// What one node says, with the text wherever a message has room for one, and numbers at their ends.
fn messages(place: usize, text: &'static [u8]) -> [(u16, Message<'static>); 4] {
    let (short, battery_id) = (&text[..text.len().min(31)], place as i128);
    let value = [f32::NAN, f32::INFINITY, -0.0, f32::MAX, 1e-42][place % 5].to_bits();
    let status = NodeStatus {
        uptime: 4_294_967_295,
        health: 3,
        mode: 6,
        sub_mode: 0,
        vendor_code: 65_535,
    };
    let log = LogMessage {
        level: place as i128 % 8,
        source: short,
        text,
    };
    let battery = BatteryInfo {
        floats: [value; 7],
        status_flags: 2047,
        health: 126,
        charge: 127,
        charge_deviation: 127,
        battery_id,
        model_instance_id: 0,
        model_name: short,
    };
    [
        (types::NODE_STATUS, Message::NodeStatus(status)),
        (types::LOG_MESSAGE, Message::LogMessage(log)),
        (
            types::KEY_VALUE,
            Message::KeyValue(KeyValue { value, key: text }),
        ),
        (types::BATTERY_INFO, Message::BatteryInfo(battery)),
    ]
}

/// Frames of every type from every node in turn, then of services between all of them; every hundredth is a NodeStatus.
pub fn crowd(count: u64) -> Vec<u8> {
    let mut log = Vec::new();
    for number in 0..count {
        let (node, of_type) = (1 + number % 127, (number / 127 * 41 + number * 7) % 65_536);
        let id = match number % 10 {
            _ if number % 100 == 0 => 16 << 24 | u64::from(types::NODE_STATUS) << 8 | node,
            9 => {
                16 << 24
                    | (of_type % 256) << 16
                    | 1 << 15
                    | (1 + number / 13 % 127) << 8
                    | 1 << 7
                    | node
            }
            _ => 16 << 24 | of_type << 8 | node,
        };
        let line = Line {
            id: id as u32,
            data: vec![1, 0, 0, 0, 0, 0, 0, 0xC0 | (number / 12_700 % 32) as u8],
            time: number / 4 * 1000,
        };
        log.extend(line.text());
    }
    log
}

/// Messages of the types 20000 to 20054 from every node in turn, so far apart that all are taken.
pub fn many(count: u64) -> Vec<u8> {
    let mut log = Vec::new();
    for number in 0..count {
        let (node, of_type) = (1 + number % 127, 20_000 + number / 127 % 55);
        let line = Line {
            id: (16 << 24 | of_type << 8 | node) as u32,
            data: vec![number as u8, 0xC0],
            time: number * 100_000,
        };
        log.extend(line.text());
    }
    log
}
