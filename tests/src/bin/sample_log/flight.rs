//! A minute of a small aircraft.

use crate::bus::{message, payload, request, response, Bus};
use reference::definitions as types;
use reference::messages::{
    BatteryInfo, GetSetRequest, GetSetResponse, HardwareVersion, KeyValue, LogMessage, Message,
    NodeInfo, NodeStatus, OpcodeRequest, OpcodeResponse, Parameter, RawCommand, SoftwareVersion,
    MOST_COMMANDS,
};

const SECONDS: u64 = 60;
const GROUND: u32 = 1;
const AUTOPILOT: u32 = 10;
const MOTORS: [u32; 4] = [21, 22, 23, 24];
const BATTERIES: [u32; 2] = [40, 41];
const GNSS: u32 = 50;
/// A message that no one here subscribes to.
const GNSS_FIX: u16 = 1063;
const HIGH: u32 = 8;
const NORMAL: u32 = 16;
const LOW: u32 = 24;

fn names() -> Vec<(u32, &'static str)> {
    let mut names = vec![
        (GROUND, "org.example.ground"),
        (AUTOPILOT, "org.example.autopilot"),
        (GNSS, "org.example.gnss"),
    ];
    names.extend(MOTORS.map(|motor| (motor, "org.example.motor")));
    names.extend(BATTERIES.map(|battery| (battery, "org.example.battery")));
    names
}

pub fn log() -> Vec<u8> {
    let mut bus = Bus::default();
    for second in 0..SECONDS {
        for (place, (node, _)) in names().into_iter().enumerate() {
            let time = second * 1000 + 20 + 11 * place as u64;
            let status = Message::NodeStatus(status(node, second));
            bus.say(time, node, message(types::NODE_STATUS, NORMAL), &status);
        }
        motors(&mut bus, second);
        batteries(&mut bus, second);
        for half in [0, 500] {
            let payload = [0x55, second as u8, 0, 0, 12, 3];
            let (frames, _) = bus.frames(
                second * 1000 + half + 7,
                GNSS,
                message(GNSS_FIX, NORMAL),
                &payload,
                0,
            );
            bus.put(second * 1000 + half + 7, &frames);
        }
    }
    introductions(&mut bus);
    parameters(&mut bus);
    words(&mut bus);
    damage(&mut bus);
    bus.log()
}

/// The GNSS receiver has a bad time from second 30 on.
fn status(node: u32, second: u64) -> NodeStatus {
    let trouble = match second {
        30..=37 => 1,
        38..=44 => 2,
        _ => 0,
    };
    NodeStatus {
        uptime: i128::from(second) + i128::from(node % 7) * 61,
        health: if node == GNSS { trouble } else { 0 },
        mode: if second < 2 && node != GROUND { 1 } else { 0 },
        sub_mode: 0,
        vendor_code: i128::from(node),
    }
}

fn motors(bus: &mut Bus, second: u64) {
    for fifth in 0..5 {
        let throttle = throttle(second);
        let mut places = [0; MOST_COMMANDS];
        for (motor, place) in places.iter_mut().take(MOTORS.len()).enumerate() {
            *place = (throttle * 8191.0) as i128 + 17 * motor as i128;
        }
        let commands = RawCommand {
            count: MOTORS.len(),
            places,
        };
        let time = second * 1000 + 200 * fifth + 3;
        bus.say(
            time,
            AUTOPILOT,
            message(types::RAW_COMMAND, HIGH),
            &Message::RawCommand(commands),
        );
    }
    if second % 2 == 0 {
        for (place, motor) in MOTORS.into_iter().enumerate() {
            let value = KeyValue {
                value: (throttle(second) * 9000.0 + 40.0 * place as f32).to_bits(),
                key: b"rpm",
            };
            let time = second * 1000 + 300 + 5 * place as u64;
            bus.say(
                time,
                motor,
                message(types::KEY_VALUE, LOW),
                &Message::KeyValue(value),
            );
        }
    }
}

/// Up, level, and down again.
fn throttle(second: u64) -> f32 {
    match second {
        0..=4 => 0.0,
        5..=14 => 0.8,
        15..=49 => 0.5,
        50..=56 => 0.3,
        _ => 0.0,
    }
}

fn batteries(bus: &mut Bus, second: u64) {
    for (place, node) in BATTERIES.into_iter().enumerate() {
        let frames = battery(bus, node, place, second);
        bus.put(second * 1000 + 600 + 40 * place as u64, &frames);
    }
}

/// What a battery tells: the more throttle, the lower and the hotter.
fn battery_info(node: u32, place: usize, second: u64) -> BatteryInfo<'static> {
    let (elapsed, load) = (second as f32, throttle(second));
    let voltage = 25.2 - 0.035 * elapsed - 1.6 * load - 0.3 * place as f32;
    let temperature = 293.15 + 0.2 * elapsed + 9.0 * load + 2.0 * place as f32;
    let current = 1.5 + 40.0 * load;
    BatteryInfo {
        floats: [
            temperature,
            voltage,
            current,
            voltage * current,
            90.0 - 0.4 * elapsed,
            96.0,
            0.0,
        ]
        .map(f32::to_bits),
        status_flags: if temperature > 308.0 { 9 } else { 1 },
        health: if place == 0 { 98 } else { 127 },
        charge: 96 - i128::from(second) / 3,
        charge_deviation: 2,
        battery_id: place as i128,
        model_instance_id: 1234 + i128::from(node),
        model_name: b"example 6S",
    }
}

/// The frames of one message, of which some are damaged.
fn battery(bus: &mut Bus, node: u32, place: usize, second: u64) -> Vec<reference::send::SentFrame> {
    let time = second * 1000 + 600 + 40 * place as u64;
    let payload = payload(&Message::BatteryInfo(battery_info(node, place, second)));
    let (mut frames, _) = bus.frames(
        time,
        node,
        message(types::BATTERY_INFO, NORMAL),
        &payload,
        0,
    );
    match (place, second) {
        // a frame in the midst is lost; a byte is altered; the start is lost
        (0, 12) => drop(frames.remove(2)),
        (0, 20) => frames[1].data[3] ^= 0x10,
        (0, 33) => drop(frames.remove(0)),
        _ => (),
    }
    frames
}

fn software(node: u32) -> SoftwareVersion {
    SoftwareVersion {
        major: 1,
        minor: i128::from(node % 5),
        flags: 3,
        commit: 0x1000_0000 + i128::from(node) * 0x00FE_DCBA,
        image_crc: 0x0123_4567_89AB_CDEF ^ i128::from(node),
    }
}

/// A service: two times, who asks whom, and what.
fn exchange(bus: &mut Bus, times: [u64; 2], nodes: [u32; 2], type_id: u16, said: [&Message; 2]) {
    let [asks, asked] = nodes;
    let id = bus.say(times[0], asks, request(type_id, asked), said[0]);
    bus.answer(times[1], asked, response(type_id, asks), said[1], id);
}

/// The ground asks every node who it is, and so does the autopilot, of some.
fn introductions(bus: &mut Bus) {
    for (asks, first, nodes) in [
        (GROUND, 1400, names()),
        (AUTOPILOT, 2600, names().split_off(5)),
    ] {
        for (place, (node, name)) in nodes.into_iter().enumerate() {
            if node == asks {
                continue;
            }
            let time = first + 60 * place as u64;
            let unique_id: Vec<u8> = (0..16)
                .map(|at| (node as u8).wrapping_mul(37) ^ at * 11)
                .collect();
            let info = Message::NodeInfoResponse(NodeInfo {
                status: status(node, time / 1000),
                software: software(node),
                hardware: HardwareVersion {
                    major: 2,
                    minor: 1,
                    unique_id: &unique_id,
                    certificate: b"",
                },
                name: name.as_bytes(),
            });
            let said = [&Message::NodeInfoRequest, &info];
            let times = [time, time + 4];
            exchange(bus, times, [asks, node], types::GET_NODE_INFO, said);
        }
    }
}

/// The ground reads a parameter of a motor, and has it saved.
fn parameters(bus: &mut Bus) {
    let nodes = [GROUND, MOTORS[0]];
    let real = |value: f32| Parameter {
        tag: 2,
        real: value.to_bits().into(),
        ..Parameter::default()
    };
    let ask = Message::GetSetRequest(GetSetRequest {
        index: 0,
        value: Parameter::default(),
        name: b"gain",
    });
    let told = Message::GetSetResponse(GetSetResponse {
        value: real(0.75),
        default: real(0.5),
        highest: real(2.0),
        lowest: real(0.0),
        name: b"gain",
    });
    exchange(bus, [3500, 3504], nodes, types::GET_SET, [&ask, &told]);
    let save = Message::OpcodeRequest(OpcodeRequest {
        opcode: 0,
        argument: 0,
    });
    let done = Message::OpcodeResponse(OpcodeResponse { argument: 0, ok: 1 });
    let said = [&save, &done];
    exchange(bus, [3700, 3712], nodes, types::EXECUTE_OPCODE, said);
}

fn words(bus: &mut Bus) {
    let said: [(u64, u32, i128, &str, &str); 6] = [
        (2100, AUTOPILOT, 1, "main", "all nodes are here"),
        (4900, AUTOPILOT, 1, "arming", "armed; \"hover\" profile"),
        (15100, AUTOPILOT, 0, "control", "height reached: 40 m"),
        (30200, GNSS, 2, "fix", "3 satellites, wind 5 °"),
        (38100, GNSS, 3, "fix", "no fix"),
        (57300, AUTOPILOT, 1, "arming", "landed, disarmed"),
    ];
    for (time, node, level, source, text) in said {
        let log = LogMessage {
            level,
            source: source.as_bytes(),
            text: text.as_bytes(),
        };
        bus.say(
            time,
            node,
            message(types::LOG_MESSAGE, LOW),
            &Message::LogMessage(log),
        );
    }
}

/// Besides what happens to the batteries' transfers: a repeated frame, another protocol, and a line that a recorder cut.
fn damage(bus: &mut Bus) {
    let again = status(GNSS, 25);
    let (frames, _) = Bus::default().frames(
        0,
        GNSS,
        message(types::NODE_STATUS, NORMAL),
        &payload(&Message::NodeStatus(again)),
        0,
    );
    let mut repeat = frames[0].clone();
    // the transfer ID of second 25
    *repeat.data.last_mut().expect("a tail") |= 25;
    bus.put(25_300, &[repeat]);
    for second in [17, 18, 19] {
        bus.raw(
            second * 1000 + 450,
            format!("{second}.450 10015563 01 02 83\n").as_bytes(),
        );
    }
    bus.raw(41_777, b"41.777 1001552\n");
}
