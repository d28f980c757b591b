//! The plain codec of bytewise.rs under C names, on the rows and the structs of include/tecelume.h: the opponent of messages.c.
#![crate_type = "staticlib"]

#[path = "bytewise.rs"]
#[allow(dead_code)]
mod bytewise;

use bytewise::{Battery, Status};
use std::slice::{from_raw_parts, from_raw_parts_mut};

#[repr(C)]
pub struct Bytes {
    at: *const u8,
    len: usize,
}

#[repr(C)]
pub struct NodeStatus {
    uptime_sec: u32,
    health: u32,
    mode: u32,
    sub_mode: u32,
    vendor_specific_status_code: u32,
}

#[repr(C)]
pub struct BatteryInfo {
    floats: [f32; 7],
    status_flags: u32,
    state_of_health_pct: u32,
    state_of_charge_pct: u32,
    state_of_charge_pct_stdev: u32,
    battery_id: u32,
    model_instance_id: u32,
    model_name: Bytes,
}

/// The nearest number to the given one that a field of so many bits holds.
fn nearest(number: u64, bits: u32) -> u64 {
    number.min((1 << bits) - 1)
}

/// A result word.
fn word(result: Result<u64, u64>) -> u64 {
    result.map_or_else(|refusal| refusal, |length| length << 8)
}

fn read_status(payload: &[u8]) -> Result<Status, u32> {
    match payload.try_into() {
        Ok(seven) => Ok(Status::read(seven)),
        Err(_) if payload.len() < 7 => Err(15),
        Err(_) => Err(16),
    }
}

fn write_status(status: Status, out: &mut [u8]) -> u64 {
    word(match out.first_chunk_mut() {
        None => Err(8),
        Some(seven) => {
            status.write(seven);
            Ok(7)
        }
    })
}

#[no_mangle]
pub unsafe extern "C" fn by_hand_decode_node_status_fields(
    payload: *const u8,
    length: usize,
    fields: *mut u64,
    places: usize,
) -> u32 {
    let status = match read_status(from_raw_parts(payload, length)) {
        Ok(status) => status,
        Err(refusal) => return refusal,
    };
    match from_raw_parts_mut(fields, places).first_chunk_mut() {
        None => 8,
        Some(row) => {
            *row = [
                status.uptime.into(),
                status.health.into(),
                status.mode.into(),
                0,
                status.vendor.into(),
            ];
            0
        }
    }
}

#[no_mangle]
pub unsafe extern "C" fn by_hand_encode_node_status_fields(
    fields: *const u64,
    count: usize,
    out: *mut u8,
    room: usize,
) -> u64 {
    let Some(&[uptime, health, mode, _, vendor]) = from_raw_parts(fields, count).first_chunk()
    else {
        return 15;
    };
    let status = Status {
        uptime: nearest(uptime, 32) as u32,
        health: nearest(health, 2) as u8,
        mode: nearest(mode, 3) as u8,
        vendor: nearest(vendor, 16) as u16,
    };
    write_status(status, from_raw_parts_mut(out, room))
}

#[no_mangle]
pub unsafe extern "C" fn by_hand_decode_node_status(
    payload: *const u8,
    length: usize,
    message: &mut NodeStatus,
) -> u32 {
    match read_status(from_raw_parts(payload, length)) {
        Ok(status) => {
            *message = NodeStatus {
                uptime_sec: status.uptime,
                health: status.health.into(),
                mode: status.mode.into(),
                sub_mode: 0,
                vendor_specific_status_code: status.vendor.into(),
            };
            0
        }
        Err(refusal) => refusal,
    }
}

#[no_mangle]
pub unsafe extern "C" fn by_hand_encode_node_status(
    message: &NodeStatus,
    out: *mut u8,
    room: usize,
) -> u64 {
    let status = Status {
        uptime: message.uptime_sec,
        health: message.health.min(3) as u8,
        mode: message.mode.min(7) as u8,
        vendor: message.vendor_specific_status_code.min(65535) as u16,
    };
    write_status(status, from_raw_parts_mut(out, room))
}

#[no_mangle]
pub unsafe extern "C" fn by_hand_decode_battery_info_fields(
    payload: *const u8,
    length: usize,
    fields: *mut u64,
    places: usize,
) -> u32 {
    let battery = match Battery::read(from_raw_parts(payload, length)) {
        Ok(battery) => battery,
        Err(refusal) => return refusal as u32,
    };
    let Some(row) = from_raw_parts_mut(fields, places).first_chunk_mut::<15>() else {
        return 8;
    };
    for (place, float) in row.iter_mut().zip(battery.floats) {
        *place = float.to_bits().into();
    }
    let others = [
        battery.health,
        battery.charge,
        battery.deviation,
        battery.id,
    ]
    .map(u64::from);
    row[7] = battery.flags.into();
    row[8..12].copy_from_slice(&others);
    row[12..].copy_from_slice(&[battery.model.into(), 23, battery.name.len() as u64]);
    0
}

#[no_mangle]
pub unsafe extern "C" fn by_hand_encode_battery_info_fields(
    fields: *const u64,
    count: usize,
    name: *const u8,
    name_length: usize,
    out: *mut u8,
    room: usize,
) -> u64 {
    let Some(row) = from_raw_parts(fields, count).first_chunk::<15>() else {
        return 15;
    };
    let name = from_raw_parts(name, name_length);
    if row[..7].iter().any(|&float| float >> 32 != 0) || name.len() > 31 {
        return 17;
    }
    let battery = Battery {
        floats: std::array::from_fn(|at| f32::from_bits(row[at] as u32)),
        flags: nearest(row[7], 11) as u16,
        health: nearest(row[8], 7) as u8,
        charge: nearest(row[9], 7) as u8,
        deviation: nearest(row[10], 7) as u8,
        id: nearest(row[11], 8) as u8,
        model: nearest(row[12], 32) as u32,
        name,
    };
    word(battery.write(from_raw_parts_mut(out, room)))
}

#[no_mangle]
pub unsafe extern "C" fn by_hand_decode_battery_info(
    payload: *const u8,
    length: usize,
    message: &mut BatteryInfo,
) -> u32 {
    match Battery::read(from_raw_parts(payload, length)) {
        Ok(battery) => {
            *message = BatteryInfo {
                floats: battery.floats,
                status_flags: battery.flags.into(),
                state_of_health_pct: battery.health.into(),
                state_of_charge_pct: battery.charge.into(),
                state_of_charge_pct_stdev: battery.deviation.into(),
                battery_id: battery.id.into(),
                model_instance_id: battery.model,
                model_name: Bytes {
                    at: battery.name.as_ptr(),
                    len: battery.name.len(),
                },
            };
            0
        }
        Err(refusal) => refusal as u32,
    }
}

#[no_mangle]
pub unsafe extern "C" fn by_hand_encode_battery_info(
    message: &BatteryInfo,
    out: *mut u8,
    room: usize,
) -> u64 {
    let name = from_raw_parts(message.model_name.at, message.model_name.len);
    if name.len() > 31 {
        return 17;
    }
    let battery = Battery {
        floats: message.floats,
        flags: message.status_flags.min(2047) as u16,
        health: message.state_of_health_pct.min(127) as u8,
        charge: message.state_of_charge_pct.min(127) as u8,
        deviation: message.state_of_charge_pct_stdev.min(127) as u8,
        id: message.battery_id.min(255) as u8,
        model: message.model_instance_id,
        name,
    };
    word(battery.write(from_raw_parts_mut(out, room)))
}
