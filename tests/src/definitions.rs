//! The types' IDs and their signatures, worked out from the normalized definitions
//! (RULES 11).

use crate::crc::{extend, hash};

pub const NODE_STATUS: u16 = 341;
pub const ALLOCATION: u16 = 1;
pub const KEY_VALUE: u16 = 16370;
pub const LOG_MESSAGE: u16 = 16383;
pub const GET_NODE_INFO: u16 = 1;
pub const BATTERY_INFO: u16 = 1092;
pub const RAW_COMMAND: u16 = 1030;
pub const GET_SET: u16 = 11;
pub const EXECUTE_OPCODE: u16 = 10;

/// The signature of one of the types, of kind 0 (message) or 1 (service); 0 of any other.
pub fn signature(kind: u32, type_id: u32) -> u64 {
    let Ok(type_id) = u16::try_from(type_id) else {
        return 0;
    };
    match (kind, type_id) {
        (0, NODE_STATUS) => node_status(),
        (0, ALLOCATION) => allocation(),
        (0, KEY_VALUE) => key_value(),
        (0, LOG_MESSAGE) => log_message(),
        (1, GET_NODE_INFO) => get_node_info(),
        (0, BATTERY_INFO) => battery_info(),
        (0, RAW_COMMAND) => raw_command(),
        (1, GET_SET) => get_set(),
        (1, EXECUTE_OPCODE) => execute_opcode(),
        _ => 0,
    }
}

pub fn node_status() -> u64 {
    hash(
        b"uavcan.protocol.NodeStatus\n\
        saturated uint32 uptime_sec\n\
        saturated uint2 health\n\
        saturated uint3 mode\n\
        saturated uint3 sub_mode\n\
        saturated uint16 vendor_specific_status_code",
    )
}

pub fn allocation() -> u64 {
    hash(
        b"uavcan.protocol.dynamic_node_id.Allocation\n\
        saturated uint7 node_id\n\
        saturated bool first_part_of_unique_id\n\
        saturated uint8[<=16] unique_id",
    )
}

pub fn key_value() -> u64 {
    hash(
        b"uavcan.protocol.debug.KeyValue\n\
        saturated float32 value\n\
        saturated uint8[<=58] key",
    )
}

pub fn log_message() -> u64 {
    let own = hash(
        b"uavcan.protocol.debug.LogMessage\n\
        uavcan.protocol.debug.LogLevel level\n\
        saturated uint8[<=31] source\n\
        saturated uint8[<=90] text",
    );
    extend(own, log_level())
}

pub fn get_node_info() -> u64 {
    let own = hash(
        b"uavcan.protocol.GetNodeInfo\n\
        ---\n\
        uavcan.protocol.NodeStatus status\n\
        uavcan.protocol.SoftwareVersion software_version\n\
        uavcan.protocol.HardwareVersion hardware_version\n\
        saturated uint8[<=80] name",
    );
    [node_status(), software_version(), hardware_version()]
        .into_iter()
        .fold(own, extend)
}

pub fn battery_info() -> u64 {
    hash(
        b"uavcan.equipment.power.BatteryInfo\n\
        saturated float16 temperature\n\
        saturated float16 voltage\n\
        saturated float16 current\n\
        saturated float16 average_power_10sec\n\
        saturated float16 remaining_capacity_wh\n\
        saturated float16 full_charge_capacity_wh\n\
        saturated float16 hours_to_full_charge\n\
        saturated uint11 status_flags\n\
        saturated uint7 state_of_health_pct\n\
        saturated uint7 state_of_charge_pct\n\
        saturated uint7 state_of_charge_pct_stdev\n\
        saturated uint8 battery_id\n\
        saturated uint32 model_instance_id\n\
        saturated uint8[<=31] model_name",
    )
}

pub fn raw_command() -> u64 {
    hash(b"uavcan.equipment.esc.RawCommand\nsaturated int14[<=20] cmd")
}

pub fn get_set() -> u64 {
    let own = hash(
        b"uavcan.protocol.param.GetSet\n\
        saturated uint13 index\n\
        uavcan.protocol.param.Value value\n\
        saturated uint8[<=92] name\n\
        ---\n\
        void5\n\
        uavcan.protocol.param.Value value\n\
        void5\n\
        uavcan.protocol.param.Value default_value\n\
        void6\n\
        uavcan.protocol.param.NumericValue max_value\n\
        void6\n\
        uavcan.protocol.param.NumericValue min_value\n\
        saturated uint8[<=92] name",
    );
    let (value, numeric) = (parameter_value(), numeric_value());
    [value, value, value, numeric, numeric]
        .into_iter()
        .fold(own, extend)
}

pub fn execute_opcode() -> u64 {
    hash(
        b"uavcan.protocol.param.ExecuteOpcode\n\
        saturated uint8 opcode\n\
        saturated int48 argument\n\
        ---\n\
        saturated int48 argument\n\
        saturated bool ok",
    )
}

fn parameter_value() -> u64 {
    let own = hash(
        b"uavcan.protocol.param.Value\n\
        @union\n\
        uavcan.protocol.param.Empty empty\n\
        saturated int64 integer_value\n\
        saturated float32 real_value\n\
        saturated uint8 boolean_value\n\
        saturated uint8[<=128] string_value",
    );
    extend(own, empty())
}

fn numeric_value() -> u64 {
    let own = hash(
        b"uavcan.protocol.param.NumericValue\n\
        @union\n\
        uavcan.protocol.param.Empty empty\n\
        saturated int64 integer_value\n\
        saturated float32 real_value",
    );
    extend(own, empty())
}

fn empty() -> u64 {
    hash(b"uavcan.protocol.param.Empty")
}

fn log_level() -> u64 {
    hash(b"uavcan.protocol.debug.LogLevel\nsaturated uint3 value")
}

fn software_version() -> u64 {
    hash(
        b"uavcan.protocol.SoftwareVersion\n\
        saturated uint8 major\n\
        saturated uint8 minor\n\
        saturated uint8 optional_field_flags\n\
        saturated uint32 vcs_commit\n\
        saturated uint64 image_crc",
    )
}

fn hardware_version() -> u64 {
    hash(
        b"uavcan.protocol.HardwareVersion\n\
        saturated uint8 major\n\
        saturated uint8 minor\n\
        saturated uint8[16] unique_id\n\
        saturated uint8[<=255] certificate_of_authenticity",
    )
}
