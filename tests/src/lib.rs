//! A second implementation of the UAVCAN v0 transport and its messages, written from the rules
//! alone (docs/RULES.md), to be compared with the proved one.

pub mod allocator;
pub mod batch;
pub mod binary16;
pub mod bits;
pub mod blocks;
pub mod captures;
pub mod codec;
pub mod crc;
pub mod definitions;
pub mod dsdl;
pub mod entry;
pub mod frame;
pub mod judge;
pub mod logs;
pub mod map;
pub mod messages;
pub mod patch;
pub mod receive;
pub mod rows;
pub mod send;
pub mod session;
pub mod state;
