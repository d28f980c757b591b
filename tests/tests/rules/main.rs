//! The second implementation against the rules (docs/RULES.md): sample values, published examples
//! and the edges of each rule.

mod allocation;
mod allocation_log;
mod blocks;
mod captures;
mod checksums;
mod judge;
mod lent_state;
mod log_program;
mod parameters;
mod reception;
mod sending;
mod serialization;
mod type_definitions;
