//! Type definitions in text, their normalized forms and signatures (RULES 17).

pub mod call;
pub mod definition;
pub mod initializer;
pub mod kinds;
pub mod line;
pub mod natural;
pub mod number;
pub mod types;

use definition::Definition;
use kinds::Kind;
use line::Line;

/// The steps and limits of reading, for wrong variants to replace one of; `RULES` has the right ones.
#[derive(Clone, Copy)]
pub struct Rules {
    pub lines: fn(&[u8]) -> Vec<&[u8]>,
    pub without_comment: fn(&[u8]) -> &[u8],
    /// A line without its comment.
    pub read: fn(&[u8]) -> Result<Line, Kind>,
    pub is_attribute: fn(&Line) -> bool,
    pub is_field: fn(&Line) -> bool,
    pub unique_name: fn(&Line) -> Option<&[u8]>,
    /// What a line adds to the form, in a namespace.
    pub in_form: fn(&Line, &[u8]) -> Vec<u8>,
    pub form_end: &'static [u8],
    pub may_be_nested: fn(&Definition) -> bool,
    /// From the hash of the form and the signatures of the nested types.
    pub signature: fn(u64, &[u64]) -> u64,
    pub first_line: usize,
    pub longest_name: usize,
    pub longest_text: usize,
    pub most_definitions: usize,
    pub longest_chain: usize,
    pub union_fields: usize,
    /// The line of a union that has fewer, from the lines of its directive and of its part's end.
    pub union_fault: fn(usize, usize) -> usize,
}

pub const RULES: Rules = Rules {
    lines: line::lines,
    without_comment: line::without_comment,
    read: line::read,
    is_attribute: Line::is_attribute,
    is_field: Line::is_field,
    unique_name: Line::name,
    in_form: definition::in_form,
    form_end: b"",
    may_be_nested: |definition| !definition.is_service,
    signature: call::signature,
    first_line: 1,
    longest_name: types::LONGEST_NAME,
    longest_text: 4096,
    most_definitions: 8,
    longest_chain: 4,
    union_fields: 2,
    union_fault: |directive, _| directive,
};
