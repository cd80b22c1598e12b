//! The answer word of the C boundary: bits 0-7 are 0 or the refusal number.

use crate::frame::Action;
use crate::refusal::Refusal;
use crate::rpc::RpcVerdict;
use crate::table::GroupCount;
use crate::verdict::{PathVerdict, TreeVerdict};

/// Bits 8-39 of a refusal are its line.
pub fn refused(refusal: Refusal) -> u64 {
    u64::from(refusal.number) | u64::from(refusal.line) << 8
}

/// The refusal number of an answer, 0 where the call was not refused.
pub fn refusal_number(word: u64) -> u8 {
    word as u8
}

/// The calls that fill a buffer: bits 8-39 are the length filled.
pub fn filled(answer: Result<usize, Refusal>) -> u64 {
    match answer {
        Ok(length) => (length as u64) << 8,
        Err(refusal) => refused(refusal),
    }
}

/// The length in an answer that is not a refusal.
pub fn length(word: u64) -> usize {
    (word >> 8) as usize
}

/// The line in a refusal that carries one.
pub fn line(word: u64) -> u32 {
    (word >> 8) as u32
}

/// The calls that only check: 0 where nothing is refused.
pub fn checked(answer: Result<(), Refusal>) -> u64 {
    answer.map_or_else(refused, |()| 0)
}

/// The group count: bits 8-15 the count, bits 16-31 the first group's number + 1.
pub fn group_count(answer: Result<GroupCount, Refusal>) -> u64 {
    match answer {
        Ok(groups) => u64::from(groups.count) << 8 | numbered(groups.first.map(|group| group.0)) << 16,
        Err(refusal) => refused(refusal),
    }
}

/// Bits 8-15 the action, bits 16-31 the deciding rule's number + 1.
pub fn path_verdict(answer: Result<PathVerdict, Refusal>) -> u64 {
    match answer {
        Ok(verdict) => action(verdict.action) << 8 | numbered(verdict.rule.map(|rule| rule.0)) << 16,
        Err(refusal) => refused(refusal),
    }
}

/// Bits 8-15 are 0 for NONE, 1 for ALL, 2 for MIXED; bits 16-31 the rule named + 1.
pub fn tree_verdict(answer: Result<TreeVerdict, Refusal>) -> u64 {
    match answer {
        Ok(TreeVerdict::None) => 0,
        Ok(TreeVerdict::All) => 1 << 8,
        Ok(TreeVerdict::Mixed(rule)) => 2 << 8 | numbered(Some(rule.0)) << 16,
        Err(refusal) => refused(refusal),
    }
}

/// Bits 8-15 the action, bits 16-31 the rule's number + 1 in the list it names.
pub fn rpc_verdict(answer: Result<RpcVerdict, Refusal>) -> u64 {
    match answer {
        Ok(verdict) => action(verdict.action) << 8 | numbered(verdict.rule) << 16,
        Err(refusal) => refused(refusal),
    }
}

fn action(action: Action) -> u64 {
    match action {
        Action::Deny => 0,
        Action::Permit => 1,
    }
}

/// A number + 1, or 0 for none.
fn numbered(number: Option<u8>) -> u64 {
    number.map_or(0, |n| u64::from(n) + 1)
}
