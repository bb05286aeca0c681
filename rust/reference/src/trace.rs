//! A trace as its cycles.

use crate::lines::lines;
use crate::refusal::{Cause, Refusal};

pub const MAX_TRACE_BYTES: usize = 1_048_576;

/// "I bytes `0` or `1`."
pub fn is_cycle(inputs: usize, cycle: &[u8]) -> bool {
    cycle.len() == inputs && cycle.iter().all(|byte| matches!(byte, b'0' | b'1'))
}

/// "A trace: lines of I bytes, each ended by LF."
pub fn cycles_of(inputs: usize, trace: &[u8]) -> Result<Vec<&[u8]>, Refusal> {
    lines(trace)
        .map(|line| match line.ended && is_cycle(inputs, line.bytes) {
            true => Ok(line.bytes),
            false => Err(Cause::CycleWrong.at(line.number)),
        })
        .collect()
}
