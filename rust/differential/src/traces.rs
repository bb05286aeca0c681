//! Cycles and traces: good ones and damaged ones.

use crate::damage::damage;
use crate::random::Random;

pub const MAX_TRACE_BYTES: usize = 1_048_576;
const MEANINGFUL: &[u8] = b"01\n\r2 /\t\0\xff";

/// A cycle of so many inputs, with init set now and then.
pub fn good_cycle(random: &mut Random, inputs: usize) -> Vec<u8> {
    let init_rarity = random.pick(&[2, 4, 8]);
    let mut cycle = vec![b'0'; inputs];
    cycle[0] += u8::from(random.once_in(init_rarity));
    for byte in &mut cycle[1..] {
        *byte += u8::from(random.coin());
    }
    cycle
}

/// A good cycle, or now and then a wrong one.
pub fn any_cycle(random: &mut Random, inputs: usize) -> Vec<u8> {
    let mut cycle = good_cycle(random, inputs);
    if random.once_in(6) {
        damage(random, &mut cycle, MEANINGFUL);
    }
    cycle
}

pub fn good_trace(random: &mut Random, inputs: usize, cycles: usize) -> Vec<u8> {
    let mut trace = Vec::with_capacity(cycles * (inputs + 1));
    for _ in 0..cycles {
        trace.extend(good_cycle(random, inputs));
        trace.push(b'\n');
    }
    trace
}

/// A good trace, or now and then a wrong one.
pub fn any_trace(random: &mut Random, inputs: usize, cycles: usize) -> Vec<u8> {
    let mut trace = good_trace(random, inputs, cycles);
    if random.once_in(4) {
        damage(random, &mut trace, MEANINGFUL);
    }
    trace
}

/// A trace of as many cycles as the limit allows, of fewer bytes or one more.
pub fn near_size_limit(random: &mut Random, inputs: usize) -> Vec<u8> {
    let mut trace = good_trace(random, inputs, MAX_TRACE_BYTES / (inputs + 1));
    match random.below(6) {
        0 => trace.resize(MAX_TRACE_BYTES + 1, b'1'),
        1 => trace.resize(MAX_TRACE_BYTES, b'1'),
        2 => damage(random, &mut trace, MEANINGFUL),
        3 => trace.extend(good_trace(random, inputs, 1)),
        _ => (),
    }
    trace
}
