//! Rejections in a million: the call on one tally, and tallies of every kind.

use crate::bench::Bench;
use crate::compare::{Call, Lengths, Memory, Mismatch};
use crate::random::Random;
use reference::Tally;

/// A million times 4,295 is the first product past 32 bits; a trace has at most
/// 524,288 cycles.
const LIMITS: [u32; 13] = [
    4_294,
    4_295,
    524_287,
    524_288,
    524_289,
    999_999,
    1_000_000,
    1_000_001,
    0x7FFF_FFFF,
    0x8000_0000,
    0x8000_0001,
    u32::MAX - 1,
    u32::MAX,
];

/// The results hold any contents before the call.
pub fn compare_rate(bench: &mut Bench, tally: Tally) -> Result<(), Mismatch> {
    let mut memory = Memory::random(&mut bench.random, Lengths::default());
    memory.tally = tally;
    bench.compare(&Call::per_million(), memory)?;
    Ok(())
}

/// Every pair of small numbers and limits.
pub fn pairs() -> Vec<Tally> {
    let numbers: Vec<u32> = (0..20).chain(LIMITS).collect();
    let mut pairs = Vec::new();
    for &cycles in &numbers {
        for &rejected in &numbers {
            pairs.push(of_two(cycles, rejected));
        }
    }
    pairs
}

/// Rejected is often about cycles, or about 0, and may be above.
pub fn any(random: &mut Random) -> Tally {
    let cycles = number(random);
    let rejected = match random.below(8) {
        0 => cycles,
        1 => cycles.saturating_add(1),
        2 => cycles.saturating_sub(random.within(1..=3) as u32),
        3 => random.below(4) as u32,
        4..=5 => random.within(0..=cycles as usize) as u32,
        _ => number(random),
    };
    of_two(cycles, rejected)
}

/// The call is not lent the third number.
fn of_two(cycles: u32, rejected: u32) -> Tally {
    Tally {
        cycles,
        rejected,
        ..Tally::default()
    }
}

/// A number of any count of bits, a power of ten or beside one, or near a limit.
fn number(random: &mut Random) -> u32 {
    match random.below(4) {
        0 => random.below(20) as u32,
        1 => 10u32.pow(random.below(10) as u32) - 1 + random.below(3) as u32,
        2 => random.pick(&LIMITS),
        _ => random.word() as u32 >> random.below(32),
    }
}
