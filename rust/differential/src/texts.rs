//! The graphs that are written: for every number of edges, or of strokes, up to past the limit and
//! for some far past it, and for numbers of every kind.

use crate::bench::Bench;
use crate::compare::{Call, Lengths, Memory, Mismatch, Outcome};

const FAR: [u64; 7] = [
    1 << 8,
    (1 << 8) + 40,
    (1 << 16) + 9,
    1 << 32,
    (1 << 32) + 1,
    1 << 63,
    u64::MAX,
];

/// A call that writes a graph for a number; a number just past its limit; how many bytes a number
/// takes.
pub struct Text {
    call: fn(u64) -> Call,
    past: usize,
    needed: fn(usize) -> usize,
}

/// Of so many edges.
pub const DEAREST: Text = Text {
    call: Call::dearest_graph,
    past: 131,
    needed: |edges| 4 + 12 * edges,
};

/// Of so many strokes.
pub const BUFFER: Text = Text {
    call: Call::buffer_graph,
    past: 42,
    needed: |strokes| match strokes {
        0..=9 => 100 * strokes + 72,
        _ => 107 * strokes + 7,
    },
};

/// Answers how many calls were compared.
pub fn sweep(bench: &mut Bench) -> Result<usize, Mismatch> {
    let mut count = 0;
    for text in [DEAREST, BUFFER] {
        for size in (0..=text.past as u64).chain(FAR) {
            let needed = text.needed(size);
            for lent in [0, needed / 2, needed - 1, needed, needed + 5] {
                text.compare(bench, size, lent)?;
                count += 1;
            }
        }
    }
    Ok(count)
}

impl Text {
    /// Mostly of a number about the limits.
    pub fn any(&self, bench: &mut Bench) -> Result<(), Mismatch> {
        let size = match bench.random.once_in(8) {
            true => bench.random.word() >> bench.random.below(64),
            false => bench.random.below(self.past + 1) as u64,
        };
        let lent = bench.length(self.needed(size));
        self.compare(bench, size, lent)?;
        Ok(())
    }

    /// The buffer and the result hold any contents before the call.
    pub fn compare(&self, bench: &mut Bench, size: u64, lent: usize) -> Result<Outcome, Mismatch> {
        let lengths = Lengths {
            text: lent,
            ..Lengths::default()
        };
        let memory = Memory::random(&mut bench.random, lengths);
        bench.compare(&(self.call)(size), memory)
    }

    /// How many bytes the number takes; of one over eight bits, those that its lowest eight say,
    /// so that there is room for it if it is cut.
    pub fn needed(&self, size: u64) -> usize {
        (self.needed)(usize::from(size as u8))
    }
}
