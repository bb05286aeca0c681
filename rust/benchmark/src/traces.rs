//! Traces of a console that keeps the rules, but for a rare slip.

use std::collections::VecDeque;

const MAX_TRACE_BYTES: usize = 1_048_576;
/// The console starts anew so often, so that no slip condemns all that follows.
const CYCLES_TO_A_RESET: usize = 1_000;
const CYCLES_TO_A_SLIP: u64 = 3_000;
const SEED: u64 = 0x5DEE_CE66_D1CE_B00C;

/// A stroke buffer with what it holds, and a source of random bits.
struct Console {
    places: usize,
    held: VecDeque<u8>,
    cycles_to_a_slip: u64,
    random: u64,
}

/// As many cycles as a trace may hold; with `content`, six bits in and six out.
pub fn longest(places: usize, content: bool) -> Vec<u8> {
    let mut console = Console::new(places, CYCLES_TO_A_SLIP);
    let mut trace = Vec::new();
    for cycle in 0.. {
        let line = console.cycle(cycle % CYCLES_TO_A_RESET == 0, content);
        if trace.len() + line.len() > MAX_TRACE_BYTES {
            break;
        }
        trace.extend(line);
    }
    trace
}

impl Console {
    fn new(places: usize, cycles_to_a_slip: u64) -> Console {
        Console {
            places,
            held: VecDeque::new(),
            cycles_to_a_slip,
            random: SEED,
        }
    }

    /// One line: init, reset, enq, deq, empty, full, and the content if asked for.
    fn cycle(&mut self, reset: bool, content: bool) -> Vec<u8> {
        let (enq, deq) = (self.below(2) == 1, self.below(2) == 1);
        let put_in = self.below(64) as u8;
        let slip = self.below(self.cycles_to_a_slip) == 0;
        let empty = self.held.is_empty();
        let full = self.held.len() == self.places;
        let shown = self.held.front().copied().unwrap_or(0);
        let mut bits = vec![reset, reset, enq, deq, empty != slip, full];
        if content {
            bits.extend((0..6).map(|bit| put_in >> bit & 1 == 1));
            bits.extend((0..6).map(|bit| shown >> bit & 1 == 1));
        }
        self.moved(reset, enq, deq, put_in);
        let mut line: Vec<u8> = bits.into_iter().map(|bit| b'0' + u8::from(bit)).collect();
        line.push(b'\n');
        line
    }

    fn moved(&mut self, reset: bool, enq: bool, deq: bool, put_in: u8) {
        if reset {
            return self.held.clear();
        }
        let (room, some) = (self.held.len() < self.places, !self.held.is_empty());
        if deq && some {
            self.held.pop_front();
        }
        if enq && room {
            self.held.push_back(put_in);
        }
    }

    fn below(&mut self, bound: u64) -> u64 {
        self.random ^= self.random << 13;
        self.random ^= self.random >> 7;
        self.random ^= self.random << 17;
        (self.random >> 11) % bound
    }
}

#[cfg(test)]
mod tests {
    use super::*;
    use crate::graphs;
    use reference::{rejected_cycles, Graph};

    /// How many of some cycles a graph's paths reject.
    fn rejected(graph: &str, content: bool, cycles_to_a_slip: u64) -> usize {
        let graph = Graph::parse(graph.as_bytes()).unwrap();
        let mut console = Console::new(4, cycles_to_a_slip);
        let lines: Vec<Vec<u8>> = (0..400)
            .map(|cycle| console.cycle(cycle % 100 == 0, content))
            .collect();
        let cycles: Vec<&[u8]> = lines.iter().map(|line| &line[..line.len() - 1]).collect();
        let rejected = rejected_cycles(&graph, &cycles);
        rejected.into_iter().filter(|rejected| *rejected).count()
    }

    #[test]
    fn only_slips_are_rejected() {
        let (counts, content) = (graphs::stroke_buffer(4), graphs::stroke_content(4));
        assert_eq!(rejected(&counts, false, u64::MAX), 0);
        assert_eq!(rejected(&content, true, u64::MAX), 0);
        assert!(rejected(&counts, false, 50) > 0);
        assert!(rejected(&content, true, 50) > 0);
        // A buffer one place larger than its graph says is soon found out.
        assert!(rejected(&graphs::stroke_buffer(3), false, u64::MAX) > 0);
    }
}
