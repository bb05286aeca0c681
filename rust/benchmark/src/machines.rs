//! One netlist eight times: on one bench, and as eight circuits that are stepped alone.

use crate::bench::{Bench, Words};
use ludopoplar::{CheckedTally, Turn};

pub const MACHINES: usize = 8;
const QUEUE: usize = 16 * 64;
/// Where the last one served stands among the numbers.
const LAST: usize = 4 * MACHINES;

/// All that the calls on a bench are lent, and the cycles that arrive, the same for each machine.
#[derive(Clone, Debug, PartialEq)]
pub struct Machines<'a> {
    nets: Vec<u16>,
    latches: Vec<u64>,
    values: Vec<u64>,
    queues: Vec<u8>,
    numbers: Vec<u32>,
    cycles: Arrivals<'a>,
}

/// Eight circuits of their own, and the same cycles.
pub struct Circuits<'a> {
    net: &'a [u16],
    words: Vec<Words>,
    cycles: Arrivals<'a>,
}

/// The cycles of a trace, from its first again after its last.
#[derive(Clone, Debug, PartialEq)]
struct Arrivals<'a> {
    cycles: Vec<&'a [u8]>,
    next: usize,
}

impl<'a> Arrivals<'a> {
    fn of(bench: &'a Bench) -> Arrivals<'a> {
        let lines = bench.trace.chunks_exact(bench.inputs() + 1);
        Arrivals {
            cycles: lines.map(|line| &line[..bench.inputs()]).collect(),
            next: 0,
        }
    }

    fn next(&mut self) -> &'a [u8] {
        let cycle = self.cycles[self.next % self.cycles.len()];
        self.next += 1;
        cycle
    }
}

impl<'a> Machines<'a> {
    /// Started places with empty queues.
    pub fn started(bench: &'a Bench) -> Machines<'a> {
        let words = bench.words();
        let mut numbers = vec![0; LAST + 1];
        numbers[LAST] = 7;
        Machines {
            nets: bench.net.repeat(MACHINES),
            latches: words.latches.repeat(MACHINES),
            values: words.values,
            queues: vec![0; MACHINES * QUEUE],
            numbers,
            cycles: Arrivals::of(bench),
        }
    }

    /// A new cycle for each machine.
    pub fn add_by_library(&mut self) {
        let cycle = self.cycles.next();
        let (queues, numbers) = (&mut self.queues, &mut self.numbers);
        for machine in 0..MACHINES as u32 {
            ludopoplar::bench_add(&self.nets, &self.latches, queues, numbers, machine, cycle)
                .expect("an accepted cycle");
        }
    }

    pub fn add_by_reference(&mut self) {
        let cycle = self.cycles.next();
        let (queues, numbers) = (&mut self.queues, &mut self.numbers);
        for machine in 0..MACHINES as u32 {
            reference::bench_add(&self.nets, &self.latches, queues, numbers, machine, cycle)
                .expect("an accepted cycle");
        }
    }

    /// As many turns as there are machines; the output words, folded together.
    pub fn turn_by_library(&mut self) -> u64 {
        let (latches, values) = (&mut self.latches, &mut self.values);
        let (queues, numbers) = (&mut self.queues, &mut self.numbers);
        (0..MACHINES).fold(0, |folded, _| {
            match ludopoplar::bench_turn(&self.nets, latches, values, queues, numbers) {
                Ok(Turn::Served { words, .. }) => fold(folded, words.accept),
                other => panic!("not served: {other:?}"),
            }
        })
    }

    pub fn turn_by_reference(&mut self) -> u64 {
        let (latches, values) = (&mut self.latches, &mut self.values);
        let (queues, numbers) = (&mut self.queues, &mut self.numbers);
        (0..MACHINES).fold(0, |folded, _| {
            match reference::bench_turn(&self.nets, latches, values, queues, numbers) {
                Ok(reference::Turn::Served { words, .. }) => fold(folded, words.accept),
                other => panic!("not served: {other:?}"),
            }
        })
    }

    /// Whether each place has the latch words and the tally of the circuit that was stepped alone.
    pub fn agree_with(&self, circuits: &Circuits) -> bool {
        let latches: Vec<u64> = circuits
            .words
            .iter()
            .flat_map(|words| words.latches.clone())
            .collect();
        let numbers: Vec<u32> = circuits
            .words
            .iter()
            .flat_map(|words| [0, words.cycles, words.rejected, words.checked])
            .collect();
        self.latches == latches && self.numbers[..LAST] == numbers
    }
}

impl<'a> Circuits<'a> {
    pub fn started(bench: &'a Bench) -> Circuits<'a> {
        Circuits {
            net: &bench.net,
            words: vec![bench.words(); MACHINES],
            cycles: Arrivals::of(bench),
        }
    }

    /// One step of each; the output words, folded together.
    pub fn step_by_library(&mut self) -> u64 {
        let cycle = self.cycles.next();
        self.words.iter_mut().fold(0, |folded, words| {
            let mut tally = CheckedTally {
                cycles: words.cycles,
                rejected: words.rejected,
                checked: words.checked,
            };
            let (latches, values) = (&mut words.latches, &mut words.values);
            let stepped = ludopoplar::step_checked(self.net, cycle, latches, values, &mut tally);
            (words.cycles, words.rejected) = (tally.cycles, tally.rejected);
            words.checked = tally.checked;
            fold(folded, stepped.expect("an accepted step").accept)
        })
    }
}

fn fold(folded: u64, word: u64) -> u64 {
    folded.rotate_left(1) ^ word
}
