//! A bench of eight places that owns all that its calls are lent.

use crate::{bench_add, bench_turn, start_checked, CheckedTally, Refusal, Turn, LONGEST_NETLIST};

/// How many places a bench has.
const PLACES: usize = 8;
/// The bytes of a queue: 16 slots of 64.
const QUEUE: usize = 16 * 64;
/// The numbers of each place, and the last one served.
const NUMBERS: usize = 4 * PLACES + 1;
/// The last one served before any turn, so that machine 0 comes first.
const BEFORE_ANY: u32 = 7;

/// The shortest netlist, for a place without a machine; its output is always 1. No cycle should be
/// added there.
pub const NO_MACHINE: &[u16] = &[1, 1, 0, 1, 0, 1];

/// Eight machines on one bench, each with its own netlist, latch words, tally and queue of at most
/// 16 waiting cycles.
///
/// A machine with a cycle waiting is served within eight turns, whatever is added for the others.
/// Each queue is served in the order of arrival, and a machine's tally is that of its own served
/// cycles.
///
/// ```
/// use ludopoplar::{build_checked, Bench, CheckedTally, Turn, Words, NO_MACHINE};
///
/// // In a cycle of init, if p holds then q must hold; a cycle is init, p, q.
/// let mut net = [0; 27];
/// build_checked(b"S\tp\nS\tq\nV\ta\nV\tb\nE\ta\tb\tt\tp\tq\n", &mut net)?;
/// let mut nets = [NO_MACHINE; 8];
/// (nets[2], nets[5]) = (&net, &net);
/// let mut bench = Bench::new(nets)?;
///
/// bench.add(5, b"110")?;
/// bench.add(2, b"111")?;
/// bench.add(5, b"010")?;
/// let machines: Vec<u32> = std::iter::from_fn(|| match bench.turn() {
///     Ok(Turn::Served { machine, .. }) => Some(machine),
///     _ => None,
/// })
/// .collect();
/// assert_eq!(machines, [2, 5, 5]);
///
/// let place = bench.place(5).unwrap();
/// assert_eq!(place.waiting, 0);
/// assert_eq!(
///     place.tally,
///     CheckedTally { cycles: 2, rejected: 1, checked: 1 }
/// );
/// # Ok::<(), ludopoplar::Refusal>(())
/// ```
#[derive(Clone, Debug, PartialEq, Eq)]
pub struct Bench {
    nets: Vec<u16>,
    latches: Vec<u64>,
    /// Enough for the largest of the netlists.
    values: Vec<u64>,
    queues: Vec<u8>,
    numbers: [u32; NUMBERS],
}

/// What a place shows.
#[derive(Clone, Copy, Debug, PartialEq, Eq)]
pub struct Place {
    /// How many cycles wait, at most 16.
    pub waiting: u32,
    /// Of the cycles that were served.
    pub tally: CheckedTally,
}

impl Bench {
    /// Starts each place with an empty queue; a netlist may have a surplus behind it. Refused
    /// where `start_checked` refuses one of the eight.
    pub fn new(nets: [&[u16]; PLACES]) -> Result<Bench, Refusal> {
        let nets = nets.map(|net| &net[..net.len().min(LONGEST_NETLIST)]);
        let longest = nets.iter().map(|net| net.len()).max().unwrap_or(0);
        // The largest of all numbers in one place of a header; a netlist without it is refused.
        let most = |at: usize| nets.iter().filter_map(|net| net.get(at)).max();
        let count = |at: usize| usize::from(most(at).copied().unwrap_or(0));
        let (variables, latches) = (count(0), count(2));
        let mut bench = Bench {
            nets: Vec::with_capacity(PLACES * longest),
            latches: vec![0; PLACES * latches],
            values: vec![0; variables + 1],
            queues: vec![0; PLACES * QUEUE],
            numbers: [0; NUMBERS],
        };
        for (place, net) in nets.into_iter().enumerate() {
            let own = &mut bench.latches[place * latches..][..latches];
            // Leaves the tally at zero, as the numbers are.
            start_checked(net, own, &mut CheckedTally::default())?;
            bench.nets.extend_from_slice(net);
            bench.nets.resize((place + 1) * longest, 0);
        }
        bench.numbers[NUMBERS - 1] = BEFORE_ANY;
        Ok(bench)
    }

    /// Lets a new cycle wait for a machine, 0 to 7: a byte `0` or `1` for each input of its
    /// netlist.
    ///
    /// Refused with 27 for any other machine, with 28 where 16 cycles wait for it, with 15 where
    /// the cycle is wrong, and with 17 where a number of its tally would not have room for those
    /// waiting and this one.
    pub fn add(&mut self, machine: u32, cycle: &[u8]) -> Result<(), Refusal> {
        bench_add(
            &self.nets,
            &self.latches,
            &mut self.queues,
            &mut self.numbers,
            machine,
            cycle,
        )
    }

    /// Serves the next machine, in the round after the last one served, that has a cycle waiting;
    /// idle where there is none. No turn of such a bench is refused.
    pub fn turn(&mut self) -> Result<Turn, Refusal> {
        bench_turn(
            &self.nets,
            &mut self.latches,
            &mut self.values,
            &mut self.queues,
            &mut self.numbers,
        )
    }

    /// `None` if the number is above 7.
    pub fn place(&self, machine: u32) -> Option<Place> {
        let places = &self.numbers[..NUMBERS - 1];
        match *places.chunks_exact(4).nth(machine as usize)? {
            [waiting, cycles, rejected, checked] => Some(Place {
                waiting,
                tally: CheckedTally {
                    cycles,
                    rejected,
                    checked,
                },
            }),
            _ => None,
        }
    }

    /// The last machine served; 7 before any turn.
    pub fn last(&self) -> u32 {
        self.numbers[NUMBERS - 1]
    }
}
