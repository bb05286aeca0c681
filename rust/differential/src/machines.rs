//! Benches of eight machines: what the calls on one are lent, the calls, and benches of every kind,
//! whole and damaged.

use crate::bench::Bench;
use crate::compare::{Call, Lengths, Lent, Memory, Mismatch};
use crate::random::Random;
use crate::{graphs, netlists, traces};

pub const PLACES: usize = 8;
/// Where the last one served stands among the numbers.
pub const LAST: usize = 4 * PLACES;
pub const SLOT: usize = 64;
pub const MOST_WAITING: usize = 16;
/// The shortest netlist.
const NO_MACHINE: [u16; 6] = [1, 1, 0, 1, 0, 1];
/// Those of a place's numbers that may matter, and of the last one served.
const NUMBERS: [u32; 14] = [
    0,
    1,
    2,
    6,
    7,
    8,
    9,
    15,
    16,
    17,
    18,
    1 << 16,
    u32::MAX - 1,
    u32::MAX,
];
/// Have one of the numbers 0 to 7 in their lowest bits.
const FAR_MACHINES: [u32; 8] = [
    8,
    15,
    1 << 8,
    (1 << 8) + 7,
    1 << 16,
    (1 << 31) + 3,
    u32::MAX - 7,
    u32::MAX,
];
const BYTES: [u8; 8] = *b"01/2\0\n\xff\xb0";

/// Eight netlists in their parts, and what else the calls are lent.
#[derive(Clone)]
pub struct Machines {
    pub nets: Vec<u16>,
    pub memory: Memory,
}

/// How much longer the parts of netlists and of latch words are than the largest machine needs,
/// and the value words; how long the parts of queues are; how much stands behind the eight parts
/// of each, and behind the 33 numbers.
#[derive(Clone, Copy)]
pub struct Layout {
    pub surplus: [usize; 3],
    pub queue: usize,
    pub rests: [usize; 3],
    pub more_numbers: usize,
}

impl Layout {
    /// Queues of so many slots, and perhaps a part of one more.
    pub fn any(random: &mut Random, slots: usize) -> Layout {
        let part = random.pick(&[0, 0, 1, 63]);
        let rest = random.coin();
        let mut below = |bound| if rest { random.below(bound) } else { 0 };
        Layout {
            surplus: [below(4), below(3), below(3)],
            queue: SLOT * slots + part,
            rests: [below(8), below(8), below(8)],
            more_numbers: below(4),
        }
    }
}

impl Machines {
    /// With nothing waiting, all tallies 0 and 7 the last one served; other cells are any.
    pub fn of(random: &mut Random, nets: &[Vec<u16>], layout: Layout) -> Machines {
        let most = |at: usize| nets.iter().map(|net| usize::from(net[at])).max();
        let longest = nets.iter().map(Vec::len).max();
        let [net, latches, values] = [longest, most(2), most(0)].map(|most| most.unwrap_or(0));
        let part = net + layout.surplus[0];
        let mut lent = Vec::new();
        for (place, net) in nets.iter().enumerate() {
            lent.extend(net);
            lent.resize_with((place + 1) * part, || random.word() as u16);
        }
        lent.resize_with(lent.len() + layout.rests[0], || random.word() as u16);
        let lengths = Lengths {
            latches: PLACES * (latches + layout.surplus[1]) + layout.rests[1],
            values: values + 1 + layout.surplus[2],
            ..Lengths::default()
        };
        let mut memory = Memory::random(random, lengths);
        let bytes = PLACES * layout.queue + layout.rests[2];
        memory.queues = Lent::random(random, bytes, Random::byte);
        let mut numbers = vec![0; LAST + 1];
        numbers[LAST] = 7;
        numbers.resize_with(LAST + 1 + layout.more_numbers, || random.word() as u32);
        memory.numbers = Lent::holding(random, &numbers, |random| random.word() as u32);
        Machines { nets: lent, memory }
    }

    /// Machines of any small kind, with cycles waiting and tallies about their limits.
    fn busy(random: &mut Random) -> Machines {
        let nets = any_nets(random);
        let slots = match random.below(4) {
            0 => random.below(4),
            _ => MOST_WAITING,
        };
        let layout = Layout::any(random, slots);
        let mut machines = Machines::of(random, &nets, layout);
        machines.numbers()[LAST] = random.below(PLACES) as u32;
        for place in 0..PLACES {
            let waiting = match random.below(6) {
                0..=2 => 0,
                3 => slots,
                _ => random.within(0..=slots),
            };
            machines.fill(random, place, waiting);
            let mut count = || match random.below(8) {
                0 => u32::MAX - random.below(waiting + 3) as u32,
                _ => random.below(1_000) as u32,
            };
            let tally = [count(), count(), count()];
            machines.numbers()[4 * place + 1..][..3].copy_from_slice(&tally);
        }
        machines
    }

    /// Lets so many good cycles wait.
    pub fn fill(&mut self, random: &mut Random, place: usize, waiting: usize) {
        let inputs = self.inputs(place);
        let length = self.memory.queues.get().len() / PLACES;
        let queue = &mut self.memory.queues.get_mut()[place * length..][..length];
        for slot in queue.chunks_exact_mut(SLOT).take(waiting) {
            slot[..inputs].copy_from_slice(&traces::good_cycle(random, inputs));
        }
        self.numbers()[4 * place] = waiting as u32;
    }

    /// A place's part of the netlists.
    pub fn net(&self, place: usize) -> &[u16] {
        let length = self.nets.len() / PLACES;
        &self.nets[place * length..][..length]
    }

    /// How many inputs a place's header speaks of; some other count if that is none.
    pub fn inputs(&self, place: usize) -> usize {
        let inputs = self.net(place).get(1).copied().unwrap_or(1);
        usize::from(inputs).clamp(1, 64)
    }

    pub fn numbers(&mut self) -> &mut [u32] {
        self.memory.numbers.get_mut()
    }

    /// Answers the number of the refusal, 0 where the cycle is taken.
    pub fn add(
        &mut self,
        bench: &mut Bench,
        machine: u32,
        cycle: Vec<u8>,
    ) -> Result<u32, Mismatch> {
        self.compare(bench, Call::bench_add(self.nets.clone(), machine, cycle))
    }

    /// Answers the number of the refusal, 0 where it is accepted.
    pub fn turn(&mut self, bench: &mut Bench) -> Result<u32, Mismatch> {
        self.compare(bench, Call::bench_turn(self.nets.clone()))
    }

    /// The results hold any contents before the call.
    fn compare(&mut self, bench: &mut Bench, call: Call) -> Result<u32, Mismatch> {
        self.memory.served = bench.random.word();
        self.memory.answer = bench.random.word();
        self.memory.checked_word = bench.random.word();
        let outcome = bench.compare(&call, self.memory.clone())?;
        let rounds = &mut bench.coverage.rounds;
        rounds.record(&call, &self.memory, &outcome);
        self.memory = outcome.memory;
        Ok(outcome.number)
    }

    /// A good cycle for a machine, or now and then a wrong one.
    pub fn any_cycle(&self, random: &mut Random, machine: u32) -> Vec<u8> {
        let inputs = self.inputs(machine as usize % PLACES);
        traces::any_cycle(random, inputs)
    }

    /// Changes a cell of the netlists, of the numbers or of the queues, or shortens a buffer.
    fn damage(&mut self, random: &mut Random) {
        let place = random.below(PLACES);
        match random.below(8) {
            0 | 1 => self.damage_net(random, place),
            2 => self.numbers()[4 * place] = random.pick(&NUMBERS),
            3 => {
                let number = random.pick(&NUMBERS);
                let at = random.within(0..=LAST);
                self.numbers()[at] = number;
            }
            4 | 5 => self.damage_queue(random, place),
            _ => self.shorten(random),
        }
    }

    fn damage_net(&mut self, random: &mut Random, place: usize) {
        let length = self.nets.len() / PLACES;
        let at = match random.below(3) {
            0 => random.below(length.min(5)),
            _ => random.below(length),
        };
        let cell = &mut self.nets[place * length + at];
        *cell = match random.below(4) {
            0 => cell.wrapping_add(1),
            1 => cell.wrapping_sub(1),
            2 => random.pick(&[0, 1, 2, 3, 64, 65, 4_095, 4_096, 8_191, u16::MAX]),
            _ => random.word() as u16,
        };
    }

    /// In a cycle, if one waits, or anywhere in the part.
    fn damage_queue(&mut self, random: &mut Random, place: usize) {
        let (inputs, waiting) = (self.inputs(place), self.numbers()[4 * place] as usize);
        let length = self.memory.queues.get().len() / PLACES;
        let at = match waiting.min(length / SLOT) {
            0 => random.below(length.max(1)),
            slots => SLOT * random.below(slots) + random.below(inputs + 1),
        };
        if let Some(byte) = self.memory.queues.get_mut().get_mut(place * length + at) {
            *byte = random.pick(&BYTES);
        }
    }

    fn shorten(&mut self, random: &mut Random) {
        fn length(random: &mut Random, whole: usize) -> usize {
            match random.coin() {
                true => whole.saturating_sub(random.within(1..=9)),
                false => random.within(0..=whole),
            }
        }
        let memory = &mut self.memory;
        match random.below(5) {
            0 => self.nets.truncate(length(random, self.nets.len())),
            1 => {
                let length = length(random, memory.latches.get().len());
                self.lend_latches(random, length);
            }
            2 => {
                let length = length(random, memory.values.get().len());
                self.lend_values(random, length);
            }
            3 => {
                let length = length(random, memory.queues.get().len());
                self.lend_queues(random, length);
            }
            _ => {
                let length = length(random, LAST + 2);
                self.lend_numbers(random, length);
            }
        }
    }

    // Each lends at most so many cells of what there is.

    pub fn lend_latches(&mut self, random: &mut Random, length: usize) {
        let latches = &mut self.memory.latches;
        *latches = shorter(random, latches, length, Random::word);
    }

    pub fn lend_values(&mut self, random: &mut Random, length: usize) {
        let values = &mut self.memory.values;
        *values = shorter(random, values, length, Random::word);
    }

    pub fn lend_queues(&mut self, random: &mut Random, length: usize) {
        let queues = &mut self.memory.queues;
        *queues = shorter(random, queues, length, Random::byte);
    }

    pub fn lend_numbers(&mut self, random: &mut Random, length: usize) {
        let numbers = &mut self.memory.numbers;
        *numbers = shorter(random, numbers, length, |random| random.word() as u32);
    }
}

fn shorter<T: Copy>(
    random: &mut Random,
    lent: &Lent<T>,
    length: usize,
    cell: fn(&mut Random) -> T,
) -> Lent<T> {
    let cells = lent.get();
    Lent::holding(random, &cells[..length.min(cells.len())], cell)
}

/// Built and random ones with either count of outputs, small but for a rare one, and the shortest.
pub fn any_net(random: &mut Random) -> Vec<u16> {
    match random.below(8) {
        0 => NO_MACHINE.to_vec(),
        1 if random.once_in(32) => netlists::valid(random),
        1..=3 => netlists::small(random),
        _ => loop {
            let outputs = netlists::outputs(random);
            if let Some(net) = netlists::net_of(&graphs::small(random), outputs) {
                return net;
            }
        },
    }
}

fn any_nets(random: &mut Random) -> Vec<Vec<u16>> {
    (0..PLACES).map(|_| any_net(random)).collect()
}

/// Mostly one of the eight.
pub fn any_machine(random: &mut Random) -> u32 {
    match random.below(16) {
        0 => random.pick(&FAR_MACHINES),
        1 => random.word() as u32 >> random.below(32),
        _ => random.below(PLACES) as u32,
    }
}

/// Some calls on a bench that no call has made so, often a damaged one.
pub fn any(bench: &mut Bench) -> Result<(), Mismatch> {
    let mut machines = Machines::busy(&mut bench.random);
    for _ in 0..bench.random.below(3) {
        // A bench that lost a part of these is damaged enough.
        if machines.memory.numbers.get().len() > LAST && machines.nets.len() >= PLACES {
            machines.damage(&mut bench.random);
        }
    }
    for _ in 0..bench.random.within(1..=6) {
        if bench.random.coin() {
            machines.turn(bench)?;
            continue;
        }
        let machine = any_machine(&mut bench.random);
        let cycle = machines.any_cycle(&mut bench.random, machine);
        machines.add(bench, machine, cycle)?;
    }
    Ok(())
}

/// Two inputs, three latches of which one starts as 1, one gate; and one with two outputs.
const ONE_OUTPUT: [u16; 14] = [6, 2, 3, 1, 1, 5, 0, 12, 1, 10, 10, 12, 9, 4];
const TWO_OUTPUTS: [u16; 13] = [5, 2, 2, 2, 1, 10, 0, 8, 8, 11, 7, 9, 4];
const CYCLE: &[u8] = b"10";

/// Small machines with a cycle waiting in every second place, in queues of two slots and a part of
/// a third, and cells behind all parts.
fn small(random: &mut Random) -> Machines {
    let nets: Vec<Vec<u16>> = (0..PLACES)
        .map(|place| match place % 4 {
            0 => ONE_OUTPUT.to_vec(),
            1 => TWO_OUTPUTS.to_vec(),
            2 => NO_MACHINE.to_vec(),
            _ => netlists::with_inputs(random, 2, 4),
        })
        .collect();
    let layout = Layout {
        surplus: [1; 3],
        queue: 2 * SLOT + 5,
        rests: [3; 3],
        more_numbers: 2,
    };
    let mut machines = Machines::of(random, &nets, layout);
    for place in (1..PLACES).step_by(2) {
        machines.fill(random, place, 1);
    }
    machines
}

/// The calls on bench after bench, each made anew.
struct Sweep<'a, 'b> {
    bench: &'a mut Bench<'b>,
    count: usize,
}

impl Sweep<'_, '_> {
    /// A new cycle for each of these machines, and a turn, each on the same bench.
    fn calls(
        &mut self,
        machines: &Machines,
        adds: impl IntoIterator<Item = u32>,
    ) -> Result<(), Mismatch> {
        for machine in adds {
            let inputs = machines.inputs(machine as usize % PLACES);
            let cycle = CYCLE.repeat(SLOT)[..inputs].to_vec();
            machines.clone().add(self.bench, machine, cycle)?;
            self.count += 1;
        }
        machines.clone().turn(self.bench)?;
        self.count += 1;
        Ok(())
    }

    /// Each cell changed, of the netlists, of the numbers and of the queues.
    fn cells(&mut self) -> Result<(), Mismatch> {
        let mut machines = small(&mut self.bench.random);
        let length = machines.nets.len() / PLACES;
        for at in 0..machines.nets.len() {
            let place = (at / length) as u32;
            let cell = machines.nets[at];
            for number in (0..14).chain([64, 65, 4_095, 4_096, 8_191, 8_192, u16::MAX]) {
                machines.nets[at] = number;
                self.calls(&machines, [(place + 1) % 8])?;
            }
            machines.nets[at] = cell;
        }
        for at in 0..machines.numbers().len() {
            let place = (at as u32 / 4) % 8;
            let cell = machines.numbers()[at];
            for number in NUMBERS.into_iter().chain([3, 4, 5, u32::MAX - 2]) {
                machines.numbers()[at] = number;
                self.calls(&machines, [place, (place + 1) % 8])?;
            }
            machines.numbers()[at] = cell;
        }
        for at in 0..machines.memory.queues.get().len() {
            let cell = machines.memory.queues.get()[at];
            for byte in BYTES {
                machines.memory.queues.get_mut()[at] = byte;
                self.calls(&machines, [at as u32 % 8])?;
            }
            machines.memory.queues.get_mut()[at] = cell;
        }
        Ok(())
    }

    /// Each buffer of each length up to its own.
    fn lengths(&mut self) -> Result<(), Mismatch> {
        let whole = small(&mut self.bench.random).nets.len();
        for length in 0..=whole {
            let mut machines = small(&mut self.bench.random);
            machines.nets.truncate(length);
            self.calls(&machines, [length as u32 % 8])?;
        }
        let lend: [fn(&mut Machines, &mut Random, usize); 4] = [
            Machines::lend_latches,
            Machines::lend_values,
            Machines::lend_queues,
            Machines::lend_numbers,
        ];
        let machines = small(&mut self.bench.random);
        let memory = &machines.memory;
        let wholes = [
            memory.latches.get().len(),
            memory.values.get().len(),
            memory.queues.get().len(),
            memory.numbers.get().len(),
        ];
        for (lend, whole) in lend.into_iter().zip(wholes) {
            for length in 0..=whole {
                let mut machines = small(&mut self.bench.random);
                lend(&mut machines, &mut self.bench.random, length);
                self.calls(&machines, 0..8)?;
                // Each machine as the next one.
                machines.lend_numbers(&mut self.bench.random, LAST + 1);
                if machines.numbers().len() > LAST {
                    for last in 0..8 {
                        machines.numbers()[LAST] = last;
                        self.calls(&machines, [])?;
                    }
                }
            }
        }
        Ok(())
    }

    /// Every count of waiting cycles, for each machine, with room for them or one too many; wrong
    /// cycles behind them; and all of these with neither latch words nor value words.
    fn queues(&mut self) -> Result<(), Mismatch> {
        for place in 0..PLACES {
            for waiting in 0..=MOST_WAITING + 1 {
                for slots in [waiting.saturating_sub(1), waiting, waiting + 1] {
                    let random = &mut self.bench.random;
                    let nets = any_nets(random);
                    let layout = Layout::any(random, slots);
                    let mut machines = Machines::of(random, &nets, layout);
                    machines.fill(random, place, waiting);
                    for bare in [false, true] {
                        if bare {
                            machines.lend_latches(&mut self.bench.random, 0);
                            machines.lend_values(&mut self.bench.random, 0);
                        }
                        self.calls(&machines, 0..8)?;
                        for wrong in [b"".to_vec(), b"1".repeat(SLOT + 1), vec![b'x'; SLOT]] {
                            machines.clone().add(self.bench, place as u32, wrong)?;
                            self.count += 1;
                        }
                    }
                }
            }
        }
        Ok(())
    }

    /// Tallies about their limit, with so many waiting, with enough latch words and value words or
    /// with too few.
    fn tallies(&mut self) -> Result<(), Mismatch> {
        for place in 0..PLACES {
            for waiting in 0..=2 {
                for choice in 0..4usize.pow(3) {
                    for short in [false, true] {
                        let mut machines = small(&mut self.bench.random);
                        machines.fill(&mut self.bench.random, place, waiting);
                        for number in 0..3 {
                            let below = choice >> (2 * number) & 3;
                            machines.numbers()[4 * place + 1 + number] = u32::MAX - below as u32;
                        }
                        machines.numbers()[LAST] = (place as u32 + 7) % 8;
                        if short {
                            machines.lend_latches(&mut self.bench.random, 0);
                            machines.lend_values(&mut self.bench.random, 1);
                        }
                        self.calls(&machines, [place as u32])?;
                    }
                }
            }
        }
        Ok(())
    }

    /// Every choice of machines for which a cycle waits, after each last one served; and many
    /// machine numbers, also where there is no bench.
    fn rounds(&mut self) -> Result<(), Mismatch> {
        let mut machines = small(&mut self.bench.random);
        for choice in 0..256 {
            for place in 0..PLACES {
                let waiting = choice >> place & 1;
                machines.fill(&mut self.bench.random, place, waiting);
            }
            for last in 0..8 {
                machines.numbers()[LAST] = last;
                self.calls(&machines, [])?;
            }
        }
        for last in [7, 8] {
            machines.numbers()[LAST] = last;
            self.calls(&machines, (0..=300).chain(FAR_MACHINES))?;
        }
        Ok(())
    }
}

/// Answers how many calls were compared.
pub fn sweep(bench: &mut Bench) -> Result<usize, Mismatch> {
    let mut sweep = Sweep { bench, count: 0 };
    sweep.cells()?;
    sweep.lengths()?;
    sweep.queues()?;
    sweep.tallies()?;
    sweep.rounds()?;
    Ok(sweep.count)
}
