//! Eight machines on one bench: No. 13 of document 02.
//!
//! Both calls are lent all eight places. `nets`, `latches` and `queues` are eight equal parts each,
//! of an eighth of the length, rounded down; a rest behind them is nobody's. A part of `queues` is
//! slots of 64 bytes: the waiting cycles, oldest first, each in the first I bytes of its slot.
//! `numbers` has for each place how many cycles wait and the three numbers of its tally, and then
//! the last one served.

use crate::netlist::Netlist;
use crate::refusal::{check_buffer, Cause, Refusal};
use crate::simulator::{check_tally, step, Tally, Words};
use crate::trace::is_cycle;
use std::collections::VecDeque;

/// "A bench serves up to eight machines"; "a place without a machine is lent all of these too".
const PLACES: usize = 8;
/// "A queue of at most 16 waiting cycles."
const MOST_WAITING: usize = 16;
/// The most inputs that a netlist has.
const SLOT_BYTES: usize = 64;
/// The numbers of each place, and the last one served.
const NUMBERS: usize = 4 * PLACES + 1;

/// "A turn with nothing waiting changes nothing and says idle"; any other "answers its number and
/// step's answer".
#[derive(Clone, Copy, Debug, PartialEq, Eq)]
pub enum Turn {
    Idle,
    Served { machine: usize, words: Words },
}

/// A waiting cycle with the bytes behind it, which move with it.
type Slot = [u8; SLOT_BYTES];

struct Machine {
    netlist: Netlist,
    waiting: VecDeque<Slot>,
    tally: Tally,
}

struct Bench {
    machines: Vec<Machine>,
    last: usize,
}

/// Checks 27, 16, 28, 15, 12, 17; the new cycle then waits behind the others.
pub fn bench_add(
    nets: &[u16],
    latches: &[u64],
    queues: &mut [u8],
    numbers: &mut [u32],
    machine: u32,
    cycle: &[u8],
) -> Result<(), Refusal> {
    // "Machine number above 7 is 27."
    let place = machine as usize;
    if place >= PLACES {
        return Err(Cause::NoMachine.no_line());
    }
    let mut bench = Bench::lent(nets, queues, numbers)?;
    let own = &mut bench.machines[place];
    // "A queue of 16 is 28, line 0."
    if own.waiting.len() == MOST_WAITING {
        return Err(Cause::QueueFull.no_line());
    }
    if !is_cycle(own.inputs(), cycle) {
        return Err(Cause::CycleWrong.at(1));
    }
    check_buffer(part(latches, place), own.netlist.latches.len())?;
    let free = slots_of(part(queues, place)).nth(own.waiting.len());
    let mut slot = free.ok_or(Cause::BufferTooShort.no_line())?;
    // "If it and those waiting, added to any number of the machine's tally, pass 4,294,967,295,
    // it is 17."
    check_tally(&own.tally, own.waiting.len() + 1)?;
    slot[..cycle.len()].copy_from_slice(cycle);
    own.waiting.push_back(slot);
    bench.put_back(queues, numbers);
    Ok(())
}

/// "A turn checks 16, then 12 and 17 for the machine it would step."
pub fn bench_turn(
    nets: &[u16],
    latches: &mut [u64],
    values: &mut [u64],
    queues: &mut [u8],
    numbers: &mut [u32],
) -> Result<Turn, Refusal> {
    let mut bench = Bench::lent(nets, queues, numbers)?;
    let Some((place, slot)) = bench.take_next() else {
        return Ok(Turn::Idle);
    };
    let own = &mut bench.machines[place];
    let (net, cycle) = (part(nets, place), &slot[..own.inputs()]);
    let words = step(net, cycle, part_mut(latches, place), values, &mut own.tally)?;
    bench.last = place;
    bench.put_back(queues, numbers);
    Ok(Turn::Served {
        machine: place,
        words,
    })
}

impl Bench {
    /// Checks 16.
    fn lent(nets: &[u16], queues: &[u8], numbers: &[u32]) -> Result<Bench, Refusal> {
        Bench::of(nets, queues, numbers).ok_or(Cause::NoNetlist.no_line())
    }

    /// `None` if what is lent is no bench: 16 is "in any of the eight places; also a queue above
    /// 16, a waiting cycle that 15 would refuse, or a last one served above 7". Numbers that are
    /// not there are none, as with a netlist shorter than its own header says.
    fn of(nets: &[u16], queues: &[u8], numbers: &[u32]) -> Option<Bench> {
        let numbers = numbers.get(..NUMBERS)?;
        let mut machines = Vec::new();
        for (place, own) in numbers.chunks_exact(4).enumerate() {
            let [waiting, cycles, rejected, checked] = *own else {
                unreachable!("chunks of four");
            };
            let tally = Tally {
                cycles,
                rejected,
                checked,
            };
            let (net, queue) = (part(nets, place), part(queues, place));
            machines.push(Machine::of(net, queue, waiting, tally)?);
        }
        let last = numbers[NUMBERS - 1] as usize;
        (last < PLACES).then_some(Bench { machines, last })
    }

    /// "The next machine, in round order after the last one served (0 comes first), that has a
    /// cycle waiting", and its oldest cycle: "each queue is served in the order of arrival", and
    /// "a served cycle frees its place".
    fn take_next(&mut self) -> Option<(usize, Slot)> {
        let round = (0..PLACES).cycle().skip(self.last + 1).take(PLACES);
        for place in round {
            if let Some(slot) = self.machines[place].waiting.pop_front() {
                return Some((place, slot));
            }
        }
        None
    }

    /// What waits stands from the front of its queue's part; the bytes behind it stay.
    fn put_back(&self, queues: &mut [u8], numbers: &mut [u32]) {
        for (place, machine) in self.machines.iter().enumerate() {
            let places = part_mut(queues, place).chunks_exact_mut(SLOT_BYTES);
            for (bytes, slot) in places.zip(&machine.waiting) {
                bytes.copy_from_slice(slot);
            }
            let tally = machine.tally;
            numbers[4 * place..][..4].copy_from_slice(&[
                machine.waiting.len() as u32,
                tally.cycles,
                tally.rejected,
                tally.checked,
            ]);
        }
        numbers[NUMBERS - 1] = self.last as u32;
    }
}

impl Machine {
    /// `None` if the place has no netlist, too many waiting cycles, or one that is none.
    fn of(net: &[u16], queue: &[u8], waiting: u32, tally: Tally) -> Option<Machine> {
        let count = waiting as usize;
        let machine = Machine {
            netlist: Netlist::from_numbers(net)?,
            waiting: slots_of(queue).take(count).collect(),
            tally,
        };
        let inputs = machine.inputs();
        let mut waiting = machine.waiting.iter();
        let lawful = count <= MOST_WAITING
            && waiting.len() == count
            && waiting.all(|slot| is_cycle(inputs, &slot[..inputs]));
        lawful.then_some(machine)
    }

    fn inputs(&self) -> usize {
        self.netlist.header.inputs as usize
    }
}

/// The whole slots of a part.
fn slots_of(part: &[u8]) -> impl Iterator<Item = Slot> + '_ {
    let slots = part.chunks_exact(SLOT_BYTES);
    slots.map(|slot| slot.try_into().expect("a chunk of 64 bytes"))
}

/// What a place has of a buffer that is eight equal parts.
fn part<T>(buffer: &[T], place: usize) -> &[T] {
    let length = buffer.len() / PLACES;
    &buffer[place * length..][..length]
}

fn part_mut<T>(buffer: &mut [T], place: usize) -> &mut [T] {
    let length = buffer.len() / PLACES;
    &mut buffer[place * length..][..length]
}
