//! Stroke buffers that are run: the graph that is written for a number of strokes, its netlist and
//! a trace. The verdict bytes are compared with the paths of the graph, and with the count of
//! strokes.

use crate::bench::Bench;
use crate::compare::{Call, Lengths, Memory, Mismatch, Name};
use crate::gates::check_gates;
use crate::netlists;
use crate::random::Random;
use crate::texts::BUFFER;
use reference::{buffer_count_after, buffer_rejects, rejected_cycles, Graph, Outputs};

pub const MOST_STROKES: u64 = 40;
/// Traces for each number of strokes in the sweep.
const TRACES: usize = 16;

/// Answers how many calls were compared.
pub fn sweep(bench: &mut Bench) -> Result<usize, Mismatch> {
    let mut count = 0;
    for strokes in 1..=MOST_STROKES {
        for _ in 0..TRACES {
            count += compare_run(bench, strokes)?;
        }
    }
    Ok(count)
}

pub fn any(bench: &mut Bench) -> Result<(), Mismatch> {
    let strokes = bench.random.within(1..=MOST_STROKES as usize);
    compare_run(bench, strokes as u64)?;
    Ok(())
}

/// Writes, builds, starts and runs, in buffers of just the length that each needs, by old names or
/// by new ones. Answers how many calls were compared.
fn compare_run(bench: &mut Bench, strokes: u64) -> Result<usize, Mismatch> {
    let written = BUFFER.compare(bench, strokes, BUFFER.needed(strokes))?;
    let text = written.memory.text.get().to_vec();
    let outputs = netlists::outputs(&mut bench.random);
    let net = built(bench, &text, outputs)?;
    let cycles = any_trace(&mut bench.random, strokes);
    let (start, run) = match outputs {
        Outputs::Accept => (Name::Start, Name::Run),
        Outputs::AcceptAndChecked => (Name::StartChecked, Name::RunChecked),
    };
    let lengths = Lengths {
        latches: usize::from(net[2]),
        values: usize::from(net[0]) + 1,
        verdicts: cycles.len(),
        ..Lengths::default()
    };
    let memory = Memory::random(&mut bench.random, lengths);
    let started = bench.compare(&Call::on_net(start, net.clone(), Vec::new()), memory)?;
    let trace: Vec<u8> = cycles
        .iter()
        .flat_map(|cycle| [&cycle[..], b"\n"].concat())
        .collect();
    let outcome = bench.compare(&Call::on_net(run, net, trace), started.memory)?;
    let cycles: Vec<&[u8]> = cycles.iter().map(|cycle| &cycle[..]).collect();
    let verdicts = outcome.memory.verdicts.get();
    check_verdicts(strokes, &text, &cycles, verdicts)?;
    bench.coverage.counts.record(strokes, &cycles, verdicts);
    Ok(4)
}

fn built(bench: &mut Bench, text: &[u8], outputs: Outputs) -> Result<Vec<u16>, Mismatch> {
    let net = netlists::net_of(text, outputs).expect("an accepted graph");
    let lengths = Lengths {
        net: net.len(),
        ..Lengths::default()
    };
    let memory = Memory::random(&mut bench.random, lengths);
    let call = Call::on_bytes(Name::building(outputs), text.to_vec());
    let outcome = bench.compare(&call, memory)?;
    check_gates(bench, text, outputs, outcome.memory.answer)?;
    Ok(net)
}

fn check_verdicts(
    strokes: u64,
    text: &[u8],
    cycles: &[&[u8]],
    verdicts: &[u8],
) -> Result<(), Mismatch> {
    let bytes = |rejected: Vec<bool>| -> Vec<u8> { rejected.into_iter().map(u8::from).collect() };
    let graph = Graph::parse(text).expect("an accepted graph");
    let by_paths = bytes(rejected_cycles(&graph, cycles));
    let by_count = (1..=cycles.len()).map(|asked| buffer_rejects(strokes, &cycles[..asked]));
    let by_count = bytes(by_count.collect());
    if verdicts == by_paths && verdicts == by_count {
        return Ok(());
    }
    let shown: Vec<String> = cycles
        .iter()
        .map(|cycle| cycle.escape_ascii().to_string())
        .collect();
    Err(Mismatch(format!(
        "calls: buffer graph, build, start, run\n{strokes} strokes\ncycles: {}\n\
         verdict bytes {verdicts:?}\nby paths      {by_paths:?}\nby the count  {by_count:?}\n",
        shown.join(" ")
    )))
}

/// How a console with a stroke buffer behaves.
struct Habits {
    starts_with_init: bool,
    /// How rare another init is, reset low at an init, and a wrong flag.
    init_rarity: usize,
    low_rarity: usize,
    slip_rarity: usize,
    /// A count from which the flags go on as the prose has it.
    prose_at: Option<u64>,
}

const NEVER: usize = usize::MAX;

impl Habits {
    fn any(random: &mut Random, strokes: u64) -> Habits {
        let faultless = Habits {
            starts_with_init: true,
            init_rarity: NEVER,
            low_rarity: NEVER,
            slip_rarity: NEVER,
            prose_at: None,
        };
        match random.below(8) {
            0 => Habits {
                starts_with_init: false,
                slip_rarity: 3,
                ..faultless
            },
            1 => Habits {
                prose_at: Some(0),
                ..faultless
            },
            2 => Habits {
                prose_at: Some(strokes),
                ..faultless
            },
            3 => faultless,
            _ => Habits {
                starts_with_init: random.coin(),
                init_rarity: random.pick(&[4, 20, 100]),
                low_rarity: 3,
                slip_rarity: random.pick(&[3, 20, 100]),
                prose_at: None,
            },
        }
    }
}

/// Cycles of init, reset, enq, deq, empty and full, in which the buffer fills up and is emptied.
fn any_trace(random: &mut Random, strokes: u64) -> Vec<[u8; 6]> {
    let places = strokes as usize;
    let length = match random.once_in(8) {
        true => random.within(0..=2 * places),
        false => random.within(3 * places + 10..=6 * places + 40),
    };
    let habits = Habits::any(random, strokes);
    // In so many of eight cycles is enq high, and in so many deq.
    let mut loads = [7, 2];
    let mut count = 0;
    let mut cycles = Vec::with_capacity(length);
    for place in 0..length {
        if random.once_in(2 * places + 6) {
            loads = random.pick(&[[7, 2], [2, 7], [4, 4], [7, 7]]);
        }
        let first_init = habits.starts_with_init && place == 0;
        let init = first_init || random.once_in(habits.init_rarity);
        let reset = match init {
            true => !random.once_in(habits.low_rarity),
            false => random.coin(),
        };
        let [enq, deq] = loads.map(|load| random.below(8) < load);
        let mut flags = [count == 0, count == strokes];
        if random.once_in(habits.slip_rarity) {
            let wrong = random.pick(&[[true, false], [false, true], [true, true]]);
            flags = [flags[0] ^ wrong[0], flags[1] ^ wrong[1]];
        }
        let bits = [init, reset, enq, deq, flags[0], flags[1]];
        let cycle = bits.map(|bit| b'0' + u8::from(bit));
        count = match init {
            true => 0,
            false if habits.prose_at == Some(count) => prose_count_after(strokes, count, &cycle),
            false => listing_count_after(strokes, count, &cycle),
        };
        cycles.push(cycle);
    }
    cycles
}

pub fn listing_count_after(strokes: u64, count: u64, cycle: &[u8]) -> u64 {
    let next = buffer_count_after(strokes, count, cycle);
    next.expect("an edge of the listing can be taken")
}

/// "The number of entries increments by 1 after an enqueue only operation, if the number is less
/// than the depth. It decrements by 1 after an dequeue only operation, if it is not 0. Otherwise,
/// it remains unchanged."
fn prose_count_after(strokes: u64, count: u64, cycle: &[u8]) -> u64 {
    match &cycle[2..4] {
        b"10" if count < strokes => count + 1,
        b"01" if count > 0 => count - 1,
        _ => count,
    }
}
