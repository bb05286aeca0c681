//! The cases: one call, or a list of calls on one netlist; and now and then a session, a session
//! page, a packed file, a text with its gates in any order, the dearest graph, the stroke
//! buffer's, written or run, or a bench of eight machines.

use crate::bench::Bench;
use crate::compare::{Call, Lengths, Memory, Mismatch, Name};
use crate::gates::check_gates;
use crate::random::Random;
use crate::round_trip::{both_forms, write_and_read_back};
use crate::texts::{BUFFER, DEAREST};
use crate::{
    aigers, buffers, graphs, loose, machines, netlists, packs, pages, rates, sequence, sessions,
    traces, turns,
};
use reference::{Netlist, Tally};

/// The session, then the page, then the packed file, then the text of loose gates, then the
/// dearest graph, then the stroke buffer's and then the bench are drawn last, so that the others'
/// draws do not depend on them.
pub fn case(bench: &mut Bench) -> Result<(), Mismatch> {
    calls(bench)?;
    if bench.random.once_in(4) {
        session(bench)?;
    }
    if bench.random.once_in(4) {
        page(bench)?;
    }
    if bench.random.coin() {
        packed(bench)?;
    }
    if bench.random.coin() {
        let file = loose::any(&mut bench.random);
        read_file(bench, file)?;
    }
    if bench.random.once_in(4) {
        DEAREST.any(bench)?;
    }
    if bench.random.once_in(4) {
        BUFFER.any(bench)?;
    }
    if bench.random.once_in(4) {
        buffers::any(bench)?;
    }
    if bench.random.once_in(4) {
        machines::any(bench)?;
    }
    if bench.random.once_in(64) {
        turns::session(bench)?;
    }
    Ok(())
}

fn calls(bench: &mut Bench) -> Result<(), Mismatch> {
    match bench.random.below(21) {
        0..=6 => build(bench),
        7..=10 => read(bench),
        11..=12 => write(bench),
        13 => start(bench),
        14..=15 => step(bench),
        16..=17 => run(bench),
        18..=19 => sequence::sequence(bench),
        _ => per_million(bench),
    }
}

fn build(bench: &mut Bench) -> Result<(), Mismatch> {
    let graph = graphs::any(&mut bench.random);
    let outputs = netlists::outputs(&mut bench.random);
    let net = netlists::net_of(&graph, outputs);
    let needed = net.map_or(bench.random.below(3_000), |net| net.len());
    let lengths = Lengths {
        net: bench.length(needed),
        ..Lengths::default()
    };
    let memory = Memory::random(&mut bench.random, lengths);
    let call = Call::on_bytes(Name::building(outputs), graph);
    let outcome = bench.compare(&call, memory)?;
    if outcome.is_accepted() {
        check_gates(bench, &call.bytes, outputs, outcome.memory.answer)?;
    }
    Ok(())
}

fn read(bench: &mut Bench) -> Result<(), Mismatch> {
    let text = aigers::any(&mut bench.random);
    read_file(bench, text)
}

fn read_file(bench: &mut Bench, text: Vec<u8>) -> Result<(), Mismatch> {
    let mut scratch = vec![0; netlists::MOST_NUMBERS];
    let needed = reference::read(&text, &mut scratch).unwrap_or(bench.random.below(3_000));
    let lengths = Lengths {
        net: bench.length(needed),
        ..Lengths::default()
    };
    let memory = Memory::random(&mut bench.random, lengths);
    bench.compare(&Call::on_bytes(Name::Read, text), memory)?;
    Ok(())
}

fn write(bench: &mut Bench) -> Result<(), Mismatch> {
    let net = netlists::any(&mut bench.random);
    write_and_read_back(bench, Name::Write, &net)?;
    Ok(())
}

/// A netlist in both forms, or a file that is packed.
fn packed(bench: &mut Bench) -> Result<(), Mismatch> {
    match bench.random.below(4) {
        0 => {
            let net = netlists::any(&mut bench.random);
            both_forms(bench, net)
        }
        _ => {
            let file = packs::any(&mut bench.random);
            read_file(bench, file)
        }
    }
}

/// The lengths that the calls on a netlist need; some small ones if it is none.
fn needs(bench: &mut Bench, net: &[u16], cycles: usize) -> Lengths {
    let (latches, values) = match Netlist::from_numbers(net) {
        Some(netlist) => (netlist.latches.len(), netlist.header.variables as usize + 1),
        None => (bench.random.below(10), bench.random.below(30)),
    };
    Lengths {
        latches,
        values,
        verdicts: cycles,
        ..Lengths::default()
    }
}

/// Memory for a call on a netlist, lengths and tally random.
fn memory(bench: &mut Bench, net: &[u16], cycles: usize) -> Memory {
    let needs = needs(bench, net, cycles);
    let lengths = Lengths {
        latches: bench.length(needs.latches),
        values: bench.length(needs.values),
        verdicts: bench.length(needs.verdicts),
        ..needs
    };
    let mut memory = Memory::random(&mut bench.random, lengths);
    memory.tally = tally(&mut bench.random, cycles);
    memory
}

/// Any counts, also such as the caller alone could have put there, and such as
/// leave just room for the new cycles or just none.
fn tally(random: &mut Random, new_cycles: usize) -> Tally {
    let mut count = || match random.below(8) {
        0 => u32::MAX - random.below(new_cycles + 3) as u32,
        1 => (u32::MAX - new_cycles as u32).saturating_add(random.below(2) as u32),
        2 => random.word() as u32,
        _ => random.below(1_000) as u32,
    };
    Tally {
        cycles: count(),
        rejected: count(),
        checked: count(),
    }
}

/// By the old name or by the new one.
fn either(random: &mut Random, names: [Name; 2]) -> Name {
    random.pick(&names)
}

/// The count of inputs that a netlist's numbers speak of; some other if none.
fn inputs_of(random: &mut Random, net: &[u16]) -> usize {
    match net.get(1) {
        Some(inputs) if (1..=64).contains(inputs) => usize::from(*inputs),
        _ => random.within(1..=64),
    }
}

fn start(bench: &mut Bench) -> Result<(), Mismatch> {
    let net = netlists::any(&mut bench.random);
    let memory = memory(bench, &net, 0);
    let name = either(&mut bench.random, [Name::Start, Name::StartChecked]);
    bench.compare(&Call::on_net(name, net, Vec::new()), memory)?;
    Ok(())
}

fn step(bench: &mut Bench) -> Result<(), Mismatch> {
    let net = netlists::any(&mut bench.random);
    let inputs = inputs_of(&mut bench.random, &net);
    let cycle = traces::any_cycle(&mut bench.random, inputs);
    let memory = memory(bench, &net, 1);
    let name = either(&mut bench.random, [Name::Step, Name::StepChecked]);
    bench.compare(&Call::on_net(name, net, cycle), memory)?;
    Ok(())
}

fn run(bench: &mut Bench) -> Result<(), Mismatch> {
    let random = &mut bench.random;
    let (net, trace) = match random.below(80) {
        0 => long_run(random),
        _ => short_run(random),
    };
    let lines = trace.iter().filter(|byte| **byte == b'\n').count();
    let memory = memory(bench, &net, lines);
    let name = either(&mut bench.random, [Name::Run, Name::RunChecked]);
    bench.compare(&Call::on_net(name, net, trace), memory)?;
    Ok(())
}

fn short_run(random: &mut Random) -> (Vec<u16>, Vec<u8>) {
    let net = netlists::any(random);
    let inputs = inputs_of(random, &net);
    let cycles = match random.below(8) {
        0 => 0,
        1 => random.within(0..=300),
        _ => random.within(1..=12),
    };
    let trace = traces::any_trace(random, inputs, cycles);
    (net, trace)
}

/// A trace about the limit, over a netlist small enough for it, now and then a damaged one.
fn long_run(random: &mut Random) -> (Vec<u16>, Vec<u8>) {
    let inputs = random.pick(&[1, 2, 3, 7, 15, 31, 63, 64]);
    let others = random.within(0..=20);
    let mut net = netlists::with_inputs(random, inputs, others);
    if random.once_in(4) {
        netlists::damage(random, &mut net);
    }
    let trace = traces::near_size_limit(random, inputs);
    (net, trace)
}

fn per_million(bench: &mut Bench) -> Result<(), Mismatch> {
    let tally = rates::any(&mut bench.random);
    rates::compare_rate(bench, tally)
}

fn session(bench: &mut Bench) -> Result<(), Mismatch> {
    let random = &mut bench.random;
    let width = sessions::any_width(random);
    let flywheel = sessions::any(random, width);
    let handle = sessions::any(random, width);
    sessions::compare_session(bench, width, &flywheel, &handle)
}

fn page(bench: &mut Bench) -> Result<(), Mismatch> {
    let name = pages::any_name(&mut bench.random);
    let verdicts = pages::any_verdicts(&mut bench.random);
    pages::compare_page(bench, &name, &verdicts)
}
