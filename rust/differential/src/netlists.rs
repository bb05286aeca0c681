//! Netlists as numbers: built ones, random ones, and damaged ones.

use crate::graphs;
use crate::random::Random;
use reference::Outputs;

/// As many numbers as the longest netlist has.
pub const MOST_NUMBERS: usize = 8_195;

/// A netlist, or now and then numbers that are none, and perhaps a surplus.
pub fn any(random: &mut Random) -> Vec<u16> {
    let mut net = match random.once_in(60) {
        true => past_limit(random),
        false => valid(random),
    };
    for _ in 0..random.below(4) {
        net.push(random.word() as u16);
    }
    if random.once_in(5) {
        damage(random, &mut net);
    }
    net
}

pub fn valid(random: &mut Random) -> Vec<u16> {
    match random.below(8) {
        0..=2 => built(random),
        3..=5 => small(random),
        6 => of_size(random, 300),
        _ => of_size(random, 4_095),
    }
}

/// One input too many, or one variable, or no output, or three: a netlist but for that limit.
pub fn past_limit(random: &mut Random) -> Vec<u16> {
    match random.below(4) {
        0 => {
            let others = random.below(24);
            with_inputs(random, 65, others)
        }
        1 => {
            let inputs = random.within(1..=64);
            with_inputs(random, inputs, 4_096 - inputs)
        }
        _ => {
            let outputs = random.pick(&[0, 3]);
            let (inputs, others) = (random.within(1..=64), random.below(24));
            with_outputs(random, outputs, inputs, others)
        }
    }
}

/// The netlist of an accepted graph.
fn built(random: &mut Random) -> Vec<u16> {
    loop {
        let outputs = outputs(random);
        if let Some(net) = net_of(&graphs::undamaged(random), outputs) {
            return net;
        }
    }
}

/// Accept alone, or with checked.
pub fn outputs(random: &mut Random) -> Outputs {
    random.pick(&[Outputs::Accept, Outputs::AcceptAndChecked])
}

/// The numbers of a graph's netlist; `None` if the graph is refused.
pub fn net_of(graph: &[u8], outputs: Outputs) -> Option<Vec<u16>> {
    let mut net = vec![0; MOST_NUMBERS];
    reference::build(graph, outputs, &mut net).ok()?;
    net.truncate(numbers_of(&net));
    Some(net)
}

/// How many numbers a netlist's header speaks of.
fn numbers_of(net: &[u16]) -> usize {
    let [_, _, latches, outputs, gates] = [0, 1, 2, 3, 4].map(|at| usize::from(net[at]));
    5 + 2 * latches + outputs + 2 * gates
}

pub fn small(random: &mut Random) -> Vec<u16> {
    of_size(random, 24)
}

/// A random netlist of at most so many variables, often of exactly that many.
pub fn of_size(random: &mut Random, most: usize) -> Vec<u16> {
    let variables = match random.coin() {
        true => most,
        false => random.within(1..=most),
    };
    let inputs = random.within(1..=variables.min(64));
    with_inputs(random, inputs, variables - inputs)
}

/// A random netlist with so many inputs and so many latches and gates together.
pub fn with_inputs(random: &mut Random, inputs: usize, others: usize) -> Vec<u16> {
    let outputs = random.within(1..=2);
    with_outputs(random, outputs, inputs, others)
}

fn with_outputs(random: &mut Random, outputs: usize, inputs: usize, others: usize) -> Vec<u16> {
    let latches = match random.below(3) {
        0 => random.within(0..=others.min(8)),
        _ => random.within(0..=others),
    };
    let gates = others - latches;
    let variables = inputs + others;
    let mut net = vec![variables, inputs, latches, outputs, gates];
    let mut uninitialised = random.within(0..=6);
    for latch in 0..latches {
        let reset = match random.below(4) {
            0 => 1,
            1 if uninitialised > 0 => {
                uninitialised -= 1;
                2 * (1 + inputs + latch)
            }
            _ => 0,
        };
        net.extend([random.within(0..=2 * variables + 1), reset]);
    }
    for _ in 0..outputs {
        net.push(output(random, variables));
    }
    for gate in 0..gates {
        let own = 2 * (1 + inputs + latches + gate);
        let (one, other) = (operand(random, own), operand(random, own));
        net.extend([one.max(other), one.min(other)]);
    }
    net.into_iter().map(|number| number as u16).collect()
}

/// Mostly one of the last gates.
fn output(random: &mut Random, variables: usize) -> usize {
    let most = 2 * variables + 1;
    match random.below(4) {
        0 => random.within(0..=most),
        _ => most - random.below(most.min(6) + 1),
    }
}

/// Under the gate's own literal, often close to it.
fn operand(random: &mut Random, own: usize) -> usize {
    match random.coin() {
        true => random.below(own),
        false => own - 1 - random.below(own.min(16)),
    }
}

pub fn damage(random: &mut Random, net: &mut Vec<u16>) {
    let place = match random.below(4) {
        0 => random.below(5),
        _ => random.below(net.len()),
    };
    match random.below(7) {
        0 => net.truncate(place),
        1 => net[place] = net[place].wrapping_add(1),
        2 => net[place] = net[place].wrapping_sub(1),
        3 => net[place] = random.word() as u16,
        4 => seven_uninitialised(net),
        5 => output_past_limit(random, net),
        _ => net[place] = random.pick(&[0, 1, 64, 65, 4_095, 4_096, 8_191, 8_192, u16::MAX]),
    }
}

/// Makes the first seven latches uninitialised, if there are so many.
fn seven_uninitialised(net: &mut [u16]) {
    if net[2] >= 7 {
        for latch in 0..7 {
            net[5 + 2 * latch + 1] = 2 * (1 + net[1] + latch as u16);
        }
    }
}

/// Makes an output a literal that the netlist has not, by one or by more.
fn output_past_limit(random: &mut Random, net: &mut [u16]) {
    let (latches, outputs) = (usize::from(net[2]), usize::from(net[3]));
    let place = 5 + 2 * latches + random.below(outputs.max(1));
    if place < net.len() {
        let over = random.pick(&[2, 2, 3, 100]);
        net[place] = net[0].wrapping_mul(2).wrapping_add(over);
    }
}
