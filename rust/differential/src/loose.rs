//! AIGER texts whose gates stand in any order, those of No. 10 of document 02: shuffled ones of
//! netlists, random ones with and without gates that wait on each other, and damaged ones.

use crate::aigers::{change_number, Form};
use crate::damage::damage;
use crate::netlists;
use crate::random::Random;

/// Bytes that mean something in a gate's line.
const MEANINGFUL: &[u8] = b"0123456789 \n";
const MOST_VARIABLES: usize = 4_095;

/// A file by its parts.
pub struct Loose {
    /// Header, inputs, latches and outputs, each with its LF.
    pub head: String,
    /// Of each gate's line the literal, then the operands, in the order of the lines.
    pub gates: Vec<[usize; 3]>,
    /// I + L + 1, the first gate's variable, and M.
    pub first: usize,
    pub variables: usize,
}

impl Loose {
    /// The parts of numbers in a netlist's layout, but that a gate's operands may be any: next
    /// and reset of each latch, the outputs, and the operands of each gate.
    pub fn of(
        inputs: usize,
        latches: &[[usize; 2]],
        outputs: &[usize],
        operands: &[[usize; 2]],
    ) -> Loose {
        let first = 1 + inputs + latches.len();
        let variables = first - 1 + operands.len();
        let (ls, os, gates) = (latches.len(), outputs.len(), operands.len());
        let mut head = format!("aag {variables} {inputs} {ls} {os} {gates}\n");
        for input in 1..=inputs {
            head += &format!("{}\n", 2 * input);
        }
        for (latch, [next, reset]) in latches.iter().enumerate() {
            let own = 2 * (1 + inputs + latch);
            head += &match reset {
                0 => format!("{own} {next}\n"),
                reset => format!("{own} {next} {reset}\n"),
            };
        }
        for output in outputs {
            head += &format!("{output}\n");
        }
        let gates = operands.iter().enumerate();
        Loose {
            head,
            gates: gates
                .map(|(gate, [one, other])| [2 * (first + gate), *one, *other])
                .collect(),
            first,
            variables,
        }
    }

    /// The parts of a netlist's file.
    fn of_netlist(net: &[u16]) -> Loose {
        let net: Vec<usize> = net.iter().map(|number| usize::from(*number)).collect();
        let (latches, rest) = net[5..].split_at(2 * net[2]);
        let (outputs, operands) = rest.split_at(net[3]);
        Loose::of(net[1], &pairs(latches), outputs, &pairs(operands))
    }

    pub fn bytes(&self) -> Vec<u8> {
        let mut text = self.head.clone();
        for [own, one, other] in &self.gates {
            text += &format!("{own} {one} {other}\n");
        }
        text.into_bytes()
    }
}

fn pairs(numbers: &[usize]) -> Vec<[usize; 2]> {
    let pairs = numbers.chunks_exact(2);
    pairs.map(|pair| [pair[0], pair[1]]).collect()
}

/// So many gates over one input, each of which waits on the one after it; the last one has the
/// operand that is given.
pub fn reversed_chain(gates: usize, outputs: &[usize], last: usize) -> Loose {
    let operand = |gate| match gate + 1 == gates {
        true => last,
        false => 2 * (gate + 3) + 1,
    };
    let operands: Vec<[usize; 2]> = (0..gates).map(|gate| [operand(gate), 2]).collect();
    Loose::of(1, &[], outputs, &operands)
}

/// A text of any kind whose gates need not be in order.
pub fn any(random: &mut Random) -> Vec<u8> {
    let mut loose = undamaged(random);
    reorder(random, &mut loose);
    if random.below(3) == 0 {
        for _ in 0..random.within(1..=2) {
            change_gates(random, &mut loose);
        }
    }
    let mut bytes = loose.bytes();
    if random.once_in(10) {
        match random.coin() {
            true => damage(random, &mut bytes, MEANINGFUL),
            false => change_number(random, &mut bytes, Form::Text),
        }
    }
    bytes
}

fn undamaged(random: &mut Random) -> Loose {
    match random.below(8) {
        0 | 1 => Loose::of_netlist(&netlists::valid(random)),
        2 if random.once_in(8) => {
            let gates = random.pick(&[2, 3, 100, 1_000, MOST_VARIABLES - 1]);
            let last = match random.coin() {
                true => random.below(4),
                false => random.within(4..=2 * gates + 3),
            };
            reversed_chain(gates, &[4], last)
        }
        _ => {
            let waiting = random.below(3) == 0;
            graph(random, waiting)
        }
    }
}

/// Gates with operands that come before them in a random order of the gates; of those that may
/// wait on each other some have operands that do not.
fn graph(random: &mut Random, waiting: bool) -> Loose {
    let most = match random.below(40) {
        0 => MOST_VARIABLES,
        1..=4 => 300,
        _ => 16,
    };
    let variables = random.within(1..=most);
    let inputs = random.within(1..=variables.min(64).min(4));
    let latches = random.below((variables - inputs).min(6) + 1);
    let first = 1 + inputs + latches;
    let gates = variables + 1 - first;
    let mut order: Vec<usize> = (0..gates).collect();
    match random.below(4) {
        0 => order.reverse(),
        _ => shuffle(random, &mut order),
    }
    let rarity = random.pick(&[1, 2, gates.max(1)]);
    let mut operands = vec![[0, 0]; gates];
    for place in 0..gates {
        let operand = |random: &mut Random| match random.below(6) {
            _ if waiting && random.once_in(rarity) => match random.below(4) {
                0 => 2 * (first + order[place]) + random.below(2),
                _ => random.within(0..=2 * variables + 1),
            },
            1..=5 if place > 0 => {
                let back = match random.coin() {
                    true => random.below(place.min(2)),
                    false => random.below(place),
                };
                2 * (first + order[place - 1 - back]) + random.below(2)
            }
            _ => random.below(2 * first),
        };
        operands[order[place]] = [operand(random), operand(random)];
        if random.once_in(12) {
            let [one, _] = operands[order[place]];
            operands[order[place]][1] = one ^ random.below(2);
        }
    }
    let literal = |random: &mut Random| random.within(0..=2 * variables + 1);
    let latches: Vec<[usize; 2]> = (0..latches)
        .map(|latch| {
            let own = 2 * (1 + inputs + latch);
            [literal(random), random.pick(&[0, 1, own])]
        })
        .collect();
    let outputs: Vec<usize> = (0..random.within(1..=2)).map(|_| literal(random)).collect();
    Loose::of(inputs, &latches, &outputs, &operands)
}

fn shuffle<T>(random: &mut Random, items: &mut [T]) {
    for place in (1..items.len()).rev() {
        items.swap(place, random.below(place + 1));
    }
}

/// Puts the lines in another order or leaves them, and turns some operands.
fn reorder(random: &mut Random, loose: &mut Loose) {
    let gates = &mut loose.gates;
    match random.below(8) {
        0 => (),
        1 => gates.reverse(),
        2 if !gates.is_empty() => {
            let (one, other) = (random.below(gates.len()), random.below(gates.len()));
            gates.swap(one, other);
        }
        3 if !gates.is_empty() => {
            let gate = gates.remove(random.below(gates.len()));
            gates.insert(random.within(0..=gates.len()), gate);
        }
        _ => shuffle(random, gates),
    }
    let rarity = random.pick(&[1, 2, 2, usize::MAX]);
    for [_, one, other] in gates {
        if random.once_in(rarity) {
            (*one, *other) = (*other, *one);
        }
    }
}

/// Defines a variable a second time, or one that is no gate's; changes an operand; leaves a line
/// out or adds one.
fn change_gates(random: &mut Random, loose: &mut Loose) {
    let most = 2 * loose.variables;
    let (first, gates) = (2 * loose.first, &mut loose.gates);
    if gates.is_empty() {
        return gates.push([first, 2, 2]);
    }
    let (at, other) = (random.below(gates.len()), random.below(gates.len()));
    match random.below(12) {
        0 | 1 => gates[at][0] = gates[other][0],
        2 => gates[at] = gates[other],
        3 => gates[at][0] += 1,
        4 => gates[at][0] = random.below(first),
        5 => gates[at][0] = most + random.pick(&[1, 2, 3, 4, 100]),
        6 => gates[at][0] += random.pick(&[8_192, 65_536, 91_000]),
        7 => gates[at][random.within(1..=2)] = most + random.pick(&[1, 2, 3, 100]),
        8 => gates[at][random.within(1..=2)] += random.pick(&[8_192, 65_536, 91_000]),
        9 => gates[at][random.within(1..=2)] = gates[at][0] ^ random.below(2),
        10 => drop(gates.remove(at)),
        _ => gates.insert(other, gates[at]),
    }
}
