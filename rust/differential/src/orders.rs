//! Of what No. 10 of document 02 adds to `read`: which kinds were met, and how often.

use crate::aigers::{header_of, Form};
use crate::compare::{Call, Name, Outcome};
use std::collections::BTreeMap;
use std::fmt;

/// Of texts that are read. A gate is renumbered where its place is another than its literal's;
/// `as it was` says that no gate is.
const TAKEN: [&str; 15] = [
    "lines in order, as it was",
    "lines out of order, as it was",
    "lines in order, renumbered",
    "lines out of order, renumbered",
    "the smaller operand first",
    "operands turned by the renumbering",
    "operands that are one literal, renumbered",
    "operands that are one variable, renumbered",
    "next renumbered",
    "an output renumbered",
    "a second output renumbered",
    "an inverted output renumbered",
    "each gate renumbered",
    "4,000 gates renumbered",
    "8,195 numbers, renumbered",
];
/// Of texts that are refused; `despite` names what would refuse them too.
const REFUSED: [&str; 24] = [
    "12, lines out of order",
    "12, renumbered",
    "13 at a gate's line",
    "13 at a missing gate",
    "13 after the last gate",
    "13 despite waiting gates",
    "14 at an odd literal",
    "14 at the constant's literal",
    "14 at an input's literal",
    "14 at a latch's literal",
    "14 at a literal over 2M",
    "14 at a literal over 65,535",
    "14 at a second definition",
    "14 at a second definition, operands alike",
    "14 at a first operand",
    "14 at a second operand",
    "14 despite waiting gates",
    "23 at a gate on itself",
    "23 at a gate on its inverse",
    "23 at two gates on each other",
    "23 at three gates or more on each other",
    "23 after some gates were placed",
    "23 at 4,000 gates",
    "23 despite a short buffer",
];

#[derive(Default)]
pub struct Orders {
    met: BTreeMap<&'static str, u64>,
}

impl Orders {
    /// Counts a text with gates under each of its kinds.
    pub fn record(&mut self, call: &Call, outcome: &Outcome) {
        if call.name != Name::Read {
            return;
        }
        let Some(file) = File::of(&call.bytes) else {
            return;
        };
        let kinds = match outcome.number {
            0 => file.of_taken(outcome),
            12 => file.of_short(),
            13 => file.of_shapes(outcome.line as usize),
            14 => file.of_limits(outcome.line as usize),
            23 => file.of_waiting(outcome),
            _ => Vec::new(),
        };
        for (kind, is_met) in kinds {
            *self.met.entry(kind).or_default() += u64::from(is_met);
        }
    }

    /// The kinds that should have been met and were not.
    pub fn gaps(&self) -> Vec<String> {
        let unmet = due().filter(|kind| self.count(kind) == 0);
        unmet.map(|kind| format!("gates: {kind}")).collect()
    }

    fn count(&self, kind: &str) -> u64 {
        self.met.get(kind).copied().unwrap_or(0)
    }
}

fn due() -> impl Iterator<Item = &'static str> {
    TAKEN.into_iter().chain(REFUSED)
}

impl fmt::Display for Orders {
    fn fmt(&self, f: &mut fmt::Formatter) -> fmt::Result {
        let shown: Vec<String> = due()
            .map(|kind| format!("{kind}: {}", self.count(kind)))
            .collect();
        write!(f, "gates in any order: {}", shown.join("; "))
    }
}

type Kinds = Vec<(&'static str, bool)>;

/// A text with a header of at least one gate, line by line.
struct File<'a> {
    header: [usize; 5],
    lines: Vec<&'a [u8]>,
    /// The line of the first gate, from 0.
    first_line: usize,
    /// The first gate's variable.
    first: usize,
}

impl File<'_> {
    fn of(text: &[u8]) -> Option<File<'_>> {
        let header = header_of(text, Form::Text)?;
        let [_, inputs, latches, outputs, gates] = header;
        (gates > 0).then_some(File {
            header,
            lines: text.split(|byte| *byte == b'\n').collect(),
            first_line: 1 + inputs + latches + outputs,
            first: 1 + inputs + latches,
        })
    }

    /// The numbers of a line; none if it has not the right shape.
    fn numbers(&self, line: usize) -> Vec<usize> {
        let line = self.lines.get(line).copied().unwrap_or(b"");
        let line = String::from_utf8_lossy(line);
        let numbers = line.split(' ').map(|field| field.parse().ok());
        numbers.collect::<Option<_>>().unwrap_or_default()
    }

    /// Literal and operands of the first gates' lines, as many as are asked for and are there.
    fn gates(&self, count: usize) -> Vec<[usize; 3]> {
        let lines = self.first_line..self.first_line + count;
        lines
            .map_while(|line| self.numbers(line).try_into().ok())
            .collect()
    }

    /// The operands of such gates by their variables; those without a line have the constant's.
    fn operands(&self, gates: &[[usize; 3]]) -> Vec<[usize; 2]> {
        let mut operands = vec![[0, 0]; self.header[4]];
        for [own, one, other] in gates {
            operands[own / 2 - self.first] = [*one, *other];
        }
        operands
    }

    fn of_taken(&self, outcome: &Outcome) -> Kinds {
        let [variables, inputs, latches, outputs, count] = self.header;
        let gates = self.gates(count);
        let in_order = is_rising(&gates);
        let net: Vec<usize> = outcome.memory.net.get()[..outcome.memory.answer as usize]
            .iter()
            .map(|number| usize::from(*number))
            .collect();
        let new = places(self.first, &self.operands(&gates));
        let moved = |literal: usize| {
            let gate = (literal / 2).checked_sub(self.first);
            gate.is_some_and(|gate| new[gate] != Some(gate))
        };
        let renumbered = (0..count).filter(|gate| new[*gate] != Some(*gate)).count();
        let is_moved = renumbered > 0;
        let next = (0..latches).map(|latch| self.numbers(1 + inputs + latch)[1]);
        let outs: Vec<usize> = (0..outputs)
            .map(|output| self.numbers(1 + inputs + latches + output)[0])
            .collect();
        let any = |test: &dyn Fn([usize; 3]) -> bool| gates.iter().any(|gate| test(*gate));
        // of the netlist, the operands of the gate that the file calls so
        let operands = |own: usize| {
            let place = new[own / 2 - self.first].expect("a gate that is placed");
            let at = 5 + 2 * latches + outputs + 2 * place;
            [net[at], net[at + 1]]
        };
        let sign = |literal: usize| literal % 2;
        vec![
            ("lines in order, as it was", in_order && !is_moved),
            ("lines out of order, as it was", !in_order && !is_moved),
            ("lines in order, renumbered", in_order && is_moved),
            ("lines out of order, renumbered", !in_order && is_moved),
            (
                "the smaller operand first",
                any(&|[_, one, other]| one < other),
            ),
            (
                "operands turned by the renumbering",
                any(&|[own, one, other]| {
                    let [left, _] = operands(own);
                    // of different signs, so that the netlist's larger one is told apart
                    one > other && sign(one) != sign(other) && sign(left) == sign(other)
                }),
            ),
            (
                "operands that are one literal, renumbered",
                any(&|[_, one, other]| one == other && moved(one)),
            ),
            (
                "operands that are one variable, renumbered",
                any(&|[_, one, other]| one == other ^ 1 && moved(one)),
            ),
            ("next renumbered", next.into_iter().any(moved)),
            ("an output renumbered", moved(outs[0])),
            (
                "a second output renumbered",
                outs.get(1).is_some_and(|output| moved(*output)),
            ),
            (
                "an inverted output renumbered",
                outs.iter().any(|output| output % 2 == 1 && moved(*output)),
            ),
            ("each gate renumbered", renumbered == count),
            ("4,000 gates renumbered", renumbered >= 4_000),
            (
                "8,195 numbers, renumbered",
                is_moved && net.len() == 8_195 && variables == 4_095,
            ),
        ]
    }

    fn of_short(&self) -> Kinds {
        let gates = self.gates(self.header[4]);
        let new = places(self.first, &self.operands(&gates));
        let is_moved = new.iter().enumerate().any(|(gate, new)| *new != Some(gate));
        vec![
            ("12, lines out of order", !is_rising(&gates)),
            ("12, renumbered", is_moved),
        ]
    }

    /// Refused at a line, from 1, for its shape.
    fn of_shapes(&self, line: usize) -> Kinds {
        let Some(gate) = (line - 1).checked_sub(self.first_line) else {
            return Vec::new();
        };
        let count = self.header[4];
        let is_missing = self.lines.len() == line && self.lines[line - 1].is_empty();
        vec![
            ("13 at a gate's line", gate < count && !is_missing),
            ("13 at a missing gate", gate < count && is_missing),
            ("13 after the last gate", gate == count),
            ("13 despite waiting gates", self.waits_before(gate)),
        ]
    }

    /// Refused at a line, from 1, whose shape is right.
    fn of_limits(&self, line: usize) -> Kinds {
        let Some(gate) = (line - 1).checked_sub(self.first_line) else {
            return Vec::new();
        };
        let before = self.gates(gate);
        let [variables, inputs, ..] = self.header;
        let numbers = self.numbers(line - 1);
        let [own, one, other] = [numbers[0], numbers[1], numbers[2]];
        let due = own % 2 == 0 && own / 2 >= self.first && own <= 2 * variables;
        let is_first = !before.iter().any(|gate| gate[0] == own);
        let is_operand = |operand| operand <= 2 * variables + 1;
        let are_operands = is_operand(one) && is_operand(other);
        vec![
            (
                "14 at an odd literal",
                own % 2 == 1 && own / 2 >= self.first && own < 2 * variables + 2,
            ),
            ("14 at the constant's literal", own == 0),
            (
                "14 at an input's literal",
                own % 2 == 0 && (1..=inputs).contains(&(own / 2)),
            ),
            (
                "14 at a latch's literal",
                own % 2 == 0 && (inputs + 1..self.first).contains(&(own / 2)),
            ),
            (
                "14 at a literal over 2M",
                own % 2 == 0 && own > 2 * variables && own <= 65_535,
            ),
            ("14 at a literal over 65,535", own > 65_535),
            (
                "14 at a second definition",
                due && !is_first && are_operands,
            ),
            (
                "14 at a second definition, operands alike",
                due && are_operands && before.contains(&[own, one, other]),
            ),
            (
                "14 at a first operand",
                due && is_first && !is_operand(one) && is_operand(other),
            ),
            (
                "14 at a second operand",
                due && is_first && is_operand(one) && !is_operand(other),
            ),
            ("14 despite waiting gates", self.waits_before(gate)),
        ]
    }

    /// Whether of the first so many gates some wait on each other.
    fn waits_before(&self, gate: usize) -> bool {
        let operands = self.operands(&self.gates(gate.min(self.header[4])));
        places(self.first, &operands).contains(&None)
    }

    fn of_waiting(&self, outcome: &Outcome) -> Kinds {
        let [_, _, latches, outputs, count] = self.header;
        let gates = self.gates(count);
        let operands = self.operands(&gates);
        let new = places(self.first, &operands);
        let is_on = |own: usize, other: usize| {
            let [_, one, two] = gates[own];
            [one / 2, two / 2].contains(&(gates[other][0] / 2))
        };
        let few = gates.len() <= 20;
        let pairs = (0..gates.len()).flat_map(|one| (0..one).map(move |other| (one, other)));
        let by_pair = few
            && pairs
                .into_iter()
                .any(|(one, other)| is_on(one, other) && is_on(other, one));
        let by_one = |sign: usize| {
            let own = |[own, one, other]: &[usize; 3]| [*one, *other].contains(&(own + sign));
            gates.iter().any(own)
        };
        let waiting = new.iter().filter(|new| new.is_none()).count();
        let needed = 5 + 2 * latches + outputs + 2 * count;
        vec![
            ("23 at a gate on itself", by_one(0)),
            ("23 at a gate on its inverse", by_one(1)),
            ("23 at two gates on each other", by_pair),
            (
                "23 at three gates or more on each other",
                few && !by_pair && !by_one(0) && !by_one(1),
            ),
            ("23 after some gates were placed", waiting < count),
            ("23 at 4,000 gates", waiting >= 4_000),
            (
                "23 despite a short buffer",
                outcome.memory.net.get().len() < needed,
            ),
        ]
    }
}

fn is_rising(gates: &[[usize; 3]]) -> bool {
    gates.windows(2).all(|two| two[0][0] < two[1][0])
}

/// The place of each gate, by passes: the lowest gate that can be placed is, again and again;
/// `None` for those that wait on each other, or on such.
fn places(first: usize, operands: &[[usize; 2]]) -> Vec<Option<usize>> {
    let mut places = vec![None; operands.len()];
    let mut low = 0;
    for place in 0..operands.len() {
        while places[low].is_some() {
            low += 1;
        }
        let is_placed = |operand: usize| match (operand / 2).checked_sub(first) {
            Some(gate) => places[gate].is_some(),
            None => true,
        };
        let is_ready = |gate: &usize| {
            let [one, other] = operands[*gate];
            places[*gate].is_none() && is_placed(one) && is_placed(other)
        };
        let Some(gate) = (low..operands.len()).find(is_ready) else {
            break;
        };
        places[gate] = Some(place);
    }
    places
}
