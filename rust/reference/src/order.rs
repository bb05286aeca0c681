//! No. 10 of document 02: the gates of a file of text, in the order in which they arrive.

use crate::netlist::{Header, Latch, Literal, Netlist, Variable};
use std::collections::BTreeSet;

/// The gates of a file by their own variables, each with its operands as they stand in its line.
pub struct Arrived {
    header: Header,
    operands: Vec<Option<[Literal; 2]>>,
}

impl Arrived {
    pub fn new(header: Header) -> Arrived {
        Arrived {
            header,
            operands: vec![None; header.gates as usize],
        }
    }

    /// The gate of a line; `None` if its literal is not a gate variable's own, if that is
    /// defined already, or if an operand is no literal of the file.
    pub fn define(&mut self, own: u32, operands: [u32; 2]) -> Option<()> {
        let own = Literal(own);
        let gate = match own.is_inverted() {
            true => None,
            false => self.index(own.variable()),
        }?;
        let are_known = operands.iter().all(|operand| self.header.has(*operand));
        if self.operands[gate].is_some() || !are_known {
            return None;
        }
        self.operands[gate] = Some(operands.map(Literal));
        Some(())
    }

    /// Which gate a variable is; `None` if it is the constant's, an input's or a latch's, or
    /// past the last.
    fn index(&self, variable: Variable) -> Option<usize> {
        let index = variable.0.checked_sub(self.header.gate(0).0)?;
        (index < self.header.gates).then_some(index as usize)
    }

    /// The netlist of a file with these latches and outputs, once each gate is defined; `None`
    /// if gates wait on each other, or one on itself.
    pub fn netlist(&self, loose: &Netlist) -> Option<Netlist> {
        let renumber = Renumbering::of(self)?;
        let mut netlist = Netlist::new(self.header).expect("the header of a netlist");
        netlist.latches = loose
            .latches
            .iter()
            .map(|latch| Latch {
                next: renumber.literal(latch.next),
                ..*latch
            })
            .collect();
        let outputs = loose.outputs.iter();
        netlist.outputs = outputs.map(|output| renumber.literal(*output)).collect();
        for gate in &renumber.order {
            let operands = self
                .operands(*gate)
                .map(|operand| renumber.literal(operand));
            let [one, other] = operands.map(|operand| operand.0);
            netlist
                .add_gate(one.max(other), one.min(other))
                .expect("operands that are placed before their gate");
        }
        Some(netlist)
    }

    fn operands(&self, gate: usize) -> [Literal; 2] {
        self.operands[gate].expect("a line for each gate")
    }

    /// The gates on which a gate waits: its operands of either sign, where they are gates.
    fn awaited(&self, gate: usize) -> BTreeSet<usize> {
        let operands = self.operands(gate).into_iter();
        operands
            .filter_map(|operand| self.index(operand.variable()))
            .collect()
    }
}

/// Which gate stands at each place, and which place each gate has.
struct Renumbering<'a> {
    arrived: &'a Arrived,
    order: Vec<usize>,
    places: Vec<usize>,
}

impl Renumbering<'_> {
    /// "At each place, the gate of lowest old literal whose operands are already placed."
    fn of(arrived: &Arrived) -> Option<Renumbering<'_>> {
        let gates = arrived.operands.len();
        let mut awaited: Vec<BTreeSet<usize>> =
            (0..gates).map(|gate| arrived.awaited(gate)).collect();
        let mut waiting = vec![Vec::new(); gates];
        for (gate, others) in awaited.iter().enumerate() {
            others.iter().for_each(|other| waiting[*other].push(gate));
        }
        let mut ready: BTreeSet<usize> = (0..gates)
            .filter(|gate| awaited[*gate].is_empty())
            .collect();
        let (mut order, mut places) = (Vec::new(), vec![0; gates]);
        while let Some(gate) = ready.pop_first() {
            places[gate] = order.len();
            order.push(gate);
            for other in &waiting[gate] {
                awaited[*other].remove(&gate);
                if awaited[*other].is_empty() {
                    ready.insert(*other);
                }
            }
        }
        (order.len() == gates).then_some(Renumbering {
            arrived,
            order,
            places,
        })
    }

    /// "And renumbers": a gate takes the variable of its place, a literal keeps its sign.
    fn literal(&self, old: Literal) -> Literal {
        let new = match self.arrived.index(old.variable()) {
            Some(gate) => self.arrived.header.gate(self.places[gate]).literal(),
            None => return old,
        };
        match old.is_inverted() {
            true => !new,
            false => new,
        }
    }
}
