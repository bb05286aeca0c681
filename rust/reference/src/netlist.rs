//! The netlist, and its form in a buffer of 16-bit numbers.

use std::ops::Not;

const MAX_VARIABLES: u32 = 4_095;
const MAX_INPUTS: u32 = 64;
/// Document 02, No. 7: "O may be 1 or 2."
const MAX_OUTPUTS: u32 = 2;
const MAX_UNINITIALISED: usize = 6;

#[derive(Clone, Copy, Debug, PartialEq, Eq, PartialOrd, Ord)]
pub struct Variable(pub u32);

/// "A variable v has two literals: 2v, and 2v+1 for its inverse."
#[derive(Clone, Copy, Debug, PartialEq, Eq, PartialOrd, Ord)]
pub struct Literal(pub u32);

impl Variable {
    pub fn literal(self) -> Literal {
        Literal(2 * self.0)
    }
}

impl Literal {
    pub const FALSE: Literal = Literal(0);
    pub const TRUE: Literal = Literal(1);

    pub fn variable(self) -> Variable {
        Variable(self.0 / 2)
    }

    pub fn is_inverted(self) -> bool {
        self.0 % 2 == 1
    }
}

impl Not for Literal {
    type Output = Literal;

    fn not(self) -> Literal {
        Literal(self.0 ^ 1)
    }
}

/// "Reset is 0, 1 or the latch's own literal (uninitialised)."
#[derive(Clone, Copy, Debug, PartialEq, Eq)]
pub enum Reset {
    Zero,
    One,
    Uninitialised,
}

impl Reset {
    fn parse(number: u32, own: Literal) -> Option<Reset> {
        match number {
            0 => Some(Reset::Zero),
            1 => Some(Reset::One),
            other => (other == own.0).then_some(Reset::Uninitialised),
        }
    }

    pub fn number(self, own: Literal) -> u32 {
        match self {
            Reset::Zero => 0,
            Reset::One => 1,
            Reset::Uninitialised => own.0,
        }
    }
}

#[derive(Clone, Copy, Debug, PartialEq, Eq)]
pub struct Latch {
    pub next: Literal,
    pub reset: Reset,
}

#[derive(Clone, Copy, Debug, PartialEq, Eq)]
pub struct Gate {
    pub r0: Literal,
    pub r1: Literal,
}

/// The counts M I L O A.
#[derive(Clone, Copy, Debug, PartialEq, Eq)]
pub struct Header {
    pub variables: u32,
    pub inputs: u32,
    pub latches: u32,
    pub outputs: u32,
    pub gates: u32,
}

impl Header {
    pub fn from_numbers(numbers: [u32; 5]) -> Header {
        let [variables, inputs, latches, outputs, gates] = numbers;
        Header {
            variables,
            inputs,
            latches,
            outputs,
            gates,
        }
    }

    pub fn numbers(&self) -> [u32; 5] {
        [
            self.variables,
            self.inputs,
            self.latches,
            self.outputs,
            self.gates,
        ]
    }

    /// "M = I+L+A"; "M ≤ 4,095; 1 ≤ I ≤ 64"; O is 1 or 2.
    pub fn is_lawful(&self) -> bool {
        self.variables == self.inputs + self.latches + self.gates
            && self.variables <= MAX_VARIABLES
            && (1..=MAX_INPUTS).contains(&self.inputs)
            && (1..=MAX_OUTPUTS).contains(&self.outputs)
    }

    // "Variables 1 to I are inputs, then latches, then AND gates"; each index from 0.

    pub fn input(&self, index: usize) -> Variable {
        Variable(1 + index as u32)
    }

    pub fn latch(&self, index: usize) -> Variable {
        Variable(1 + self.inputs + index as u32)
    }

    pub fn gate(&self, index: usize) -> Variable {
        Variable(1 + self.inputs + self.latches + index as u32)
    }

    /// "Next and output ≤ 2M+1."
    pub fn has(&self, literal: u32) -> bool {
        literal <= 2 * self.variables + 1
    }
}

/// A netlist, grown latch by latch, then output by output, then gate by gate. It
/// is whole when it has as many as its header says.
#[derive(Clone, Debug, PartialEq, Eq)]
pub struct Netlist {
    pub header: Header,
    pub latches: Vec<Latch>,
    pub outputs: Vec<Literal>,
    pub gates: Vec<Gate>,
}

impl Netlist {
    /// A netlist still without latches, outputs and gates; `None` if the header breaks a limit.
    pub fn new(header: Header) -> Option<Netlist> {
        header.is_lawful().then_some(Netlist {
            header,
            latches: Vec::new(),
            outputs: Vec::new(),
            gates: Vec::new(),
        })
    }

    /// `None` if the latch breaks a limit; so do `add_output` and `add_gate`.
    pub fn add_latch(&mut self, next: u32, reset: u32) -> Option<()> {
        let own = self.header.latch(self.latches.len()).literal();
        let reset = Reset::parse(reset, own)?;
        if !self.header.has(next) {
            return None;
        }
        if reset == Reset::Uninitialised && self.uninitialised() == MAX_UNINITIALISED {
            return None;
        }
        self.latches.push(Latch {
            next: Literal(next),
            reset,
        });
        Some(())
    }

    pub fn add_output(&mut self, output: u32) -> Option<()> {
        self.outputs.push(Literal(output));
        self.header.has(output).then_some(())
    }

    /// "A gate's literal g and operands satisfy g > r0 ≥ r1."
    pub fn add_gate(&mut self, r0: u32, r1: u32) -> Option<()> {
        let own = self.header.gate(self.gates.len()).literal();
        if own.0 <= r0 || r0 < r1 {
            return None;
        }
        self.gates.push(Gate {
            r0: Literal(r0),
            r1: Literal(r1),
        });
        Some(())
    }

    fn uninitialised(&self) -> usize {
        let is_open = |latch: &&Latch| latch.reset == Reset::Uninitialised;
        self.latches.iter().filter(is_open).count()
    }

    /// The netlist lent as 16-bit numbers, surplus ignored; `None` if they are no netlist.
    pub fn from_numbers(net: &[u16]) -> Option<Netlist> {
        let mut numbers = net.iter().map(|number| u32::from(*number));
        let mut next = || numbers.next();
        let header = [next()?, next()?, next()?, next()?, next()?];
        let mut netlist = Netlist::new(Header::from_numbers(header))?;
        for _ in 0..netlist.header.latches {
            netlist.add_latch(next()?, next()?)?;
        }
        for _ in 0..netlist.header.outputs {
            netlist.add_output(next()?)?;
        }
        for _ in 0..netlist.header.gates {
            netlist.add_gate(next()?, next()?)?;
        }
        Some(netlist)
    }

    /// "M I L O A, then next and reset for each latch, the output, then r0 r1 for each gate";
    /// the second output stands after the first.
    pub fn numbers(&self) -> Vec<u16> {
        let mut numbers = self.header.numbers().to_vec();
        for (index, latch) in self.latches.iter().enumerate() {
            let own = self.header.latch(index).literal();
            numbers.extend([latch.next.0, latch.reset.number(own)]);
        }
        numbers.extend(self.outputs.iter().map(|output| output.0));
        for gate in &self.gates {
            numbers.extend([gate.r0.0, gate.r1.0]);
        }
        // M ≤ 4,095 keeps every number under 8,192.
        numbers.into_iter().map(|number| number as u16).collect()
    }
}

#[cfg(test)]
mod tests {
    use super::*;

    /// One input, a latch of each reset, one gate.
    const SMALL: [u16; 14] = [5, 1, 3, 1, 1, 2, 0, 10, 1, 8, 8, 11, 9, 2];

    /// The same with a second output.
    const TWO_OUTPUTS: [u16; 15] = [5, 1, 3, 2, 1, 2, 0, 10, 1, 8, 8, 11, 4, 9, 2];

    fn is_netlist(net: &[u16], place: usize, number: u16) -> bool {
        let mut net = net.to_vec();
        net[place] = number;
        Netlist::from_numbers(&net).is_some()
    }

    #[test]
    fn numbers_and_back() {
        for net in [&SMALL[..], &TWO_OUTPUTS] {
            let netlist = Netlist::from_numbers(net).unwrap();
            assert_eq!(netlist.numbers(), net);
            let longer = [net, &[7, 7]].concat();
            assert_eq!(Netlist::from_numbers(&longer), Some(netlist));
            for length in 0..net.len() {
                assert_eq!(Netlist::from_numbers(&net[..length]), None);
            }
        }
    }

    #[test]
    fn one_or_two_outputs() {
        for (outputs, due) in [(0, false), (1, true), (2, true), (3, false), (4, false)] {
            let net = [&[1, 1, 0, outputs, 0][..], &[3; 8]].concat();
            assert_eq!(Netlist::from_numbers(&net).is_some(), due, "{outputs}");
        }
        let with = |place, number| is_netlist(&TWO_OUTPUTS, place, number);
        assert!(with(11, 0) && !with(11, 12), "first output ≤ 2M+1");
        assert!(with(12, 11) && !with(12, 12), "second output ≤ 2M+1");
    }

    #[test]
    fn limits() {
        let with = |place, number| is_netlist(&SMALL, place, number);
        assert!(!with(0, 6) && !with(0, 4) && !with(3, 0) && !with(3, 2));
        assert!(with(5, 11) && !with(5, 12), "next ≤ 2M+1");
        assert!(with(11, 0) && !with(11, 12), "output ≤ 2M+1");
        assert!(
            with(10, 0) && with(10, 1) && !with(10, 2) && !with(10, 9),
            "reset"
        );
        assert!(
            !with(12, 10) && !with(12, 1) && with(13, 9) && !with(13, 10),
            "g > r0 ≥ r1"
        );
        assert_eq!(Netlist::from_numbers(&[0, 0, 0, 1, 0, 0]), None);
        assert_eq!(Netlist::from_numbers(&[65, 65, 0, 1, 0, 0]), None);
        assert!(Netlist::from_numbers(&[64, 64, 0, 1, 0, 0]).is_some());
    }

    #[test]
    fn most_variables() {
        let net = |variables: u16, outputs: u16| {
            let gates = variables - 1;
            let mut net = vec![variables, 1, 0, outputs, gates];
            net.resize(5 + usize::from(outputs) + 2 * usize::from(gates), 0);
            net
        };
        for (outputs, numbers) in [(1, 8_194), (2, 8_195)] {
            let most = net(4_095, outputs);
            assert_eq!(most.len(), numbers);
            assert!(Netlist::from_numbers(&most).is_some());
            assert_eq!(Netlist::from_numbers(&most[..numbers - 1]), None);
            assert_eq!(Netlist::from_numbers(&net(4_096, outputs)), None);
        }
    }

    #[test]
    fn six_uninitialised_latches() {
        let net = |latches: u16| {
            let mut net = vec![1 + latches, 1, latches, 1, 0];
            net.extend((2..2 + latches).flat_map(|variable| [0, 2 * variable]));
            net.push(0);
            net
        };
        assert!(Netlist::from_numbers(&net(6)).is_some());
        assert_eq!(Netlist::from_numbers(&net(7)), None);
    }
}
