//! One netlist with all that the calls on it are lent.

use crate::orders;
use reference::Outputs;

/// What start, step and run are lent beside the netlist.
#[derive(Clone, Debug, PartialEq)]
pub struct Words {
    pub latches: Vec<u64>,
    pub values: Vec<u64>,
    pub verdicts: Vec<u8>,
    pub cycles: u32,
    pub rejected: u32,
    /// Stays 0 with one output.
    pub checked: u32,
}

/// A graph, its netlist, its AIGER file in both forms, its text with the gate lines shuffled, and
/// a trace for it.
pub struct Bench {
    pub graph: Vec<u8>,
    pub net: Vec<u16>,
    pub text: Vec<u8>,
    pub shuffled: Vec<u8>,
    pub packed: Vec<u8>,
    pub trace: Vec<u8>,
}

impl Bench {
    /// Made by the library, and found to be what the reference makes.
    pub fn new(graph: &str, outputs: Outputs, trace: &[u8]) -> Bench {
        let (graph, trace) = (graph.as_bytes().to_vec(), trace.to_vec());
        let mut net = vec![0; 8_196];
        let built = match outputs {
            Outputs::Accept => ludopoplar::build(&graph, &mut net),
            Outputs::AcceptAndChecked => ludopoplar::build_checked(&graph, &mut net),
        };
        let gates = built.expect("an accepted graph");
        let mut text = vec![0; 65_536];
        let length = ludopoplar::write(&net, &mut text).expect("a netlist");
        text.truncate(length);
        let mut back = vec![0; 8_196];
        let numbers = ludopoplar::read(&text, &mut back).expect("a netlist's text");
        net.truncate(numbers);
        assert_eq!(net, back[..numbers], "read gives other numbers");
        let shuffled = orders::shuffled(&text, gates as usize);
        back.fill(0);
        ludopoplar::read(&shuffled, &mut back).expect("a netlist's text");
        assert_eq!(net, back[..numbers], "shuffled, it gives other numbers");
        let mut packed = vec![0; 65_536];
        let length = ludopoplar::write_packed(&net, &mut packed).expect("a netlist");
        packed.truncate(length);
        back.fill(0);
        ludopoplar::read(&packed, &mut back).expect("a netlist's packed file");
        assert_eq!(net, back[..numbers], "the packed file gives other numbers");
        let bench = Bench {
            graph,
            net,
            text,
            shuffled,
            packed,
            trace,
        };
        bench.check_reference(outputs, gates);
        bench
    }

    fn check_reference(&self, outputs: Outputs, gates: u64) {
        let (mut net, mut text) = (vec![0; self.net.len()], vec![0; self.text.len()]);
        let mut packed = vec![0; self.packed.len()];
        let made = reference::build(&self.graph, outputs, &mut net).expect("an accepted graph");
        assert_eq!((made as u64, &net), (gates, &self.net), "the builds differ");
        reference::write(&net, &mut text).expect("a netlist");
        assert_eq!(text, self.text, "the texts differ");
        reference::write_packed(&net, &mut packed).expect("a netlist");
        assert_eq!(packed, self.packed, "the packed files differ");
        for file in [&text, &self.shuffled, &packed] {
            net.fill(0);
            reference::read(file, &mut net).expect("a netlist's file");
            assert_eq!(net, self.net, "the readers differ");
        }
    }

    pub fn inputs(&self) -> usize {
        usize::from(self.net[1])
    }

    pub fn gates(&self) -> usize {
        usize::from(self.net[4])
    }

    pub fn cycles(&self) -> usize {
        self.trace.len() / (self.inputs() + 1)
    }

    /// Started words, as long as the netlist and the trace need.
    pub fn words(&self) -> Words {
        let mut tally = ludopoplar::CheckedTally::default();
        let mut latches = vec![0; usize::from(self.net[2])];
        ludopoplar::start_checked(&self.net, &mut latches, &mut tally).expect("a netlist");
        Words {
            latches,
            values: vec![0; usize::from(self.net[0]) + 1],
            verdicts: vec![0; self.cycles()],
            cycles: tally.cycles,
            rejected: tally.rejected,
            checked: tally.checked,
        }
    }
}
