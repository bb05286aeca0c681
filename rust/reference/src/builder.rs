//! Building: a graph's monitor circuit.

use crate::formula::{Formula, Operator};
use crate::graph::{Edge, Graph};
use crate::netlist::{Gate, Header, Latch, Literal, Netlist, Reset, Variable};
use crate::operand::{Atom, Operand, Run};
use crate::refusal::{fill, Cause, Refusal};

/// Document 02, No. 7: "Add a second output, checked. Build is told whether to add it."
#[derive(Clone, Copy, Debug, PartialEq, Eq)]
pub enum Outputs {
    Accept,
    AcceptAndChecked,
}

/// Checks 1, then the lines, then 10, 11, 12; returns the number of gates made.
pub fn build(graph: &[u8], outputs: Outputs, net: &mut [u16]) -> Result<usize, Refusal> {
    let graph = Graph::parse(graph)?;
    let netlist = circuit(&graph, outputs);
    if !netlist.header.is_lawful() {
        return Err(Cause::TooManyVariables.no_line());
    }
    fill(net, &netlist.numbers())?;
    Ok(netlist.gates.len())
}

/// "Gates = 7E + (E − non-start vertices with an incoming edge) + (E − vertices
/// with an incoming edge) + max(T − 1, 0) + F"; and with checked "2T − 1 are added when T is
/// at least 1".
pub fn formula_of_gates(graph: &Graph, outputs: Outputs) -> usize {
    let edges = graph.edges.len();
    let has_incoming = |vertex: &usize| graph.edges.iter().any(|edge| edge.to == *vertex);
    let reached = (0..graph.vertices).filter(has_incoming).count();
    let reached_non_start = (1..graph.vertices).filter(has_incoming).count();
    let is_terminal = |edge: &&Edge| graph.is_terminal(edge);
    let terminal = graph.edges.iter().filter(is_terminal).count();
    let operators: usize = graph
        .edges
        .iter()
        .map(|edge| edge.antecedent.gates() + edge.consequent.gates())
        .sum();
    let of_checked = match outputs {
        Outputs::Accept => 0,
        Outputs::AcceptAndChecked => (2 * terminal).saturating_sub(1),
    };
    7 * edges
        + (edges - reached_non_start)
        + (edges - reached)
        + terminal.saturating_sub(1)
        + operators
        + of_checked
}

/// A literal for each token.
#[derive(Clone, Copy)]
struct Tokens {
    happy: Literal,
    condemned: Literal,
}

/// The circuit, also where M passes the limit.
fn circuit(graph: &Graph, outputs: Outputs) -> Netlist {
    let mut maker = Maker::new(graph);
    let masked: Vec<Tokens> = (0..graph.edges.len())
        .map(|edge| maker.masked(edge))
        .collect();
    let at: Vec<Tokens> = (0..graph.vertices)
        .map(|vertex| maker.gathered(vertex, &masked))
        .collect();
    let now: Vec<Tokens> = graph
        .edges
        .iter()
        .map(|edge| maker.moved(edge, at[edge.from]))
        .collect();
    let mut literals = vec![maker.accept(&now)];
    if outputs == Outputs::AcceptAndChecked {
        literals.push(maker.checked(&now));
    }
    maker.netlist(&now, literals)
}

struct Maker<'a> {
    graph: &'a Graph,
    gates: Vec<Gate>,
}

impl<'a> Maker<'a> {
    fn new(graph: &'a Graph) -> Self {
        Maker {
            graph,
            gates: Vec::new(),
        }
    }

    // "Inputs: init, then signals. Latches: constants in order, then happy and
    // condemned for each edge." A name has one input or latch for each bit of it.

    fn inputs(&self) -> usize {
        1 + self.graph.signal_bits
    }

    fn latches(&self) -> usize {
        self.graph.constant_bits + 2 * self.graph.edges.len()
    }

    fn init(&self) -> Literal {
        literal(1)
    }

    fn atom(&self, atom: Atom) -> Literal {
        match atom {
            Atom::Signal(place) => literal(2 + place),
            Atom::Constant(place) => literal(1 + self.inputs() + place),
        }
    }

    fn tokens(&self, edge: usize) -> Tokens {
        let happy = 1 + self.inputs() + self.graph.constant_bits + 2 * edge;
        Tokens {
            happy: literal(happy),
            condemned: literal(happy + 1),
        }
    }

    /// One gate, "the larger operand first".
    fn and(&mut self, one: Literal, other: Literal) -> Literal {
        self.gates.push(Gate {
            r0: one.max(other),
            r1: one.min(other),
        });
        literal(self.inputs() + self.latches() + self.gates.len())
    }

    /// "NOT so-far AND NOT term, inverted."
    fn or(&mut self, so_far: Literal, term: Literal) -> Literal {
        !self.and(!so_far, !term)
    }

    /// "No term: 0. One term: itself. A further term: one gate."
    fn or_all(&mut self, terms: impl IntoIterator<Item = Literal>) -> Literal {
        terms
            .into_iter()
            .reduce(|so_far, term| self.or(so_far, term))
            .unwrap_or(Literal::FALSE)
    }

    /// Part 1: "happy latch AND NOT init; condemned latch AND NOT init."
    fn masked(&mut self, edge: usize) -> Tokens {
        let Tokens { happy, condemned } = self.tokens(edge);
        Tokens {
            happy: self.and(happy, !self.init()),
            condemned: self.and(condemned, !self.init()),
        }
    }

    /// Part 2: "OR of the incoming masked happy literals in edge order, init standing
    /// first at the start vertex; then OR of the condemned ones."
    fn gathered(&mut self, vertex: usize, masked: &[Tokens]) -> Tokens {
        let init = (vertex == 0).then_some(self.init());
        let incoming: Vec<Tokens> = (self.graph.edges.iter().zip(masked))
            .filter(|(edge, _)| edge.to == vertex)
            .map(|(_, tokens)| *tokens)
            .collect();
        let happy = incoming.iter().map(|tokens| tokens.happy);
        let condemned = incoming.iter().map(|tokens| tokens.condemned);
        Tokens {
            happy: self.or_all(init.into_iter().chain(happy)),
            condemned: self.or_all(condemned),
        }
    }

    /// Part 3: "with the literals of its from-vertex: antecedent a, then consequent c.
    /// Then p = a AND happy; happy-now = p AND c; q = p AND NOT c; r = a AND
    /// condemned; the last gate is NOT q AND NOT r, and condemned-now is its inverse."
    fn moved(&mut self, edge: &Edge, from: Tokens) -> Tokens {
        let a = self.formula(&edge.antecedent);
        let c = self.formula(&edge.consequent);
        let p = self.and(a, from.happy);
        let happy = self.and(p, c);
        let q = self.and(p, !c);
        let r = self.and(a, from.condemned);
        let condemned = !self.and(!q, !r);
        Tokens { happy, condemned }
    }

    /// "Operands left to right before their operator. `&` one gate; `|` one,
    /// inverted; `^` three: both, neither, then neither of those; `=` as `^`, inverted."
    fn formula(&mut self, formula: &Formula<Operand>) -> Literal {
        match formula {
            Formula::Bit(false) => Literal::FALSE,
            Formula::Bit(true) => Literal::TRUE,
            Formula::Operand(Operand::Bit(atom)) => self.atom(*atom),
            Formula::Operand(Operand::Equal(left, right)) => self.equal(*left, *right),
            Formula::Not(inner) => !self.formula(inner),
            Formula::Two(operator, left, right) => {
                let left = self.formula(left);
                let right = self.formula(right);
                match operator {
                    Operator::And => self.and(left, right),
                    Operator::Or => self.or(left, right),
                    Operator::Xor => self.xor(left, right),
                    Operator::Alike => !self.xor(left, right),
                }
            }
        }
    }

    fn xor(&mut self, left: Literal, right: Literal) -> Literal {
        let both = self.and(left, right);
        let neither = self.and(!left, !right);
        self.and(!both, !neither)
    }

    /// "3 gates a bit, bit 0 first, made as for `=`, then width − 1 more that join them in
    /// bit order."
    fn equal(&mut self, left: Run, right: Run) -> Literal {
        let mut alike = Vec::new();
        for n in 0..left.width {
            let (left, right) = (self.atom(left.bit(n)), self.atom(right.bit(n)));
            alike.push(!self.xor(left, right));
        }
        self.and_all(alike)
    }

    fn and_all(&mut self, terms: impl IntoIterator<Item = Literal>) -> Literal {
        terms
            .into_iter()
            .reduce(|so_far, term| self.and(so_far, term))
            .unwrap_or(Literal::TRUE)
    }

    /// Part 4: "AND of NOT condemned-now over terminal edges in order; none: literal 1."
    fn accept(&mut self, now: &[Tokens]) -> Literal {
        let terminal = self.of_terminal_edges(now);
        self.and_all(terminal.into_iter().map(|tokens| !tokens.condemned))
    }

    /// Document 02, No. 7: "the OR over terminal edges of alive, which is happy-now or
    /// condemned-now, each one gate, all these first, then joined in edge order, no terminal
    /// edge giving 0".
    fn checked(&mut self, now: &[Tokens]) -> Literal {
        let mut alive = Vec::new();
        for tokens in self.of_terminal_edges(now) {
            alive.push(self.or(tokens.happy, tokens.condemned));
        }
        self.or_all(alive)
    }

    fn of_terminal_edges(&self, now: &[Tokens]) -> Vec<Tokens> {
        let edges = self.graph.edges.iter().zip(now);
        let terminal = edges.filter(|(edge, _)| self.graph.is_terminal(edge));
        terminal.map(|(_, tokens)| *tokens).collect()
    }

    /// "These feed the latches": constants keep themselves, edges take their tokens.
    fn netlist(self, now: &[Tokens], outputs: Vec<Literal>) -> Netlist {
        let constants = (0..self.graph.constant_bits).map(|place| Latch {
            next: self.atom(Atom::Constant(place)),
            reset: Reset::Uninitialised,
        });
        let tokens = now
            .iter()
            .flat_map(|tokens| [tokens.happy, tokens.condemned])
            .map(|next| Latch {
                next,
                reset: Reset::Zero,
            });
        let count = |count: usize| count as u32;
        Netlist {
            header: Header {
                variables: count(self.inputs() + self.latches() + self.gates.len()),
                inputs: count(self.inputs()),
                latches: count(self.latches()),
                outputs: count(outputs.len()),
                gates: count(self.gates.len()),
            },
            latches: constants.chain(tokens).collect(),
            outputs,
            gates: self.gates,
        }
    }
}

fn literal(variable: usize) -> Literal {
    Variable(variable as u32).literal()
}

#[cfg(test)]
mod tests {
    use super::*;
    use crate::aiger::{read, write};
    use crate::testing::{graph_text, lines_text, numbered, G};

    const BOTH: [Outputs; 2] = [Outputs::Accept, Outputs::AcceptAndChecked];

    fn built_with(outputs: Outputs, graph: &str) -> (usize, Vec<u16>) {
        let mut net = vec![0; 8_200];
        let gates = build(&graph_text(graph), outputs, &mut net).unwrap();
        (gates, net)
    }

    fn built(graph: &str) -> (usize, Vec<u16>) {
        built_with(Outputs::Accept, graph)
    }

    fn file(net: &[u16]) -> Vec<u8> {
        let mut text = vec![0; 65_536];
        let length = write(net, &mut text).unwrap();
        text.truncate(length);
        text
    }

    #[test]
    fn file_of_g() {
        let (gates, net) = built(G);
        let due = "aag 12 3 2 1 7,2,4,6,8 18,10 25,24,12 8 3,14 10 3,16 4 2,18 16 6,20 16 7,22 4 0,24 23 21";
        assert_eq!(file(&net), lines_text(due));
        assert_eq!(gates, 7);
        let mut back = vec![0; 24];
        assert_eq!(read(&file(&net), &mut back).unwrap(), 24);
        assert_eq!(back, net[..24]);
    }

    #[test]
    fn seventeen_gates() {
        assert_eq!(built(&format!("{G},E b b t p 1")).0, 17);
    }

    /// G with `-` for `t`.
    const UNMARKED: &str = "S p,S q,V a,V b,E a b - p q";

    #[test]
    fn no_terminal_edge() {
        let (gates, net) = built(&format!("M terminal,{UNMARKED}"));
        assert_eq!((gates, net[5 + 2 * 2]), (7, 1), "output literal");
        let mut due = built(G).1;
        due[5 + 2 * 2] = 1;
        assert_eq!(net, due, "nothing else differs from G");
        for graph in ["V a", "M terminal,V a", "M strong,V a"] {
            let (gates, net) = built(graph);
            assert_eq!((gates, &net[..6]), (0, &[1, 1, 0, 1, 0, 1][..]), "{graph}");
        }
    }

    #[test]
    fn no_mark_means_all_edges() {
        assert_eq!(built(UNMARKED), built(G));
        assert_eq!(built(&format!("M strong,{UNMARKED}")), built(G));
        let edges = |marks: [&str; 2]| format!("V a,E a a {} 1 0,E a a {} 1 1", marks[0], marks[1]);
        let each = built(&edges(["t", "t"]));
        assert_eq!(each.0, 18);
        assert_eq!(built(&edges(["-", "-"])), each);
        let second = built(&edges(["-", "t"]));
        assert_eq!(second.0, 17);
        for marks in [["t", "t"], ["-", "t"], ["t", "-"], ["-", "-"]] {
            assert_eq!(built(&format!("M strong,{}", edges(marks))), each);
        }
        assert_eq!(built(&format!("M terminal,{}", edges(["-", "t"]))), second);
        let none = built(&format!("M terminal,{}", edges(["-", "-"])));
        assert_eq!((none.0, none.1[5 + 2 * 4]), (17, 1));
    }

    #[test]
    fn gates_of_formulas() {
        // Init 2, p 4; latches k 6, happy 8, condemned 10; gates from 12.
        let (gates, net) = built("S p,K k,V a,E a a t p=k|!p 0^1");
        let due = [
            &[20, 2, 3, 1, 15][..],
            &[6, 6, 34, 0, 41, 0, 40],
            &[8, 3, 10, 3],            // masked: 12, 14
            &[13, 3],                  // init OR 12: 17
            &[7, 4],                   // k|!p: 19
            &[19, 4, 18, 5, 23, 21],   // p=19: 25
            &[1, 0, 1, 0, 29, 27],     // 0^1: 30
            &[25, 17, 32, 30, 32, 31], // p 32, happy-now 34, q 36
            &[25, 14, 39, 37],         // r 38, condemned-now 41
        ]
        .concat();
        assert_eq!((gates, &net[..due.len()]), (15, &due[..]));
    }

    /// 128 terminal edges cost 127 gates, and with checked 255 more; none cost none.
    #[test]
    fn m_at_and_over_4095() {
        // Init and the edges' latches stand beside the gates.
        let without_outputs = 1 + 2 * 128 + 7 * 128 + 128 + 127;
        for (mode, mark, of_outputs) in [
            ("", "t", [127, 127 + 255]),
            ("", "-", [127, 127 + 255]),
            ("M\tstrong\n", "t", [127, 127 + 255]),
            ("M\tstrong\n", "-", [127, 127 + 255]),
            ("M\tterminal\n", "t", [127, 127 + 255]),
            ("M\tterminal\n", "-", [0, 0]),
        ] {
            let text = |operators| many_operators(mode, mark, operators);
            let bare = Graph::parse(&text(0)).unwrap();
            for (outputs, of_outputs) in BOTH.into_iter().zip(of_outputs) {
                let fixed = without_outputs + of_outputs;
                assert_eq!(fixed, 257 + formula_of_gates(&bare, outputs));
                let mut net = vec![0; 8_200];
                let gates = build(&text(4_095 - fixed), outputs, &mut net).unwrap();
                assert_eq!((net[0], gates), (4_095, 4_095 - 257));
                let refusal = build(&text(4_096 - fixed), outputs, &mut net).unwrap_err();
                assert_eq!(numbered(refusal), (11, 0));
            }
        }
    }

    /// 128 self-loops with this many `&` spread over their formulas.
    fn many_operators(mode: &str, mark: &str, operators: usize) -> Vec<u8> {
        let mut text = format!("{mode}V\ta\n");
        let mut left = operators;
        for _ in 0..128 {
            let here = left.min(100);
            left -= here;
            text += &format!("E\ta\ta\t{mark}\t1{}\t1\n", "&1".repeat(here));
        }
        text.into_bytes()
    }

    #[test]
    fn gates_made_are_the_formulas_and_under_the_bound() {
        for graph in [
            "V a",
            "V a,E a a t 1 1",
            "V a,V b,E b b - 1 1",
            "V a,E a a - 1 1,E a a - 1 1,E a a - 1 1",
            "S p,K k,V a,V b,E a b t p^k p=k=p,E a b - 1 p&!k,E b a t p|k 0,E b b - 1 1",
            "S p 4,S q 4,K k 4,V a,E a a t p==q=q[3] !k==q&p==k,E a a - p[0]=q[0] 1",
            "S p,S q,V a,E a a t p==q p==p&q==p",
        ] {
            for mode in ["", "M terminal,", "M strong,"] {
                let graph = format!("{mode}{graph}");
                let parsed = Graph::parse(&graph_text(&graph)).unwrap();
                let operators =
                    |edge: &Edge| edge.antecedent.operators() + edge.consequent.operators();
                let operators: usize = parsed.edges.iter().map(operators).sum();
                for (outputs, of_edge) in BOTH.into_iter().zip([10, 12]) {
                    let gates = built_with(outputs, &graph).0;
                    assert_eq!(gates, formula_of_gates(&parsed, outputs), "{graph}");
                    assert!(gates <= of_edge * parsed.edges.len() + 3 * operators);
                }
            }
        }
    }

    #[test]
    fn refusals_leave_the_buffer() {
        for (outputs, short) in [(Outputs::Accept, 23), (Outputs::AcceptAndChecked, 26)] {
            let mut net = vec![9; short];
            for (graph, due) in [(G, (12, 0)), ("S p,S p", (5, 2))] {
                let refusal = build(&graph_text(graph), outputs, &mut net).unwrap_err();
                assert_eq!(numbered(refusal), due);
                assert_eq!(net, vec![9; short]);
            }
            net.push(9);
            assert!(build(&graph_text(G), outputs, &mut net).is_ok());
        }
    }
}
