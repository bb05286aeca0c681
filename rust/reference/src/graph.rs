//! The graph text.

use crate::formula::{self, is_name, number, Formula, MAX_DEPTH};
use crate::lines::{lines, Line};
use crate::operand::{Atom, Operand, Run, Term};
use crate::refusal::{check_size, Cause, Refusal};

const MAX_GRAPH_BYTES: usize = 32_768;
const MAX_SIGNAL_BITS: usize = 63;
const MAX_CONSTANT_BITS: usize = 6;
const MAX_WIDTH: usize = 16;
const MAX_VERTICES: usize = 64;
const MAX_EDGES: usize = 128;

/// The word of an `M` line.
#[derive(Clone, Copy, Debug, PartialEq, Eq)]
pub enum Mode {
    Terminal,
    Strong,
}

#[derive(Clone, Debug, PartialEq, Eq)]
pub struct Edge {
    pub from: usize,
    pub to: usize,
    /// Whether its mark is `t`. Whether it is terminal, `Graph::is_terminal` says.
    pub marked: bool,
    pub antecedent: Formula<Operand>,
    pub consequent: Formula<Operand>,
}

/// An assertion graph: vertices by index, the first is the start.
#[derive(Clone, Debug, PartialEq, Eq)]
pub struct Graph {
    /// `None` where the first line is no `M` line.
    pub mode: Option<Mode>,
    /// The widths of all signals together, and of all constants.
    pub signal_bits: usize,
    pub constant_bits: usize,
    pub vertices: usize,
    pub edges: Vec<Edge>,
}

impl Graph {
    /// Checks 1, then the lines, then 10.
    pub fn parse(text: &[u8]) -> Result<Graph, Refusal> {
        check_size(text, MAX_GRAPH_BYTES)?;
        let mut draft = Draft::default();
        for line in lines(text) {
            draft.line(line).map_err(|cause| cause.at(line.number))?;
        }
        if draft.vertices.is_empty() {
            return Err(Cause::NoVertex.no_line());
        }
        Ok(Graph {
            mode: draft.mode,
            signal_bits: bits(&draft.signals),
            constant_bits: bits(&draft.constants),
            vertices: draft.vertices.len(),
            edges: draft.edges,
        })
    }

    /// "A graph in which no edge is `t` shall be judged as if each were: strong acceptance
    /// in source document 000. For draft sizing, a first line `M`, tab, `terminal` keeps the
    /// old rule; `M`, tab, `strong` makes each edge terminal."
    pub fn is_terminal(&self, edge: &Edge) -> bool {
        match self.mode {
            Some(Mode::Terminal) => edge.marked,
            Some(Mode::Strong) => true,
            None => edge.marked || !self.edges.iter().any(|edge| edge.marked),
        }
    }
}

/// "Kinds in this order."
#[derive(Clone, Copy, Debug, PartialEq, Eq, PartialOrd, Ord)]
enum Kind {
    Signal,
    Constant,
    Vertex,
    Edge,
}

/// A line of some record's shape; its formulas are not yet looked at.
enum Record<'a> {
    /// A vertex has width 1.
    Named(Kind, Named<'a>),
    Edge(EdgeFields<'a>),
}

#[derive(Clone, Copy)]
struct Named<'a> {
    name: &'a [u8],
    width: usize,
}

struct EdgeFields<'a> {
    from: &'a [u8],
    to: &'a [u8],
    marked: bool,
    antecedent: &'a [u8],
    consequent: &'a [u8],
}

impl<'a> Record<'a> {
    /// `None` if the line has no record's shape.
    fn parse(line: Line<'a>) -> Option<Record<'a>> {
        if !line.ended {
            return None;
        }
        let fields: Vec<&[u8]> = line.bytes.split(|byte| *byte == b'\t').collect();
        match fields[..] {
            [b"S", name] => Record::named(Kind::Signal, name, 1),
            [b"S", name, width] => Record::named(Kind::Signal, name, width_of(width)?),
            [b"K", name] => Record::named(Kind::Constant, name, 1),
            [b"K", name, width] => Record::named(Kind::Constant, name, width_of(width)?),
            [b"V", name] => Record::named(Kind::Vertex, name, 1),
            [b"E", from, to, mark, antecedent, consequent] if is_name(from) && is_name(to) => {
                Some(Record::Edge(EdgeFields {
                    from,
                    to,
                    marked: is_marked(mark)?,
                    antecedent,
                    consequent,
                }))
            }
            _ => None,
        }
    }

    fn named(kind: Kind, name: &'a [u8], width: usize) -> Option<Record<'a>> {
        is_name(name).then_some(Record::Named(kind, Named { name, width }))
    }

    fn kind(&self) -> Kind {
        match self {
            Record::Named(kind, _) => *kind,
            Record::Edge(_) => Kind::Edge,
        }
    }

    /// How much it adds to what is counted of its kind: bits, vertices or edges.
    fn size(&self) -> usize {
        match self {
            Record::Named(_, named) => named.width,
            Record::Edge(_) => 1,
        }
    }
}

/// "A width of 1 to 16; absent means 1, and it has no leading zero"; here of a field that is
/// not absent.
fn width_of(field: &[u8]) -> Option<usize> {
    number(field).filter(|width| (1..=MAX_WIDTH).contains(width))
}

/// The word of an `M` line. "Another word is 2", as one more field is, or no LF: such a line
/// has no record's shape either.
fn mode_of(line: Line) -> Option<Mode> {
    match (line.bytes, line.ended) {
        (b"M\tterminal", true) => Some(Mode::Terminal),
        (b"M\tstrong", true) => Some(Mode::Strong),
        _ => None,
    }
}

/// Whether a mark is `t`; `None` if it is not `-` either.
fn is_marked(mark: &[u8]) -> Option<bool> {
    match mark {
        b"t" => Some(true),
        b"-" => Some(false),
        _ => None,
    }
}

/// The records of the lines read so far.
#[derive(Default)]
struct Draft<'a> {
    mode: Option<Mode>,
    last_kind: Option<Kind>,
    signals: Vec<Named<'a>>,
    constants: Vec<Named<'a>>,
    vertices: Vec<Named<'a>>,
    edges: Vec<Edge>,
}

impl<'a> Draft<'a> {
    /// Takes one line in. The checks stand in the order of their numbers, as
    /// in one line the lower number decides.
    fn line(&mut self, line: Line<'a>) -> Result<(), Cause> {
        if let Some(mode) = mode_of(line) {
            return self.mode(line.number, mode);
        }
        let record = Record::parse(line).ok_or(Cause::NoRecord)?;
        let kind = record.kind();
        if Some(kind) < self.last_kind {
            return Err(Cause::KindOutOfOrder);
        }
        if self.counted(kind) + record.size() > most(kind) {
            return Err(Cause::OneTooMany);
        }
        match record {
            Record::Named(kind, named) => self.name(kind, named)?,
            Record::Edge(fields) => {
                let edge = self.edge(&fields)?;
                self.edges.push(edge);
            }
        }
        self.last_kind = Some(kind);
        Ok(())
    }

    /// "A first line `M`"; "another `M` line is 3". It is no record: kinds, counts and names
    /// begin after it.
    fn mode(&mut self, line_number: u32, mode: Mode) -> Result<(), Cause> {
        if line_number != 1 {
            return Err(Cause::KindOutOfOrder);
        }
        self.mode = Some(mode);
        Ok(())
    }

    fn counted(&self, kind: Kind) -> usize {
        match kind {
            Kind::Signal => bits(&self.signals),
            Kind::Constant => bits(&self.constants),
            Kind::Vertex => self.vertices.len(),
            Kind::Edge => self.edges.len(),
        }
    }

    /// "Signals and constants share one list of names; vertices have another."
    fn name(&mut self, kind: Kind, named: Named<'a>) -> Result<(), Cause> {
        let repeated = match kind {
            Kind::Vertex => self.vertex(named.name).is_some(),
            _ => self.run(named.name).is_some(),
        };
        if repeated {
            return Err(Cause::NameRepeated);
        }
        match kind {
            Kind::Signal => self.signals.push(named),
            Kind::Constant => self.constants.push(named),
            _ => self.vertices.push(named),
        }
        Ok(())
    }

    /// Over both formulas the lower number decides: grammar, then depth, then names, then
    /// widths.
    fn edge(&self, fields: &EdgeFields) -> Result<Edge, Cause> {
        let from = self.vertex(fields.from).ok_or(Cause::UnknownVertex)?;
        let to = self.vertex(fields.to).ok_or(Cause::UnknownVertex)?;
        let antecedent = formula::parse(fields.antecedent).ok_or(Cause::NotAFormula)?;
        let consequent = formula::parse(fields.consequent).ok_or(Cause::NotAFormula)?;
        if antecedent.depth > MAX_DEPTH || consequent.depth > MAX_DEPTH {
            return Err(Cause::TooDeep);
        }
        let look_up = |term: &Term<&[u8]>| term.look_up(&|name| self.run(name));
        let antecedent = antecedent.formula.try_map(&look_up)?;
        let consequent = consequent.formula.try_map(&look_up)?;
        Ok(Edge {
            from,
            to,
            marked: fields.marked,
            antecedent: antecedent.try_map(&Term::operand)?,
            consequent: consequent.try_map(&Term::operand)?,
        })
    }

    fn vertex(&self, name: &[u8]) -> Option<usize> {
        position(&self.vertices, name)
    }

    /// "Whoever looks up a name now receives its first place and its width."
    fn run(&self, name: &[u8]) -> Option<Run> {
        place(&self.signals, name, Atom::Signal)
            .or_else(|| place(&self.constants, name, Atom::Constant))
    }
}

/// "The totals stay 63 and 6 bits."
fn most(kind: Kind) -> usize {
    match kind {
        Kind::Signal => MAX_SIGNAL_BITS,
        Kind::Constant => MAX_CONSTANT_BITS,
        Kind::Vertex => MAX_VERTICES,
        Kind::Edge => MAX_EDGES,
    }
}

fn bits(records: &[Named]) -> usize {
    records.iter().map(|record| record.width).sum()
}

fn position(records: &[Named], name: &[u8]) -> Option<usize> {
    records.iter().position(|record| record.name == name)
}

fn place(records: &[Named], name: &[u8], atom: fn(usize) -> Atom) -> Option<Run> {
    let position = position(records, name)?;
    Some(Run {
        first: atom(bits(&records[..position])),
        width: records[position].width,
    })
}

#[cfg(test)]
mod tests {
    use super::*;
    use crate::testing::{graph_text, numbered};

    /// The refusal of a graph written with blanks for tabs and commas for LFs.
    fn refused(graph: &str) -> (u8, u32) {
        numbered(Graph::parse(&graph_text(graph)).unwrap_err())
    }

    fn accepted(graph: &str) -> Graph {
        Graph::parse(&graph_text(graph)).unwrap()
    }

    #[test]
    fn records() {
        let graph = accepted("S p,K k,V a,V b,E a b t p k,E b b - 1 !p");
        assert_eq!(
            (graph.signal_bits, graph.constant_bits, graph.vertices),
            (1, 1, 2)
        );
        let edge = &graph.edges[0];
        assert_eq!((edge.from, edge.to, edge.marked), (0, 1, true));
        assert_eq!(
            edge.antecedent,
            Formula::Operand(Operand::Bit(Atom::Signal(0)))
        );
        assert_eq!(
            edge.consequent,
            Formula::Operand(Operand::Bit(Atom::Constant(0)))
        );
        assert!(!graph.edges[1].marked);
    }

    /// What the antecedent of the last edge stands for.
    fn antecedent(graph: &str) -> Formula<Operand> {
        accepted(graph).edges.pop().unwrap().antecedent
    }

    /// First places and widths.
    #[test]
    fn places_of_names() {
        let head = "S p,S a 3,S b 3,S q,K k 2,K j,K l 3,V v";
        let graph = accepted(head);
        assert_eq!((graph.signal_bits, graph.constant_bits), (8, 6));
        let (signal, constant) = (Atom::Signal, Atom::Constant);
        let bit = |name: &str| antecedent(&format!("{head},E v v t {name} 1"));
        for (name, due) in [
            ("p", signal(0)),
            ("p[0]", signal(0)),
            ("a[0]", signal(1)),
            ("a[2]", signal(3)),
            ("b[0]", signal(4)),
            ("b[2]", signal(6)),
            ("q", signal(7)),
            ("k[0]", constant(0)),
            ("k[1]", constant(1)),
            ("j", constant(2)),
            ("j[0]", constant(2)),
            ("l[0]", constant(3)),
            ("l[2]", constant(5)),
        ] {
            assert_eq!(bit(name), Formula::Operand(Operand::Bit(due)), "{name}");
        }
        let run = |first, width| Run { first, width };
        for (formula, left, right) in [
            ("a==b", run(signal(1), 3), run(signal(4), 3)),
            ("b==a", run(signal(4), 3), run(signal(1), 3)),
            ("l==a", run(constant(3), 3), run(signal(1), 3)),
            ("k==k", run(constant(0), 2), run(constant(0), 2)),
            ("j==q", run(constant(2), 1), run(signal(7), 1)),
        ] {
            let due = Formula::Operand(Operand::Equal(left, right));
            assert_eq!(bit(formula), due, "{formula}");
        }
    }

    #[test]
    fn width_fields() {
        for kind in ["S", "K"] {
            for width in 1..=6 {
                let graph = accepted(&format!("{kind} x {width},V v"));
                assert_eq!(graph.signal_bits + graph.constant_bits, width);
            }
            for wrong in [
                "",
                "0",
                "00",
                "01",
                "016",
                "17",
                "18",
                "20",
                "99",
                "100",
                "256",
                "257",
                "272",
                "65537",
                "4294967297",
                "18446744073709551617",
                "+1",
                "-1",
                "1.0",
                "1\r",
                "1x",
                "x",
                "a",
                "1\0",
                "0x1",
                "1 ",
                " 1",
                "1 1",
                "1 x",
            ] {
                let graph = format!("{kind} x {wrong},V v");
                assert_eq!(refused(&graph), (2, 1), "{wrong:?}");
                let after_mode = format!("M strong,{kind} x {wrong},V v");
                assert_eq!(refused(&after_mode), (2, 2), "{wrong:?}");
            }
            let cut = format!("{kind}\tx\t4");
            assert_eq!(numbered(Graph::parse(cut.as_bytes()).unwrap_err()), (2, 1));
        }
        for width in ["1", "2", "", "0", "x"] {
            assert_eq!(refused(&format!("V v {width}")), (2, 1), "{width}");
            assert_eq!(refused(&format!("V v,V w {width}")), (2, 2), "{width}");
        }
        assert_eq!(refused("S 4,V v"), (2, 1));
        assert_eq!(refused("S x\u{b}4,V v"), (2, 1));
        assert_eq!(refused("S x4 y,V v"), (2, 1));
    }

    /// Each total of bits, by two records.
    #[test]
    fn totals_by_bits() {
        let filled = |kind: &str, bits: usize| -> String {
            let count = |at: usize| (bits - 16 * at).min(16);
            (0..bits.div_ceil(16))
                .map(|at| format!("{kind} {kind}{at} {},", count(at)))
                .collect()
        };
        for (kind, most) in [("S", 63), ("K", 6)] {
            for before in 0..=most {
                for width in 1..=16 {
                    let graph = format!("{}{kind} last {width},V v", filled(kind, before));
                    let line = before.div_ceil(16) as u32 + 1;
                    match before + width <= most {
                        true => {
                            let graph = accepted(&graph);
                            let bits = graph.signal_bits + graph.constant_bits;
                            assert_eq!(bits, before + width);
                        }
                        false => assert_eq!(refused(&graph), (4, line), "{graph}"),
                    }
                }
            }
        }
        // A record that passes the total is refused, also where a narrower one had fitted.
        assert_eq!(refused("K a 5,K b 2,K c,V v"), (4, 2));
        // The two kinds count apart; the order in a line is 2, 3, 4, 5.
        let full = format!("{}{}", filled("S", 63), filled("K", 6));
        assert_eq!(accepted(&format!("{full}V v")).signal_bits, 63);
        assert_eq!(refused(&format!("{full}S x,V v")), (3, 6));
        assert_eq!(refused(&format!("{full}S x 17,V v")), (2, 6));
        assert_eq!(refused(&format!("{full}K S0,V v")), (4, 6));
        assert_eq!(refused("S x 2,S x 2,V v"), (5, 2));
        assert_eq!(refused("S x 2,K x 3,V v"), (5, 2));
        assert_eq!(refused("S x 2,K x 7,V v"), (4, 2));
        assert_eq!(accepted("S x 2,V x").signal_bits, 2);
    }

    /// A name is compared whole, and without its width.
    #[test]
    fn names_with_widths() {
        assert_eq!(refused("S ab 2,S ab,V v"), (5, 2));
        assert_eq!(accepted("S ab 2,S a,S abc,S ab2,V v").signal_bits, 5);
        assert_eq!(refused("S ab 2,V v,E v v t a 1"), (9, 3));
        assert_eq!(refused("S ab 2,V v,E v v t ab2[0] 1"), (9, 3));
        let name = "abcdefghijklmno";
        let edge = |formula: &str| format!("S {name} 2,V v,E v v t {formula} 1");
        assert_eq!(accepted(&edge(&format!("{name}[1]"))).edges.len(), 1);
        let same = edge(&format!("{name}=={name}"));
        assert_eq!(accepted(&same).edges.len(), 1);
        assert_eq!(refused(&edge(&format!("{name}p[1]"))), (7, 3));
        assert_eq!(refused(&edge(&format!("{name}=={name}p"))), (7, 3));
        assert_eq!(refused(&format!("S {name}p 2,V v")), (2, 1));
    }

    /// Which edges of a graph are terminal.
    fn terminal(graph: &str) -> Vec<bool> {
        let graph = accepted(graph);
        let edges = graph.edges.iter();
        edges.map(|edge| graph.is_terminal(edge)).collect()
    }

    /// Graphs of up to three edges with every choice of marks, under each rule.
    #[test]
    fn terminal_edges() {
        for edges in 0..=3 {
            for choice in 0..1 << edges {
                let marked: Vec<bool> = (0..edges).map(|edge| choice >> edge & 1 == 1).collect();
                let lines: String = marked
                    .iter()
                    .map(|marked| format!(",E a a {} 1 0", if *marked { "t" } else { "-" }))
                    .collect();
                let each = vec![true; edges];
                let unless_none = if choice == 0 { &each } else { &marked };
                assert_eq!(terminal(&format!("V a{lines}")), *unless_none);
                assert_eq!(terminal(&format!("M terminal,V a{lines}")), marked);
                assert_eq!(terminal(&format!("M strong,V a{lines}")), each);
            }
        }
    }

    #[test]
    fn mode_lines() {
        assert_eq!(accepted("V a").mode, None);
        assert_eq!(accepted("M terminal,V a").mode, Some(Mode::Terminal));
        assert_eq!(accepted("M strong,S p,V a").mode, Some(Mode::Strong));
        for wrong in [
            "M",
            "M ",
            "M  ",
            "M weak",
            "M t",
            "M -",
            "M M",
            "M Strong",
            "M STRONG",
            "M stron",
            "M strongs",
            "M strong ",
            "M strong x",
            "M terminal strong",
            "M  strong",
            "M terminal\r",
            "M terminal\0",
            "M\u{b}strong",
            "Mstrong",
            "MM strong",
            "m strong",
            " M strong",
            "strong",
            "terminal M",
        ] {
            assert_eq!(refused(&format!("{wrong},V a")), (2, 1), "{wrong:?}");
            assert_eq!(refused(&format!("V a,{wrong}")), (2, 2), "{wrong:?}");
            let second = format!("M strong,{wrong},V a");
            assert_eq!(refused(&second), (2, 2), "{wrong:?}");
        }
        for text in [
            &b"M"[..],
            b"M\t",
            b"M\tstrong",
            b"M\tterminal",
            b"M\tterminal\r",
            b"M strong\n",
        ] {
            let refusal = Graph::parse(text).unwrap_err();
            assert_eq!(numbered(refusal), (2, 1), "{}", text.escape_ascii());
        }
        let late = Graph::parse(b"V\ta\nM\tstrong").unwrap_err();
        assert_eq!(numbered(late), (2, 2));
    }

    /// After a record of each kind, at the end, and after another `M` line.
    #[test]
    fn mode_lines_in_another_place() {
        let records = ["S p", "K k", "V a", "E a a t 1 1"];
        for mode in ["M terminal", "M strong"] {
            for before in 1..=records.len() {
                let mut lines = records.to_vec();
                lines.insert(before, mode);
                assert_eq!(refused(&lines.join(",")), (3, before as u32 + 1));
                for first in ["M terminal", "M strong"] {
                    let graph = format!("{first},{}", lines.join(","));
                    assert_eq!(refused(&graph), (3, before as u32 + 2));
                }
            }
            for first in ["M terminal", "M strong"] {
                assert_eq!(refused(&format!("{first},{mode},V a")), (3, 2));
                assert_eq!(refused(&format!("{first},{mode},{mode}")), (3, 2));
            }
        }
        // Line 1 is the first line of the text, also where that is no record.
        assert_eq!(refused(",M strong,V a"), (2, 1));
        assert_eq!(refused("X,M strong,V a"), (2, 1));
    }

    /// The other rules see the lines after it alone, but for their numbers and its bytes.
    #[test]
    fn rules_after_a_mode_line() {
        for mode in ["M terminal", "M strong"] {
            let refused = |graph: &str| refused(&format!("{mode},{graph}"));
            assert_eq!(refused("S p,K k"), (10, 0));
            assert_eq!(refused("V a,S p"), (3, 3));
            assert_eq!(refused("K k,S p,V a"), (3, 3));
            assert_eq!(refused("S a,S a,V a"), (5, 3));
            assert_eq!(refused("V a,E a b - 1 1"), (6, 3));
            assert_eq!(refused("V a,E a a - 10 1"), (7, 3));
            assert_eq!(refused("V a,E a a - p 1"), (9, 3));
            for mark in ["", "T", "M", "tt", "strong"] {
                assert_eq!(refused(&format!("V a,E a a {mark} 1 1")), (2, 3));
            }
            let edges = |count: usize| format!("V a{}", ",E a a - 1 1".repeat(count));
            let most = accepted(&format!("{mode},{}", edges(128)));
            assert_eq!(most.edges.len(), 128);
            assert_eq!(refused(&edges(129)), (4, 131));
            let vertices: String = (0..65).map(|at| format!(",V v{at}")).collect();
            assert_eq!(refused(&vertices[1..]), (4, 66));
            let signals: String = (0..64).map(|at| format!(",S s{at}")).collect();
            assert_eq!(refused(&signals[1..]), (4, 65));
        }
        assert_eq!(refused("M terminal"), (10, 0));
        assert_eq!(refused("M strong"), (10, 0));
        let long = |size: usize| [&b"M\tstrong\n"[..], &vec![b'\n'; size - 9]].concat();
        let refusal = |size| numbered(Graph::parse(&long(size)).unwrap_err());
        assert_eq!(refusal(32_768), (2, 2));
        assert_eq!(refusal(32_769), (1, 0));
    }

    /// `M` is a name like any other.
    #[test]
    fn things_named_m() {
        assert_eq!(terminal("S M,V M,E M M - M M"), [true]);
        assert_eq!(terminal("M strong,S M,V M,E M M - M M"), [true]);
        assert_eq!(terminal("M terminal,K M,V M,E M M - M M"), [false]);
        assert_eq!(accepted("S terminal,V strong").signal_bits, 1);
    }

    #[test]
    fn lists_of_names() {
        assert_eq!(accepted("S a,V a").signal_bits, 1);
        assert_eq!(refused("S a,S b,S a,V v"), (5, 3));
        assert_eq!(refused("S a,K a,V v"), (5, 2));
        assert_eq!(refused("V v,V v"), (5, 2));
    }

    #[test]
    fn lines_of_no_shape() {
        for line in [
            "",
            "S",
            "S ",
            "S 1",
            "S p q",
            "s p",
            "X p",
            " S p",
            "S p ",
            "S p\r",
            "V _a",
            "E a a t 1",
            "E a a t 1 1 1",
            "E a a T 1 1",
            "E a a  1 1",
            "E a 1 t 1 1",
            "E  a t 1 1",
            "S\u{b}p",
        ] {
            assert_eq!(refused(&format!("V a,{line}")), (2, 2), "{line:?}");
        }
        assert_eq!(numbered(Graph::parse(b"V\ta\nV\tb").unwrap_err()), (2, 2));
        assert_eq!(numbered(Graph::parse(b"V\ta\nS").unwrap_err()), (2, 2));
    }

    #[test]
    fn name_lengths() {
        let name = "abcdefghijklmno";
        assert_eq!(name.len(), 15);
        assert_eq!(accepted(&format!("S {name},V a")).signal_bits, 1);
        assert_eq!(refused(&format!("S {name}p,V a")), (2, 1));
        assert_eq!(refused(&format!("V a,E a {name}p t 1 1")), (2, 2));
        assert_eq!(refused(&format!("V a,E a a t {name}p 1")), (7, 2));
    }

    #[test]
    fn kinds_in_order() {
        assert_eq!(refused("S p,V a,K k"), (3, 3));
        assert_eq!(refused("V a,S p"), (3, 2));
        assert_eq!(refused("V a,E a a t 1 1,V b"), (3, 3));
    }

    #[test]
    fn counts() {
        let many = |kind: &str, count: usize| -> String {
            (0..count).map(|i| format!("{kind} n{i},")).collect()
        };
        assert_eq!(accepted(&format!("{}V a", many("S", 63))).signal_bits, 63);
        assert_eq!(refused(&format!("{}V a", many("S", 64))), (4, 64));
        assert_eq!(accepted(&format!("{}V a", many("K", 6))).constant_bits, 6);
        assert_eq!(refused(&format!("{}V a", many("K", 7))), (4, 7));
        assert_eq!(accepted(many("V", 64).trim_end_matches(',')).vertices, 64);
        assert_eq!(refused(many("V", 65).trim_end_matches(',')), (4, 65));
        let edges = |count: usize| format!("V a{}", ",E a a t 1 1".repeat(count));
        assert_eq!(accepted(&edges(128)).edges.len(), 128);
        assert_eq!(refused(&edges(129)), (4, 130));
    }

    #[test]
    fn edges() {
        assert_eq!(refused("V a,E a b t 1 1"), (6, 2));
        assert_eq!(refused("V a,E b a t 1 1"), (6, 2));
        assert_eq!(refused("E a a t 1 1"), (6, 1));
        assert_eq!(refused("V a,E a a t 10 1"), (7, 2));
        assert_eq!(refused("V a,E a a t  1"), (7, 2));
        assert_eq!(refused("V a,E a a t 1 "), (7, 2));
        assert_eq!(refused("V a,E a a t 1 1\r"), (7, 2));
        assert_eq!(refused("V a,E a a t p 1"), (9, 2));
        let nots = |count: usize| format!("V a,E a a t {}1 1", "!".repeat(count));
        assert_eq!(accepted(&nots(16)).edges.len(), 1);
        assert_eq!(refused(&nots(17)), (8, 2));
    }

    #[test]
    fn the_first_faulty_line_decides_and_in_it_the_lower_number() {
        let deep = "!".repeat(17);
        assert_eq!(refused("V a,E a a t p 1,X"), (9, 2));
        assert_eq!(refused("V a,E b a t 10 1"), (6, 2));
        assert_eq!(refused(&format!("V a,E a a t {deep}1 10")), (7, 2));
        assert_eq!(refused(&format!("V a,E a a t p {deep}1")), (8, 2));
        assert_eq!(refused(&format!("V a,E a a t {deep}p 1")), (8, 2));
        assert_eq!(
            refused(&format!("V a{},E b a t 10 1", ",E a a t 1 1".repeat(128))),
            (4, 130)
        );
        assert_eq!(refused("K a,K b,K c,K d,K e,K f,K a"), (4, 7));
        assert_eq!(refused("S p,V a,S p"), (3, 3));
    }

    #[test]
    fn whole_text() {
        assert_eq!(numbered(Graph::parse(b"").unwrap_err()), (10, 0));
        assert_eq!(refused("S p,K k"), (10, 0));
        assert_eq!(
            numbered(Graph::parse(&[b'\n'; 32_768]).unwrap_err()),
            (2, 1)
        );
        assert_eq!(
            numbered(Graph::parse(&[b'\n'; 32_769]).unwrap_err()),
            (1, 0)
        );
    }
}
