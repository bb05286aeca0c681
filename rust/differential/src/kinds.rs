//! Of what No. 3 of document 02 adds to graph texts: which kinds were met, and how often.

use crate::compare::Outcome;
use crate::graphs::variables;
use reference::{parse_formula, Atom, Graph, Operand, Outputs, Term};
use std::collections::{BTreeMap, BTreeSet};
use std::fmt;

/// Of accepted graphs.
const ACCEPTED: [&str; 11] = [
    "63 bits of signals, some wide",
    "6 bits of constants, some wide",
    "a bit of a wide signal",
    "a bit of a wide constant",
    "bit 0 of a name of width 1",
    "signal == signal",
    "signal == constant",
    "constant == signal",
    "constant == constant",
    "a name == itself",
    "4,000 variables or more, with ==",
];
/// Of refused ones; `alone` says that the line has no other reason for a 19.
const REFUSED: [&str; 16] = [
    "2 at a width",
    "4 at bits of few records",
    "5 at a name with a width",
    "7 with [",
    "7 with ==",
    "8 with [",
    "8 with ==",
    "9 before 19 in one formula",
    "9 before 19 in two formulas",
    "11 with ==",
    "11 at over 65,536 variables",
    "19 at unequal widths alone",
    "19 at a bit beyond the width alone",
    "19 at a wide name alone",
    "19 at n over 64 bits alone",
    "19 in the consequent alone",
];
/// Of accepted graphs, with each width up to the one named.
const WIDTHS: [(&str, usize); 3] = [("S", 16), ("K", 6), ("==", 16)];

#[derive(Default)]
pub struct Kinds {
    met: BTreeMap<&'static str, u64>,
    widths: BTreeMap<(&'static str, usize), u64>,
}

impl Kinds {
    /// Counts a graph under each of its kinds.
    pub fn record(&mut self, text: &[u8], outputs: Outputs, outcome: &Outcome) {
        let records = Records::of(text);
        let kinds = match outcome.is_accepted() {
            true => {
                for width in widths(text, &records) {
                    *self.widths.entry(width).or_default() += 1;
                }
                accepted(text, outputs, &records)
            }
            false => refused(text, outputs, &records, outcome),
        };
        for kind in kinds {
            *self.met.entry(kind).or_default() += 1;
        }
    }

    /// The kinds that should have been met and were not.
    pub fn gaps(&self) -> Vec<String> {
        let kinds = ACCEPTED.iter().chain(&REFUSED);
        let unmet = kinds.filter(|kind| self.count(kind) == 0);
        let mut gaps: Vec<String> = unmet.map(|kind| kind.to_string()).collect();
        for (kind, most) in WIDTHS {
            let unmet = (1..=most).filter(|width| self.of_width(kind, *width) == 0);
            gaps.extend(unmet.map(|width| format!("{kind} of width {width}")));
        }
        gaps
    }

    fn count(&self, kind: &str) -> u64 {
        self.met.get(kind).copied().unwrap_or(0)
    }

    fn of_width(&self, kind: &'static str, width: usize) -> u64 {
        self.widths.get(&(kind, width)).copied().unwrap_or(0)
    }
}

impl fmt::Display for Kinds {
    fn fmt(&self, f: &mut fmt::Formatter) -> fmt::Result {
        for (kind, most) in WIDTHS {
            write!(f, "{kind} by width:")?;
            for width in 1..=most {
                write!(f, " {width}:{}", self.of_width(kind, width))?;
            }
            writeln!(f)?;
        }
        let shown = |kind: &&str| format!("{kind}: {}", self.count(kind));
        let shown = |kinds: &[&str]| kinds.iter().map(shown).collect::<Vec<_>>().join("; ");
        writeln!(f, "graphs: {}", shown(&ACCEPTED))?;
        write!(f, "graphs refused: {}", shown(&REFUSED))
    }
}

/// The fields of each line, and the kind and width of each name.
struct Records<'a> {
    lines: Vec<Vec<&'a [u8]>>,
    names: BTreeMap<&'a [u8], (&'static str, usize)>,
}

impl<'a> Records<'a> {
    fn of(text: &'a [u8]) -> Self {
        let fields = |line: &'a [u8]| line.split(|byte| *byte == b'\t').collect();
        let lines: Vec<Vec<&[u8]>> = text.split(|byte| *byte == b'\n').map(fields).collect();
        let mut names = BTreeMap::new();
        for line in &lines {
            let (kind, name, width) = match line[..] {
                [b"S", name] => ("S", name, Some(1)),
                [b"K", name] => ("K", name, Some(1)),
                [b"S", name, width] => ("S", name, number(width)),
                [b"K", name, width] => ("K", name, number(width)),
                _ => continue,
            };
            names.entry(name).or_insert((kind, width.unwrap_or(0)));
        }
        Records { lines, names }
    }

    fn width(&self, name: &[u8]) -> Option<usize> {
        self.names.get(name).map(|(_, width)| *width)
    }

    fn has_wide(&self, kind: &str) -> bool {
        let mut names = self.names.values();
        names.any(|(other, width)| *other == kind && *width > 1)
    }
}

fn number(field: &[u8]) -> Option<usize> {
    std::str::from_utf8(field).ok()?.parse().ok()
}

/// The operands of a formula as they stand in the text; none if it has not the right form.
fn terms(formula: &[u8]) -> Vec<Term<&[u8]>> {
    parse_formula(formula).map_or(Vec::new(), |parsed| parsed.formula.operands())
}

/// What the operands of a graph stand for.
fn operands(text: &[u8]) -> Vec<Operand> {
    let graph = Graph::parse(text).expect("a graph but for its size");
    let formulas = graph.edges.iter();
    formulas
        .flat_map(|edge| [edge.antecedent.operands(), edge.consequent.operands()].concat())
        .collect()
}

/// The widths of an accepted graph's names, and of those that it compares.
fn widths(text: &[u8], records: &Records) -> BTreeSet<(&'static str, usize)> {
    let compared = operands(text)
        .into_iter()
        .filter_map(|operand| match operand {
            Operand::Equal(left, _) => Some(("==", left.width)),
            Operand::Bit(_) => None,
        });
    records.names.values().copied().chain(compared).collect()
}

fn accepted(text: &[u8], outputs: Outputs, records: &Records) -> BTreeSet<&'static str> {
    let mut kinds = BTreeSet::new();
    let graph = Graph::parse(text).expect("an accepted graph");
    if graph.signal_bits == 63 && records.has_wide("S") {
        kinds.insert("63 bits of signals, some wide");
    }
    if graph.constant_bits == 6 && records.has_wide("K") {
        kinds.insert("6 bits of constants, some wide");
    }
    let edges = records.lines.iter().filter(|fields| fields.len() == 6);
    for term in edges.flat_map(|fields| [terms(fields[4]), terms(fields[5])].concat()) {
        if let Term::BitOf(name, _) = term {
            kinds.insert(match records.names[name] {
                (_, 1) => "bit 0 of a name of width 1",
                ("S", _) => "a bit of a wide signal",
                _ => "a bit of a wide constant",
            });
        }
    }
    for operand in operands(text) {
        if let Operand::Equal(left, right) = operand {
            use Atom::{Constant, Signal};
            kinds.insert(match (left.first, right.first) {
                (one, other) if one == other => "a name == itself",
                (Signal(_), Signal(_)) => "signal == signal",
                (Signal(_), Constant(_)) => "signal == constant",
                (Constant(_), Signal(_)) => "constant == signal",
                (Constant(_), Constant(_)) => "constant == constant",
            });
        }
    }
    if operands(text).iter().any(is_equal) && variables(text, outputs) >= Some(4_000) {
        kinds.insert("4,000 variables or more, with ==");
    }
    kinds
}

fn is_equal(operand: &Operand) -> bool {
    matches!(operand, Operand::Equal(..))
}

fn refused(
    text: &[u8],
    outputs: Outputs,
    records: &Records,
    outcome: &Outcome,
) -> BTreeSet<&'static str> {
    let mut kinds = BTreeSet::new();
    let mut add = |kind, is_met: bool| {
        if is_met {
            kinds.insert(kind);
        }
    };
    if outcome.number == 11 {
        add("11 with ==", operands(text).iter().any(is_equal));
        let is_past = variables(text, outputs) > Some(65_536);
        add("11 at over 65,536 variables", is_past);
    }
    let Some(line) = (outcome.line as usize).checked_sub(1) else {
        return kinds;
    };
    let fields = &records.lines[line];
    if matches!(fields[0], b"S" | b"K") && fields.len() > 2 {
        let before = records.lines[..line].iter();
        let few = before.filter(|other| other[0] == fields[0]).count() < 6;
        add("2 at a width", outcome.number == 2);
        add("4 at bits of few records", outcome.number == 4 && few);
        add("5 at a name with a width", outcome.number == 5);
    }
    if let [b"E", _, _, _, antecedent, consequent] = fields[..] {
        let line = [antecedent, b"\t", consequent].concat();
        let has = |part: &[u8]| line.windows(part.len()).any(|bytes| bytes == part);
        add("7 with [", outcome.number == 7 && has(b"["));
        add("7 with ==", outcome.number == 7 && has(b"=="));
        add("8 with [", outcome.number == 8 && has(b"["));
        add("8 with ==", outcome.number == 8 && has(b"=="));
        let faults = [antecedent, consequent].map(|formula| faults(formula, records));
        let has = |formula: usize, fault| faults[formula].contains(&fault);
        let is_wrong = |formula: usize| faults[formula].iter().any(|fault| *fault != UNKNOWN);
        let mixed = |one, other| is_wrong(one) && has(other, UNKNOWN);
        if outcome.number == 9 {
            let in_one = mixed(0, 0) && faults[1].is_empty();
            add("9 before 19 in one formula", in_one);
            let in_two = mixed(0, 1) && !has(0, UNKNOWN);
            add("9 before 19 in two formulas", in_two);
        }
        if let (19, [fault]) = (outcome.number, &faults.concat()[..]) {
            add(fault, true);
            add("19 in the consequent alone", is_wrong(1));
        }
    }
    kinds
}

const UNKNOWN: &str = "9";

/// What is wrong with the operands of a formula: names that are unknown, or kinds of a 19.
fn faults(formula: &[u8], records: &Records) -> Vec<&'static str> {
    let fault = |term| match term {
        Term::Name(name) => match records.width(name) {
            None => Some(UNKNOWN),
            Some(1) => None,
            Some(_) => Some("19 at a wide name alone"),
        },
        Term::BitOf(name, n) => match records.width(name) {
            None => Some(UNKNOWN),
            Some(width) if n < width => None,
            Some(_) if n == usize::MAX => Some("19 at n over 64 bits alone"),
            Some(_) => Some("19 at a bit beyond the width alone"),
        },
        Term::Equal(left, right) => match (records.width(left), records.width(right)) {
            (None, _) | (_, None) => Some(UNKNOWN),
            (left, right) if left == right => None,
            _ => Some("19 at unequal widths alone"),
        },
    };
    terms(formula).into_iter().filter_map(fault).collect()
}
