//! How often each call was accepted, and refused with each number; of the graphs how often
//! each rule chose their terminal edges, what they have of names wider than a bit, and how many
//! without operators reach the bound of their gates; what the calls have of a second output; of
//! packed files what they have and are refused for; of texts in what order their gates stand; of
//! stroke buffers what their cycles count; and of benches whom their turns serve and what their
//! calls are refused for.

use crate::compare::{Name, Outcome};
use crate::counts::Counts;
use crate::forms::Forms;
use crate::kinds::Kinds;
use crate::orders::Orders;
use crate::rounds::Rounds;
use crate::stakes::Stakes;
use reference::{Edge, Graph, Operand, Outputs};
use std::collections::BTreeMap;
use std::fmt;

/// Every number each call can be refused with; `BrokenLine` never is.
const REFUSALS: [(Name, &[u32]); 18] = [
    (Name::Build, &[1, 2, 3, 4, 5, 6, 7, 8, 9, 10, 11, 12, 19]),
    (
        Name::BuildChecked,
        &[1, 2, 3, 4, 5, 6, 7, 8, 9, 10, 11, 12, 19],
    ),
    (Name::Read, &[1, 12, 13, 14, 18, 23]),
    (Name::Write, &[12, 16]),
    (Name::WritePacked, &[12, 16]),
    (Name::Start, &[12, 16]),
    (Name::Step, &[12, 15, 16, 17]),
    (Name::Run, &[1, 12, 15, 16, 17]),
    (Name::StartChecked, &[12, 16]),
    (Name::StepChecked, &[12, 15, 16, 17]),
    (Name::RunChecked, &[1, 12, 15, 16, 17]),
    (Name::PerMillion, &[21]),
    (Name::BrokenCheck, &[1, 15, 25, 26]),
    (Name::SessionPage, &[1, 12, 22]),
    (Name::DearestGraph, &[12, 24]),
    (Name::BufferGraph, &[12, 20]),
    (Name::BenchAdd, &[12, 15, 16, 17, 27, 28]),
    (Name::BenchTurn, &[12, 16, 17]),
];

/// What a graph's first line says, and which of its edges are marked.
const MODES: [&str; 3] = ["no M line", "M terminal", "M strong"];
const MARKS: [&str; 4] = ["all marked", "some marked", "none marked", "no edge"];
/// What a graph with edges and no operators costs without checked.
const COSTS: [&str; 2] = ["fewer than 10E - 2 gates", "10E - 2 gates"];

#[derive(Default)]
pub struct Coverage {
    /// By call and number, 0 for accepted.
    met: BTreeMap<(Name, u32), u64>,
    /// The accepted graphs, by mode and marks.
    graphs: BTreeMap<(&'static str, &'static str), u64>,
    /// The graphs refused at a line whose first field is `M`, by number.
    mode_refused: BTreeMap<u32, u64>,
    /// The random graphs with edges and no operators that were built without checked, by cost.
    plain: [u64; 2],
    /// All graphs, by widths, bits and comparisons.
    kinds: Kinds,
    /// All calls, by outputs and tallies.
    pub stakes: Stakes,
    /// Packed files.
    pub forms: Forms,
    /// Texts, by the order of their gates.
    pub orders: Orders,
    /// Runs of stroke buffers.
    pub counts: Counts,
    /// Calls on benches.
    pub rounds: Rounds,
    /// Cycles judged by their paths, and those rejected by one; and of them those of graphs
    /// that compare names of several bits.
    path_cycles: u64,
    path_rejected: u64,
    compared_cycles: u64,
    compared_rejected: u64,
    /// Files written and read back.
    pub read_back: u64,
    /// Of the sessions that are good, those whose flywheel's or handle's line was handed
    /// back, and those without one.
    flywheel_lines: u64,
    handle_lines: u64,
    no_lines: u64,
    /// Pages with and without a line of rejected cycles, and the lines of all of them.
    pages: u64,
    empty_pages: u64,
    page_lines: u64,
}

impl Coverage {
    pub fn record(&mut self, name: Name, outcome: &Outcome) {
        *self.met.entry((name, outcome.number)).or_default() += 1;
    }

    /// Counts a graph, by what its text says.
    pub fn record_graph(&mut self, text: &[u8], outputs: Outputs, outcome: &Outcome) {
        let lines: Vec<&[u8]> = text.split(|byte| *byte == b'\n').collect();
        let line = outcome.line as usize;
        if outcome.is_accepted() {
            let graph = (mode_of(&lines), marks_of(&lines));
            *self.graphs.entry(graph).or_default() += 1;
        } else if line > 0 && first_field(lines[line - 1]) == b"M" {
            *self.mode_refused.entry(outcome.number).or_default() += 1;
        }
        self.kinds.record(text, outputs, outcome);
    }

    /// Counts a graph without operators, by whether it reaches the bound of its gates.
    pub fn record_plain(&mut self, is_dearest: bool) {
        self.plain[usize::from(is_dearest)] += 1;
    }

    /// Counts the cycles that were judged by the paths of a graph, and those rejected.
    pub fn record_paths(&mut self, graph: &Graph, cycles: usize, rejected: usize) {
        let (cycles, rejected) = (cycles as u64, rejected as u64);
        self.path_cycles += cycles;
        self.path_rejected += rejected;
        if graph.edges.iter().any(compares_wide_names) {
            self.compared_cycles += cycles;
            self.compared_rejected += rejected;
        }
    }

    fn graphs(&self, mode: &'static str, marks: &'static str) -> u64 {
        self.graphs.get(&(mode, marks)).copied().unwrap_or(0)
    }

    fn mode_refused(&self, number: u32) -> u64 {
        self.mode_refused.get(&number).copied().unwrap_or(0)
    }

    /// Counts the trace, offset and length that were found in a good session.
    pub fn record_line(&mut self, part: [u64; 3]) {
        let count = match part {
            [_, _, 0] => &mut self.no_lines,
            [0, _, _] => &mut self.flywheel_lines,
            _ => &mut self.handle_lines,
        };
        *count += 1;
    }

    /// Counts a page by its lines: the first and the last have no rejected cycles.
    pub fn record_page(&mut self, page: &[u8]) {
        let lines = page.iter().filter(|byte| **byte == b'\n').count() as u64;
        let count = match lines {
            2 => &mut self.empty_pages,
            _ => &mut self.pages,
        };
        *count += 1;
        self.page_lines += lines;
    }

    fn count(&self, name: Name, number: u32) -> u64 {
        self.met.get(&(name, number)).copied().unwrap_or(0)
    }

    /// What should have been met and was not.
    pub fn gaps(&self) -> Vec<String> {
        let mut gaps = Vec::new();
        for (name, numbers) in REFUSALS {
            for number in [&[0], numbers].concat() {
                if self.count(name, number) == 0 {
                    gaps.push(format!("{name:?} {number}"));
                }
            }
        }
        for mode in MODES {
            for marks in MARKS {
                if self.graphs(mode, marks) == 0 {
                    gaps.push(format!("a graph with {mode}, {marks}"));
                }
            }
        }
        for number in [2, 3] {
            if self.mode_refused(number) == 0 {
                gaps.push(format!("{number} at an M line"));
            }
        }
        for (cost, count) in COSTS.iter().zip(self.plain) {
            if count == 0 {
                gaps.push(format!("a graph without operators of {cost}"));
            }
        }
        gaps.extend(self.kinds.gaps());
        gaps.extend(self.stakes.gaps());
        gaps.extend(self.forms.gaps());
        gaps.extend(self.orders.gaps());
        gaps.extend(self.counts.gaps());
        gaps.extend(self.rounds.gaps());
        if self.path_rejected == 0 || self.path_rejected == self.path_cycles {
            gaps.push("paths".into());
        }
        if self.compared_rejected == 0 || self.compared_rejected == self.compared_cycles {
            gaps.push("paths with wide names compared".into());
        }
        if [self.flywheel_lines, self.handle_lines, self.no_lines].contains(&0) {
            gaps.push("lines handed back".into());
        }
        if [self.pages, self.empty_pages].contains(&0) {
            gaps.push("session pages".into());
        }
        gaps
    }
}

fn compares_wide_names(edge: &Edge) -> bool {
    let operands = [edge.antecedent.operands(), edge.consequent.operands()].concat();
    let is_wide = |operand: &Operand| matches!(operand, Operand::Equal(left, _) if left.width > 1);
    operands.iter().any(is_wide)
}

/// Of an accepted graph's lines.
fn mode_of(lines: &[&[u8]]) -> &'static str {
    let [none, terminal, strong] = MODES;
    match lines[0] {
        b"M\tterminal" => terminal,
        b"M\tstrong" => strong,
        _ => none,
    }
}

fn marks_of(lines: &[&[u8]]) -> &'static str {
    let [all, some, none, no_edge] = MARKS;
    let edges = lines.iter().filter(|line| first_field(line) == b"E");
    let marks: Vec<bool> = edges
        .map(|line| line.split(|byte| *byte == b'\t').nth(3) == Some(b"t"))
        .collect();
    match (marks.contains(&true), marks.contains(&false)) {
        (true, false) => all,
        (true, true) => some,
        (false, true) => none,
        (false, false) => no_edge,
    }
}

fn first_field(line: &[u8]) -> &[u8] {
    line.split(|byte| *byte == b'\t').next().unwrap_or(line)
}

impl fmt::Display for Coverage {
    fn fmt(&self, f: &mut fmt::Formatter) -> fmt::Result {
        for (name, numbers) in REFUSALS {
            let name_shown = format!("{name:?}").to_lowercase();
            write!(f, "{name_shown}: accepted {}, refused", self.count(name, 0))?;
            for number in numbers {
                write!(f, " {number}:{}", self.count(name, *number))?;
            }
            writeln!(f)?;
        }
        for mode in MODES {
            let counts = MARKS.map(|marks| format!("{marks} {}", self.graphs(mode, marks)));
            writeln!(f, "graphs, {mode}: {}", counts.join(", "))?;
        }
        writeln!(
            f,
            "M lines refused: 2:{} 3:{}",
            self.mode_refused(2),
            self.mode_refused(3)
        )?;
        let ([cheaper, dearest], [fewer, most]) = (self.plain, COSTS);
        writeln!(
            f,
            "graphs without operators: {fewer} {cheaper}, {most} {dearest}"
        )?;
        writeln!(f, "{}", self.kinds)?;
        writeln!(f, "{}", self.stakes)?;
        writeln!(f, "{}", self.forms)?;
        writeln!(f, "{}", self.orders)?;
        writeln!(f, "{}", self.counts)?;
        writeln!(f, "{}", self.rounds)?;
        writeln!(
            f,
            "lines handed back: {} of the flywheel, {} of the handle, {} empty",
            self.flywheel_lines, self.handle_lines, self.no_lines
        )?;
        writeln!(
            f,
            "session pages: {} with rejected cycles, {} without, {} lines",
            self.pages, self.empty_pages, self.page_lines
        )?;
        writeln!(f, "read(write(net)): {} files", self.read_back)?;
        write!(
            f,
            "paths: {} cycles, {} of them rejected; with wide names compared {}, {}",
            self.path_cycles, self.path_rejected, self.compared_cycles, self.compared_rejected
        )
    }
}
