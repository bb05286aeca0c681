//! What demand 3 and No. 7 of document 02 count, read off the graph and the cycles: no
//! latch, gate or tally is looked at.

use crate::formula::Formula;
use crate::graph::{Edge, Graph};
use crate::operand::{Atom, Operand};
use std::collections::BTreeSet;

/// A path as far as later edges can tell: the vertex it has come to, and
/// whether one of its consequents was false.
#[derive(Clone, Copy, Debug, PartialEq, Eq, PartialOrd, Ord)]
struct Reached {
    vertex: usize,
    condemned: bool,
}

/// Of one cycle: the settings under which some path rejects it, and those under which some
/// path checks it, that is "ending on a terminal edge", meets all antecedents. A setting has
/// the bits of all lanes whose number ends with it.
#[derive(Clone, Copy, Debug, Default, PartialEq, Eq)]
pub struct Judged {
    pub rejected: u64,
    pub checked: u64,
}

impl Judged {
    pub fn is_rejected(self) -> bool {
        self.rejected != 0
    }

    /// "A cycle counts exactly when some setting and some path from the latest init, ending
    /// on a terminal edge, meet all antecedents."
    pub fn is_checked(self) -> bool {
        self.checked != 0
    }
}

/// For each cycle, whether some setting and some path reject it.
pub fn rejected_cycles(graph: &Graph, cycles: &[&[u8]]) -> Vec<bool> {
    let judged = judged_cycles(graph, cycles);
    judged.into_iter().map(Judged::is_rejected).collect()
}

/// For each cycle, under which settings some path rejects it, and some path checks it.
///
/// For each setting the paths are followed cycle by cycle. Paths that came to
/// the same vertex, both condemned or both not, have the same continuations, so
/// a set of `Reached` stands for them all. The tests hold this against every
/// single path.
pub fn judged_cycles(graph: &Graph, cycles: &[&[u8]]) -> Vec<Judged> {
    let mut judged = vec![Judged::default(); cycles.len()];
    for setting in 0..1usize << graph.constant_bits {
        let lanes = lanes_of(setting, graph.constant_bits);
        let mut reached = BTreeSet::new();
        for (cycle, judged) in cycles.iter().zip(&mut judged) {
            let moment = Moment { cycle, setting };
            if moment.is_init() {
                reached = BTreeSet::from([Reached {
                    vertex: 0,
                    condemned: false,
                }]);
            }
            let (next, ends) = follow(graph, &reached, moment);
            reached = next;
            judged.rejected |= if ends.condemned { lanes } else { 0 };
            judged.checked |= if ends.terminal { lanes } else { 0 };
        }
    }
    judged
}

/// The lanes that run a setting of so many constant bits.
fn lanes_of(setting: usize, constant_bits: usize) -> u64 {
    let lanes = (0..64).filter(|lane| lane % (1 << constant_bits) == setting);
    lanes.fold(0, |word, lane| word | 1 << lane)
}

/// Whether some path ends on a terminal edge with all antecedents true, and whether one
/// that does so also has "at least one consequent false".
#[derive(Default)]
struct Ends {
    terminal: bool,
    condemned: bool,
}

/// Where the paths come to with this cycle's edge, and how they end there.
fn follow(graph: &Graph, reached: &BTreeSet<Reached>, moment: Moment) -> (BTreeSet<Reached>, Ends) {
    let mut next = BTreeSet::new();
    let mut ends = Ends::default();
    for path in reached {
        for edge in graph.edges.iter().filter(|edge| edge.from == path.vertex) {
            if let Some(condemned) = moment.take(edge, path.condemned) {
                next.insert(Reached {
                    vertex: edge.to,
                    condemned,
                });
                if graph.is_terminal(edge) {
                    ends.terminal = true;
                    ends.condemned |= condemned;
                }
            }
        }
    }
    (next, ends)
}

/// "Each edge's antecedent and consequent are judged on its own cycle's inputs
/// and the setting." Bit j of the setting is the j-th constant bit.
#[derive(Clone, Copy)]
struct Moment<'a> {
    cycle: &'a [u8],
    setting: usize,
}

impl Moment<'_> {
    /// "Byte v of a cycle is input v; input 1 is init."
    fn is_init(self) -> bool {
        self.cycle[0] == b'1'
    }

    fn judge(self, formula: &Formula<Operand>) -> bool {
        let value = |atom| match atom {
            Atom::Signal(place) => self.cycle[1 + place] == b'1',
            Atom::Constant(place) => (self.setting >> place) & 1 == 1,
        };
        formula.judge(&|operand| operand.judge(&value))
    }

    /// Whether a path is condemned after taking the edge; `None` if it cannot take it.
    fn take(self, edge: &Edge, condemned: bool) -> Option<bool> {
        self.judge(&edge.antecedent)
            .then(|| condemned || !self.judge(&edge.consequent))
    }
}

#[cfg(test)]
mod tests {
    use super::*;
    use crate::builder::{build, Outputs};
    use crate::simulator::{run, start, step, Tally, Words};
    use crate::testing::{graph_text, G};

    /// A path is a list of edges.
    type Path<'a> = Vec<&'a Edge>;

    /// Every path of this length: "the first leaves the start vertex, each
    /// further one leaves the vertex to which the edge before it goes".
    fn paths(graph: &Graph, length: usize) -> Vec<Path<'_>> {
        if length == 0 {
            return vec![Vec::new()];
        }
        let mut longer = Vec::new();
        for path in paths(graph, length - 1) {
            let at = path.last().map_or(0, |edge| edge.to);
            for edge in graph.edges.iter().filter(|edge| edge.from == at) {
                longer.push([&path[..], &[edge]].concat());
            }
        }
        longer
    }

    fn is_checking(graph: &Graph, path: &Path, cycles: &[&[u8]], setting: usize) -> bool {
        let moments = cycles.iter().map(|cycle| Moment { cycle, setting });
        let mut edges = path.iter().zip(moments);
        path.last().is_some_and(|edge| graph.is_terminal(edge))
            && edges.all(|(edge, moment)| moment.judge(&edge.antecedent))
    }

    fn is_rejecting(graph: &Graph, path: &Path, cycles: &[&[u8]], setting: usize) -> bool {
        let moments = cycles.iter().map(|cycle| Moment { cycle, setting });
        let mut edges = path.iter().zip(moments);
        is_checking(graph, path, cycles, setting)
            && edges.any(|(edge, moment)| !moment.judge(&edge.consequent))
    }

    /// Demand 3 and No. 7 word by word, path by path; each lane by itself.
    fn judged_by_enumeration(graph: &Graph, cycles: &[&[u8]]) -> Vec<Judged> {
        let mut judged = Vec::new();
        for asked in 0..cycles.len() {
            let latest_init = (0..=asked).rev().find(|cycle| cycles[*cycle][0] == b'1');
            let mut here = Judged::default();
            if let Some(init) = latest_init {
                let span = &cycles[init..=asked];
                let paths = paths(graph, span.len());
                for lane in 0..64 {
                    let setting = lane & ((1 << graph.constant_bits) - 1);
                    let some = |test: fn(&Graph, &Path, &[&[u8]], usize) -> bool| {
                        u64::from(paths.iter().any(|path| test(graph, path, span, setting)))
                    };
                    here.rejected |= some(is_rejecting) << lane;
                    here.checked |= some(is_checking) << lane;
                }
            }
            judged.push(here);
        }
        judged
    }

    fn judged(graph: &str, trace: &str) -> Vec<Judged> {
        let graph = Graph::parse(&graph_text(graph)).unwrap();
        let cycles: Vec<&[u8]> = trace.split(',').map(str::as_bytes).collect();
        let judged = judged_cycles(&graph, &cycles);
        let rejected: Vec<bool> = judged.iter().map(|judged| judged.is_rejected()).collect();
        assert_eq!(rejected_cycles(&graph, &cycles), rejected);
        judged
    }

    fn rejected(graph: &str, trace: &str) -> Vec<bool> {
        let judged = judged(graph, trace).into_iter();
        judged.map(Judged::is_rejected).collect()
    }

    fn checked(graph: &str, trace: &str) -> Vec<bool> {
        let judged = judged(graph, trace).into_iter();
        judged.map(Judged::is_checked).collect()
    }

    #[test]
    fn rules_at_stake() {
        assert_eq!(checked(G, "110,111,010"), [true, true, false]);
        assert_eq!(checked(G, "010"), [false], "no init");
        assert_eq!(checked("S p,V a,E a a t p 1", "10"), [false], "antecedent");
        let chain = "V a,V b,E a b - 1 1,E b b t 1 1";
        assert_eq!(checked(chain, "1,0,1"), [false, true, false]);
        let condemned = "S p,V a,E a a t 1 p";
        assert_eq!(checked(condemned, "10,01"), [true, true]);
        let unmarked = "V a,E a a - 1 1";
        assert_eq!(checked(unmarked, "1,0"), [true, true]);
        let terminal = format!("M terminal,{unmarked}");
        assert_eq!(checked(&terminal, "1,0"), [false, false]);
        let strong = format!("M strong,{chain}");
        assert_eq!(checked(&strong, "1,0,1"), [true, true, true]);
        // A first edge that cannot be taken: nothing is tested until the next init.
        let late = "S p,V a,V b,E a b - p 1,E b b t 1 0";
        assert_eq!(checked(late, "10,01,11,00"), [false, false, false, true]);
    }

    #[test]
    fn lanes_of_settings() {
        let odd = 0xAAAA_AAAA_AAAA_AAAA;
        let constant = "S p,K k,V a,E a a t k p";
        let due = |rejected, checked| vec![Judged { rejected, checked }];
        assert_eq!(judged(constant, "11"), due(0, odd));
        assert_eq!(judged(constant, "10"), due(odd, odd));
        // k is 2: in every fourth lane.
        let two = "K k 2,V a,E a a t k[1]&!k[0] 0";
        assert_eq!(
            judged(two, "1"),
            due(0x4444_4444_4444_4444, 0x4444_4444_4444_4444)
        );
        let six = "K k 6,V a,E a a t k[5] k[0]";
        assert_eq!(judged(six, "1"), due(0x5555_5555 << 32, 0xFFFF_FFFF << 32));
    }

    #[test]
    fn documents_examples() {
        assert_eq!(rejected(G, "110,111,010"), [true, false, false]);
        assert_eq!(rejected(G, "010"), [false]);
        let looped = format!("{G},E b b t p 1");
        assert_eq!(rejected(&looped, "110,011,001"), [true, true, false]);
        let constant = "S p,K k,V a,E a a t k p";
        assert_eq!(rejected(constant, "10"), [true]);
        assert_eq!(rejected(constant, "11"), [false]);
    }

    #[test]
    fn settings_of_constant_bits() {
        // Some setting has the value of s, and another one has not.
        let equal = "S s 2,K k 2,V a,E a a t s==k k[0]";
        let due = [true, false, true, false];
        assert_eq!(rejected(equal, "100,110,101,111"), due);
        let other = "S s 2,K k 2,V a,E a a t !s==k k[0]";
        assert_eq!(rejected(other, "100,110,101,111"), [true; 4]);
        // One setting in all cycles: the value of s in cycle 1 comes again in cycle 2.
        let again = "S s 2,K k 2,V a,V b,V c,E a b - s==k 1,E b c t 1 s==k";
        let value = |first: &str, second: &str| rejected(again, &format!("1{first},0{second}"));
        for first in ["00", "10", "01", "11"] {
            for second in ["00", "10", "01", "11"] {
                assert_eq!(value(first, second), [false, first != second]);
            }
        }
    }

    #[test]
    fn no_mark_means_all_edges() {
        let unmarked = "S p,S q,V a,V b,E a b - p q";
        let trace = "110,111,010";
        assert_eq!(rejected(unmarked, trace), [true, false, false]);
        let strong = format!("M strong,{unmarked}");
        assert_eq!(rejected(&strong, trace), [true, false, false]);
        let terminal = format!("M terminal,{unmarked}");
        assert_eq!(rejected(&terminal, trace), [false, false, false]);
        // A path is judged by its last edge: the loop's, of which nothing is asked.
        let chain =
            |marks: [&str; 2]| format!("V a,V b,E a b {} 1 0,E b b {} 1 1", marks[0], marks[1]);
        let rejected = |mode: &str, marks| rejected(&format!("{mode}{}", chain(marks)), "1,0,0");
        assert_eq!(rejected("", ["-", "-"]), [true, true, true]);
        assert_eq!(rejected("", ["-", "t"]), [false, true, true]);
        assert_eq!(rejected("", ["t", "-"]), [true, false, false]);
        assert_eq!(rejected("M terminal,", ["-", "-"]), [false; 3]);
        assert_eq!(rejected("M terminal,", ["-", "t"]), [false, true, true]);
        assert_eq!(rejected("M strong,", ["-", "t"]), [true, true, true]);
    }

    /// A tiny xorshift, for graphs and cycles of the test below.
    struct Random(u64);

    impl Random {
        fn below(&mut self, bound: usize) -> usize {
            self.0 ^= self.0 << 13;
            self.0 ^= self.0 >> 7;
            self.0 ^= self.0 << 17;
            (self.0 >> 20) as usize % bound
        }

        fn one_of<'a>(&mut self, choices: &[&'a str]) -> &'a str {
            choices[self.below(choices.len())]
        }
    }

    const FORMULAS: [&str; 10] = [
        "1", "1", "0", "p", "!q", "k", "p=k", "p|j", "q^j&k", "!(k=j)|p",
    ];
    /// Over names of width 2.
    const WIDE_FORMULAS: [&str; 10] = [
        "1",
        "1",
        "0",
        "s[0]",
        "!s[1]",
        "k[1]",
        "s==k",
        "!k==s",
        "s[1]|k[0]",
        "k==k&s[0]=k[1]",
    ];

    fn small_graph(random: &mut Random) -> String {
        let vertices = ["a", "b", "c"];
        let mode = random.one_of(&["", "", "M terminal,", "M strong,"]);
        let (records, formulas) = match random.below(2) {
            0 => ("S p,S q,K k,K j", FORMULAS),
            _ => ("S s 2,K k 2", WIDE_FORMULAS),
        };
        let mut graph = format!("{mode}{records},V a,V b,V c");
        // In every third graph no edge is marked.
        let marks = if random.below(3) == 0 {
            ["-", "-"]
        } else {
            ["t", "-"]
        };
        for _ in 0..random.below(6) {
            let (from, to) = (random.one_of(&vertices), random.one_of(&vertices));
            let mark = random.one_of(&marks);
            let (a, c) = (random.one_of(&formulas), random.one_of(&formulas));
            graph += &format!(",E {from} {to} {mark} {a} {c}");
        }
        graph
    }

    #[test]
    fn sets_of_reached_stand_for_all_paths() {
        let mut random = Random(0x1D0F_0A1A);
        let (mut hit, mut missed) = ([0, 0], [0, 0]);
        for _ in 0..3_000 {
            let notation = small_graph(&mut random);
            let graph = Graph::parse(&graph_text(&notation)).unwrap();
            let trace: Vec<[u8; 3]> = (0..1 + random.below(6))
                .map(|_| {
                    let init = usize::from(random.below(3) == 0);
                    [init, random.below(2), random.below(2)].map(|bit| b'0' + bit as u8)
                })
                .collect();
            let cycles: Vec<&[u8]> = trace.iter().map(|cycle| &cycle[..]).collect();
            let due = judged_by_enumeration(&graph, &cycles);
            assert_eq!(judged_cycles(&graph, &cycles), due, "{notation} {trace:?}");
            check_circuit(&notation, &cycles, &due);
            for judged in due {
                let counts = [judged.is_rejected(), judged.is_checked()];
                for (place, counts) in counts.into_iter().enumerate() {
                    hit[place] += usize::from(counts);
                    missed[place] += usize::from(!counts);
                }
            }
        }
        let enough = |counts: [usize; 2]| counts.iter().all(|count| *count > 500);
        assert!(enough(hit) && enough(missed), "{hit:?} {missed:?}");
    }

    /// The same by this crate's builder and simulator: words of steps, and a run.
    fn check_circuit(notation: &str, cycles: &[&[u8]], due: &[Judged]) {
        for outputs in [Outputs::Accept, Outputs::AcceptAndChecked] {
            let mut net = vec![0; 2_000];
            build(&graph_text(notation), outputs, &mut net).unwrap();
            let (mut latches, mut values) = (vec![0; 100], vec![0; 1_000]);
            let (mut verdicts, mut tally) = (vec![0; cycles.len()], Tally::default());
            let has_checked = outputs == Outputs::AcceptAndChecked;
            start(&net, &mut latches, &mut tally).unwrap();
            for (cycle, judged) in cycles.iter().zip(due) {
                let words = step(&net, cycle, &mut latches, &mut values, &mut tally);
                let due = Words {
                    accept: !judged.rejected,
                    checked: if has_checked { judged.checked } else { 0 },
                };
                assert_eq!(words, Ok(due), "{notation} {cycles:?}");
            }
            let of_steps = tally;
            start(&net, &mut latches, &mut tally).unwrap();
            let trace = [cycles.join(&b'\n'), b"\n".to_vec()].concat();
            let lent = (&mut latches, &mut values);
            run(&net, &trace, lent.0, lent.1, &mut verdicts, &mut tally).unwrap();
            let count = |test: fn(Judged) -> bool| {
                due.iter().filter(|judged| test(**judged)).count() as u32
            };
            let due_tally = Tally {
                cycles: cycles.len() as u32,
                rejected: count(Judged::is_rejected),
                checked: if has_checked {
                    count(Judged::is_checked)
                } else {
                    0
                },
            };
            assert_eq!((tally, of_steps), (due_tally, due_tally), "{notation}");
            let due_verdicts: Vec<u8> = due.iter().map(|j| u8::from(j.is_rejected())).collect();
            assert_eq!(verdicts, due_verdicts);
        }
    }
}
