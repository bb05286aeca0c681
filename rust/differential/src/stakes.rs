//! Of what No. 7 of document 02 adds to the calls: which kinds were met, and how often.

use crate::aigers::{header_of, Form};
use crate::compare::{Call, Name, Outcome};
use crate::graphs::variables;
use crate::netlists::net_of;
use reference::{Graph, Header, Netlist, Outputs, Tally};
use std::collections::BTreeMap;
use std::fmt;

/// Of builds with checked, by their terminal edges and by what checked costs.
const BUILDS: [&str; 9] = [
    "no terminal edge",
    "1 terminal edge",
    "2 terminal edges",
    "3 terminal edges or more",
    "128 terminal edges",
    "4,095 variables",
    "11 by the gates of checked alone",
    "12 with room for all but checked",
    "12 by one number",
];
/// Of files of text; `alone` says that the header breaks no other limit.
const FILES: [&str; 10] = [
    "O of 1",
    "O of 2",
    "8,195 numbers",
    "14 at O of 0 alone",
    "14 at O of 3 alone",
    "13 at a missing second output",
    "13 at a second output's line",
    "14 at a second output",
    "13 at a second output with O of 1",
    "12 with O of 2",
];
/// The calls that take a netlist.
const ON_NETLISTS: [Name; 8] = [
    Name::Write,
    Name::WritePacked,
    Name::Start,
    Name::Step,
    Name::Run,
    Name::StartChecked,
    Name::StepChecked,
    Name::RunChecked,
];
/// Of netlists; `alone` says that the numbers are a netlist but for that, and `no graph's`
/// that a latch starts as 1, which no built one does.
const NETLISTS: [&str; 6] = [
    "O of 1",
    "O of 2",
    "O of 2, no graph's",
    "16 at O of 0 alone",
    "16 at O of 3 alone",
    "16 at a second output alone",
];
const NUMBERS: [&str; 3] = ["cycles", "rejected", "checked"];
/// Of the cycle of an accepted step with two outputs.
const WORDS: [&str; 6] = [
    "accepted, checked in no lane",
    "accepted, checked in some lanes",
    "accepted, checked in all lanes",
    "rejected, checked in no lane",
    "rejected, checked in some lanes",
    "rejected, checked in all lanes",
];
/// Of the cycles of an accepted run with two outputs.
const RUNS: [&str; 3] = [
    "no cycle checked",
    "some cycles checked",
    "all cycles checked",
];
/// Of a second word by the paths of the graph.
const LANES: [&str; 3] = ["no lane", "some lanes", "all lanes"];

/// By which names the steps and runs of a list of calls are.
#[derive(Clone, Copy, Debug, PartialEq, Eq, PartialOrd, Ord)]
pub enum Names {
    Old,
    New,
    Both,
}

/// A list of calls since a start: the outputs of its netlist, whether that was built of a
/// graph, and its names.
#[derive(Clone, Copy, PartialEq, Eq, PartialOrd, Ord)]
pub struct List {
    pub outputs: u16,
    pub built: bool,
    pub names: Names,
}

impl fmt::Display for List {
    fn fmt(&self, f: &mut fmt::Formatter) -> fmt::Result {
        let netlist = if self.built { "built" } else { "random" };
        let names = match self.names {
            Names::Old => "old names",
            Names::New => "new names",
            Names::Both => "both names",
        };
        write!(f, "O of {}, {netlist}, {names}", self.outputs)
    }
}

#[derive(Default)]
pub struct Stakes {
    met: BTreeMap<(Name, String), u64>,
    lists: BTreeMap<List, u64>,
    /// Second words that were compared with the paths.
    lanes: BTreeMap<&'static str, u64>,
    /// Cycles whose third number was compared with the paths, and those that moved it.
    path_cycles: u64,
    path_checked: u64,
}

impl Stakes {
    /// Counts a call under each of its kinds; `before` is the tally that it was lent.
    pub fn record(&mut self, call: &Call, before: Tally, outcome: &Outcome) {
        let kinds = match call.name {
            Name::BuildChecked => of_build(&call.bytes, outcome),
            Name::Read => of_file(&call.bytes, outcome),
            name if ON_NETLISTS.contains(&name) => of_call(call, before, outcome),
            _ => Vec::new(),
        };
        for kind in kinds {
            *self.met.entry((call.name, kind)).or_default() += 1;
        }
    }

    pub fn record_list(&mut self, list: List) {
        *self.lists.entry(list).or_default() += 1;
    }

    /// Counts a second word that is what the paths say.
    pub fn record_word(&mut self, word: u64) {
        *self.lanes.entry(LANES[lanes(word)]).or_default() += 1;
    }

    /// Counts cycles of which the third number is what the paths say.
    pub fn record_paths(&mut self, cycles: usize, checked: usize) {
        self.path_cycles += cycles as u64;
        self.path_checked += checked as u64;
    }

    /// The kinds that should have been met and were not.
    pub fn gaps(&self) -> Vec<String> {
        let calls = due_of_calls().into_iter();
        let unmet = calls.filter(|kind| !self.met.contains_key(kind));
        let mut gaps: Vec<String> = unmet
            .map(|(name, kind)| format!("{name:?}: {kind}"))
            .collect();
        let lists = due_lists().into_iter();
        let unmet = lists.filter(|list| !self.lists.contains_key(list));
        gaps.extend(unmet.map(|list| format!("a list of calls, {list}")));
        let unmet = LANES
            .iter()
            .filter(|lanes| !self.lanes.contains_key(*lanes));
        gaps.extend(unmet.map(|lanes| format!("a second word by paths in {lanes}")));
        if self.path_checked == 0 || self.path_checked == self.path_cycles {
            gaps.push("cycles checked by paths".into());
        }
        gaps
    }
}

/// 0, 1 or 2: high in no lane, in some, in all.
fn lanes(word: u64) -> usize {
    match word {
        0 => 0,
        u64::MAX => 2,
        _ => 1,
    }
}

fn due_of_calls() -> Vec<(Name, String)> {
    let mut due = due_of_tallies();
    let mut add = |name: Name, kinds: &[&str]| {
        due.extend(kinds.iter().map(|kind| (name, kind.to_string())));
    };
    add(Name::BuildChecked, &BUILDS);
    add(Name::Read, &FILES);
    for name in ON_NETLISTS {
        add(name, &NETLISTS);
    }
    add(Name::StepChecked, &WORDS);
    add(Name::RunChecked, &RUNS);
    due
}

fn due_of_tallies() -> Vec<(Name, String)> {
    let mut due = Vec::new();
    for outputs in [1, 2] {
        for name in [Name::StepChecked, Name::RunChecked] {
            for number in NUMBERS {
                due.push((name, full(number, outputs)));
                due.push((name, just_room(number, outputs)));
            }
        }
        for name in [Name::Step, Name::Run] {
            for number in &NUMBERS[..2] {
                due.push((name, full(number, outputs)));
            }
        }
        due.push((Name::RunChecked, empty_trace(outputs)));
    }
    due
}

fn due_lists() -> Vec<List> {
    let mut due = Vec::new();
    for outputs in [1, 2] {
        for built in [true, false] {
            for names in [Names::Old, Names::New, Names::Both] {
                due.push(List {
                    outputs,
                    built,
                    names,
                });
            }
        }
    }
    due
}

fn full(number: &str, outputs: u16) -> String {
    format!("17 at {number} alone, O of {outputs}")
}

fn just_room(number: &str, outputs: u16) -> String {
    format!("just room in {number}, O of {outputs}")
}

fn empty_trace(outputs: u16) -> String {
    format!("no cycle, checked full, O of {outputs}")
}

/// Those of the kinds that are met.
fn those_met<const N: usize>(kinds: [(&str, bool); N]) -> Vec<String> {
    let met = kinds.into_iter().filter(|(_, is_met)| *is_met);
    met.map(|(kind, _)| kind.to_string()).collect()
}

fn of_build(text: &[u8], outcome: &Outcome) -> Vec<String> {
    let lent = outcome.memory.net.get();
    match outcome.number {
        0 => {
            let graph = Graph::parse(text).expect("an accepted graph");
            let edges = graph.edges.iter();
            let terminal = edges.filter(|edge| graph.is_terminal(edge)).count();
            those_met([
                ("no terminal edge", terminal == 0),
                ("1 terminal edge", terminal == 1),
                ("2 terminal edges", terminal == 2),
                ("3 terminal edges or more", terminal >= 3),
                ("128 terminal edges", terminal == 128),
                ("4,095 variables", lent[0] == 4_095),
            ])
        }
        11 => {
            let without = variables(text, Outputs::Accept);
            let alone = without.is_some_and(|variables| variables <= 4_095);
            those_met([("11 by the gates of checked alone", alone)])
        }
        12 => {
            let needed = |outputs| net_of(text, outputs).map(|net| net.len());
            let without = needed(Outputs::Accept);
            let with = needed(Outputs::AcceptAndChecked);
            let has_room = without.is_some_and(|without| without <= lent.len());
            those_met([
                ("12 with room for all but checked", has_room),
                ("12 by one number", with == Some(lent.len() + 1)),
            ])
        }
        _ => Vec::new(),
    }
}

fn of_file(text: &[u8], outcome: &Outcome) -> Vec<String> {
    let Some([variables, inputs, latches, outputs, gates]) = header_of(text, Form::Text) else {
        return Vec::new();
    };
    let header = [variables, inputs, latches, 1, gates].map(|count| count as u32);
    let alone = Header::from_numbers(header).is_lawful();
    // The header's line, the inputs', the latches' and the first output's stand before it.
    let second = inputs + latches + 3;
    let lines = text.iter().filter(|byte| **byte == b'\n').count();
    let refused = |number, line| (outcome.number, outcome.line as usize) == (number, line);
    let taken = outcome.is_accepted();
    those_met([
        ("O of 1", taken && outputs == 1),
        ("O of 2", taken && outputs == 2),
        ("8,195 numbers", taken && outcome.memory.answer == 8_195),
        (
            "14 at O of 0 alone",
            refused(14, 1) && outputs == 0 && alone,
        ),
        (
            "14 at O of 3 alone",
            refused(14, 1) && outputs == 3 && alone,
        ),
        (
            "13 at a missing second output",
            refused(13, second) && outputs == 2 && lines + 1 == second,
        ),
        (
            "13 at a second output's line",
            refused(13, second) && outputs == 2 && lines >= second,
        ),
        ("14 at a second output", refused(14, second) && outputs == 2),
        (
            "13 at a second output with O of 1",
            refused(13, second) && outputs == 1,
        ),
        ("12 with O of 2", refused(12, 0) && outputs == 2),
    ])
}

fn of_call(call: &Call, before: Tally, outcome: &Outcome) -> Vec<String> {
    let Some(&outputs) = call.net.get(3) else {
        return Vec::new();
    };
    match outcome.number {
        0 => {
            let mut kinds = of_netlist(&call.net);
            kinds.extend(of_tally(call, before, outputs));
            if outputs == 2 {
                kinds.extend(of_outputs(call, before, outcome));
            }
            kinds
        }
        16 => those_met([
            (
                "16 at O of 0 alone",
                outputs == 0 && is_netlist_but_for_o(&call.net),
            ),
            (
                "16 at O of 3 alone",
                outputs == 3 && is_netlist_but_for_o(&call.net),
            ),
            (
                "16 at a second output alone",
                outputs == 2 && is_netlist_but_for_second(&call.net),
            ),
        ]),
        17 => match short_of(call, before)[..] {
            [number] => vec![full(number, outputs)],
            _ => Vec::new(),
        },
        _ => Vec::new(),
    }
}

fn of_netlist(net: &[u16]) -> Vec<String> {
    let (latches, outputs) = (usize::from(net[2]), net[3]);
    let starts_as_1 = net[5..][..2 * latches].chunks(2).any(|latch| latch[1] == 1);
    those_met([
        ("O of 1", outputs == 1),
        ("O of 2", outputs == 2),
        ("O of 2, no graph's", outputs == 2 && starts_as_1),
    ])
}

/// The place of the first output.
fn first_output(net: &[u16]) -> usize {
    5 + 2 * usize::from(net[2])
}

/// Whether an output more where there is none, or one less where there are three, makes the
/// numbers a netlist.
fn is_netlist_but_for_o(net: &[u16]) -> bool {
    let (mut other, place) = (net.to_vec(), first_output(net));
    if place >= net.len() {
        return false;
    }
    match net[3] {
        0 => other.insert(place, 0),
        _ => drop(other.remove(place)),
    }
    other[3] = if net[3] == 0 { 1 } else { net[3] - 1 };
    Netlist::from_numbers(&other).is_some()
}

fn is_netlist_but_for_second(net: &[u16]) -> bool {
    let (mut other, place) = (net.to_vec(), first_output(net) + 1);
    if place >= net.len() {
        return false;
    }
    other[place] = 0;
    Netlist::from_numbers(&other).is_some()
}

/// The cycles that a step or a run adds if it is accepted.
fn new_cycles(call: &Call) -> u32 {
    match call.name {
        Name::Step | Name::StepChecked => 1,
        Name::Run | Name::RunChecked => {
            call.bytes.iter().filter(|byte| **byte == b'\n').count() as u32
        }
        _ => 0,
    }
}

/// The numbers of the tally that the call is lent, by name.
fn numbers(call: &Call, tally: Tally) -> Vec<(&'static str, u32)> {
    let values = [tally.cycles, tally.rejected, tally.checked];
    let count = if call.name.counts_checked() { 3 } else { 2 };
    NUMBERS.into_iter().zip(values).take(count).collect()
}

/// The numbers that have no room for the new cycles.
fn short_of(call: &Call, before: Tally) -> Vec<&'static str> {
    let numbers = numbers(call, before).into_iter();
    let short = numbers.filter(|(_, number)| u32::MAX - number < new_cycles(call));
    short.map(|(name, _)| name).collect()
}

fn of_tally(call: &Call, before: Tally, outputs: u16) -> Vec<String> {
    if !matches!(call.name, Name::StepChecked | Name::RunChecked) {
        return Vec::new();
    }
    match new_cycles(call) {
        0 if before.checked == u32::MAX => vec![empty_trace(outputs)],
        0 => Vec::new(),
        new_cycles => {
            let numbers = numbers(call, before).into_iter();
            let just = numbers.filter(|(_, number)| u32::MAX - number == new_cycles);
            just.map(|(name, _)| just_room(name, outputs)).collect()
        }
    }
}

/// Of an accepted call with two outputs.
fn of_outputs(call: &Call, before: Tally, outcome: &Outcome) -> Vec<String> {
    let memory = &outcome.memory;
    let kind = match (call.name, new_cycles(call)) {
        (Name::StepChecked, _) => {
            let rejected = usize::from(memory.answer != u64::MAX);
            WORDS[3 * rejected + lanes(memory.checked_word)]
        }
        (Name::RunChecked, 1..) => match memory.tally.checked - before.checked {
            0 => RUNS[0],
            moved if moved == new_cycles(call) => RUNS[2],
            _ => RUNS[1],
        },
        _ => return Vec::new(),
    };
    vec![kind.to_string()]
}

impl fmt::Display for Stakes {
    fn fmt(&self, f: &mut fmt::Formatter) -> fmt::Result {
        let due = due_of_calls();
        for name in [Name::BuildChecked, Name::Read].iter().chain(&ON_NETLISTS) {
            let kinds = due.iter().filter(|(of, _)| of == name);
            let shown: Vec<String> = kinds
                .map(|kind| format!("{}: {}", kind.1, self.met.get(kind).unwrap_or(&0)))
                .collect();
            let name_shown = format!("{name:?}").to_lowercase();
            writeln!(f, "{name_shown}, by outputs: {}", shown.join("; "))?;
        }
        let lists: Vec<String> = due_lists()
            .iter()
            .map(|list| format!("{list}: {}", self.lists.get(list).unwrap_or(&0)))
            .collect();
        writeln!(f, "lists of calls: {}", lists.join("; "))?;
        let lanes = LANES.map(|lanes| {
            let count = self.lanes.get(lanes).unwrap_or(&0);
            format!("in {lanes} {count}")
        });
        writeln!(f, "second words by paths: {}", lanes.join(", "))?;
        let (cycles, checked) = (self.path_cycles, self.path_checked);
        write!(
            f,
            "third number by paths: {cycles} cycles, {checked} of them checked"
        )
    }
}
