//! Of what No. 6 of document 02 says of the cycles that are rejected: which kinds were met for each
//! number of strokes, and how often.

use crate::buffers::{listing_count_after, MOST_STROKES};
use std::collections::BTreeMap;
use std::fmt;

/// Of traces, and of their cycles. A cycle is judged where reset was high at the latest init and
/// it is not itself an init. By the prose of source 001 enq and deq together leave the count as it
/// is, also at 0 and at k, where the listing moves it; its flags are counted where none was wrong
/// before them.
const KINDS: [&str; 14] = [
    "a trace without init",
    "judged, accepted",
    "judged, rejected",
    "judged, rejected with right flags",
    "wrong flags without init",
    "wrong flags at an init",
    "wrong flags, reset low at the latest init",
    "k counted, accepted",
    "deq alone at 0, then accepted",
    "enq alone at k, then accepted",
    "enq and deq at 0, then accepted",
    "enq and deq at k, then accepted",
    "enq and deq at 0, then rejected with the prose's flags",
    "enq and deq at k, then rejected with the prose's flags",
];

#[derive(Default)]
pub struct Counts {
    met: BTreeMap<(&'static str, u64), u64>,
}

/// The count before a cycle, and what was before it.
#[derive(Default)]
struct State {
    count: u64,
    /// Whether reset was high at the latest init; `None` if there was none.
    reset: Option<bool>,
    /// Whether a flag was wrong since that.
    wrong: bool,
    /// The count, enq and deq of the cycle before, if that was no init.
    before: Option<(u64, bool, bool)>,
}

impl Counts {
    /// Counts a trace and its cycles under each of their kinds.
    pub fn record(&mut self, strokes: u64, cycles: &[&[u8]], verdicts: &[u8]) {
        let mut state = State::default();
        for (cycle, verdict) in cycles.iter().zip(verdicts) {
            let kinds = state.kinds(strokes, cycle, *verdict == 1);
            self.add(strokes, kinds);
            state.take(strokes, cycle);
        }
        let without_init = !cycles.is_empty() && state.reset.is_none();
        self.add(strokes, [("a trace without init", without_init)]);
    }

    fn add(&mut self, strokes: u64, kinds: impl IntoIterator<Item = (&'static str, bool)>) {
        for (kind, _) in kinds.into_iter().filter(|(_, is_met)| *is_met) {
            *self.met.entry((kind, strokes)).or_default() += 1;
        }
    }

    fn count(&self, kind: &'static str, strokes: u64) -> u64 {
        self.met.get(&(kind, strokes)).copied().unwrap_or(0)
    }

    /// The kinds that should have been met and were not.
    pub fn gaps(&self) -> Vec<String> {
        let mut gaps = Vec::new();
        for strokes in 1..=MOST_STROKES {
            let unmet = KINDS.iter().filter(|kind| self.count(kind, strokes) == 0);
            gaps.extend(unmet.map(|kind| format!("{strokes} strokes: {kind}")));
        }
        gaps
    }
}

impl State {
    fn kinds(&self, strokes: u64, cycle: &[u8], rejected: bool) -> [(&'static str, bool); 13] {
        let says = |count: u64| flags(cycle) == flags_of(strokes, count);
        let right = says(self.count);
        let init = cycle[0] == b'1';
        let judged = self.reset == Some(true) && !init;
        let accepted = judged && !rejected;
        let after = |at: u64, enq: bool, deq: bool| self.before == Some((at, enq, deq));
        let by_prose = |at: u64| judged && rejected && !self.wrong && says(at);
        [
            ("judged, accepted", accepted),
            ("judged, rejected", judged && rejected),
            (
                "judged, rejected with right flags",
                judged && rejected && right,
            ),
            (
                "wrong flags without init",
                self.reset.is_none() && !init && !right,
            ),
            ("wrong flags at an init", init && !right),
            (
                "wrong flags, reset low at the latest init",
                self.reset == Some(false) && !init && !right,
            ),
            ("k counted, accepted", accepted && self.count == strokes),
            (
                "deq alone at 0, then accepted",
                accepted && after(0, false, true),
            ),
            (
                "enq alone at k, then accepted",
                accepted && after(strokes, true, false),
            ),
            (
                "enq and deq at 0, then accepted",
                accepted && after(0, true, true),
            ),
            (
                "enq and deq at k, then accepted",
                accepted && after(strokes, true, true),
            ),
            (
                "enq and deq at 0, then rejected with the prose's flags",
                after(0, true, true) && by_prose(0),
            ),
            (
                "enq and deq at k, then rejected with the prose's flags",
                after(strokes, true, true) && by_prose(strokes),
            ),
        ]
    }

    /// Moves on to the next cycle.
    fn take(&mut self, strokes: u64, cycle: &[u8]) {
        if cycle[0] == b'1' {
            *self = State {
                reset: Some(cycle[1] == b'1'),
                ..State::default()
            };
            return;
        }
        self.wrong |= flags(cycle) != flags_of(strokes, self.count);
        self.before = Some((self.count, cycle[2] == b'1', cycle[3] == b'1'));
        self.count = listing_count_after(strokes, self.count, cycle);
    }
}

/// `empty` and `full` as they are.
fn flags(cycle: &[u8]) -> [bool; 2] {
    [cycle[4] == b'1', cycle[5] == b'1']
}

/// `empty` and `full` as a count has them.
fn flags_of(strokes: u64, count: u64) -> [bool; 2] {
    [count == 0, count == strokes]
}

impl fmt::Display for Counts {
    fn fmt(&self, f: &mut fmt::Formatter) -> fmt::Result {
        let shown = KINDS.map(|kind| {
            let counts = (1..=MOST_STROKES).map(|strokes| self.count(kind, strokes));
            let fewest = counts.clone().min().unwrap_or(0);
            format!("{kind}: {} ({fewest})", counts.sum::<u64>())
        });
        write!(
            f,
            "stroke buffers (fewest for one number of strokes): {}",
            shown.join("; ")
        )
    }
}
