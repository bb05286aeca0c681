//! Of what No. 13 of document 02 adds, the calls on a bench of eight machines: which kinds were
//! met, and how often.

use crate::compare::{Call, Memory, Name, Outcome};
use crate::machines::{LAST, MOST_WAITING, PLACES, SLOT};
use reference::{Judged, Netlist};
use std::collections::BTreeMap;
use std::fmt;

/// A kind, and the first and last of the numbers for each of which it must be met: a place, a count
/// of waiting cycles, one of the tally's three numbers, a count of turns or of outputs, a rest.
type Kind = (&'static str, u32, u32);

/// Of either call. A place is at fault in one of four ways; `alone` says that nothing else is.
const OF_BOTH: [Kind; 13] = [
    ("16 at no netlist in a place alone", 0, 7),
    ("16 at a queue above 16 in a place alone", 0, 7),
    (
        "16 at a waiting cycle without a slot in a place alone",
        0,
        7,
    ),
    ("16 at a wrong waiting cycle in a place alone", 0, 7),
    ("16 at the last one served alone", 0, 0),
    ("16 at fewer than 33 numbers", 0, 0),
    ("written, a rest behind the netlists", 0, 7),
    ("written, a rest behind the latch words", 0, 7),
    ("written, a rest behind the queues", 0, 7),
    ("written, numbers behind the 33rd", 0, 0),
    ("written, nothing behind the machine's netlist", 0, 0),
    ("written, a surplus behind the machine's netlist", 0, 0),
    ("written, a part of a slot behind the queue", 0, 0),
];
/// Of a new cycle; `where` names a refusal that it would have had next.
const OF_ADDS: [Kind; 24] = [
    ("taken for a machine", 0, 7),
    ("taken with so many waiting", 0, 15),
    ("taken with just room in a number", 1, 3),
    ("27 for 8", 0, 0),
    ("27 for 4,294,967,295", 0, 0),
    ("27 where 16 would be", 0, 0),
    ("16 in its own place alone", 0, 0),
    ("16 in another place alone", 0, 0),
    ("16 in another place, where 28 would be", 0, 0),
    ("16 in another place, where 15 would be", 0, 0),
    ("28 for a machine", 0, 7),
    ("28 where 15 would be", 0, 0),
    ("28 where 12 would be", 0, 0),
    ("28 where 17 would be", 0, 0),
    ("15 by too few bytes", 0, 0),
    ("15 by too many bytes", 0, 0),
    ("15 by a wrong byte alone", 0, 0),
    ("15 where 12 would be", 0, 0),
    ("15 where 17 would be", 0, 0),
    ("12 by latch words alone", 0, 0),
    ("12 by slots alone", 0, 0),
    ("12 where 17 would be", 0, 0),
    ("17 at a number alone", 1, 3),
    ("17 at a number alone, by those waiting", 1, 3),
];
/// Of a turn. A wait is counted in accepted turns, with the one in which the machine is served.
const OF_TURNS: [Kind; 17] = [
    ("idle after the last one served", 0, 7),
    ("idle with too few latch words", 0, 0),
    ("idle with no value word", 0, 0),
    ("idle with a full tally", 0, 0),
    ("served, a machine", 0, 7),
    ("served so many after the last one", 1, 8),
    ("served with so many waiting", 1, 16),
    ("served with just room in a number", 1, 3),
    ("served with surplus value words", 0, 0),
    ("12 by latch words alone", 0, 0),
    ("12 by value words alone, for a machine", 0, 7),
    ("12 by one value word", 0, 0),
    ("12 where 17 would be", 0, 0),
    ("17 at a number alone", 1, 3),
    ("17 for a machine", 0, 7),
    ("17 with another machine to be served", 0, 0),
    ("12 with another machine to be served", 0, 0),
];
/// Of sessions from the start of eight machines on.
const OF_SESSIONS: [Kind; 11] = [
    ("a wait of so many turns", 1, 8),
    ("a wait of eight turns, for a machine", 0, 7),
    ("a queue of 16, for a machine", 0, 7),
    ("idle", 0, 0),
    ("served, built with so many outputs", 1, 2),
    ("served, random with so many outputs", 1, 2),
    ("a cycle refused with 27", 0, 0),
    ("a cycle refused with 28", 0, 0),
    ("a cycle refused with 15", 0, 0),
    ("a cycle refused with 12", 0, 0),
    ("a turn refused with 12, then the same machine served", 0, 0),
];

/// What a kind is of.
#[derive(Clone, Copy, Debug, PartialEq, Eq, PartialOrd, Ord)]
enum Of {
    Adds,
    Turns,
    Sessions,
}

#[derive(Default)]
pub struct Rounds {
    met: BTreeMap<(Of, &'static str, u32), u64>,
    /// Cycles of sessions compared with the paths of their machine's graph, and those that are
    /// rejected, and checked.
    path_cycles: u64,
    path_rejected: u64,
    path_checked: u64,
}

impl Rounds {
    /// Counts a call on a bench under each of its kinds; `before` is what it was lent.
    pub fn record(&mut self, call: &Call, before: &Memory, outcome: &Outcome) {
        let given = Given { call, before };
        let (of, kinds) = match call.name {
            Name::BenchAdd => (Of::Adds, given.of_add(outcome.number)),
            _ => (Of::Turns, given.of_turn(outcome)),
        };
        for (kind, number) in kinds.into_iter().chain(given.of_both(outcome)) {
            *self.met.entry((of, kind, number)).or_default() += 1;
        }
    }

    /// Counts a kind that a session met.
    pub fn record_session(&mut self, kind: &'static str, number: usize) {
        let key = (Of::Sessions, kind, number as u32);
        *self.met.entry(key).or_default() += 1;
    }

    /// Counts cycles whose words and tally are what the paths say.
    pub fn record_paths(&mut self, judged: &[Judged]) {
        let count = |test: fn(Judged) -> bool| judged.iter().filter(|cycle| test(**cycle)).count();
        self.path_cycles += judged.len() as u64;
        self.path_rejected += count(Judged::is_rejected) as u64;
        self.path_checked += count(Judged::is_checked) as u64;
    }

    fn count(&self, of: Of, kind: &'static str, number: u32) -> u64 {
        self.met.get(&(of, kind, number)).copied().unwrap_or(0)
    }

    /// The kinds that should have been met and were not.
    pub fn gaps(&self) -> Vec<String> {
        let mut gaps = Vec::new();
        for (of, (kind, first, last)) in due() {
            let unmet = (first..=last).filter(|number| self.count(of, kind, *number) == 0);
            gaps.extend(unmet.map(|number| format!("bench, {of:?}: {kind}, {number}")));
        }
        for count in [self.path_rejected, self.path_checked] {
            if count == 0 || count == self.path_cycles {
                gaps.push("paths of machines on a bench".into());
            }
        }
        gaps
    }
}

fn due() -> Vec<(Of, Kind)> {
    let mut due = Vec::new();
    for (of, kinds) in [
        (Of::Adds, &OF_BOTH[..]),
        (Of::Adds, &OF_ADDS),
        (Of::Turns, &OF_BOTH),
        (Of::Turns, &OF_TURNS),
        (Of::Sessions, &OF_SESSIONS),
    ] {
        due.extend(kinds.iter().map(|kind| (of, *kind)));
    }
    due
}

/// A kind that is met, and its number.
type Met = (&'static str, u32);

/// A call on a bench with what it was lent.
struct Given<'a> {
    call: &'a Call,
    before: &'a Memory,
}

/// Those of the kinds that are met, with number 0.
fn those_met<const N: usize>(kinds: [(&'static str, bool); N]) -> Vec<Met> {
    let met = kinds.into_iter().filter(|(_, is_met)| *is_met);
    met.map(|(kind, _)| (kind, 0)).collect()
}

impl<'a> Given<'a> {
    fn numbers(&self) -> &'a [u32] {
        self.before.numbers.get()
    }

    fn net(&self, place: usize) -> &'a [u16] {
        part(&self.call.net, place)
    }

    fn queue(&self, place: usize) -> &'a [u8] {
        part(self.before.queues.get(), place)
    }

    fn inputs(&self, place: usize) -> usize {
        usize::from(self.net(place).get(1).copied().unwrap_or(0))
    }

    fn waiting(&self, place: usize) -> usize {
        self.numbers()[4 * place] as usize
    }

    fn tally(&self, place: usize) -> &'a [u32] {
        &self.numbers()[4 * place + 1..][..3]
    }

    fn is_cycle(&self, place: usize, cycle: &[u8]) -> bool {
        let inputs = self.inputs(place);
        cycle.len() == inputs && cycle.iter().all(|byte| b"01".contains(byte))
    }

    fn has_latches(&self, place: usize) -> bool {
        let latches = self.net(place).get(2).copied().unwrap_or(0);
        part(self.before.latches.get(), place).len() >= usize::from(latches)
    }

    /// Which of the three numbers has no room for so many new cycles, counted from 1.
    fn full(&self, place: usize, new_cycles: usize) -> Vec<u32> {
        let numbers = (1..).zip(self.tally(place));
        let full = numbers.filter(|(_, number)| ((u32::MAX - **number) as usize) < new_cycles);
        full.map(|(at, _)| at).collect()
    }

    fn just_room(&self, place: usize, new_cycles: usize) -> Vec<u32> {
        let numbers = (1..).zip(self.tally(place));
        let just = numbers.filter(|(_, number)| (u32::MAX - **number) as usize == new_cycles);
        just.map(|(at, _)| at).collect()
    }

    /// How a place is at fault.
    fn fault(&self, place: usize) -> Option<Met> {
        let [netlist, above, slot, cycle, ..] = OF_BOTH.map(|(kind, ..)| kind);
        let (waiting, queue) = (self.waiting(place), self.queue(place));
        let at_fault = |cells: &[u8]| !self.is_cycle(place, &cells[..self.inputs(place)]);
        let kind = if Netlist::from_numbers(self.net(place)).is_none() {
            netlist
        } else if waiting > MOST_WAITING {
            above
        } else if SLOT * waiting > queue.len() {
            slot
        } else if queue.chunks_exact(SLOT).take(waiting).any(at_fault) {
            cycle
        } else {
            return None;
        };
        Some((kind, place as u32))
    }

    fn faults(&self) -> Vec<Met> {
        let [_, _, _, _, last, few, ..] = OF_BOTH.map(|(kind, ..)| kind);
        if self.numbers().len() <= LAST {
            return vec![(few, 0)];
        }
        let mut faults: Vec<Met> = (0..PLACES).filter_map(|place| self.fault(place)).collect();
        if self.numbers()[LAST] > 7 {
            faults.push((last, 0));
        }
        faults
    }

    fn of_both(&self, outcome: &Outcome) -> Vec<Met> {
        let written = outcome.memory.numbers != self.before.numbers;
        match outcome.number {
            16 => match self.faults()[..] {
                [fault] => vec![fault],
                _ => Vec::new(),
            },
            0 if written => {
                let rest = |length: usize| (length % PLACES) as u32;
                let nets = &self.call.net;
                let place = match self.call.name {
                    Name::BenchAdd => self.call.machine() as usize,
                    _ => outcome.memory.served as usize,
                };
                let netlist = Netlist::from_numbers(self.net(place));
                let needed = netlist.map_or(0, |netlist| netlist.numbers().len());
                let surplus = self.net(place).len() - needed;
                let queues = self.before.queues.get().len();
                let mut kinds = vec![
                    ("written, a rest behind the netlists", rest(nets.len())),
                    (
                        "written, a rest behind the latch words",
                        rest(self.before.latches.get().len()),
                    ),
                    ("written, a rest behind the queues", rest(queues)),
                ];
                kinds.extend(those_met([
                    (
                        "written, numbers behind the 33rd",
                        self.numbers().len() > LAST + 1,
                    ),
                    (
                        "written, nothing behind the machine's netlist",
                        surplus == 0,
                    ),
                    (
                        "written, a surplus behind the machine's netlist",
                        surplus > 0,
                    ),
                    (
                        "written, a part of a slot behind the queue",
                        !(queues / PLACES).is_multiple_of(SLOT),
                    ),
                ]));
                kinds
            }
            _ => Vec::new(),
        }
    }

    fn of_add(&self, number: u32) -> Vec<Met> {
        let (machine, cycle) = (self.call.machine(), &self.call.bytes);
        let place = machine as usize;
        if number == 27 {
            return those_met([
                ("27 for 8", machine == 8),
                ("27 for 4,294,967,295", machine == u32::MAX),
                ("27 where 16 would be", !self.faults().is_empty()),
            ]);
        }
        if self.numbers().len() <= LAST {
            return Vec::new();
        }
        let waiting = self.waiting(place);
        let wrong = !self.is_cycle(place, cycle);
        let no_latches = !self.has_latches(place);
        let no_slot = SLOT * (waiting + 1) > self.queue(place).len();
        let short = no_latches || no_slot;
        let full = self.full(place, waiting + 1);
        let inputs = self.inputs(place);
        match number {
            0 => {
                let just = self.just_room(place, waiting + 1).into_iter();
                let mut kinds = vec![
                    ("taken for a machine", machine),
                    ("taken with so many waiting", waiting as u32),
                ];
                kinds.extend(just.map(|at| ("taken with just room in a number", at)));
                kinds
            }
            16 => {
                let faults = self.faults();
                let own = self.fault(place).is_some();
                let alone = faults.len() == 1;
                those_met([
                    ("16 in its own place alone", alone && own),
                    ("16 in another place alone", alone && !own),
                    (
                        "16 in another place, where 28 would be",
                        !own && waiting == MOST_WAITING,
                    ),
                    ("16 in another place, where 15 would be", !own && wrong),
                ])
            }
            28 => {
                let mut kinds = vec![("28 for a machine", machine)];
                kinds.extend(those_met([
                    ("28 where 15 would be", wrong),
                    ("28 where 12 would be", no_latches),
                    ("28 where 17 would be", !full.is_empty()),
                ]));
                kinds
            }
            15 => those_met([
                ("15 by too few bytes", cycle.len() < inputs),
                ("15 by too many bytes", cycle.len() > inputs),
                ("15 by a wrong byte alone", cycle.len() == inputs),
                ("15 where 12 would be", short),
                ("15 where 17 would be", !full.is_empty()),
            ]),
            12 => those_met([
                ("12 by latch words alone", !no_slot),
                ("12 by slots alone", !no_latches),
                ("12 where 17 would be", !full.is_empty()),
            ]),
            _ => match full[..] {
                [at] => {
                    let mut kinds = vec![("17 at a number alone", at)];
                    if self.full(place, 1).is_empty() {
                        kinds.push(("17 at a number alone, by those waiting", at));
                    }
                    kinds
                }
                _ => Vec::new(),
            },
        }
    }

    /// The machines that a turn asks, in their order, and for which a cycle waits.
    fn round(&self) -> Vec<usize> {
        let last = self.numbers()[LAST] as usize;
        let round = (1..=PLACES).map(|after| (last + after) % PLACES);
        round.filter(|place| self.waiting(*place) > 0).collect()
    }

    fn of_turn(&self, outcome: &Outcome) -> Vec<Met> {
        if outcome.number == 16 {
            return Vec::new();
        }
        let numbers = self.numbers();
        let Some(&place) = self.round().first() else {
            let places = || 0..PLACES;
            let mut kinds = those_met([
                (
                    "idle with too few latch words",
                    !places().all(|place| self.has_latches(place)),
                ),
                (
                    "idle with no value word",
                    self.before.values.get().is_empty(),
                ),
                (
                    "idle with a full tally",
                    places().any(|place| !self.full(place, 1).is_empty()),
                ),
            ]);
            kinds.push(("idle after the last one served", numbers[LAST]));
            return kinds;
        };
        let machine = place as u32;
        let (needed, values) = (
            usize::from(self.net(place)[0]) + 1,
            self.before.values.get().len(),
        );
        let full = self.full(place, 1);
        let others = self.round().len() > 1;
        match outcome.number {
            0 => {
                let after = (place + PLACES - numbers[LAST] as usize - 1) % PLACES + 1;
                let mut kinds = vec![
                    ("served, a machine", machine),
                    ("served so many after the last one", after as u32),
                    ("served with so many waiting", self.waiting(place) as u32),
                ];
                let just = self.just_room(place, 1).into_iter();
                kinds.extend(just.map(|at| ("served with just room in a number", at)));
                kinds.extend(those_met([(
                    "served with surplus value words",
                    values > needed,
                )]));
                kinds
            }
            12 => {
                let mut kinds = those_met([
                    ("12 by latch words alone", values >= needed),
                    (
                        "12 by one value word",
                        values + 1 == needed && self.has_latches(place),
                    ),
                    ("12 where 17 would be", !full.is_empty()),
                    ("12 with another machine to be served", others),
                ]);
                if self.has_latches(place) {
                    kinds.push(("12 by value words alone, for a machine", machine));
                }
                kinds
            }
            _ => {
                let mut kinds = vec![("17 for a machine", machine)];
                kinds.extend(those_met([(
                    "17 with another machine to be served",
                    others,
                )]));
                if let [at] = full[..] {
                    kinds.push(("17 at a number alone", at));
                }
                kinds
            }
        }
    }
}

/// What a place has of a buffer that is eight equal parts.
fn part<T>(buffer: &[T], place: usize) -> &[T] {
    let length = buffer.len() / PLACES;
    &buffer[place * length..][..length]
}

impl fmt::Display for Rounds {
    fn fmt(&self, f: &mut fmt::Formatter) -> fmt::Result {
        for of in [Of::Adds, Of::Turns, Of::Sessions] {
            let kinds = due().into_iter().filter(|(due_of, _)| *due_of == of);
            let shown: Vec<String> = kinds
                .map(|(_, (kind, first, last))| {
                    let counts = (first..=last).map(|number| self.count(of, kind, number));
                    let fewest = counts.clone().min().unwrap_or(0);
                    match first == last {
                        true => format!("{kind}: {fewest}"),
                        false => format!("{kind}: {} ({fewest})", counts.sum::<u64>()),
                    }
                })
                .collect();
            let of_shown = format!("{of:?}").to_lowercase();
            writeln!(
                f,
                "bench, {of_shown} (fewest for one number): {}",
                shown.join("; ")
            )?;
        }
        write!(
            f,
            "bench, by paths: {} cycles, {} of them rejected, {} checked",
            self.path_cycles, self.path_rejected, self.path_checked
        )
    }
}
