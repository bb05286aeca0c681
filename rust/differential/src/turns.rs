//! Sessions on a bench: eight accepted starts, then new cycles and turns, refused ones included,
//! with all that the bench is lent handed on. How long each machine waits is compared with No. 13's
//! eight turns, and the words and the tally of each with the paths of its graph over its own served
//! cycles; random netlists are among them, of which only the calls are compared.

use crate::bench::Bench;
use crate::compare::{Call, Lengths, Memory, Mismatch, Name};
use crate::machines::{any_machine, any_net, Layout, Machines, LAST, MOST_WAITING, PLACES};
use crate::random::Random;
use crate::{graphs, netlists};
use reference::{judged_cycles, Graph, Judged, Tally, Words};
use std::collections::VecDeque;

/// One of the eight, with what it was sent.
struct Machine {
    net: Vec<u16>,
    /// The graph that the netlist was built of, and its text, if any.
    source: Option<(Vec<u8>, Graph)>,
    waiting: VecDeque<Vec<u8>>,
    served: Vec<Served>,
    /// The accepted turns since a cycle waits and the machine was not served.
    turns: usize,
}

/// A served cycle, its words, and the tally after it.
struct Served {
    cycle: Vec<u8>,
    words: Words,
    tally: Tally,
}

struct Session {
    lent: Machines,
    machines: Vec<Machine>,
    /// How many of eight calls are new cycles, and the machines that they are mostly for.
    load: usize,
    favourites: Vec<u32>,
    /// The machine whose turn was refused, if the last one was.
    refused: Option<u64>,
}

pub fn session(bench: &mut Bench) -> Result<(), Mismatch> {
    let mut session = Session::started(bench)?;
    for _ in 0..bench.random.within(200..=500) {
        if bench.random.once_in(40) {
            session.change_habits(&mut bench.random);
        }
        match bench.random.below(8) < session.load {
            true => session.add(bench)?,
            false => session.turn(bench)?,
        }
    }
    for machine in &session.machines {
        machine.check_paths(bench)?;
    }
    Ok(())
}

impl Machine {
    /// Of an accepted graph, mostly; a refused draw is drawn again.
    fn any(random: &mut Random) -> Machine {
        let (net, source) = match random.below(4) {
            0 => (any_net(random), None),
            _ => loop {
                let outputs = netlists::outputs(random);
                let text = graphs::small(random);
                if let Some(net) = netlists::net_of(&text, outputs) {
                    let graph = Graph::parse(&text).expect("an accepted graph");
                    break (net, Some((text, graph)));
                }
            },
        };
        Machine {
            net,
            source,
            waiting: VecDeque::new(),
            served: Vec::new(),
            turns: 0,
        }
    }

    fn has_checked(&self) -> bool {
        self.net[3] == 2
    }

    /// Words and tally after each served cycle, as the paths of the graph say.
    fn check_paths(&self, bench: &mut Bench) -> Result<(), Mismatch> {
        let Some((text, graph)) = &self.source else {
            return Ok(());
        };
        // Following paths takes settings × edges for each vertex reached.
        let work = (graph.edges.len() + 1) << graph.constant_bits;
        let affordable = (20_000 / work).max(3).min(self.served.len());
        let served = &self.served[..affordable];
        let cycles: Vec<&[u8]> = served.iter().map(|served| &served.cycle[..]).collect();
        let judged = judged_cycles(graph, &cycles);
        let mut tally = Tally::default();
        for (served, judged) in served.iter().zip(&judged) {
            let words = self.words(*judged);
            tally.cycles += 1;
            tally.rejected += u32::from(judged.is_rejected());
            tally.checked += u32::from(words.checked != 0);
            if (served.words, served.tally) != (words, tally) {
                let shown = cycles.iter().map(|cycle| cycle.escape_ascii().to_string());
                return Err(Mismatch(format!(
                    "calls: build, start, then turns of a bench\ngraph: \"{}\"\noutputs: {}\n\
                     served cycles: {:?}\nafter {} cycles: {:x?}, {:?}\nby paths {words:x?}, {tally:?}\n",
                    text.escape_ascii(),
                    self.net[3],
                    shown.collect::<Vec<_>>(),
                    tally.cycles,
                    served.words,
                    served.tally,
                )));
            }
        }
        bench.coverage.rounds.record_paths(&judged);
        Ok(())
    }

    /// The words that the paths say, lane by lane.
    fn words(&self, judged: Judged) -> Words {
        Words {
            accept: !judged.rejected,
            checked: if self.has_checked() {
                judged.checked
            } else {
                0
            },
        }
    }
}

impl Session {
    /// Eight accepted starts, in the parts of the latch words; empty queues.
    fn started(bench: &mut Bench) -> Result<Session, Mismatch> {
        let random = &mut bench.random;
        let machines: Vec<Machine> = (0..PLACES).map(|_| Machine::any(random)).collect();
        let nets: Vec<Vec<u16>> = machines.iter().map(|machine| machine.net.clone()).collect();
        let slots = random.pick(&[MOST_WAITING, MOST_WAITING, MOST_WAITING, 17, 3]);
        let layout = Layout::any(random, slots);
        let mut lent = Machines::of(random, &nets, layout);
        let length = lent.memory.latches.get().len() / PLACES;
        for (place, net) in nets.into_iter().enumerate() {
            let lengths = Lengths {
                latches: length,
                ..Lengths::default()
            };
            let memory = Memory::random(&mut bench.random, lengths);
            let call = Call::on_net(Name::StartChecked, net, Vec::new());
            let started = bench.compare(&call, memory)?.memory;
            let latches = &mut lent.memory.latches.get_mut()[place * length..][..length];
            latches.copy_from_slice(started.latches.get());
            let tally = started.tally;
            lent.numbers()[4 * place..][..4].copy_from_slice(&[
                0,
                tally.cycles,
                tally.rejected,
                tally.checked,
            ]);
        }
        let mut session = Session {
            lent,
            machines,
            load: 4,
            favourites: Vec::new(),
            refused: None,
        };
        session.change_habits(&mut bench.random);
        Ok(session)
    }

    fn change_habits(&mut self, random: &mut Random) {
        self.load = random.pick(&[1, 4, 4, 7]);
        let count = random.pick(&[1, 3, 8]);
        self.favourites = (0..count).map(|_| random.below(PLACES) as u32).collect();
    }

    /// A new cycle, now and then a wrong one or for no machine.
    fn add(&mut self, bench: &mut Bench) -> Result<(), Mismatch> {
        let random = &mut bench.random;
        let machine = match random.below(3) {
            0 => any_machine(random),
            1 => random.below(PLACES) as u32,
            _ => random.pick(&self.favourites),
        };
        let cycle = self.lent.any_cycle(random, machine);
        let number = self.lent.add(bench, machine, cycle.clone())?;
        let rounds = &mut bench.coverage.rounds;
        match number {
            0 => {
                let waiting = &mut self.machines[machine as usize].waiting;
                waiting.push_back(cycle);
                if waiting.len() == MOST_WAITING {
                    rounds.record_session("a queue of 16, for a machine", machine as usize);
                }
            }
            27 => rounds.record_session("a cycle refused with 27", 0),
            28 => rounds.record_session("a cycle refused with 28", 0),
            15 => rounds.record_session("a cycle refused with 15", 0),
            12 => rounds.record_session("a cycle refused with 12", 0),
            _ => return Err(self.never(&format!("a cycle refused with {number}"))),
        }
        Ok(())
    }

    /// A turn, now and then with too few value words: nothing else refuses one.
    fn turn(&mut self, bench: &mut Bench) -> Result<(), Mismatch> {
        let lent = self.lent.memory.values.clone();
        let needed = self.values_of_next();
        if bench.random.once_in(12) {
            let length = needed.saturating_sub(bench.random.within(1..=2));
            self.lent.lend_values(&mut bench.random, length);
        }
        let short = self.lent.memory.values.get().len() < needed;
        let number = self.lent.turn(bench)?;
        if self.lent.memory.values.get().len() < lent.get().len() {
            self.lent.memory.values = lent;
        }
        match number {
            0 => self.accepted(bench),
            12 if short => {
                self.refused = self.next();
                Ok(())
            }
            _ => Err(self.never(&format!("a turn refused with {number}"))),
        }
    }

    /// The machine that the next turn would step.
    fn next(&mut self) -> Option<u64> {
        let last = self.lent.numbers()[LAST] as usize;
        let mut round = (1..=PLACES).map(|after| (last + after) % PLACES);
        let next = round.find(|place| !self.machines[*place].waiting.is_empty());
        next.map(|place| place as u64)
    }

    /// How many value words the next turn needs.
    fn values_of_next(&mut self) -> usize {
        let next = self.next();
        next.map_or(0, |place| {
            usize::from(self.machines[place as usize].net[0]) + 1
        })
    }

    /// Takes the served cycle from those that wait, and counts the wait.
    fn accepted(&mut self, bench: &mut Bench) -> Result<(), Mismatch> {
        let memory = &self.lent.memory;
        let (served, numbers) = (memory.served, memory.numbers.get());
        let rounds = &mut bench.coverage.rounds;
        if served == PLACES as u64 {
            rounds.record_session("idle", 0);
            return match self.machines.iter().all(|own| own.waiting.is_empty()) {
                true => Ok(()),
                false => Err(self.never("an idle turn where a cycle waits")),
            };
        }
        let place = served as usize;
        for machine in &mut self.machines {
            machine.turns += usize::from(!machine.waiting.is_empty());
        }
        if self.machines.iter().any(|machine| machine.turns > 8) {
            return Err(self.never("a wait of more than eight turns"));
        }
        let own = &mut self.machines[place];
        let turns = std::mem::take(&mut own.turns);
        rounds.record_session("a wait of so many turns", turns);
        if turns == 8 {
            rounds.record_session("a wait of eight turns, for a machine", place);
        }
        let kind = match own.source {
            Some(_) => "served, built with so many outputs",
            None => "served, random with so many outputs",
        };
        rounds.record_session(kind, usize::from(own.net[3]));
        if self.refused.take() == Some(served) {
            let kind = "a turn refused with 12, then the same machine served";
            rounds.record_session(kind, 0);
        }
        let Some(cycle) = own.waiting.pop_front() else {
            return Err(self.never("a machine served for which no cycle waits"));
        };
        let [cycles, rejected, checked] = [1, 2, 3].map(|at| numbers[4 * place + at]);
        own.served.push(Served {
            cycle,
            words: Words {
                accept: memory.answer,
                checked: memory.checked_word,
            },
            tally: Tally {
                cycles,
                rejected,
                checked,
            },
        });
        Ok(())
    }

    /// Of what no session has.
    fn never(&self, what: &str) -> Mismatch {
        let headers: Vec<&[u16]> = self.machines.iter().map(|own| &own.net[..5]).collect();
        let numbers = self.lent.memory.numbers.get();
        Mismatch(format!(
            "calls: eight starts, then new cycles and turns of a bench\nheaders: {headers:?}\n\
             numbers: {numbers:?}\nnever in a session: {what}\n"
        ))
    }
}
