//! Demand 3: an accepted graph, an accepted start, and a list of steps and runs
//! with latch words and tally handed on, refused calls included, by old names, by new
//! ones or by both; its tally, its output words, its verdict bytes and the verdict of each
//! run against the paths of the graph; the rate of the tally it leaves; its runs as the
//! measurements of sessions, and their pages. Now and then the netlist is a random one, and
//! only the calls are compared.

use crate::bench::Bench;
use crate::compare::{Call, Lengths, Memory, Mismatch, Name, Outcome};
use crate::gates::check_gates;
use crate::pages::compare_page;
use crate::random::Random;
use crate::rates::compare_rate;
use crate::round_trip::write_and_read_back;
use crate::sessions::{compare_session, Measurement};
use crate::stakes::{List, Names};
use crate::{graphs, netlists, traces};
use reference::{judged_cycles, Graph, Judged, Tally, Words};

/// A netlist with what one call leaves to the next.
struct Thread {
    /// The graph that the netlist was built of, if any.
    source: Option<Source>,
    net: Vec<u16>,
    latches: Vec<u64>,
    tally: Tally,
    /// The third number that the start left.
    checked_at_start: u32,
    /// The cycles of the accepted calls since start.
    cycles: Vec<Vec<u8>>,
    /// What the accepted calls showed.
    shown: Vec<Shown>,
    /// The accepted runs, of all starts.
    runs: Vec<Measurement>,
}

struct Source {
    text: Vec<u8>,
    graph: Graph,
}

/// After so many cycles: the call, the tally, the verdict bytes of the last ones, which are
/// those of that call, and what it answered.
struct Shown {
    name: Name,
    cycles: usize,
    tally: Tally,
    verdicts: Vec<u8>,
    answer: Answer,
}

#[derive(Debug, PartialEq)]
enum Answer {
    /// A step by its old name answers the first word only.
    Step {
        accept: u64,
        checked: Option<u64>,
    },
    Run {
        verdict: u64,
    },
}

pub fn sequence(bench: &mut Bench) -> Result<(), Mismatch> {
    let mut thread = match bench.random.once_in(8) {
        true => Thread::new(netlists::small(&mut bench.random), None),
        false => built(bench)?,
    };
    if bench.random.once_in(4) {
        write_and_read_back(bench, Name::Write, &thread.net)?;
    }
    for _ in 0..bench.random.within(1..=2) {
        let names = bench
            .random
            .pick(&[Names::Old, Names::New, Names::New, Names::Both]);
        thread.start(bench, names)?;
        for _ in 0..bench.random.within(1..=8) {
            match bench.random.coin() {
                true => thread.step(bench, names)?,
                false => thread.run(bench, names)?,
            }
        }
        thread.check_paths(bench)?;
        thread.record_list(bench);
        compare_rate(bench, thread.tally)?;
    }
    thread.compare_runs(bench)
}

/// Builds accepted graphs only; a refused draw is drawn again.
fn built(bench: &mut Bench) -> Result<Thread, Mismatch> {
    let outputs = netlists::outputs(&mut bench.random);
    loop {
        let text = match bench.random.below(4) {
            0 => graphs::undamaged(&mut bench.random),
            _ => graphs::small(&mut bench.random),
        };
        let Some(net) = netlists::net_of(&text, outputs) else {
            continue;
        };
        let lengths = Lengths {
            net: net.len(),
            ..Lengths::default()
        };
        let memory = Memory::random(&mut bench.random, lengths);
        let call = Call::on_bytes(Name::building(outputs), text.clone());
        let outcome = bench.compare(&call, memory)?;
        check_gates(bench, &text, outputs, outcome.memory.answer)?;
        let graph = Graph::parse(&text).expect("an accepted graph");
        let net = outcome.memory.net.get().to_vec();
        return Ok(Thread::new(net, Some(Source { text, graph })));
    }
}

/// The old name or the new one.
fn name(random: &mut Random, names: Names, [old, new]: [Name; 2]) -> Name {
    match names {
        Names::Old => old,
        Names::New => new,
        Names::Both => random.pick(&[old, new]),
    }
}

impl Thread {
    fn new(net: Vec<u16>, source: Option<Source>) -> Thread {
        Thread {
            source,
            net,
            latches: Vec::new(),
            tally: Tally::default(),
            checked_at_start: 0,
            cycles: Vec::new(),
            shown: Vec::new(),
            runs: Vec::new(),
        }
    }

    fn inputs(&self) -> usize {
        usize::from(self.net[1])
    }

    fn latch_count(&self) -> usize {
        usize::from(self.net[2])
    }

    fn value_count(&self) -> usize {
        usize::from(self.net[0]) + 1
    }

    fn has_checked(&self) -> bool {
        self.net[3] == 2
    }

    /// An accepted start, on memory of any contents. By its old name it leaves the third
    /// number at any contents too.
    fn start(&mut self, bench: &mut Bench, names: Names) -> Result<(), Mismatch> {
        let name = name(&mut bench.random, names, [Name::Start, Name::StartChecked]);
        let lengths = Lengths {
            latches: self.latch_count() + bench.random.below(3),
            ..Lengths::default()
        };
        let memory = Memory::random(&mut bench.random, lengths);
        let call = Call::on_net(name, self.net.clone(), Vec::new());
        let outcome = bench.compare(&call, memory)?;
        self.hand_on(&outcome);
        self.checked_at_start = self.tally.checked;
        self.cycles.clear();
        self.shown.clear();
        Ok(())
    }

    fn step(&mut self, bench: &mut Bench, names: Names) -> Result<(), Mismatch> {
        let name = name(&mut bench.random, names, [Name::Step, Name::StepChecked]);
        let cycle = traces::any_cycle(&mut bench.random, self.inputs());
        let memory = self.memory(bench, 0);
        let call = Call::on_net(name, self.net.clone(), cycle);
        let outcome = bench.compare(&call, memory)?;
        if outcome.is_accepted() {
            self.cycles.push(call.bytes);
            self.hand_on(&outcome);
            let accept = outcome.memory.answer;
            let counts_checked = name.counts_checked();
            let checked = counts_checked.then_some(outcome.memory.checked_word);
            let verdicts = vec![u8::from(accept != u64::MAX)];
            self.show(name, verdicts, Answer::Step { accept, checked });
        }
        Ok(())
    }

    fn run(&mut self, bench: &mut Bench, names: Names) -> Result<(), Mismatch> {
        let name = name(&mut bench.random, names, [Name::Run, Name::RunChecked]);
        let most = self.affordable_cycles();
        let cycles = bench.random.within(0..=most);
        let trace = traces::any_trace(&mut bench.random, self.inputs(), cycles);
        let memory = self.memory(bench, cycles);
        let call = Call::on_net(name, self.net.clone(), trace);
        let outcome = bench.compare(&call, memory)?;
        if outcome.is_accepted() {
            let lines = call.bytes.chunks_exact(self.inputs() + 1);
            let new_cycles: Vec<Vec<u8>> =
                lines.map(|line| line[..self.inputs()].to_vec()).collect();
            let verdicts = outcome.memory.verdicts.get()[..new_cycles.len()].to_vec();
            self.cycles.extend(new_cycles);
            self.hand_on(&outcome);
            self.runs.push(Measurement {
                trace: call.bytes,
                verdicts: verdicts.clone(),
            });
            let verdict = outcome.memory.answer;
            self.show(name, verdicts, Answer::Run { verdict });
        }
        Ok(())
    }

    /// The latch words and tally that the call before left, and other buffers
    /// at random; sometimes one is too short, and the call is refused.
    fn memory(&self, bench: &mut Bench, verdicts: usize) -> Memory {
        let lengths = Lengths {
            latches: bench.length(self.latch_count()),
            values: bench.length(self.value_count()),
            verdicts: bench.length(verdicts),
            ..Lengths::default()
        };
        let mut memory = Memory::random(&mut bench.random, lengths);
        for (word, left) in memory.latches.get_mut().iter_mut().zip(&self.latches) {
            *word = *left;
        }
        memory.tally = self.tally;
        memory
    }

    /// A refused call has left all as it was, so only accepted ones come here.
    fn hand_on(&mut self, outcome: &Outcome) {
        self.latches = outcome.memory.latches.get()[..self.latch_count()].to_vec();
        self.tally = outcome.memory.tally;
    }

    fn show(&mut self, name: Name, verdicts: Vec<u8>, answer: Answer) {
        self.shown.push(Shown {
            name,
            cycles: self.cycles.len(),
            tally: self.tally,
            verdicts,
            answer,
        });
    }

    /// Each run and the next one as the flywheel and the handle of a session; the page of each.
    fn compare_runs(&self, bench: &mut Bench) -> Result<(), Mismatch> {
        for pair in self.runs.windows(2) {
            compare_session(bench, self.inputs() as u64, &pair[0], &pair[1])?;
        }
        for run in &self.runs {
            compare_page(bench, b"run", &run.verdicts)?;
        }
        Ok(())
    }

    /// Following paths takes settings × edges for each vertex reached.
    fn affordable_cycles(&self) -> usize {
        let work = self.source.as_ref().map_or(1, |source| {
            (source.graph.edges.len() + 1) << source.graph.constant_bits
        });
        (20_000 / work).clamp(3, 30)
    }

    fn record_list(&self, bench: &mut Bench) {
        let by_new = |shown: &Shown| shown.name.counts_checked();
        let names = match (
            self.shown.iter().any(|shown| !by_new(shown)),
            self.shown.iter().any(by_new),
        ) {
            (true, true) => Names::Both,
            (true, false) => Names::Old,
            (false, true) => Names::New,
            (false, false) => return,
        };
        bench.coverage.stakes.record_list(List {
            outputs: self.net[3],
            built: self.source.is_some(),
            names,
        });
    }

    fn check_paths(&self, bench: &mut Bench) -> Result<(), Mismatch> {
        let Some(source) = &self.source else {
            return Ok(());
        };
        let cycles: Vec<&[u8]> = self.cycles.iter().map(Vec::as_slice).collect();
        let judged = judged_cycles(&source.graph, &cycles);
        let mut due_tally = Tally {
            checked: self.checked_at_start,
            ..Tally::default()
        };
        for shown in &self.shown {
            let own = &judged[shown.cycles - shown.verdicts.len()..shown.cycles];
            due_tally.cycles += own.len() as u32;
            due_tally.rejected += rejected(own) as u32;
            if self.has_checked() && shown.name.counts_checked() {
                due_tally.checked += checked(own) as u32;
                bench.coverage.stakes.record_paths(own.len(), checked(own));
            }
            self.check_shown(source, shown, due_tally, own)?;
            if let (
                Answer::Step {
                    checked: Some(word),
                    ..
                },
                true,
            ) = (&shown.answer, self.has_checked())
            {
                bench.coverage.stakes.record_word(*word);
            }
        }
        let coverage = &mut bench.coverage;
        coverage.record_paths(&source.graph, cycles.len(), rejected(&judged));
        Ok(())
    }

    /// The words that the paths say, lane by lane.
    fn words(&self, judged: Judged) -> Words {
        Words {
            accept: !judged.rejected,
            checked: if self.has_checked() {
                judged.checked
            } else {
                0
            },
        }
    }

    /// `own` are the cycles of the call itself.
    fn check_shown(
        &self,
        source: &Source,
        shown: &Shown,
        due_tally: Tally,
        own: &[Judged],
    ) -> Result<(), Mismatch> {
        let due_verdicts: Vec<u8> = own
            .iter()
            .map(|judged| u8::from(judged.is_rejected()))
            .collect();
        let due_answer = match shown.answer {
            Answer::Step { checked, .. } => {
                let words = self.words(own[0]);
                Answer::Step {
                    accept: words.accept,
                    checked: checked.map(|_| words.checked),
                }
            }
            // 1, rejected, exactly when any cycle of the run is.
            Answer::Run { .. } => Answer::Run {
                verdict: u64::from(rejected(own) > 0),
            },
        };
        if shown.tally == due_tally && shown.verdicts == due_verdicts && shown.answer == due_answer
        {
            return Ok(());
        }
        Err(Mismatch(format!(
            "calls: build, start, then steps and runs\ngraph: \"{}\"\noutputs: {}\ncycles: {:?}\n\
             after {} cycles, by {:?}: {:?}, by paths {:?}\nverdict bytes {:?}, by paths {:?}\n\
             answer {:x?}, by paths {:x?}\n",
            source.text.escape_ascii(),
            self.net[3],
            self.cycles
                .iter()
                .map(|cycle| cycle.escape_ascii().to_string())
                .collect::<Vec<_>>(),
            shown.cycles,
            shown.name,
            shown.tally,
            due_tally,
            shown.verdicts,
            due_verdicts,
            shown.answer,
            due_answer,
        )))
    }
}

fn rejected(judged: &[Judged]) -> usize {
    let rejected = judged.iter().filter(|judged| judged.is_rejected());
    rejected.count()
}

fn checked(judged: &[Judged]) -> usize {
    judged.iter().filter(|judged| judged.is_checked()).count()
}
