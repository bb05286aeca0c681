//! One call by the library and by the reference, and what differs between them.

use crate::pages::Record;
use crate::random::Random;
use crate::sessions::Session;
use ludopoplar::raw;
use reference::{Outputs, Refusal, Tally, Trace, Turn, Verdict};
use std::fmt::{Debug, Write as _};

#[derive(Clone, Copy, Debug, PartialEq, Eq, PartialOrd, Ord)]
pub enum Name {
    Build,
    Read,
    Write,
    WritePacked,
    Start,
    Step,
    Run,
    BuildChecked,
    StartChecked,
    StepChecked,
    RunChecked,
    PerMillion,
    BrokenCheck,
    BrokenLine,
    SessionPage,
    DearestGraph,
    BufferGraph,
    BenchAdd,
    BenchTurn,
}

impl Name {
    /// The outputs of the netlist that the call builds; `None` if it builds none.
    pub fn built(self) -> Option<Outputs> {
        match self {
            Name::Build => Some(Outputs::Accept),
            Name::BuildChecked => Some(Outputs::AcceptAndChecked),
            _ => None,
        }
    }

    /// The call that builds a netlist with these outputs.
    pub fn building(outputs: Outputs) -> Name {
        match outputs {
            Outputs::Accept => Name::Build,
            Outputs::AcceptAndChecked => Name::BuildChecked,
        }
    }

    /// Whether the call is lent all three numbers of the tally.
    pub fn counts_checked(self) -> bool {
        matches!(
            self,
            Name::StartChecked | Name::StepChecked | Name::RunChecked
        )
    }
}

/// A call with what it reads: `net` is a netlist, or those of a bench; `bytes` is a graph, an AIGER
/// file, a cycle or a trace.
#[derive(Clone, PartialEq)]
pub struct Call {
    pub name: Name,
    pub net: Vec<u16>,
    pub bytes: Vec<u8>,
    /// What `BrokenCheck` and `BrokenLine` read instead.
    session: Option<Session>,
    /// What `SessionPage` reads instead.
    record: Option<Record>,
    /// What `DearestGraph` and `BufferGraph` are told instead: edges, or strokes.
    size: Option<u64>,
    /// What `BenchAdd` is told beside the cycle.
    machine: Option<u32>,
}

impl Call {
    pub fn on_bytes(name: Name, bytes: Vec<u8>) -> Call {
        Call::on_net(name, Vec::new(), bytes)
    }

    pub fn on_net(name: Name, net: Vec<u16>, bytes: Vec<u8>) -> Call {
        Call {
            name,
            net,
            bytes,
            session: None,
            record: None,
            size: None,
            machine: None,
        }
    }

    /// Of the memory's tally, which goes by value.
    pub fn per_million() -> Call {
        Call::on_bytes(Name::PerMillion, Vec::new())
    }

    pub fn on_session(name: Name, session: Session) -> Call {
        Call {
            session: Some(session),
            ..Call::on_bytes(name, Vec::new())
        }
    }

    pub fn session(&self) -> &Session {
        self.session.as_ref().expect("a call on a session")
    }

    pub fn session_page(record: Record) -> Call {
        Call {
            record: Some(record),
            ..Call::on_bytes(Name::SessionPage, Vec::new())
        }
    }

    fn record(&self) -> &Record {
        self.record.as_ref().expect("a call on a record")
    }

    pub fn dearest_graph(edges: u64) -> Call {
        Call {
            size: Some(edges),
            ..Call::on_bytes(Name::DearestGraph, Vec::new())
        }
    }

    pub fn buffer_graph(strokes: u64) -> Call {
        Call {
            size: Some(strokes),
            ..Call::on_bytes(Name::BufferGraph, Vec::new())
        }
    }

    fn size(&self) -> u64 {
        self.size.expect("a call with a number of edges or strokes")
    }

    pub fn bench_add(nets: Vec<u16>, machine: u32, cycle: Vec<u8>) -> Call {
        Call {
            machine: Some(machine),
            ..Call::on_net(Name::BenchAdd, nets, cycle)
        }
    }

    pub fn bench_turn(nets: Vec<u16>) -> Call {
        Call::on_net(Name::BenchTurn, nets, Vec::new())
    }

    pub fn machine(&self) -> u32 {
        self.machine.expect("a call for a machine")
    }
}

/// A lent buffer with random or given contents. It lies within a longer one, whose
/// ends belong to nobody and must stay too.
#[derive(Clone, PartialEq)]
pub struct Lent<T> {
    cells: Vec<T>,
    length: usize,
}

const MARGIN: usize = 3;

impl<T: Copy> Lent<T> {
    pub fn random(random: &mut Random, length: usize, cell: fn(&mut Random) -> T) -> Self {
        let cells = (0..length + 2 * MARGIN).map(|_| cell(random)).collect();
        Lent { cells, length }
    }

    /// Random cells stand only beside the contents.
    pub fn holding(random: &mut Random, contents: &[T], cell: fn(&mut Random) -> T) -> Self {
        let mut margin = || [(); MARGIN].map(|()| cell(random));
        let cells = [&margin(), contents, &margin()].concat();
        let length = contents.len();
        Lent { cells, length }
    }

    fn none() -> Self
    where
        T: Default,
    {
        Lent {
            cells: vec![T::default(); 2 * MARGIN],
            length: 0,
        }
    }

    pub fn get(&self) -> &[T] {
        &self.cells[MARGIN..MARGIN + self.length]
    }

    pub fn get_mut(&mut self) -> &mut [T] {
        &mut self.cells[MARGIN..MARGIN + self.length]
    }
}

/// How long the buffers of a call are.
#[derive(Clone, Copy, Default)]
pub struct Lengths {
    pub net: usize,
    pub text: usize,
    pub latches: usize,
    pub values: usize,
    pub verdicts: usize,
}

/// All that a call may write.
#[derive(Clone, PartialEq)]
pub struct Memory {
    pub net: Lent<u16>,
    /// An AIGER file of either form, a session page or a graph.
    pub text: Lent<u8>,
    pub latches: Lent<u64>,
    pub values: Lent<u64>,
    pub verdicts: Lent<u8>,
    pub tally: Tally,
    /// Gates, length, first output word, verdict or whole part.
    pub answer: u64,
    /// The second output word of `StepChecked`; the other calls leave it.
    pub checked_word: u64,
    /// The second result of `PerMillion`; the other calls leave it.
    pub remainder: u64,
    /// Trace, offset and length that `BrokenLine` finds; no other call is lent them.
    pub part: [u64; 3],
    /// What waits for the machines of a bench, and their numbers with the last one served; only the
    /// calls on a bench are lent them.
    pub queues: Lent<u8>,
    pub numbers: Lent<u32>,
    /// The machine that `BenchTurn` serves; the other calls leave it.
    pub served: u64,
}

impl Memory {
    pub fn random(random: &mut Random, lengths: Lengths) -> Memory {
        Memory {
            net: Lent::random(random, lengths.net, |random| random.word() as u16),
            text: Lent::random(random, lengths.text, Random::byte),
            latches: Lent::random(random, lengths.latches, Random::word),
            values: Lent::random(random, lengths.values, Random::word),
            verdicts: Lent::random(random, lengths.verdicts, Random::byte),
            tally: Tally {
                cycles: random.word() as u32,
                rejected: random.word() as u32,
                checked: random.word() as u32,
            },
            answer: random.word(),
            checked_word: random.word(),
            remainder: random.word(),
            part: [0; 3],
            queues: Lent::none(),
            numbers: Lent::none(),
            served: 0,
        }
    }
}

/// What both made of a call.
pub struct Outcome {
    /// 0 where it was accepted.
    pub number: u32,
    pub line: u32,
    pub memory: Memory,
}

impl Outcome {
    pub fn is_accepted(&self) -> bool {
        self.number == 0
    }
}

/// A call of which the two made different things, told for a reader.
pub struct Mismatch(pub String);

/// Makes the call twice, on memory of equal contents.
pub fn compare(call: &Call, memory: Memory) -> Result<Outcome, Mismatch> {
    let mut lent_call = call.clone();
    let tally = memory.tally;
    let numbers = memory.numbers.get().to_vec();
    let (mut by_library, mut by_reference) = (memory.clone(), memory);
    let code = library(&mut lent_call, &mut by_library);
    let due = code_of(reference_call(call, &mut by_reference));
    let mut differences = String::new();
    if code != due {
        let shown = |code: u64| format!("({}, line {})", code >> 32, code as u32);
        writeln!(differences, "returned {}, due {}", shown(code), shown(due)).unwrap();
    }
    if lent_call != *call {
        writeln!(differences, "what was lent to be read has changed").unwrap();
    }
    differences += &memory_differences(&by_library, &by_reference);
    match differences.is_empty() {
        true => Ok(Outcome {
            number: (due >> 32) as u32,
            line: due as u32,
            memory: by_reference,
        }),
        false => {
            let before = (tally, &numbers[..]);
            Err(Mismatch(told(call, before, &by_reference, &differences)))
        }
    }
}

fn library(call: &mut Call, memory: &mut Memory) -> u64 {
    let (net, bytes) = (&call.net[..], &call.bytes[..]);
    let latches = memory.latches.get_mut();
    let values = memory.values.get_mut();
    let Tally {
        cycles,
        rejected,
        checked,
    } = &mut memory.tally;
    let (answer, remainder) = (&mut memory.answer, &mut memory.remainder);
    let checked_word = &mut memory.checked_word;
    match call.name {
        Name::Build => raw::build(bytes, memory.net.get_mut(), answer),
        Name::Read => raw::read(bytes, memory.net.get_mut(), answer),
        Name::Write => raw::write(net, memory.text.get_mut(), answer),
        Name::WritePacked => raw::write_packed(net, memory.text.get_mut(), answer),
        Name::Start => raw::start(net, latches, cycles, rejected),
        Name::Step => raw::step(net, bytes, latches, values, cycles, rejected, answer),
        Name::Run => {
            let verdicts = memory.verdicts.get_mut();
            raw::run(
                net, bytes, latches, values, verdicts, cycles, rejected, answer,
            )
        }
        Name::BuildChecked => raw::build_checked(bytes, memory.net.get_mut(), answer),
        Name::StartChecked => raw::start_checked(net, latches, cycles, rejected, checked),
        Name::StepChecked => raw::step_checked(
            net,
            bytes,
            latches,
            values,
            cycles,
            rejected,
            checked,
            answer,
            checked_word,
        ),
        Name::RunChecked => {
            let verdicts = memory.verdicts.get_mut();
            raw::run_checked(
                net, bytes, latches, values, verdicts, cycles, rejected, checked, answer,
            )
        }
        Name::PerMillion => raw::per_million(*cycles, *rejected, answer, remainder),
        Name::BrokenCheck => call.session().check_by_library(),
        Name::BrokenLine => call.session().line_by_library(&mut memory.part),
        Name::SessionPage => {
            let (record, page) = (call.record(), memory.text.get_mut());
            raw::session_page(record.name(), record.verdicts(), page, answer)
        }
        Name::DearestGraph => raw::dearest_graph(call.size(), memory.text.get_mut(), answer),
        Name::BufferGraph => raw::buffer_graph(call.size(), memory.text.get_mut(), answer),
        Name::BenchAdd => {
            let (queues, numbers) = (memory.queues.get_mut(), memory.numbers.get_mut());
            raw::bench_add(net, latches, queues, numbers, call.machine(), bytes)
        }
        Name::BenchTurn => raw::bench_turn(
            net,
            latches,
            values,
            memory.queues.get_mut(),
            memory.numbers.get_mut(),
            &mut memory.served,
            answer,
            checked_word,
        ),
    }
}

fn reference_call(call: &Call, memory: &mut Memory) -> Result<(), Refusal> {
    let (net, bytes) = (&call.net[..], &call.bytes[..]);
    let latches = memory.latches.get_mut();
    let values = memory.values.get_mut();
    let verdicts = memory.verdicts.get_mut();
    let tally = &mut memory.tally;
    let answer = match call.name {
        Name::Build => reference::build(bytes, Outputs::Accept, memory.net.get_mut())? as u64,
        Name::BuildChecked => {
            reference::build(bytes, Outputs::AcceptAndChecked, memory.net.get_mut())? as u64
        }
        Name::Read => reference::read(bytes, memory.net.get_mut())? as u64,
        Name::Write => reference::write(net, memory.text.get_mut())? as u64,
        Name::WritePacked => reference::write_packed(net, memory.text.get_mut())? as u64,
        Name::Start => {
            return with_two_numbers(tally, |tally| reference::start(net, latches, tally))
        }
        Name::StartChecked => return reference::start(net, latches, tally),
        Name::Step => {
            let step = |tally: &mut _| reference::step(net, bytes, latches, values, tally);
            with_two_numbers(tally, step)?.accept
        }
        Name::StepChecked => {
            let words = reference::step(net, bytes, latches, values, tally)?;
            memory.checked_word = words.checked;
            words.accept
        }
        Name::Run => {
            let run = |tally: &mut _| reference::run(net, bytes, latches, values, verdicts, tally);
            number_of(with_two_numbers(tally, run)?)
        }
        Name::RunChecked => number_of(reference::run(
            net, bytes, latches, values, verdicts, tally,
        )?),
        Name::PerMillion => {
            let rate = reference::per_million(*tally)?;
            memory.remainder = rate.remainder.into();
            rate.whole.into()
        }
        Name::BrokenCheck => return call.session().check_by_reference(),
        Name::BrokenLine => {
            let part = call.session().line_by_reference();
            let trace = match part.trace {
                Trace::Flywheel => 0,
                Trace::Handle => 1,
            };
            memory.part = [trace, part.offset as u64, part.bytes.len() as u64];
            return Ok(());
        }
        Name::SessionPage => {
            let (record, page) = (call.record(), memory.text.get_mut());
            reference::session_page(record.name(), record.verdicts(), page)? as u64
        }
        Name::DearestGraph => reference::dearest_graph(call.size(), memory.text.get_mut())? as u64,
        Name::BufferGraph => reference::buffer_graph(call.size(), memory.text.get_mut())? as u64,
        Name::BenchAdd => {
            let (queues, numbers) = (memory.queues.get_mut(), memory.numbers.get_mut());
            return reference::bench_add(net, latches, queues, numbers, call.machine(), bytes);
        }
        Name::BenchTurn => {
            let (queues, numbers) = (memory.queues.get_mut(), memory.numbers.get_mut());
            match reference::bench_turn(net, latches, values, queues, numbers)? {
                Turn::Idle => {
                    memory.served = 8;
                    return Ok(());
                }
                Turn::Served { machine, words } => {
                    memory.served = machine as u64;
                    memory.checked_word = words.checked;
                    words.accept
                }
            }
        }
    };
    memory.answer = answer;
    Ok(())
}

/// The calls that were there before No. 7 of document 02 keep their parameters: they work as
/// the new ones with a third number of 0, which is dropped.
fn with_two_numbers<T>(tally: &mut Tally, call: impl FnOnce(&mut Tally) -> T) -> T {
    let checked = std::mem::take(&mut tally.checked);
    let answer = call(tally);
    tally.checked = checked;
    answer
}

fn number_of(verdict: Verdict) -> u64 {
    match verdict {
        Verdict::Accepted => 0,
        Verdict::Rejected => 1,
    }
}

fn code_of(answer: Result<(), Refusal>) -> u64 {
    match answer {
        Ok(()) => 0,
        Err(refusal) => u64::from(refusal.number) << 32 | u64::from(refusal.line),
    }
}

fn memory_differences(found: &Memory, due: &Memory) -> String {
    let mut differences = String::new();
    differences += &buffer_difference("numbers", &found.net, &due.net);
    differences += &buffer_difference("text", &found.text, &due.text);
    differences += &buffer_difference("latch words", &found.latches, &due.latches);
    differences += &buffer_difference("value words", &found.values, &due.values);
    differences += &buffer_difference("verdicts", &found.verdicts, &due.verdicts);
    if found.tally != due.tally {
        writeln!(differences, "{:?}, due {:?}", found.tally, due.tally).unwrap();
    }
    differences += &word_difference("answer", found.answer, due.answer);
    let (second, due_second) = (found.checked_word, due.checked_word);
    differences += &word_difference("second word", second, due_second);
    differences += &word_difference("remainder", found.remainder, due.remainder);
    for (place, what) in ["trace", "offset", "length"].iter().enumerate() {
        differences += &word_difference(what, found.part[place], due.part[place]);
    }
    differences += &buffer_difference("queues", &found.queues, &due.queues);
    differences += &buffer_difference("numbers of the bench", &found.numbers, &due.numbers);
    differences += &word_difference("machine", found.served, due.served);
    differences
}

fn word_difference(what: &str, found: u64, due: u64) -> String {
    match found == due {
        true => String::new(),
        false => format!("{what} {found:#x}, due {due:#x}\n"),
    }
}

fn buffer_difference<T: PartialEq + Debug>(what: &str, found: &Lent<T>, due: &Lent<T>) -> String {
    let pairs = || found.cells.iter().zip(&due.cells);
    let count = pairs().filter(|(found, due)| found != due).count();
    match pairs().position(|(found, due)| found != due) {
        None => String::new(),
        Some(place) => format!(
            "{what}: {count} differ, first at {} of {}: {:x?}, due {:x?}\n",
            place as isize - MARGIN as isize,
            found.length,
            found.cells[place],
            due.cells[place],
        ),
    }
}

/// `before` are the tally and the numbers of a bench before the call.
fn told(call: &Call, before: (Tally, &[u32]), memory: &Memory, differences: &str) -> String {
    let (tally, numbers) = before;
    if let Some(session) = &call.session {
        return format!("call: {:?}\n{session}\n{differences}", call.name);
    }
    if let Some(record) = &call.record {
        let lent = memory.text.length;
        return format!(
            "call: {:?}\n{record}\npage of {lent} bytes lent\n{differences}",
            call.name
        );
    }
    if let Some(size) = call.size {
        let lent = memory.text.length;
        return format!(
            "call: {:?}\nfor {size}, text of {lent} bytes lent\n{differences}",
            call.name
        );
    }
    if matches!(call.name, Name::BenchAdd | Name::BenchTurn) {
        return format!(
            "call: {:?}\nfor machine {:?}: \"{}\"\nnetlists: {:?}\nbefore: {numbers:?}\n\
             buffer lengths: netlists {}, latches {}, values {}, queues {}\n{differences}",
            call.name,
            call.machine,
            escaped(&call.bytes),
            call.net,
            call.net.len(),
            memory.latches.length,
            memory.values.length,
            memory.queues.length,
        );
    }
    format!(
        "call: {:?}\nnumbers lent: {:?}\nbytes lent ({}): \"{}\"\nbefore: {:?}\n\
         buffer lengths: numbers {}, text {}, latches {}, values {}, verdicts {}\n{}",
        call.name,
        call.net,
        call.bytes.len(),
        escaped(&call.bytes),
        tally,
        memory.net.length,
        memory.text.length,
        memory.latches.length,
        memory.values.length,
        memory.verdicts.length,
        differences,
    )
}

/// The bytes with unprintable ones escaped; of a very long text the two ends.
pub fn escaped(bytes: &[u8]) -> String {
    const SHOWN: usize = 35_000;
    match bytes.len() > 2 * SHOWN {
        false => bytes.escape_ascii().to_string(),
        true => format!(
            "{} ... {}",
            bytes[..SHOWN].escape_ascii(),
            bytes[bytes.len() - SHOWN..].escape_ascii()
        ),
    }
}
