//! Sessions of two measurements: the calls on one, and sessions of every kind.

use crate::bench::Bench;
use crate::compare::{escaped, Call, Lengths, Lent, Memory, Mismatch, Name};
use crate::damage::damage;
use crate::random::Random;
use crate::traces::{self, MAX_TRACE_BYTES};
use ludopoplar::raw;
use reference::{Part, Refusal};
use std::fmt;

/// A trace and its verdict bytes.
#[derive(Clone)]
pub struct Measurement {
    pub trace: Vec<u8>,
    pub verdicts: Vec<u8>,
}

/// What a call on a session is lent to be read. Beside each slice stand bytes that could
/// belong to it.
#[derive(Clone, PartialEq)]
pub struct Session {
    width: u64,
    flywheel: Lent<u8>,
    handle: Lent<u8>,
    flywheel_verdicts: Lent<u8>,
    handle_verdicts: Lent<u8>,
}

impl Session {
    fn lent(random: &mut Random, width: u64, flywheel: &Measurement, handle: &Measurement) -> Self {
        let mut trace =
            |contents: &[u8]| Lent::holding(random, contents, |random| random.pick(b"01\n"));
        let (flywheel_trace, handle_trace) = (trace(&flywheel.trace), trace(&handle.trace));
        let mut verdicts =
            |contents: &[u8]| Lent::holding(random, contents, |random| random.below(2) as u8);
        Session {
            width,
            flywheel: flywheel_trace,
            handle: handle_trace,
            flywheel_verdicts: verdicts(&flywheel.verdicts),
            handle_verdicts: verdicts(&handle.verdicts),
        }
    }

    pub fn check_by_library(&self) -> u64 {
        let [flywheel, handle, of_flywheel, of_handle] = self.slices();
        raw::broken_check(self.width, flywheel, handle, of_flywheel, of_handle)
    }

    pub fn check_by_reference(&self) -> Result<(), Refusal> {
        let [flywheel, handle, of_flywheel, of_handle] = self.slices();
        let width = self.width as usize;
        reference::broken_check(width, flywheel, handle, of_flywheel, of_handle)
    }

    /// Into trace, offset and length.
    pub fn line_by_library(&self, part: &mut [u64; 3]) -> u64 {
        let [flywheel, handle, of_flywheel, of_handle] = self.slices();
        let [trace, offset, length] = part;
        raw::broken_line(
            self.width,
            flywheel,
            handle,
            of_flywheel,
            of_handle,
            trace,
            offset,
            length,
        )
    }

    pub fn line_by_reference(&self) -> Part<'_> {
        let [flywheel, handle, of_flywheel, of_handle] = self.slices();
        let width = self.width as usize;
        reference::first_broken(width, flywheel, handle, of_flywheel, of_handle)
    }

    /// The library's safe call hands back the caller's own bytes, or the refusal.
    fn compare_slice(&self) -> Result<(), Mismatch> {
        let [flywheel, handle, of_flywheel, of_handle] = self.slices();
        let width = self.width as usize;
        let found = ludopoplar::first_broken(width, flywheel, handle, of_flywheel, of_handle);
        let due = self.check_by_reference().map(|()| self.line_by_reference());
        let agree = match (found, due) {
            (Ok(line), Ok(part)) => std::ptr::eq(line, part.bytes),
            (Err(found), Err(due)) => (found.number, found.line) == (due.number.into(), due.line),
            _ => false,
        };
        match agree {
            true => Ok(()),
            false => Err(Mismatch(format!(
                "call: first_broken\n{self}\nhanded back {found:?}, due {due:?}\n"
            ))),
        }
    }

    /// The flywheel trace, the handle trace, and the verdict list of each.
    fn slices(&self) -> [&[u8]; 4] {
        [
            self.flywheel.get(),
            self.handle.get(),
            self.flywheel_verdicts.get(),
            self.handle_verdicts.get(),
        ]
    }
}

impl fmt::Display for Session {
    fn fmt(&self, f: &mut fmt::Formatter) -> fmt::Result {
        let names = ["flywheel", "handle", "flywheel verdicts", "handle verdicts"];
        write!(f, "width {}", self.width)?;
        for (name, slice) in names.into_iter().zip(self.slices()) {
            write!(f, "\n{name} ({}): \"{}\"", slice.len(), escaped(slice))?;
        }
        Ok(())
    }
}

/// The check, the line by its place, and the line as a slice; the results of the second
/// hold any contents before it.
pub fn compare_session(
    bench: &mut Bench,
    width: u64,
    flywheel: &Measurement,
    handle: &Measurement,
) -> Result<(), Mismatch> {
    let session = Session::lent(&mut bench.random, width, flywheel, handle);
    let mut memory = Memory::random(&mut bench.random, Lengths::default());
    memory.part = [(); 3].map(|()| bench.random.word());
    let mut call = Call::on_session(Name::BrokenCheck, session);
    let check = bench.compare(&call, memory.clone())?;
    call.name = Name::BrokenLine;
    let line = bench.compare(&call, memory)?;
    if check.is_accepted() {
        bench.coverage.record_line(line.memory.part);
    }
    call.session().compare_slice()
}

/// Often a small one; now and then one that is none, with the lowest bits of one that is.
pub fn any_width(random: &mut Random) -> u64 {
    match random.below(24) {
        0 => random.pick(&[0, 65, 66, 70]),
        1 => random.within(1..=64) as u64 + (1 << random.within(6..=63)),
        2..=10 => random.within(1..=4) as u64,
        _ => random.within(1..=64) as u64,
    }
}

/// A measurement of that width, or now and then a wrong one.
pub fn any(random: &mut Random, width: u64) -> Measurement {
    let width = width.clamp(1, 70) as usize;
    let trace = any_trace(random, width);
    let lines = trace.iter().filter(|byte| **byte == b'\n').count();
    let mut verdicts = any_verdicts(random, lines);
    if random.once_in(8) {
        damage(random, &mut verdicts, b"\0\x01\x02\xff01");
    }
    Measurement { trace, verdicts }
}

fn any_trace(random: &mut Random, width: usize) -> Vec<u8> {
    if random.once_in(500) {
        return traces::near_size_limit(random, width);
    }
    let cycles = match random.below(8) {
        0 => 0,
        1 => random.within(0..=300),
        _ => random.within(1..=12),
    };
    let mut trace = match random.below(3) {
        0 => traces::any_trace(random, width, cycles),
        _ => traces::good_trace(random, width, cycles),
    };
    if random.once_in(60) {
        trace.resize(MAX_TRACE_BYTES + 1, b'1');
    }
    trace
}

/// None rejected, or a few, or many.
fn any_verdicts(random: &mut Random, lines: usize) -> Vec<u8> {
    let mut verdicts = vec![0; lines];
    if lines > 0 {
        let rejected = match random.below(4) {
            0 => 0,
            1..=2 => random.within(1..=2),
            _ => random.within(1..=lines),
        };
        for _ in 0..rejected {
            verdicts[random.below(lines)] = 1;
        }
    }
    verdicts
}
