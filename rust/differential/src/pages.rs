//! Session pages: the call on one run's verdict bytes, and names and runs of every kind.

use crate::bench::Bench;
use crate::compare::{escaped, Call, Lengths, Lent, Memory, Mismatch};
use crate::random::Random;
use std::fmt;

pub const MAX_CYCLES: usize = 524_288;
const NAME_BYTES: &[u8; 63] = b"abcdefghijklmnopqrstuvwxyzABCDEFGHIJKLMNOPQRSTUVWXYZ0123456789_";
/// Those beside the ranges of the bytes that a name may have, and others that are near.
const WRONG_BYTES: &[u8] = b"@[`{/:^ -.\t\n\r\0\x7f\x80\xc3\xe9\xff";

/// What the call is lent to be read. Beside each slice stand bytes that could belong to it.
#[derive(Clone, PartialEq)]
pub struct Record {
    name: Lent<u8>,
    verdicts: Lent<u8>,
}

impl Record {
    fn lent(random: &mut Random, name: &[u8], verdicts: &[u8]) -> Self {
        Record {
            name: Lent::holding(random, name, |random| random.pick(NAME_BYTES)),
            verdicts: Lent::holding(random, verdicts, |random| random.below(2) as u8),
        }
    }

    pub fn name(&self) -> &[u8] {
        self.name.get()
    }

    pub fn verdicts(&self) -> &[u8] {
        self.verdicts.get()
    }
}

impl fmt::Display for Record {
    fn fmt(&self, f: &mut fmt::Formatter) -> fmt::Result {
        let (name, verdicts) = (self.name(), self.verdicts());
        write!(f, "name ({}): \"{}\"", name.len(), name.escape_ascii())?;
        write!(
            f,
            "\nverdicts ({}): \"{}\"",
            verdicts.len(),
            escaped(verdicts)
        )
    }
}

/// On a buffer that is long enough, or too short.
pub fn compare_page(bench: &mut Bench, name: &[u8], verdicts: &[u8]) -> Result<(), Mismatch> {
    let lent = bench.length(needed(verdicts));
    compare_page_into(bench, name, verdicts, lent)
}

/// On a buffer of this length. The buffer and the result hold any contents before the call.
pub fn compare_page_into(
    bench: &mut Bench,
    name: &[u8],
    verdicts: &[u8],
    lent: usize,
) -> Result<(), Mismatch> {
    let record = Record::lent(&mut bench.random, name, verdicts);
    let lengths = Lengths {
        text: lent,
        ..Lengths::default()
    };
    let memory = Memory::random(&mut bench.random, lengths);
    let outcome = bench.compare(&Call::session_page(record), memory)?;
    if outcome.is_accepted() {
        let page = &outcome.memory.text.get()[..outcome.memory.answer as usize];
        bench.coverage.record_page(page);
    }
    Ok(())
}

/// How many bytes the page of these verdict bytes has, if they are such.
pub fn needed(verdicts: &[u8]) -> usize {
    let rejected = verdicts.iter().filter(|byte| **byte == 1).count();
    81 * (2 + rejected.div_ceil(10))
}

/// A graph's name, or now and then a wrong one.
pub fn any_name(random: &mut Random) -> Vec<u8> {
    let length = match random.below(16) {
        0 => random.pick(&[0, 25, 26, 48, 80, 256 + 4]),
        1..=3 => 24,
        _ => random.within(1..=24),
    };
    let mut name: Vec<u8> = (0..length).map(|_| random.pick(NAME_BYTES)).collect();
    if !name.is_empty() && random.once_in(12) {
        let place = random.below(name.len());
        name[place] = match random.coin() {
            true => random.pick(WRONG_BYTES),
            false => random.byte(),
        };
    }
    name
}

/// The verdict bytes of a run, mostly of a short one, or now and then wrong ones.
pub fn any_verdicts(random: &mut Random) -> Vec<u8> {
    let cycles = match random.below(400) {
        0 => random.within(1_000..=40_000),
        1 => MAX_CYCLES + random.within(1..=3),
        2..=40 => random.within(0..=1_200),
        41..=70 => 0,
        _ => random.within(1..=40),
    };
    // So many of them in ten; all or none more often than others.
    let rejected = random.pick(&[0, 0, 1, 3, 5, 8, 10, 10]);
    let mut verdicts: Vec<u8> = (0..cycles)
        .map(|_| u8::from(random.below(10) < rejected))
        .collect();
    if !verdicts.is_empty() && random.once_in(12) {
        let place = random.below(verdicts.len());
        verdicts[place] = match random.coin() {
            true => random.pick(b"\x02\x03\x80\xff01"),
            false => random.byte(),
        };
    }
    verdicts
}
