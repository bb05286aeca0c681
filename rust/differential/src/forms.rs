//! Of what No. 1 of document 02 adds to `read` and to the writers: which kinds were met, and
//! how often.

use crate::aigers::{header_of, Form};
use crate::compare::{Call, Name, Outcome};
use std::collections::BTreeMap;
use std::fmt;

/// Of packed files that are read.
const TAKEN: [&str; 8] = [
    "O of 1",
    "O of 2",
    "no gate",
    "a run of two bytes",
    "a reset 0 written out",
    "six uninitialised latches",
    "8,195 numbers",
    "28,706 bytes",
];
/// Of packed files that are refused; a `wrong` run is one that 18 would refuse.
const REFUSED: [&str; 19] = [
    "1",
    "12",
    "13 at the header",
    "13 at a latch",
    "13 at an output",
    "14 at the header",
    "14 at a latch",
    "14 at a seventh uninitialised latch",
    "14 at an output",
    "14 at a first run",
    "14 at a first run before a wrong one",
    "14 at a second run",
    "14 at a run of three bytes",
    "18 at a missing run",
    "18 at an unfinished run",
    "18 at a run over three bytes",
    "18 at a run that is not shortest",
    "18 after the last gate",
    "18 after the outputs, with no gate",
];
const OTHER_WORD: &str = "13 at another first word";
const BOTH: [&str; 2] = ["both forms, O of 1", "both forms, O of 2"];

#[derive(Default)]
pub struct Forms {
    met: BTreeMap<&'static str, u64>,
}

impl Forms {
    /// Counts a file that is not text under each of its kinds.
    pub fn record(&mut self, call: &Call, outcome: &Outcome) {
        if call.name != Name::Read || call.bytes.starts_with(Form::Text.tag()) {
            return;
        }
        let kinds = match call.bytes.starts_with(Form::Packed.tag()) {
            true => of_packed(&call.bytes, outcome),
            false if outcome.number == 13 => vec![OTHER_WORD],
            false => Vec::new(),
        };
        for kind in kinds {
            *self.met.entry(kind).or_default() += 1;
        }
    }

    /// Counts a netlist that was written in both forms and read back from both.
    pub fn record_both(&mut self, net: &[u16]) {
        let kind = BOTH[usize::from(net[3] == 2)];
        *self.met.entry(kind).or_default() += 1;
    }

    /// The kinds that should have been met and were not.
    pub fn gaps(&self) -> Vec<String> {
        let unmet = due().filter(|kind| !self.met.contains_key(kind));
        unmet.map(|kind| format!("packed: {kind}")).collect()
    }
}

fn due() -> impl Iterator<Item = &'static str> {
    let of_files = TAKEN.into_iter().chain(REFUSED);
    of_files.chain([OTHER_WORD]).chain(BOTH)
}

fn of_packed(file: &[u8], outcome: &Outcome) -> Vec<&'static str> {
    let header = header_of(file, Form::Packed);
    match (outcome.number, outcome.line, header) {
        (0, _, Some(header)) => of_taken(file, header, outcome),
        (1, ..) => vec!["1"],
        (12, ..) => vec!["12"],
        (13, 1, _) => vec!["13 at the header"],
        (14, 1, _) => vec!["14 at the header"],
        (_, 0, Some(header)) => of_runs(file, header),
        (number, line, Some([_, inputs, latches, ..])) => {
            let latch = line as usize - 2;
            match (number, latch < latches) {
                (13, true) => vec!["13 at a latch"],
                (13, false) => vec!["13 at an output"],
                (_, true) if is_seventh(file, inputs, latch) => {
                    vec!["14 at a latch", "14 at a seventh uninitialised latch"]
                }
                (_, true) => vec!["14 at a latch"],
                (_, false) => vec!["14 at an output"],
            }
        }
        _ => Vec::new(),
    }
}

fn of_taken(file: &[u8], header: [usize; 5], outcome: &Outcome) -> Vec<&'static str> {
    let [_, inputs, latches, outputs, gates] = header;
    let bytes = after_lines(file, header);
    let explicit = lines(file)[1..=latches]
        .iter()
        .any(|line| line.ends_with(b" 0"));
    let free = uninitialised(file, inputs, latches);
    let kinds = [
        ("O of 1", outputs == 1),
        ("O of 2", outputs == 2),
        ("no gate", gates == 0),
        ("a run of two bytes", bytes.iter().any(|byte| *byte >= 128)),
        ("a reset 0 written out", explicit),
        ("six uninitialised latches", free == 6),
        ("8,195 numbers", outcome.memory.answer == 8_195),
        ("28,706 bytes", file.len() == 28_706),
    ];
    let met = kinds.into_iter().filter(|(_, is_met)| *is_met);
    met.map(|(kind, _)| kind).collect()
}

fn lines(file: &[u8]) -> Vec<&[u8]> {
    file.split(|byte| *byte == b'\n').collect()
}

/// How many of the first latches are uninitialised by their lines.
fn uninitialised(file: &[u8], inputs: usize, latches: usize) -> usize {
    let is_free = |(latch, line): &(usize, &&[u8])| {
        let own = format!(" {}", 2 * (1 + inputs + latch));
        line.ends_with(own.as_bytes())
    };
    let lines = lines(file);
    lines[1..=latches]
        .iter()
        .enumerate()
        .filter(is_free)
        .count()
}

/// Whether a latch is uninitialised and six are before it.
fn is_seventh(file: &[u8], inputs: usize, latch: usize) -> bool {
    let up_to = |latches| uninitialised(file, inputs, latches);
    up_to(latch) == 6 && up_to(latch + 1) == 7
}

/// What stands after the lines that the header speaks of.
fn after_lines(file: &[u8], [_, _, latches, outputs, _]: [usize; 5]) -> &[u8] {
    let mut rest = file;
    for _ in 0..1 + latches + outputs {
        let end = rest.iter().position(|byte| *byte == b'\n');
        rest = end.map_or(&[], |end| &rest[end + 1..]);
    }
    rest
}

/// The kinds of a file whose lines are right and whose runs are not.
fn of_runs(file: &[u8], header: [usize; 5]) -> Vec<&'static str> {
    let [_, inputs, latches, _, gates] = header;
    let mut bytes = after_lines(file, header);
    for gate in 0..gates {
        let own = 2 * (1 + inputs + latches + gate);
        let r0 = match take_run(&mut bytes) {
            Err(fault) => return vec![fault],
            Ok((number, length)) if number == 0 || number > own => {
                let mut kinds = vec!["14 at a first run"];
                if take_run(&mut bytes).is_err() {
                    kinds.push("14 at a first run before a wrong one");
                }
                kinds.extend((length == 3).then_some("14 at a run of three bytes"));
                return kinds;
            }
            Ok((number, _)) => own - number,
        };
        match take_run(&mut bytes) {
            Err(fault) => return vec![fault],
            Ok((number, _)) if number > r0 => return vec!["14 at a second run"],
            Ok(_) => (),
        }
    }
    match gates {
        0 => vec!["18 after the outputs, with no gate"],
        _ => vec!["18 after the last gate"],
    }
}

/// The number and the length of the next run, or what is wrong with it.
fn take_run(bytes: &mut &[u8]) -> Result<(usize, usize), &'static str> {
    let mut number = 0;
    for place in 0..3 {
        let Some(byte) = bytes.get(place) else {
            return Err(match place {
                0 => "18 at a missing run",
                _ => "18 at an unfinished run",
            });
        };
        number += usize::from(byte & 127) << (7 * place);
        if *byte < 128 {
            if *byte == 0 && place > 0 {
                return Err("18 at a run that is not shortest");
            }
            *bytes = &bytes[place + 1..];
            return Ok((number, place + 1));
        }
    }
    Err("18 at a run over three bytes")
}

impl fmt::Display for Forms {
    fn fmt(&self, f: &mut fmt::Formatter) -> fmt::Result {
        let shown: Vec<String> = due()
            .map(|kind| format!("{kind}: {}", self.met.get(kind).unwrap_or(&0)))
            .collect();
        write!(f, "packed files: {}", shown.join("; "))
    }
}
