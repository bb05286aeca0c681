//! Packed AIGER files, those of No. 1 of document 02: written ones and damaged ones.

use crate::aigers::{self, change_number, near_size_limit, Form};
use crate::damage::damage;
use crate::netlists;
use crate::random::Random;

/// Bytes that mean something in the lines or in the runs.
const MEANINGFUL: &[u8] = b"0123456789 \n\raigc\0\x01\x02\x7f\x80\x81\x82\xff";
/// First words of a header, with what follows each.
pub const FIRST_WORDS: [&str; 14] = [
    "aig ", "aag ", "AIG ", "Aig ", "aig\t", "aig\n", "aig", "aig  ", " aig ", "aigg ", "ai ",
    "ag ", "abc ", "",
];
/// What AIGER allows after the last gate, and a byte that could be a run.
const TAILS: [&[u8]; 6] = [b"\0", b"\n", b"\x02", b"c\n", b"i0 init\n", b"\x80"];

/// A file by its parts.
pub struct Pack {
    /// Header, latches and outputs, each with its LF.
    pub lines: Vec<Vec<u8>>,
    /// Two for each gate.
    pub runs: Vec<Vec<u8>>,
    /// What stands after the last gate.
    pub tail: Vec<u8>,
}

impl Pack {
    /// The parts of numbers in a netlist's layout, whether they are a netlist or not.
    pub fn of(net: &[u16]) -> Pack {
        let [_, inputs, latches, outputs, _] = [0, 1, 2, 3, 4].map(|at| usize::from(net[at]));
        let header: Vec<String> = net[..5].iter().map(u16::to_string).collect();
        let mut lines = vec![format!("aig {}\n", header.join(" "))];
        let (pairs, rest) = net[5..].split_at(2 * latches);
        lines.extend(pairs.chunks(2).map(|pair| match pair[1] {
            0 => format!("{}\n", pair[0]),
            reset => format!("{} {reset}\n", pair[0]),
        }));
        let (outputs, operands) = rest.split_at(outputs);
        lines.extend(outputs.iter().map(|output| format!("{output}\n")));
        let mut runs = Vec::new();
        for (gate, pair) in operands.chunks(2).enumerate() {
            let own = 2 * (1 + inputs + latches + gate);
            let [r0, r1] = [0, 1].map(|at| usize::from(pair[at]));
            runs.push(run(own.saturating_sub(r0)));
            runs.push(run(r0.saturating_sub(r1)));
        }
        Pack {
            lines: lines.into_iter().map(String::into_bytes).collect(),
            runs,
            tail: Vec::new(),
        }
    }

    pub fn bytes(&self) -> Vec<u8> {
        [self.lines.concat(), self.runs.concat(), self.tail.clone()].concat()
    }
}

/// Seven bits a byte, the lowest first.
pub fn run(number: usize) -> Vec<u8> {
    match number {
        0..=127 => vec![number as u8],
        _ => [vec![number as u8 | 128], run(number / 128)].concat(),
    }
}

/// A packed file of any kind; now and then a file of either form behind another first word.
pub fn any(random: &mut Random) -> Vec<u8> {
    if random.once_in(16) {
        return other_first_word(random);
    }
    let mut pack = written(random);
    explicit_resets(random, &mut pack);
    match random.below(4) {
        0 => pack.bytes(),
        1 if random.once_in(20) => {
            let mut bytes = pack.bytes();
            near_size_limit(random, &mut bytes);
            bytes
        }
        _ => damaged(random, pack),
    }
}

fn written(random: &mut Random) -> Pack {
    match random.once_in(60) {
        true => Pack::of(&netlists::past_limit(random)),
        false => Pack::of(&netlists::valid(random)),
    }
}

fn other_first_word(random: &mut Random) -> Vec<u8> {
    let file = match random.coin() {
        true => written(random).bytes(),
        false => aigers::any(random),
    };
    let word = random.pick(&FIRST_WORDS).as_bytes();
    [word, &file[file.len().min(4)..]].concat()
}

/// Writes a reset 0 out at some latches, as the reader also takes it.
fn explicit_resets(random: &mut Random, pack: &mut Pack) {
    for _ in 0..random.below(3) {
        let line = random.below(pack.lines.len());
        let has_one_number = !pack.lines[line].contains(&b' ');
        if has_one_number {
            let end = pack.lines[line].len() - 1;
            pack.lines[line].splice(end..end, *b" 0");
        }
    }
}

fn damaged(random: &mut Random, mut pack: Pack) -> Vec<u8> {
    for _ in 0..random.within(1..=2) {
        match random.below(8) {
            0..=3 if !pack.runs.is_empty() => change_run(random, &mut pack),
            4 => change_end(random, &mut pack),
            5 => {
                let mut bytes = pack.bytes();
                damage(random, &mut bytes, MEANINGFUL);
                return bytes;
            }
            _ => change_lines(random, &mut pack),
        }
    }
    pack.bytes()
}

fn change_lines(random: &mut Random, pack: &mut Pack) {
    let mut text = pack.lines.concat();
    change_number(random, &mut text, Form::Packed);
    pack.lines = text
        .split_inclusive(|byte| *byte == b'\n')
        .map(<[u8]>::to_vec)
        .collect();
}

/// Makes a run longer than it need be, or of another number, or damages it.
fn change_run(random: &mut Random, pack: &mut Pack) {
    let place = random.below(pack.runs.len());
    let length = pack.runs[place].len();
    let number = number_of(&pack.runs[place]);
    match random.below(12) {
        0 => drop(pack.runs.remove(place)),
        1 => pack.runs.insert(place, pack.runs[place].clone()),
        2 => pack.runs[place] = longer(&pack.runs[place], length + 1),
        3 => pack.runs[place] = longer(&pack.runs[place], random.within(2..=5)),
        4 => pack.runs[place][length - 1] |= 128,
        5 => pack.runs[place][random.below(length)] ^= 1 << random.below(8),
        6 => pack.runs[place] = run(0),
        7 => pack.runs[place] = run(number + 1),
        8 => pack.runs[place] = run(number.saturating_sub(1)),
        9 => pack.runs[place] = run(random.below(1 << 14)),
        10 => pack.runs[place] = run(random.within(1 << 14..=(1 << 21) + 1)),
        _ => pack.runs[place] = vec![255; random.within(1..=4)],
    }
}

fn number_of(run: &[u8]) -> usize {
    let bits = run.iter().map(|byte| usize::from(byte & 127));
    bits.rev().fold(0, |number, bits| 128 * number + bits)
}

/// The same number in so many bytes, if it has fewer.
fn longer(run: &[u8], length: usize) -> Vec<u8> {
    let mut run = run.to_vec();
    while run.len() < length {
        if let Some(last) = run.last_mut() {
            *last |= 128;
        }
        run.push(0);
    }
    run
}

/// Cuts the runs off in one of them or before it, or puts something after the last.
fn change_end(random: &mut Random, pack: &mut Pack) {
    match random.below(3) {
        0 if !pack.runs.is_empty() => {
            let mut kept = pack.runs.concat();
            kept.truncate(random.below(kept.len()));
            // none where nothing is kept: a run has a byte
            pack.runs = vec![kept];
            pack.runs.retain(|run| !run.is_empty());
        }
        1 => pack.tail.push(random.byte()),
        _ => pack.tail.extend_from_slice(random.pick(&TAILS)),
    }
}
