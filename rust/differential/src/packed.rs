//! Calls for No. 1 of document 02, all of each kind: packed files by their first word, by their
//! outputs, cut off at each place, with every short list of some bytes for their runs, the
//! longest of them and too long ones; uninitialised latches about their limit; and netlists with
//! every difference that a gate can have.

use crate::bench::Bench;
use crate::checked::{longest_netlists, netlists_by_outputs, numbers, output_lists, BODIES};
use crate::compare::{Call, Lengths, Memory, Mismatch, Name};
use crate::netlists::MOST_NUMBERS;
use crate::packs::{Pack, FIRST_WORDS};
use crate::round_trip::both_forms;

/// The lines of a file with one gate, whose literal is 4, and with two.
const ONE_GATE: &[u8] = b"aig 2 1 0 1 1\n4\n";
const TWO_GATES: &[u8] = b"aig 3 1 0 2 2\n4\n7\n";

/// Answers how many calls were compared; a netlist in both forms is four.
pub fn sweep(bench: &mut Bench) -> Result<usize, Mismatch> {
    let mut count = 0;
    for file in [
        byte_lists(),
        files_by_first_word(),
        files_by_outputs(),
        files_by_uninitialised_latches(),
        longest_files(),
    ]
    .concat()
    {
        compare(bench, file)?;
        count += 1;
    }
    for net in [
        netlists_by_outputs(),
        netlists_by_difference(),
        longest_netlists(),
    ]
    .concat()
    {
        both_forms(bench, net)?;
        count += 4;
    }
    Ok(count)
}

fn compare(bench: &mut Bench, file: Vec<u8>) -> Result<(), Mismatch> {
    let net = match file.len() {
        ..=1_000 => 40,
        _ => MOST_NUMBERS + 2,
    };
    let lengths = Lengths {
        net,
        ..Lengths::default()
    };
    let memory = Memory::random(&mut bench.random, lengths);
    bench.compare(&Call::on_bytes(Name::Read, file), memory)?;
    Ok(())
}

/// Every list of up to four of some bytes where the runs of one gate are due, and of up to six
/// of fewer where those of two are.
fn byte_lists() -> Vec<Vec<u8>> {
    let some = [0, 1, 2, 3, 4, 5, 10, 127, 128, 129, 130, 255];
    let few = [0, 2, 4, 128, 130];
    let mut files = lists(ONE_GATE, &some, 4);
    files.extend(lists(TWO_GATES, &few, 6));
    files
}

/// The beginning with every list of up to so many of the bytes after it.
fn lists(beginning: &[u8], bytes: &[u8], most: usize) -> Vec<Vec<u8>> {
    let mut lists = vec![beginning.to_vec()];
    let mut longer = lists.clone();
    for _ in 0..most {
        longer = longer
            .iter()
            .flat_map(|list| bytes.iter().map(move |byte| [&list[..], &[*byte]].concat()))
            .collect();
        lists.extend_from_slice(&longer);
    }
    lists
}

/// Each first word before what either form has after it, whole and cut off at each place.
fn files_by_first_word() -> Vec<Vec<u8>> {
    let mut files = Vec::new();
    for word in FIRST_WORDS {
        for rest in [&b"2 1 0 1 1\n4\n\x02\x02"[..], b"2 1 0 1 1\n2\n4\n4 2 2\n"] {
            let file = [word.as_bytes(), rest].concat();
            files.extend((0..=file.len()).map(|cut| file[..cut].to_vec()));
        }
    }
    files
}

/// Each with a good line for each output, or with a wrong one, cut off at each place, and with
/// something after it.
fn files_by_outputs() -> Vec<Vec<u8>> {
    let mut files = Vec::new();
    for body in BODIES {
        let most = 2 * numbers(body, 0, &[])[0] + 1;
        for (said, outputs) in output_lists(most) {
            let mut pack = Pack::of(&numbers(body, outputs.len() as u16, &outputs));
            let header: Vec<String> = numbers(body, said, &outputs)[..5]
                .iter()
                .map(u16::to_string)
                .collect();
            pack.lines[0] = format!("aig {}\n", header.join(" ")).into_bytes();
            let whole = pack.bytes();
            files.extend((0..=whole.len()).map(|cut| whole[..cut].to_vec()));
            for tail in [&b"\0"[..], b"\n", b"c\n", b"1\n", b"\x80"] {
                files.push([&whole, tail].concat());
            }
            for at in pack.lines.len() - outputs.len()..pack.lines.len() {
                let right = pack.lines[at].clone();
                pack.lines[at].insert(0, b'0');
                files.push(pack.bytes());
                pack.lines[at] = right;
            }
        }
    }
    files
}

/// Five to eight uninitialised latches, among none or one of each other reset, with the zeros
/// written out or not.
fn files_by_uninitialised_latches() -> Vec<Vec<u8>> {
    let mut files = Vec::new();
    for free in 5..=8 {
        for others in [&[][..], &["0", "0 0", "0 1"]] {
            let latches = free + others.len();
            let mut file = format!("aig {} 1 {latches} 1 0\n", 1 + latches);
            for line in others {
                file += &format!("{line}\n");
            }
            for latch in others.len()..latches {
                file += &format!("1 {}\n", 2 * (2 + latch));
            }
            files.push((file.clone() + "1\n").into_bytes());
            files.push(file.into_bytes());
        }
    }
    files
}

/// Of as many gates as there may be: between a gate and r0 there is every even difference, or
/// every odd one, and so between r0 and r1.
fn netlists_by_difference() -> Vec<Vec<u16>> {
    let operands: [fn(u16) -> [u16; 2]; 4] = [
        |_| [0, 0],
        |_| [1, 0],
        |own| [own - 1, 1],
        |own| [own - 1, 0],
    ];
    let net = |operands: fn(u16) -> [u16; 2]| {
        let gates = (2..=4_095).flat_map(|variable| operands(2 * variable));
        let gates: Vec<u16> = gates.collect();
        numbers((1, &[], &gates), 1, &[8_191])
    };
    operands.map(net).into()
}

/// The longest netlists, of the latches every reset written, and then zeros up to the limit of
/// a file and over it.
fn longest_files() -> Vec<Vec<u8>> {
    let mut files = Vec::new();
    for mut net in longest_netlists() {
        // the resets of the last six latches, whose own literals have four digits
        let latches = usize::from(net[2]);
        for latch in latches.saturating_sub(6)..latches {
            net[5 + 2 * latch + 1] = 2 * (2 + latch as u16);
        }
        let file = Pack::of(&net).bytes();
        for length in 65_535..=65_537 {
            let mut longer = file.clone();
            longer.resize(length, 0);
            files.push(longer);
        }
        files.push(file);
    }
    files
}
