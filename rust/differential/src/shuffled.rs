//! Calls for No. 10 of document 02, all of each kind: two gates with every pair of operands, and
//! with every pair of literals; three gates in every order with many operands; next and outputs
//! of every literal; buffers of every length; and the longest files, with chains of gates that
//! wait on each other.

use crate::bench::Bench;
use crate::compare::{Call, Lengths, Memory, Mismatch, Name};
use crate::loose::{reversed_chain, Loose};
use crate::netlists::MOST_NUMBERS;

/// The orders of three lines.
const ORDERS: [[usize; 3]; 6] = [
    [0, 1, 2],
    [0, 2, 1],
    [1, 0, 2],
    [1, 2, 0],
    [2, 0, 1],
    [2, 1, 0],
];
/// Loose files for every length of the buffer: the first two are taken, the others wait, and
/// have an extra line, a missing one, a line of wrong limits.
const BUFFERED: [&[u8]; 6] = [
    b"aag 4 1 1 1 2\n2\n4 6 4\n8\n6 8 2\n8 4 2\n",
    b"aag 5 1 0 1 4\n2\n4\n4 10 2\n6 2 2\n8 4 6\n10 3 2\n",
    b"aag 3 1 0 1 2\n2\n4\n4 6 2\n6 4 2\n",
    b"aag 3 1 0 1 2\n2\n4\n4 6 2\n6 4 2\n6 4 2\n",
    b"aag 3 1 0 1 2\n2\n4\n4 4 2\n",
    b"aag 3 1 0 1 2\n2\n4\n4 4 2\n6 8 2\n",
];

/// Answers how many calls were compared.
pub fn sweep(bench: &mut Bench) -> Result<usize, Mismatch> {
    let mut count = 0;
    for file in [
        files_by_operands(),
        files_by_literals(),
        files_by_order(),
        files_by_next_and_outputs(),
    ]
    .concat()
    {
        compare(bench, file, 16)?;
        count += 1;
    }
    for file in BUFFERED {
        for length in 0..=18 {
            compare(bench, file.to_vec(), length)?;
            count += 1;
        }
    }
    for file in longest_files() {
        for length in MOST_NUMBERS - 2..=MOST_NUMBERS + 1 {
            compare(bench, file.clone(), length)?;
            count += 1;
        }
    }
    Ok(count)
}

fn compare(bench: &mut Bench, file: Vec<u8>, length: usize) -> Result<(), Mismatch> {
    let lengths = Lengths {
        net: length,
        ..Lengths::default()
    };
    let memory = Memory::random(&mut bench.random, lengths);
    bench.compare(&Call::on_bytes(Name::Read, file), memory)?;
    Ok(())
}

/// Two gates with every operands up to one past the limit, their lines in either order.
fn files_by_operands() -> Vec<Vec<u8>> {
    let mut files = Vec::new();
    for choice in 0..9 * 9 * 9 * 9 {
        let operand = |place: u32| choice / 9_usize.pow(place) % 9;
        let operands = [[operand(0), operand(1)], [operand(2), operand(3)]];
        let mut loose = Loose::of(1, &[], &[6], &operands);
        if choice % 2 == 1 {
            loose.gates.reverse();
        }
        files.push(loose.bytes());
    }
    files
}

/// After one input and one latch two or three lines of gates, with every literal up to two past
/// the limit in the first two.
fn files_by_literals() -> Vec<Vec<u8>> {
    let mut files = Vec::new();
    for lines in [2, 3] {
        for one in 0..=10 {
            for other in 0..=10 {
                let operands = vec![[4, 2]; lines];
                let mut loose = Loose::of(1, &[[2, 0]], &[5], &operands);
                loose.gates[0][0] = one;
                loose.gates[1][0] = other;
                files.push(loose.bytes());
            }
        }
    }
    files
}

/// Three gates, each with one operand of every literal but two, and the other one of every
/// variable; the lines in each order in turn.
fn files_by_order() -> Vec<Vec<u8>> {
    let mut files = Vec::new();
    for choice in 0..7 * 7 * 7 * 4 * 4 * 4 {
        let (ones, others) = (choice % 343, choice / 343);
        let operands: Vec<[usize; 2]> = (0..3)
            .map(|gate| {
                let one = 3 + ones / 7_usize.pow(gate) % 7;
                let other = 2 + 2 * (others / 4_usize.pow(gate) % 4);
                [one, other]
            })
            .collect();
        let mut loose = Loose::of(1, &[], &[8, 5], &operands);
        let gates = loose.gates;
        loose.gates = ORDERS[choice % 6].map(|gate| gates[gate]).to_vec();
        files.push(loose.bytes());
    }
    files
}

/// Of a latch and two outputs, over two gates of which the second is placed first.
fn files_by_next_and_outputs() -> Vec<Vec<u8>> {
    let mut files = Vec::new();
    for next in 0..=10 {
        for reset in [0, 1, 4] {
            for one in 0..=10 {
                for other in 0..=10 {
                    let latches = [[next, reset]];
                    let loose = Loose::of(1, &latches, &[one, other], &[[8, 2], [4, 3]]);
                    files.push(loose.bytes());
                }
            }
        }
    }
    files
}

/// As many gates as there may be, each waiting on the one after it, or the last of them on
/// itself, on the first or on one between; the lines in order and reversed.
fn longest_files() -> Vec<Vec<u8>> {
    let mut files = Vec::new();
    for outputs in [&[4][..], &[8_191, 4]] {
        for last in [3, 8_190, 4, 4_001] {
            let mut loose = reversed_chain(4_094, outputs, last);
            files.push(loose.bytes());
            loose.gates.reverse();
            files.push(loose.bytes());
        }
    }
    files
}
