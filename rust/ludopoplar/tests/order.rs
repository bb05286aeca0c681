//! Document 02, No. 10: gates in the order they arrive, through the C interface. A file is written
//! with commas for line ends.

use ludopoplar::{build, raw, read, run, start, step, write, Refusal, Tally, LONGEST_NETLIST};

const G: &[u8] = b"S\tp\nS\tq\nV\ta\nV\tb\nE\ta\tb\tt\tp\tq\n";
/// G's file with its gate lines the other way round.
const G_REVERSED: &str = "aag 12 3 2 1 7,2,4,6,8 18,10 25,24,\
    24 23 21,22 4 0,20 16 7,18 16 6,16 4 2,14 10 3,12 8 3";
/// No call leaves it in a buffer: every number of a netlist is under 8,192.
const KEPT: u16 = 54_321;

type Answer<'a> = Result<&'a [u16], (u32, u32)>;

fn lines(notation: &str) -> Vec<u8> {
    (notation.replace(',', "\n") + "\n").into_bytes()
}

/// Names, files and what they read as.
const CASES: [(&str, &str, Answer); 25] = [
    (
        "the toggle with enable and reset of AIGER's paper, placed as 12, 14, 10, 8",
        "aag 7 2 1 2 4,2,4,6 8,6,7,8 4 10,10 13 15,12 2 6,14 3 7",
        Ok(&[7, 2, 1, 2, 4, 14, 0, 6, 7, 6, 2, 7, 3, 11, 9, 12, 4]),
    ),
    (
        "the lower gate after the higher, operands the other way round",
        "aag 3 1 0 1 2,2,6,6 2 4,4 2 2",
        Ok(&[3, 1, 0, 1, 2, 6, 2, 2, 4, 2]),
    ),
    (
        "the higher gate is placed first, and becomes 4",
        "aag 3 1 0 1 2,2,4,4 6 2,6 2 3",
        Ok(&[3, 1, 0, 1, 2, 6, 3, 2, 4, 2]),
    ),
    (
        "a gate and its inverse as operands",
        "aag 3 1 0 1 2,2,5,4 6 7,6 2 2",
        Ok(&[3, 1, 0, 1, 2, 7, 2, 2, 5, 4]),
    ),
    (
        "next and output renumbered, the reset not",
        "aag 4 1 1 1 2,2,4 6 4,8,6 8 2,8 4 2",
        Ok(&[4, 1, 1, 1, 2, 8, 4, 6, 4, 2, 6, 2]),
    ),
    (
        "placed as 6, 10, 4, 8",
        "aag 5 1 0 1 4,2,4,4 10 2,6 2 2,8 4 6,10 3 2",
        Ok(&[5, 1, 0, 1, 4, 8, 2, 2, 3, 2, 6, 2, 8, 4]),
    ),
    (
        "each output renumbered, its sign kept",
        "aag 3 1 0 2 2,2,4,7,4 6 2,6 2 3",
        Ok(&[3, 1, 0, 2, 2, 6, 5, 3, 2, 4, 2]),
    ),
    (
        "operands the other way round",
        "aag 2 1 0 1 1,2,4,4 2 3",
        Ok(&[2, 1, 0, 1, 1, 4, 3, 2]),
    ),
    (
        "operands the other way round, with a latch",
        "aag 3 1 1 1 1,2,4 6,6,6 2 4",
        Ok(&[3, 1, 1, 1, 1, 6, 0, 6, 4, 2]),
    ),
    (
        "two gates that wait on each other",
        "aag 3 1 0 1 2,2,4,4 6 2,6 4 2",
        Err((23, 0)),
    ),
    (
        "a gate that waits on itself",
        "aag 2 1 0 1 1,2,4,4 4 2",
        Err((23, 0)),
    ),
    (
        "a gate that waits on its own inverse",
        "aag 2 1 0 1 1,2,4,4 5 2",
        Err((23, 0)),
    ),
    (
        "a gate that waits on itself by its second operand",
        "aag 2 1 0 1 1,2,4,4 2 4",
        Err((23, 0)),
    ),
    (
        "a variable defined twice",
        "aag 3 1 0 1 2,2,4,4 2 2,4 2 2",
        Err((14, 5)),
    ),
    (
        "an odd literal over 2M",
        "aag 2 1 0 1 1,2,4,5 2 2",
        Err((14, 4)),
    ),
    (
        "an odd literal under 2M",
        "aag 3 1 0 1 2,2,4,5 2 2,6 2 2",
        Err((14, 4)),
    ),
    (
        "an input's literal",
        "aag 2 1 0 1 1,2,4,2 2 2",
        Err((14, 4)),
    ),
    ("a literal over 2M", "aag 2 1 0 1 1,2,4,6 2 2", Err((14, 4))),
    (
        "an operand over 2M + 1",
        "aag 2 1 0 1 1,2,4,4 6 2",
        Err((14, 4)),
    ),
    (
        "a second operand over 2M + 1",
        "aag 2 1 0 1 1,2,4,4 2 6",
        Err((14, 4)),
    ),
    (
        "a latch's literal",
        "aag 3 1 1 1 1,2,4 6,6,4 2 2",
        Err((14, 5)),
    ),
    (
        "14 before 23",
        "aag 3 1 0 1 2,2,4,4 4 2,4 2 2",
        Err((14, 5)),
    ),
    (
        "an extra line before 23",
        "aag 3 1 0 1 2,2,4,4 4 2,6 2 2,6 2 2",
        Err((13, 6)),
    ),
    ("a missing line", "aag 3 1 0 1 2,2,4,6 2 2", Err((13, 5))),
    (
        "a missing line before 23",
        "aag 3 1 0 1 2,2,4,4 4 2",
        Err((13, 5)),
    ),
];

/// Into a buffer of just that length and into longer ones, whose surplus stays; a refusal leaves
/// buffer and length, and does not depend on the buffer.
#[test]
fn worked_cases() {
    for (name, file, due) in CASES {
        let file = lines(file);
        let needed = due.map_or(10, <[u16]>::len);
        for length in [needed, needed + 1, needed + 40, LONGEST_NETLIST] {
            let (mut net, mut numbers) = (vec![KEPT; length], 77);
            let code = raw::read(&file, &mut net, &mut numbers);
            match due {
                Ok(due) => {
                    assert_eq!((code, numbers), (0, due.len() as u64), "{name}");
                    assert_eq!(net[..due.len()], *due, "{name}");
                    assert!(net[due.len()..].iter().all(|cell| *cell == KEPT), "{name}");
                }
                Err((number, line)) => {
                    let due = u64::from(number) << 32 | u64::from(line);
                    assert_eq!((code, numbers), (due, 77), "{name}");
                    assert!(net.iter().all(|cell| *cell == KEPT), "{name}");
                }
            }
        }
    }
}

/// 12 comes after 23: a buffer that is too short turns only files down that are taken else.
#[test]
fn short_buffers() {
    for (name, file, due) in CASES {
        let file = lines(file);
        let (number, line) = due.err().unwrap_or((12, 0));
        let shorter = 0..due.map_or(10, <[u16]>::len);
        for length in shorter {
            let (mut net, mut numbers) = (vec![KEPT; length], 77);
            let code = raw::read(&file, &mut net, &mut numbers);
            let due = u64::from(number) << 32 | u64::from(line);
            assert_eq!((code, numbers), (due, 77), "{name}");
            assert!(net.iter().all(|cell| *cell == KEPT), "{name}");
        }
    }
}

/// Document 01's G: reversed it reads as G itself, and so it does with each gate line moved to
/// the front or to the end, and with all operands the other way round.
#[test]
fn shuffled_files_of_g() {
    let mut due = [0; 24];
    assert_eq!(build(G, &mut due), Ok(7));
    let reversed = lines(G_REVERSED);
    let mut text = [0; 89];
    assert_eq!(write(&due, &mut text), Ok(89));
    let written: Vec<&[u8]> = text.split_inclusive(|byte| *byte == b'\n').collect();
    let (head, gates) = written.split_at(7);
    let mut files = vec![reversed];
    for gate in 0..gates.len() {
        let mut others = gates.to_vec();
        let moved = others.remove(gate);
        files.push([head, &[moved], &others[..]].concat().concat());
        files.push([head, &others[..], &[moved]].concat().concat());
    }
    let turned = gates.iter().map(|line| {
        let line = std::str::from_utf8(line).unwrap();
        let fields: Vec<&str> = line.split_whitespace().collect();
        format!("{} {} {}\n", fields[0], fields[2], fields[1]).into_bytes()
    });
    files.push([head.concat(), turned.collect::<Vec<_>>().concat()].concat());
    for file in files {
        let mut net = [KEPT; 30];
        assert_eq!(read(&file, &mut net), Ok(24), "{}", file.escape_ascii());
        assert_eq!((&net[..24], &net[24..]), (&due[..], &[KEPT; 6][..]));
    }
}

/// The netlist of a file in no order does what its equations say: accept is p AND q, checked
/// NOT p, next is NOT (p AND q), by gates 8 = 10 AND q, 10 = p AND p.
#[test]
fn what_is_read_runs() {
    let file = lines("aag 5 2 1 2 2,2,4,6 9 1,8,11,8 10 4,10 2 2");
    let mut net = [0; 13];
    assert_eq!(read(&file, &mut net), Ok(13));
    assert_eq!(net, [5, 2, 1, 2, 2, 11, 1, 10, 9, 2, 2, 8, 4]);
    let (mut latches, mut values, mut tally) = ([0], [0; 6], Tally::default());
    start(&net, &mut latches, &mut tally).unwrap();
    assert_eq!(latches, [u64::MAX]);
    let word = step(&net, b"11", &mut latches, &mut values, &mut tally);
    assert_eq!((word, latches), (Ok(u64::MAX), [0]));
    let mut verdicts = [7; 4];
    let trace = b"00\n01\n10\n11\n";
    run(
        &net,
        trace,
        &mut latches,
        &mut values,
        &mut verdicts,
        &mut tally,
    )
    .unwrap();
    assert_eq!((verdicts, latches), ([1, 1, 1, 0], [0]));
}

/// The packed form is as it was: a gate whose first difference is 0 would wait on itself.
#[test]
fn packed_form() {
    let refused = Refusal {
        number: 14,
        line: 0,
    };
    let mut net = [KEPT; 8];
    let answer = read(b"aig 2 1 0 1 1\n4\n\x00\x00", &mut net);
    assert_eq!((answer, net), (Err(refused), [KEPT; 8]));
}

/// As many gates as there may be, each of which waits on the one after it, lines in order or
/// reversed; and the same with a last gate that waits on the first, or on itself.
#[test]
fn longest_chains() {
    let chain = |last: usize| -> Vec<String> {
        let operand = |own: usize| match own {
            8_190 => last,
            _ => own + 3,
        };
        let gates = (2..=4_095).map(|variable| 2 * variable);
        gates
            .map(|own| format!("{own} 2 {}\n", operand(own)))
            .collect()
    };
    let file = |gates: &[String]| {
        ("aag 4095 1 0 1 4094\n2\n4\n".to_string() + &gates.concat()).into_bytes()
    };
    let mut due: Vec<u16> = vec![4_095, 1, 0, 1, 4_094, 8_190, 3, 2];
    due.extend((2..=4_094).flat_map(|variable| [2 * variable + 1, 2]));
    let mut gates = chain(3);
    for _ in 0..2 {
        let mut net = vec![KEPT; LONGEST_NETLIST];
        assert_eq!(read(&file(&gates), &mut net), Ok(8_194));
        assert_eq!((&net[..8_194], net[8_194]), (&due[..], KEPT));
        gates.reverse();
    }
    for last in [4, 5, 8_190, 8_191] {
        let refused = Refusal {
            number: 23,
            line: 0,
        };
        let mut net = vec![KEPT; LONGEST_NETLIST];
        assert_eq!(read(&file(&chain(last)), &mut net), Err(refused));
        assert!(net.iter().all(|cell| *cell == KEPT));
    }
}
