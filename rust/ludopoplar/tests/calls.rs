//! The safe calls: document 01's graph G, its packed file, the edges that are terminal, names wider
//! than a bit, the words of a start, the verdict of each run, the cycles in which a rule was at stake, the rate of
//! each tally, the line handed back from each session, the page of each run, empty slices, refusals.

use ludopoplar::{
    broken_check, broken_line, build, build_checked, first_broken, per_million, raw, read, run,
    run_checked, session_page, start, start_checked, step, step_checked, write, write_packed,
    CheckedTally, Part, Rate, Refusal, Tally, Trace, Verdict, Words, LONGEST_NETLIST,
};
use std::time::Instant;

const G: &[u8] = b"S\tp\nS\tq\nV\ta\nV\tb\nE\ta\tb\tt\tp\tq\n";
const FILE_OF_G: &[u8] = b"aag 12 3 2 1 7\n2\n4\n6\n8 18\n10 25\n24\n\
    12 8 3\n14 10 3\n16 4 2\n18 16 6\n20 16 7\n22 4 0\n24 23 21\n";

fn net_of_g() -> [u16; 24] {
    let mut net = [0; 24];
    assert_eq!(build(G, &mut net), Ok(7));
    net
}

#[test]
fn built_written_and_read_back() {
    let net = net_of_g();
    let mut text = [b'x'; 200];
    let length = write(&net, &mut text).unwrap();
    assert_eq!(text[..length], *FILE_OF_G);
    assert!(text[length..].iter().all(|byte| *byte == b'x'));
    let mut back = [0; 24];
    assert_eq!(read(FILE_OF_G, &mut back), Ok(24));
    assert_eq!(back, net);
}

/// Document 02, No. 1: the packed files of G, without checked and with it.
#[test]
fn packed_and_read_back() {
    const RUNS: &[u8] = b"\x04\x05\x04\x07\x0c\x02\x02\x0a\x04\x09\x12\x04\x01\x02";
    let net = net_of_g();
    let due = [&b"aig 12 3 2 1 7\n18\n25\n24\n"[..], RUNS].concat();
    let mut bytes = [b'x'; 60];
    assert_eq!(write_packed(&net, &mut bytes), Ok(38));
    assert_eq!(bytes[..38], due);
    assert_eq!(bytes[38..], [b'x'; 22]);
    let mut back = [9; 30];
    assert_eq!(read(&due, &mut back), Ok(24));
    assert_eq!((&back[..24], &back[24..]), (&net[..], &[9; 6][..]));

    let mut net = [0; 27];
    assert_eq!(build_checked(G, &mut net), Ok(8));
    let lines = &b"aig 13 3 2 2 8\n18\n25\n24\n27\n"[..];
    let due = [lines, RUNS, b"\x02\x05"].concat();
    let mut bytes = [0; 43];
    assert_eq!(write_packed(&net, &mut bytes), Ok(43));
    assert_eq!(bytes[..], due);
    let mut back = [9; 27];
    assert_eq!(read(&due, &mut back), Ok(27));
    assert_eq!(back, net);
}

/// The answer of each packed file: its numbers, or number and line.
#[test]
fn packed_files() {
    type Answer<'a> = Result<&'a [u16], (u32, u32)>;
    let files: [(&[u8], Answer); 33] = [
        (b"aig 1 1 0 1 0\n2\n", Ok(&[1, 1, 0, 1, 0, 2])),
        (b"aig 1 1 0 2 0\n2\n3\n", Ok(&[1, 1, 0, 2, 0, 2, 3])),
        (b"aig 2 1 1 1 0\n2\n5\n", Ok(&[2, 1, 1, 1, 0, 2, 0, 5])),
        (b"aig 2 1 1 1 0\n2 0\n5\n", Ok(&[2, 1, 1, 1, 0, 2, 0, 5])),
        (b"aig 2 1 1 1 0\n2 4\n5\n", Ok(&[2, 1, 1, 1, 0, 2, 4, 5])),
        (b"aig 2 1 0 1 1\n4\n\x02\x02", Ok(&[2, 1, 0, 1, 1, 4, 2, 0])),
        (b"aig 2 1 0 1 1\n4\n\x02\x00", Ok(&[2, 1, 0, 1, 1, 4, 2, 2])),
        (b"aig 2 1 0 1 1\n4\n\x04\x00", Ok(&[2, 1, 0, 1, 1, 4, 0, 0])),
        (b"AIG 1 1 0 1 0\n2\n", Err((13, 1))),
        (b"aig\t1 1 0 1 0\n2\n", Err((13, 1))),
        (b"aig 1 1 0 1 0\n2", Err((13, 2))),
        (b"aig 1 1 0 2 0\n2\n", Err((13, 3))),
        (b"aig 2 1 1 1 0\n4 2 0\n5\n", Err((13, 2))),
        (b"aig 2 1 0 1 1\n\x02\x02", Err((13, 2))),
        (b"aig 2 1 0 1 2\n", Err((14, 1))),
        (b"aig 1 1 0 3 0\n2\n3\n2\n", Err((14, 1))),
        (b"aig 1 1 0 1 0\n4\n", Err((14, 2))),
        (b"aig 1 1 0 2 0\n2\n4\n", Err((14, 3))),
        (b"aig 2 1 1 1 0\n2 6\n5\n", Err((14, 2))),
        (b"aig 2 1 0 1 1\n6\n\x02\x02", Err((14, 2))),
        (b"aig 2 1 0 1 1\n4\n\x00\x00", Err((14, 0))),
        (b"aig 2 1 0 1 1\n4\n\x05\xff\xff\xff", Err((14, 0))),
        (b"aig 2 1 0 1 1\n4\n\x02\x03", Err((14, 0))),
        (b"aig 2 1 0 1 1\n4\n\xff\xff\x7f\x00", Err((14, 0))),
        (b"aig 2 1 0 1 1\n4\n", Err((18, 0))),
        (b"aig 2 1 0 1 1\n4\n\x02", Err((18, 0))),
        (b"aig 2 1 0 1 1\n4\n\x02\x82", Err((18, 0))),
        (b"aig 2 1 0 1 1\n4\n\xff\xff\xff\x00", Err((18, 0))),
        (b"aig 2 1 0 1 1\n4\n\x80\x00\x00", Err((18, 0))),
        (b"aig 2 1 0 1 1\n4\n\x82\x00\x00", Err((18, 0))),
        (b"aig 2 1 0 1 1\n4\n\x02\x02\n", Err((18, 0))),
        (b"aig 2 1 0 1 1\n4\n\x02\x02\x00", Err((18, 0))),
        (b"aig 1 1 0 1 0\n2\n2\n", Err((18, 0))),
    ];
    for (file, due) in files {
        let shown = file.escape_ascii();
        let mut net = [9; 10];
        let read = read(file, &mut net);
        let (numbers, answer) = match due {
            Ok(numbers) => (numbers, Ok(numbers.len())),
            Err((number, line)) => (&[][..], Err(Refusal { number, line })),
        };
        assert_eq!(read, answer, "{shown}");
        assert_eq!(net[..numbers.len()], *numbers, "{shown}");
        assert_eq!(net[numbers.len()..], [9; 10][numbers.len()..], "{shown}");
    }
    let too_long = [&b"aig 1 1 0 1 0\n2\n"[..], &[0; 65_536]].concat();
    for (length, number) in [(65_536, 18), (65_537, 1)] {
        let refused = Refusal { number, line: 0 };
        assert_eq!(read(&too_long[..length], &mut [0; 10]), Err(refused));
    }
}

#[test]
fn run_and_step() {
    let net = net_of_g();
    let (mut latches, mut values, mut verdicts) = ([5; 2], [5; 13], [5; 3]);
    let mut tally = Tally::default();
    start(&net, &mut latches, &mut tally).unwrap();
    let verdict = run(
        &net,
        b"110\n111\n010\n",
        &mut latches,
        &mut values,
        &mut verdicts,
        &mut tally,
    );
    assert_eq!((verdict, verdicts), (Ok(Verdict::Rejected), [1, 0, 0]));
    let word = step(&net, b"110", &mut latches, &mut values, &mut tally);
    assert_eq!(word, Ok(0));
    let due = Tally {
        cycles: 4,
        rejected: 2,
    };
    assert_eq!(tally, due);
}

/// G on each trace in turn after one start: the verdict and bytes of each run, and the tally.
fn runs_of_g<const N: usize>(traces: [&[u8]; N]) -> ([(Verdict, [u8; 4]); N], Tally) {
    let net = net_of_g();
    let (mut latches, mut values, mut tally) = ([5; 2], [5; 13], Tally::default());
    start(&net, &mut latches, &mut tally).unwrap();
    let runs = traces.map(|trace| {
        let mut verdicts = [5; 4];
        let verdict = run(
            &net,
            trace,
            &mut latches,
            &mut values,
            &mut verdicts,
            &mut tally,
        );
        (verdict.unwrap(), verdicts)
    });
    (runs, tally)
}

/// Document 02, No. 2. A path of G is one edge long, so a cycle is rejected exactly where it is 110.
#[test]
fn verdict_of_each_run() {
    use Verdict::{Accepted, Rejected};
    let tally = |cycles, rejected| Tally { cycles, rejected };
    assert_eq!(
        runs_of_g([b"110\n", b"111\n"]),
        (
            [(Rejected, [1, 5, 5, 5]), (Accepted, [0, 5, 5, 5])],
            tally(2, 1)
        )
    );
    assert_eq!(
        runs_of_g([
            b"111\n110\n010\n",
            b"111\n010\n110\n",
            b"110\n110\n110\n",
            b"111\n010\n101\n",
            b"",
        ]),
        (
            [
                (Rejected, [0, 1, 0, 5]),
                (Rejected, [0, 0, 1, 5]),
                (Rejected, [1, 1, 1, 5]),
                (Accepted, [0, 0, 0, 5]),
                (Accepted, [5, 5, 5, 5]),
            ],
            tally(12, 5)
        )
    );
}

/// Document 02, Nos. 3 and 5: gates, output literal, and the verdict bytes of a trace.
fn judged<const N: usize>(graph: &[u8], trace: &[u8]) -> Result<(u64, u16, [u8; N]), Refusal> {
    let mut net = [5; 100];
    let gates = build(graph, &mut net)?;
    let output = net[5 + 2 * usize::from(net[2])];
    let (mut latches, mut values, mut verdicts) = ([5; 10], [5; 80], [5; N]);
    let mut tally = Tally::default();
    start(&net, &mut latches, &mut tally)?;
    let verdict = run(
        &net,
        trace,
        &mut latches,
        &mut values,
        &mut verdicts,
        &mut tally,
    )?;
    assert_eq!(verdict == Verdict::Rejected, verdicts.contains(&1));
    Ok((gates, output, verdicts))
}

#[test]
fn terminal_edges() {
    const ONE: &[u8] = b"V\ta\nE\ta\ta\t-\t1\t0\n";
    const TWO: &[u8] = b"V\ta\nE\ta\ta\t-\t1\t0\nE\ta\ta\tt\t1\t1\n";
    // The last gate is accept where there is a terminal edge.
    for (mode, records, due) in [
        (&b""[..], ONE, (8, 22, [1])),
        (b"M\tterminal\n", ONE, (8, 1, [0])),
        (b"M\tstrong\n", ONE, (8, 22, [1])),
        (b"M\tstrong\n", TWO, (18, 46, [1])),
        (b"M\tterminal\n", TWO, (17, 44, [0])),
        (b"", TWO, (17, 44, [0])),
        (b"", b"V\ta\n", (0, 1, [0])),
        (b"M\tstrong\n", b"V\ta\n", (0, 1, [0])),
    ] {
        let graph = [mode, records].concat();
        let shown = graph.escape_ascii();
        assert_eq!(judged(&graph, b"1\n"), Ok(due), "{shown}");
    }
    let unmarked = b"S\tp\nS\tq\nV\ta\nV\tb\nE\ta\tb\t-\tp\tq\n";
    for (mode, due) in [
        (&b""[..], (7, 24, [1, 0, 0])),
        (b"M\tterminal\n", (7, 1, [0, 0, 0])),
        (b"M\tstrong\n", (7, 24, [1, 0, 0])),
    ] {
        let graph = [mode, unmarked].concat();
        let shown = graph.escape_ascii();
        assert_eq!(judged(&graph, b"110\n111\n010\n"), Ok(due), "{shown}");
    }
}

#[test]
fn refused_mode_lines() {
    let graphs: [(&[u8], (u32, u32)); 8] = [
        (b"M\tterminal\nM\tterminal\nV\ta\n", (3, 2)),
        (b"V\ta\nM\tstrong\n", (3, 2)),
        (b"V\ta\nM\tweak\n", (2, 2)),
        (b"M\tterminal\nM\tweak\nV\ta\n", (2, 2)),
        (b"M\nV\ta\n", (2, 1)),
        (b"M\tstrong", (2, 1)),
        (b"M\tstrong\n", (10, 0)),
        (b"M\tstrong\nV\ta\nV\ta\n", (5, 3)),
    ];
    for (graph, (number, line)) in graphs {
        let mut net = [9; 100];
        let refused = build(graph, &mut net);
        let shown = graph.escape_ascii();
        assert_eq!(refused, Err(Refusal { number, line }), "{shown}");
        assert_eq!(net, [9; 100], "{shown}");
    }
}

/// Document 02, No. 3: three gates a bit, then the two joins.
#[test]
fn file_of_an_equality() {
    let graph = b"S\ta\t3\nS\tb\t3\nV\tv\nE\tv\tv\tt\ta==b\t1\n";
    let due = b"aag 28 7 2 1 19\n2\n4\n6\n8\n10\n12\n14\n16 50\n18 57\n56\n\
        20 16 3\n22 18 3\n24 21 3\n26 10 4\n28 11 5\n30 29 27\n32 12 6\n34 13 7\n36 35 33\n\
        38 14 8\n40 15 9\n42 41 39\n44 37 31\n46 44 43\n48 46 25\n50 48 1\n52 48 0\n\
        54 46 22\n56 55 53\n";
    let (mut net, mut text) = ([5; 100], [b'x'; 400]);
    assert_eq!(build(graph, &mut net), Ok(19));
    let length = write(&net, &mut text).unwrap();
    assert_eq!(text[..length], *due);
}

/// The eight wires of a handle counter, compared at once and wire by wire; and a constant
/// that takes each value.
#[test]
fn wide_names() {
    let records = "S\thandle\t8\nS\tshown\t8\nV\ta\n";
    let wires: Vec<String> = (0..8)
        .map(|n| format!("(handle[{n}]=shown[{n}])"))
        .collect();
    let trace = b"10110100101101001\n10110100111101001\n10110100101101000\n";
    for consequent in ["handle==shown", &wires.join("&")] {
        let graph = format!("{records}E\ta\ta\tt\t1\t{consequent}\n");
        let due = (39, 116, [0, 1, 1]);
        assert_eq!(judged(graph.as_bytes(), trace), Ok(due), "{consequent}");
    }
    let graph = b"S\ta\t2\nK\tk\t2\nV\tv\nE\tv\tv\tt\ta==k\tk[1]\n";
    let judged = judged(graph, b"100\n110\n101\n111\n");
    assert_eq!(judged, Ok((15, 44, [1, 1, 0, 0])));
}

#[test]
fn refused_widths() {
    let head = "S\ta\t4\nS\tc\t2\nS\tp\nV\tv\n";
    let edge = |formulas: &str| format!("{head}E\tv\tv\tt\t{formulas}\n");
    // Their circuit would have 405,230 gates.
    let dearest = vec!["a==a"; 51].join("&");
    let edges = format!("E\tv\tv\tt\t{dearest}\t{dearest}\n").repeat(62);
    let graphs: [(String, (u32, u32)); 14] = [
        (edge("a==c\t1"), (19, 5)),
        (edge("a[4]\t1"), (19, 5)),
        (edge("p[18446744073709551616]\t1"), (19, 5)),
        (edge("1\ta"), (19, 5)),
        (edge("a=a\t1"), (19, 5)),
        (edge("a\tz"), (9, 5)),
        (edge("a[00]\t1"), (7, 5)),
        (edge("a[0]==p\t1"), (7, 5)),
        ("S\ta\t17\nV\tv\n".into(), (2, 1)),
        ("S\ta\t257\nV\tv\n".into(), (2, 1)),
        ("V\tv\t1\n".into(), (2, 1)),
        ("K\tk\t7\nV\tv\n".into(), (4, 1)),
        ("K\tj\t4\nK\tk\t3\nV\tv\n".into(), (4, 2)),
        (format!("S\ta\t16\nV\tv\n{edges}"), (11, 0)),
    ];
    for (graph, (number, line)) in graphs {
        let mut net = [9; 100];
        let refused = build(graph.as_bytes(), &mut net);
        assert_eq!(refused, Err(Refusal { number, line }), "{graph}");
        assert_eq!(net, [9; 100], "{graph}");
    }
}

/// Document 02, No. 7: the file of G with checked; the last gate is alive of its edge.
#[test]
fn file_with_checked() {
    let due = b"aag 13 3 2 2 8\n2\n4\n6\n8 18\n10 25\n24\n27\n\
        12 8 3\n14 10 3\n16 4 2\n18 16 6\n20 16 7\n22 4 0\n24 23 21\n26 24 19\n";
    let (mut net, mut text) = ([9; 30], [b'x'; 200]);
    assert_eq!(build_checked(G, &mut net), Ok(8));
    assert_eq!(net[27..], [9; 3]);
    let length = write(&net, &mut text).unwrap();
    assert_eq!(text[..length], *due);
    assert!(text[length..].iter().all(|byte| *byte == b'x'));
    let mut back = [9; 30];
    assert_eq!(read(due, &mut back), Ok(27));
    assert_eq!(back, net);
    for lent in [0, 24, 26] {
        let mut short = vec![9; lent];
        let refused = Refusal {
            number: 12,
            line: 0,
        };
        assert_eq!(build_checked(G, &mut short), Err(refused));
        assert_eq!(short, vec![9; lent]);
    }
}

/// Gates without and with checked, the outputs, and the operands of as many gates as are added.
#[test]
fn gates_of_checked() {
    let three = "V\ta\n".to_string() + &"E\ta\ta\tt\t1\t1\n".repeat(3);
    let two = [G, b"E\tb\tb\tt\tp\t1\n"].concat();
    let none = b"M\tterminal\nV\ta\nE\ta\ta\t-\t1\t1\n";
    let graphs = [
        (&b"V\ta\n"[..], [0, 0], [1, 0], &[][..]),
        (none, [8, 8], [1, 0], &[]),
        (&two, [17, 20], [48, 55], &[36, 31, 46, 41, 52, 50]),
        (
            three.as_bytes(),
            [28, 33],
            [70, 81],
            &[46, 41, 56, 51, 66, 61, 74, 72, 78, 76],
        ),
    ];
    for (graph, gates, outputs, operands) in graphs {
        let shown = graph.escape_ascii();
        let mut net = [5; 100];
        assert_eq!(build(graph, &mut net), Ok(gates[0]), "{shown}");
        assert_eq!(build_checked(graph, &mut net), Ok(gates[1]), "{shown}");
        let [latches, gates] = [2, 4].map(|at| usize::from(net[at]));
        let numbers = &net[..5 + 2 * latches + 2 + 2 * gates];
        assert_eq!(numbers[5 + 2 * latches..][..2], outputs, "{shown}");
        assert!(numbers.ends_with(operands), "{shown}");
    }
    // 4,080 variables without checked, 4,215 with it.
    let labels = [["p"; 9].join("="), ["p"; 9].join("^")].join("\t");
    let graph = format!(
        "S\tp\nV\ta\n{}",
        format!("E\ta\ta\tt\t{labels}\n").repeat(68)
    );
    let mut net = [9; LONGEST_NETLIST];
    let refused = Refusal {
        number: 11,
        line: 0,
    };
    assert_eq!(build_checked(graph.as_bytes(), &mut net), Err(refused));
    assert_eq!(net, [9; LONGEST_NETLIST]);
    assert!(build(graph.as_bytes(), &mut net).is_ok());
}

const ALL: u64 = u64::MAX;
/// The lanes in which the first constant bit is 1.
const ODD: u64 = 0xAAAA_AAAA_AAAA_AAAA;

fn checked_tally([cycles, rejected, checked]: [u32; 3]) -> CheckedTally {
    CheckedTally {
        cycles,
        rejected,
        checked,
    }
}

/// Steps a netlist through a trace: the tally, and both words of each cycle. A run leaves the same
/// tally, latch words and value words.
fn stepped(net: &[u16], trace: &[u8]) -> (CheckedTally, Vec<[u64; 2]>) {
    let inputs = usize::from(net[1]);
    let (mut latches, mut values) = ([5; 10], [5; 80]);
    let mut tally = checked_tally([7, 8, 9]);
    assert_eq!(start_checked(net, &mut latches, &mut tally), Ok(()));
    assert_eq!(tally, CheckedTally::default());
    let (started, mut counted) = (latches, tally);
    let mut words = Vec::new();
    for line in trace.chunks_exact(inputs + 1) {
        let cycle = &line[..inputs];
        let stepped = step_checked(net, cycle, &mut latches, &mut values, &mut tally);
        let Words { accept, checked } = stepped.unwrap();
        words.push([accept, checked]);
    }
    let (mut run_latches, mut run_values) = (started, [5; 80]);
    let mut verdicts = vec![5; words.len()];
    let verdict = run_checked(
        net,
        trace,
        &mut run_latches,
        &mut run_values,
        &mut verdicts,
        &mut counted,
    );
    let due: Vec<u8> = words
        .iter()
        .map(|words| u8::from(words[0] != ALL))
        .collect();
    assert_eq!(verdicts, due);
    assert_eq!(verdict == Ok(Verdict::Rejected), due.contains(&1));
    assert_eq!((counted, run_latches), (tally, latches));
    assert_eq!(run_values, values);
    (tally, words)
}

/// With checked where `outputs` is 2: the tally, and each second word.
fn session(graph: &[u8], outputs: u16, trace: &[u8]) -> ([u32; 3], Vec<u64>) {
    let mut net = [5; 200];
    let gates = match outputs {
        1 => build(graph, &mut net),
        _ => build_checked(graph, &mut net),
    };
    assert!(gates.is_ok());
    assert_eq!(net[3], outputs);
    let (tally, words) = stepped(&net, trace);
    let numbers = [tally.cycles, tally.rejected, tally.checked];
    (numbers, words.iter().map(|words| words[1]).collect())
}

#[test]
fn rules_at_stake() {
    const CONSTANT: &[u8] = b"S\tp\nK\tk\nV\ta\nE\ta\ta\tt\tk\tp\n";
    const LATE: &[u8] = b"V\ta\nV\tb\nE\ta\tb\t-\t1\t1\nE\tb\tb\tt\t1\t1\n";
    const ANTECEDENT: &[u8] = b"S\tp\nV\ta\nE\ta\ta\tt\tp\t1\n";
    const CONDEMNED: &[u8] = b"S\tp\nV\ta\nE\ta\ta\tt\t1\tp\n";
    let sessions = [
        (G, 2, &b"110\n111\n010\n"[..], [3, 1, 2], &[ALL, ALL, 0][..]),
        (G, 1, b"110\n111\n010\n", [3, 1, 0], &[0, 0, 0]),
        (G, 2, b"010\n", [1, 0, 0], &[0]),
        (G, 2, b"", [0, 0, 0], &[]),
        (CONSTANT, 2, b"11\n", [1, 0, 1], &[ODD]),
        (CONSTANT, 2, b"10\n", [1, 1, 1], &[ODD]),
        (ANTECEDENT, 2, b"10\n", [1, 0, 0], &[0]),
        (LATE, 2, b"1\n0\n", [2, 0, 1], &[0, ALL]),
        (CONDEMNED, 2, b"10\n01\n", [2, 2, 2], &[ALL, ALL]),
    ];
    for (graph, outputs, trace, tally, second) in sessions {
        let shown = (graph.escape_ascii(), trace.escape_ascii());
        let found = session(graph, outputs, trace);
        assert_eq!(found, (tally, second.to_vec()), "{} {}", shown.0, shown.1);
    }
}

/// A netlist that no graph gives: the second output counts all the same.
#[test]
fn two_outputs_of_any_netlist() {
    let net = [1, 1, 0, 2, 0, 3, 2];
    let (tally, words) = stepped(&net, b"1\n0\n1\n");
    assert_eq!(tally, checked_tally([3, 2, 2]));
    assert_eq!(words, [[0, ALL], [ALL, 0], [0, ALL]]);
}

/// The old names take a netlist with two outputs; the new ones take one with one.
#[test]
fn old_names_with_two_outputs() {
    let mut net = [0; 27];
    assert_eq!(build_checked(G, &mut net), Ok(8));
    let (mut latches, mut values, mut verdicts) = ([5; 2], [5; 14], [5; 3]);
    let mut tally = Tally::default();
    start(&net, &mut latches, &mut tally).unwrap();
    let trace = b"110\n111\n010\n";
    let verdict = run(
        &net,
        trace,
        &mut latches,
        &mut values,
        &mut verdicts,
        &mut tally,
    );
    assert_eq!((verdict, verdicts), (Ok(Verdict::Rejected), [1, 0, 0]));
    let word = step(&net, b"110", &mut latches, &mut values, &mut tally);
    assert_eq!(word, Ok(0));
    let (due, _) = stepped(&net, b"110\n111\n010\n110\n");
    assert_eq!(tally, Tally::from(due));
}

/// 17 for each of the three numbers by itself, with one output too.
#[test]
fn full_tallies() {
    let mut two = [0; 27];
    assert_eq!(build_checked(G, &mut two), Ok(8));
    let full = Refusal {
        number: 17,
        line: 0,
    };
    for (net, moved) in [(&net_of_g()[..], 0), (&two, 1)] {
        for place in 0..3 {
            let with = |number| {
                let mut numbers = [3, 2, 1];
                numbers[place] = number;
                numbers
            };
            let (mut latches, mut values, mut verdicts) = ([5; 2], [5; 14], [5; 2]);
            let mut tally = checked_tally(with(u32::MAX));
            let refused = step_checked(net, b"110", &mut latches, &mut values, &mut tally);
            assert_eq!(refused, Err(full));
            let mut run = |trace: &[u8], tally: &mut CheckedTally| {
                let (latches, values) = (&mut latches, &mut values);
                run_checked(net, trace, latches, values, &mut verdicts, tally)
            };
            assert_eq!(run(b"110\n", &mut tally), Err(full));
            assert_eq!(run(b"", &mut tally), Ok(Verdict::Accepted));
            assert_eq!(tally, checked_tally(with(u32::MAX)));
            tally = checked_tally(with(u32::MAX - 1));
            assert_eq!(run(b"110\n110\n", &mut tally), Err(full));
            assert_eq!(tally, checked_tally(with(u32::MAX - 1)));
            assert_eq!(run(b"110\n", &mut tally), Ok(Verdict::Rejected));
            let [cycles, rejected, checked] = with(u32::MAX - 1);
            assert_eq!(
                tally,
                checked_tally([cycles + 1, rejected + 1, checked + moved])
            );
        }
    }
}

/// How many outputs a file or a netlist may have.
#[test]
fn one_or_two_outputs() {
    let files = [
        (&b"aag 1 1 0 0 0\n2\n"[..], Err((14, 1))),
        (b"aag 1 1 0 1 0\n2\n2\n", Ok(6)),
        (b"aag 1 1 0 1 0\n2\n2\n3\n", Err((13, 4))),
        (b"aag 1 1 0 2 0\n2\n2\n", Err((13, 4))),
        (b"aag 1 1 0 2 0\n2\n2\n3\n", Ok(7)),
        (b"aag 1 1 0 2 0\n2\n2\n4\n", Err((14, 4))),
        (b"aag 1 1 0 3 0\n2\n2\n3\n2\n", Err((14, 1))),
    ];
    for (file, due) in files {
        let due = due.map_err(|(number, line)| Refusal { number, line });
        assert_eq!(read(file, &mut [0; 10]), due, "{}", file.escape_ascii());
    }
    let no_netlist = Refusal {
        number: 16,
        line: 0,
    };
    for outputs in 0..=4 {
        let net = [1, 1, 0, outputs, 0, 2, 2, 2, 2];
        let mut tally = checked_tally([7, 8, 9]);
        let answer = start_checked(&net, &mut [], &mut tally);
        match outputs {
            1 | 2 => assert_eq!((answer, tally), (Ok(()), CheckedTally::default())),
            _ => {
                let left = checked_tally([7, 8, 9]);
                assert_eq!((answer, tally), (Err(no_netlist), left));
                let mut values = [5; 2];
                let refused = step_checked(&net, b"1", &mut [], &mut values, &mut tally);
                assert_eq!((refused, tally), (Err(no_netlist), left));
                assert_eq!(write(&net, &mut [0; 100]), Err(no_netlist));
                assert_eq!(write_packed(&net, &mut [0; 100]), Err(no_netlist));
            }
        }
    }
}

#[test]
fn longest_netlists() {
    let latches = [8_191, 1].repeat(4_094);
    let gates: Vec<u16> = (2..=4_095u16).flat_map(|own| [2 * own - 1; 2]).collect();
    for outputs in [1, 2] {
        let of = |counts: [u16; 2]| [4_095, 1, counts[0], outputs, counts[1]];
        let literals = vec![8_191; usize::from(outputs)];
        for net in [
            [&of([4_094, 0]), &latches[..], &literals].concat(),
            [&of([0, 4_094]), &literals[..], &gates].concat(),
        ] {
            assert_eq!(net.len(), LONGEST_NETLIST - 2 + usize::from(outputs));
            let (mut text, mut back) = (vec![0; 65_536], vec![9; LONGEST_NETLIST]);
            for write in [write, write_packed] {
                let length = write(&net, &mut text).unwrap();
                back.fill(9);
                assert_eq!(read(&text[..length], &mut back), Ok(net.len()));
                assert_eq!(back[..net.len()], net);
            }
            let (mut latches, mut values) = (vec![5; 4_094], vec![5; 4_096]);
            let mut tally = CheckedTally::default();
            start_checked(&net, &mut latches, &mut tally).unwrap();
            let words = step_checked(&net, b"1", &mut latches, &mut values, &mut tally).unwrap();
            let second = if outputs == 2 { words.accept } else { 0 };
            assert_eq!(words.checked, second);
        }
    }
}

/// The second word and the third number too.
#[test]
fn refused_checked_calls_leave_all_as_it_was() {
    let mut net = [0; 27];
    assert_eq!(build_checked(G, &mut net), Ok(8));
    let calls = [
        (&b"11"[..], 14, 0, (15, 1)),
        (b"11x", 13, 0, (15, 1)),
        (b"110", 13, u32::MAX, (12, 0)),
        (b"110", 14, u32::MAX, (17, 0)),
    ];
    for (cycle, lent, third, (number, line)) in calls {
        let (mut latches, mut values) = ([5; 2], [6; 14]);
        let (mut cycles, mut rejected, mut checked) = (3, 2, third);
        let (mut word, mut checked_word) = (77, 78);
        let code = raw::step_checked(
            &net,
            cycle,
            &mut latches,
            &mut values[..lent],
            &mut cycles,
            &mut rejected,
            &mut checked,
            &mut word,
            &mut checked_word,
        );
        assert_eq!(code, number << 32 | line);
        assert_eq!((latches, values), ([5; 2], [6; 14]));
        assert_eq!((cycles, rejected, checked), (3, 2, third));
        assert_eq!((word, checked_word), (77, 78));
    }
    let mut gates = 77;
    let code = raw::build_checked(G, &mut [0; 26], &mut gates);
    assert_eq!((code, gates), (12 << 32, 77));
}

/// Document 02, No. 8: tallies as cycles and rejected, rates as whole part and remainder.
const RATES: [((u32, u32), (u64, u64)); 13] = [
    ((1, 0), (0, 0)),
    ((1, 1), (1_000_000, 0)),
    ((2, 1), (500_000, 0)),
    ((3, 1), (333_333, 1)),
    ((3, 2), (666_666, 2)),
    ((7, 3), (428_571, 3)),
    ((9, 2), (222_222, 2)),
    ((1_000_000, 1), (1, 0)),
    ((1_000_001, 1), (0, 1_000_000)),
    ((524_288, 17), (32, 222_784)),
    ((4_294_967_295, 1), (0, 1_000_000)),
    ((4_294_967_295, 4_294_967_294), (999_999, 4_293_967_295)),
    ((4_294_967_295, 4_294_967_295), (1_000_000, 0)),
];
const WITHOUT_RATE: [(u32, u32); 3] = [(0, 0), (0, 1), (5, 6)];

#[test]
fn per_million_of_each_tally() {
    for ((cycles, rejected), (whole, remainder)) in RATES {
        let rate = per_million(Tally { cycles, rejected });
        assert_eq!(rate, Ok(Rate { whole, remainder }), "{cycles}, {rejected}");
    }
    let refused = Refusal {
        number: 21,
        line: 0,
    };
    for (cycles, rejected) in WITHOUT_RATE {
        let rate = per_million(Tally { cycles, rejected });
        assert_eq!(rate, Err(refused), "{cycles}, {rejected}");
    }
}

#[test]
fn refused_per_million_leaves_both_results() {
    for (cycles, rejected) in WITHOUT_RATE {
        let (mut whole, mut remainder) = (77, 78);
        let code = raw::per_million(cycles, rejected, &mut whole, &mut remainder);
        assert_eq!((code, whole, remainder), (21 << 32, 77, 78));
    }
}

#[test]
fn per_million_of_a_run() {
    let (_, tally) = runs_of_g([b"110\n111\n010\n"]);
    let due = Rate {
        whole: 333_333,
        remainder: 1,
    };
    assert_eq!(per_million(tally), Ok(due));
}

const F: &[u8] = b"10\n11\n01\n";
const H: &[u8] = b"00\n01\n";

/// Width, flywheel trace, handle trace, and the verdict bytes of each.
type Session<'a> = (usize, &'a [u8], &'a [u8], &'a [u8], &'a [u8]);

/// Makes every call on a session. Its traces are lent from within longer ones, so that an empty
/// one too has a place of its own.
fn check_session(session: Session, due: Result<Part, Refusal>) {
    let (width, flywheel, handle, of_flywheel, of_handle) = session;
    let around = [flywheel, handle].map(|trace| [b"#", trace, b"#"].concat());
    let [flywheel, handle] = [&around[0], &around[1]].map(|all| &all[1..all.len() - 1]);
    let empty_beginning = Part {
        trace: Trace::Flywheel,
        offset: 0,
        length: 0,
    };
    let part = due.unwrap_or(empty_beginning);
    let check = broken_check(width, flywheel, handle, of_flywheel, of_handle);
    assert_eq!(check, due.map(|_| ()));
    let found = broken_line(width, flywheel, handle, of_flywheel, of_handle);
    assert_eq!(found, part);

    let (number, trace) = match part.trace {
        Trace::Flywheel => (0, flywheel),
        Trace::Handle => (1, handle),
    };
    let mut results = [77, 78, 79];
    let [which, offset, length] = &mut results;
    let code = raw::broken_line(
        width as u64,
        flywheel,
        handle,
        of_flywheel,
        of_handle,
        which,
        offset,
        length,
    );
    let due_results = [number, part.offset as u64, part.length as u64];
    assert_eq!((code, results), (0, due_results));

    match first_broken(width, flywheel, handle, of_flywheel, of_handle) {
        Err(refusal) => assert_eq!(due, Err(refusal)),
        Ok(line) => {
            let place = trace[part.offset..].as_ptr();
            assert_eq!((line.as_ptr(), line.len()), (place, part.length));
            assert!(due.is_ok());
        }
    }
}

/// Document 02, No. 12: sessions, and the trace, offset and length of the line handed back.
#[test]
fn line_of_each_session() {
    use Trace::{Flywheel, Handle};
    let longest = b"1\n".repeat(524_288);
    let mut only_last = vec![0; 524_288];
    only_last[524_287] = 1;
    let sessions: [(Session, (Trace, usize, usize)); 10] = [
        ((2, F, H, &[0, 0, 1], &[0, 0]), (Flywheel, 6, 2)),
        ((2, F, H, &[0, 1, 0], &[0, 1]), (Flywheel, 3, 2)),
        ((2, F, H, &[0, 0, 1], &[0, 1]), (Handle, 3, 2)),
        ((2, F, H, &[0, 0, 0], &[1, 1]), (Handle, 0, 2)),
        ((2, F, H, &[0, 0, 0], &[0, 0]), (Flywheel, 0, 0)),
        ((2, b"", b"", &[], &[]), (Flywheel, 0, 0)),
        ((2, b"", H, &[], &[0, 1]), (Handle, 3, 2)),
        (
            (1, &longest, b"", &only_last, &[]),
            (Flywheel, 1_048_574, 1),
        ),
        ((1, b"", &longest, &[], &only_last), (Handle, 1_048_574, 1)),
        ((2, H, F, &[0, 0], &[0, 0, 1]), (Handle, 6, 2)),
    ];
    for (session, (trace, offset, length)) in sessions {
        let part = Part {
            trace,
            offset,
            length,
        };
        check_session(session, Ok(part));
    }
}

#[test]
fn refused_sessions() {
    let too_long = vec![b'1'; 1_048_577];
    let sessions: [(Session, (u32, u32)); 15] = [
        ((0, F, H, &[0, 0, 1], &[0, 0]), (26, 0)),
        ((65, F, H, &[0, 0, 1], &[0, 0]), (26, 0)),
        ((3, F, H, &[0, 0, 1], &[0, 0]), (15, 1)),
        ((2, &F[..8], H, &[0, 0, 1], &[0, 0]), (15, 3)),
        ((2, F, b"00\n0x\n", &[0, 0, 1], &[0, 0]), (15, 2)),
        ((2, b"1\n", b"0\n", &[0], &[0]), (15, 1)),
        ((2, F, H, &[0, 0], &[0, 0]), (25, 0)),
        ((2, F, H, &[0, 0, 2], &[0, 0]), (25, 0)),
        ((2, F, H, &[1, 0, 0], &[0, 0, 0]), (25, 0)),
        ((2, b"", H, &[0], &[0, 0]), (25, 0)),
        ((0, &too_long, H, &[], &[0, 0]), (1, 0)),
        ((0, F, &too_long, &[0, 0, 0], &[]), (1, 0)),
        ((usize::MAX, F, H, &[0, 0, 1], &[0, 0]), (26, 0)),
        ((1 << 32 | 2, F, H, &[0, 0, 1], &[0, 0]), (26, 0)),
        ((2, b"10\n1\n", b"0\n", &[0, 0], &[0]), (15, 2)),
    ];
    for (session, (number, line)) in sessions {
        check_session(session, Err(Refusal { number, line }));
    }
}

/// What is handed back lives as long as the traces do, whatever becomes of the verdict bytes.
#[test]
fn line_outlives_the_verdict_bytes() {
    let traces: [&[u8]; 2] = [b"111\n110\n010\n", b"110\n"];
    let line = {
        let ([(_, of_flywheel), (_, of_handle)], _) = runs_of_g(traces);
        assert_eq!((of_flywheel, of_handle), ([0, 1, 0, 5], [1, 5, 5, 5]));
        first_broken(3, traces[0], traces[1], &of_flywheel[..3], &of_handle[..1])
    };
    assert_eq!(line, Ok(&b"110"[..]));
    assert_eq!(line.unwrap().as_ptr(), traces[1].as_ptr());
}

/// One slice may be lent twice, since nothing is written to it.
#[test]
fn one_trace_as_both() {
    let part = broken_line(2, F, F, &[0, 1, 0], &[0, 0, 1]);
    let due = Part {
        trace: Trace::Flywheel,
        offset: 3,
        length: 2,
    };
    assert_eq!(part, due);
    let part = broken_line(2, F, F, &[0, 0, 1], &[0, 1, 0]);
    let due = Part {
        trace: Trace::Handle,
        ..due
    };
    assert_eq!(part, due);
}

/// Document 02, No. 9: the lines of a page, each filled up with blanks to 80 bytes.
fn page(rows: &[&str]) -> Vec<u8> {
    let lines = rows.iter().map(|row| format!("{row:<80}\n"));
    lines.collect::<String>().into_bytes()
}

/// Makes both calls, on a buffer that has just the bytes due and on a longer one.
fn check_page(name: &str, verdicts: &[u8], due: &[u8]) {
    for surplus in [0, 3] {
        let mut buffer = vec![b'x'; due.len() + surplus];
        let length = session_page(name.as_bytes(), verdicts, &mut buffer);
        assert_eq!(length, Ok(due.len()), "{name}");
        assert_eq!(buffer[..due.len()], *due, "{name}");
        assert_eq!(buffer[due.len()..], b"xxx"[..surplus], "{name}");
        let (mut again, mut length) = (vec![b'x'; buffer.len()], 77);
        let code = raw::session_page(name.as_bytes(), verdicts, &mut again, &mut length);
        assert_eq!((code, length), (0, due.len() as u64), "{name}");
        assert_eq!(again, buffer, "{name}");
    }
}

#[test]
fn page_of_each_run() {
    let pages: [(&str, &[u8], &[&str]); 12] = [
        (
            "G",
            &[1, 0, 0],
            &[
                "G                                3",
                "       1",
                "         1 333333         1",
            ],
        ),
        (
            "G",
            &[],
            &["G                                0", "         0"],
        ),
        (
            "G",
            &[0, 0, 0],
            &[
                "G                                3",
                "         0      0         0",
            ],
        ),
        (
            "aaaaaaaaaaaaaaaaaaaaaaaa",
            &[1; 11],
            &[
                "aaaaaaaaaaaaaaaaaaaaaaaa        11",
                "       1       2       3       4       5       6       7       8       9      10",
                "      11",
                "        111000000         0",
            ],
        ),
        (
            "7up",
            &[0, 1],
            &[
                "7up                              2",
                "       2",
                "         1 500000         0",
            ],
        ),
        (
            "G",
            &[0; 524_288],
            &[
                "G                           524288",
                "         0      0         0",
            ],
        ),
        (
            "_",
            &[1; 9],
            &[
                "_                                9",
                "       1       2       3       4       5       6       7       8       9",
                "         91000000         0",
            ],
        ),
        (
            "Z9a0_z",
            &[1; 10],
            &[
                "Z9a0_z                          10",
                "       1       2       3       4       5       6       7       8       9      10",
                "        101000000         0",
            ],
        ),
        (
            "refused",
            &[1; 20],
            &[
                "refused                         20",
                "       1       2       3       4       5       6       7       8       9      10",
                "      11      12      13      14      15      16      17      18      19      20",
                "        201000000         0",
            ],
        ),
        (
            "0",
            &[0, 1, 1, 0, 1, 0, 0],
            &[
                "0                                7",
                "       2       3       5",
                "         3 428571         3",
            ],
        ),
        (
            "two_of_three",
            &[1, 1, 0],
            &[
                "two_of_three                     3",
                "       1       2",
                "         2 666666         2",
            ],
        ),
        (
            "T",
            &[1],
            &[
                "T                                1",
                "       1",
                "         11000000         0",
            ],
        ),
    ];
    for (name, verdicts, rows) in pages {
        check_page(name, verdicts, &page(rows));
    }
}

/// The longest page; its time is printed, for a reader of `--nocapture`.
#[test]
fn longest_page() {
    let verdicts = vec![1; 524_288];
    let mut buffer = vec![b'x'; 4_246_912];
    let began = Instant::now();
    let length = session_page(b"G", &verdicts, &mut buffer);
    println!("524,288 rejected cycles: {:?}", began.elapsed());
    assert_eq!(length, Ok(4_246_911));
    let lines: Vec<&[u8]> = buffer.split_inclusive(|byte| *byte == b'\n').collect();
    assert_eq!((lines.len(), lines[52_431]), (52_432, &b"x"[..]));
    assert_eq!(
        lines[0],
        page(&["G                           524288"]),
        "title"
    );
    for (ten, line) in lines[1..52_429].iter().enumerate() {
        let cells = (10 * ten + 1..=10 * ten + 10).map(|cycle| format!("{cycle:>8}"));
        assert_eq!(*line, page(&[&cells.collect::<String>()]), "{ten}");
    }
    let last = page(&[
        "  524281  524282  524283  524284  524285  524286  524287  524288",
        "    5242881000000         0",
    ]);
    assert_eq!(lines[52_429..52_431].concat(), last);
}

/// Too many verdict bytes; a wrong name or verdict byte; a short buffer: the first decides.
#[test]
fn refused_pages() {
    let (too_many, mut last_wrong) = (vec![1; 524_289], vec![0; 524_288]);
    last_wrong[524_287] = 2;
    let wide = [b'a'; 25];
    let pages: [(&[u8], &[u8], usize, u32); 27] = [
        (b"", &[1], 300, 22),
        (&wide, &[1], 300, 22),
        (b"a b", &[1], 300, 22),
        (b"a-b", &[1], 300, 22),
        (b"\xe9", &[1], 300, 22),
        (b"a\n", &[1], 300, 22),
        (b"a\0", &[1], 300, 22),
        (b"@", &[1], 300, 22),
        (b"[", &[1], 300, 22),
        (b"`", &[1], 300, 22),
        (b"{", &[1], 300, 22),
        (b"/", &[1], 300, 22),
        (b":", &[1], 300, 22),
        (b"a^", &[1], 300, 22),
        (b"G", &[2], 300, 22),
        (b"G", &[0, 1, 255], 300, 22),
        (b"G", b"0", 300, 22),
        (b"G", &last_wrong, 300, 22),
        (b"", &too_many, 300, 1),
        (b"G", &too_many, 300, 1),
        (b"G", &too_many, 0, 1),
        (b"G", &[], 161, 12),
        (b"G", &[], 0, 12),
        (b"G", &[1], 242, 12),
        (b"G", &[0; 524_288], 161, 12),
        (b"", &[], 0, 22),
        (b"G", &[2], 161, 22),
    ];
    for (name, verdicts, lent, number) in pages {
        let shown = name.escape_ascii();
        let refused = Refusal { number, line: 0 };
        let mut buffer = vec![b'x'; 300];
        let answer = session_page(name, verdicts, &mut buffer[..lent]);
        assert_eq!(answer, Err(refused), "{shown}, {lent}");
        let mut length = 77;
        let code = raw::session_page(name, verdicts, &mut buffer[..lent], &mut length);
        assert_eq!((code, length), (u64::from(number) << 32, 77), "{shown}");
        assert_eq!(buffer, [b'x'; 300], "{shown}, {lent}");
    }
}

#[test]
fn page_of_a_run() {
    let ([(_, verdicts)], _) = runs_of_g([b"110\n111\n010\n"]);
    let due = page(&[
        "G                                3",
        "       1",
        "         1 333333         1",
    ]);
    check_page("G", &verdicts[..3], &due);
}

/// A netlist of one input and a latch for each reset, whose output is the input.
fn latches_with(resets: &[u16]) -> Vec<u16> {
    let count = resets.len() as u16;
    let mut net = vec![1 + count, 1, count, 1, 0];
    for reset in resets {
        net.extend([2, *reset]);
    }
    net.push(2);
    net
}

/// Document 02, No. 4: each word as a number.
#[test]
fn start_words() {
    let words: [u64; 6] = [
        12297829382473034410,
        14757395258967641292,
        17361641481138401520,
        18374966859414961920,
        18446462603027742720,
        18446744069414584320,
    ];
    let started = |resets: &[u16]| {
        let (mut latches, mut tally) = ([5; 8], Tally::default());
        let answer = start(&latches_with(resets), &mut latches, &mut tally);
        (answer, latches)
    };
    let [w0, w1, w2, w3, w4, w5] = words;
    assert_eq!(
        started(&[4, 6, 8, 10, 12, 14]),
        (Ok(()), [w0, w1, w2, w3, w4, w5, 5, 5])
    );
    assert_eq!(
        started(&[4, 0, 8, 1, 12]),
        (Ok(()), [w0, 0, w1, u64::MAX, w2, 5, 5, 5])
    );
    assert_eq!(started(&[]), (Ok(()), [5; 8]));
    let refused = Refusal {
        number: 16,
        line: 0,
    };
    let seven = started(&[4, 6, 8, 10, 12, 14, 16]);
    assert_eq!(seven, (Err(refused), [5; 8]));
}

#[test]
fn empty_slices() {
    let refusal = |number, line| Refusal { number, line };
    assert_eq!(build(b"", &mut []), Err(refusal(10, 0)));
    assert_eq!(build_checked(b"", &mut []), Err(refusal(10, 0)));
    assert_eq!(read(b"", &mut []), Err(refusal(13, 1)));
    assert_eq!(write(&[], &mut []), Err(refusal(16, 0)));
    assert_eq!(write_packed(&[], &mut []), Err(refusal(16, 0)));
    assert_eq!(session_page(b"", &[], &mut []), Err(refusal(22, 0)));
    assert_eq!(session_page(b"G", &[], &mut []), Err(refusal(12, 0)));
    // No latch, no gate, no cycle: nothing is lent but two value words.
    let net = [1, 1, 0, 1, 0, 2];
    let mut tally = Tally::default();
    assert_eq!(start(&net, &mut [], &mut tally), Ok(()));
    let verdict = run(&net, b"", &mut [], &mut [7; 2], &mut [], &mut tally);
    assert_eq!(verdict, Ok(Verdict::Accepted));
    let mut tally = CheckedTally::default();
    assert_eq!(start_checked(&net, &mut [], &mut tally), Ok(()));
    let verdict = run_checked(&net, b"", &mut [], &mut [7; 2], &mut [], &mut tally);
    assert_eq!(verdict, Ok(Verdict::Accepted));
}

#[test]
fn refusals_leave_all_as_it_was() {
    let net = net_of_g();
    let (mut latches, mut values) = ([5; 2], [6; 13]);
    let mut tally = Tally {
        cycles: 3,
        rejected: 2,
    };
    let before = tally;
    let refused = step(&net, b"1x0", &mut latches, &mut values, &mut tally);
    assert_eq!(
        refused,
        Err(Refusal {
            number: 15,
            line: 1
        })
    );
    assert_eq!((latches, values, tally), ([5; 2], [6; 13], before));
    let mut length = 77;
    let code = raw::read(FILE_OF_G, &mut [0; 23], &mut length);
    assert_eq!((code, length), (12 << 32, 77));
    let mut bytes = [b'x'; 38];
    let code = raw::write_packed(&net, &mut bytes[..37], &mut length);
    assert_eq!((code, bytes, length), (12 << 32, [b'x'; 38], 77));
    write_packed(&net, &mut bytes).unwrap();
    let mut short = [9; 23];
    let code = raw::read(&bytes, &mut short, &mut length);
    assert_eq!((code, short, length), (12 << 32, [9; 23], 77));
}
