//! Calls for No. 7 of document 02, all of each kind: graphs by their terminal edges and at the
//! limit of M, files and netlists by their outputs, the longest of them, and tallies at their
//! limits; and what is too long for a call by its old name or by its new one.

use crate::aigers::printed;
use crate::bench::Bench;
use crate::compare::{Call, Lengths, Memory, Mismatch, Name};
use crate::graphs::{variables, with_fillers};
use crate::netlists::{net_of, MOST_NUMBERS};
use crate::traces::MAX_TRACE_BYTES;
use reference::{Outputs, Tally};

/// About the limit by as many as the longest trace here has lines, and under it.
const LIMITS: [u32; 5] = [0, u32::MAX - 3, u32::MAX - 2, u32::MAX - 1, u32::MAX];
/// One input; of two outputs the second is the input too, so that `1` is checked.
const ONE_OUTPUT: [u16; 6] = [1, 1, 0, 1, 0, 2];
const TWO_OUTPUTS: [u16; 7] = [1, 1, 0, 2, 0, 2, 2];
/// Inputs, latches with next and reset, and gates of small netlists; any output is good up to
/// 2M + 1.
pub const BODIES: [(u16, &[u16], &[u16]); 3] = [
    (1, &[], &[]),
    (2, &[5, 1], &[6, 3]),
    (1, &[4, 4, 9, 0], &[5, 2, 9, 8]),
];

/// Answers how many calls were compared.
pub fn sweep(bench: &mut Bench) -> Result<usize, Mismatch> {
    let mut count = 0;
    for graph in marked_graphs() {
        count += sweep_builds(bench, &graph)?;
    }
    for graph in large_graphs().into_iter().chain(graphs_at_the_limit()) {
        for name in [Name::Build, Name::BuildChecked] {
            compare(bench, Call::on_bytes(name, graph.clone()), Tally::default())?;
            count += 1;
        }
    }
    for text in files_by_outputs() {
        compare(bench, Call::on_bytes(Name::Read, text), Tally::default())?;
        count += 1;
    }
    for net in netlists_by_outputs().into_iter().chain(longest_netlists()) {
        for call in calls_on(&net) {
            compare(bench, call, Tally::default())?;
            count += 1;
        }
    }
    for net in longest_netlists() {
        let text = printed(&net);
        compare(bench, Call::on_bytes(Name::Read, text), Tally::default())?;
        count += 1;
    }
    count += sweep_tallies(bench)?;
    count += sweep_too_long(bench)?;
    Ok(count)
}

/// On buffers long enough for every call.
fn compare(bench: &mut Bench, call: Call, tally: Tally) -> Result<(), Mismatch> {
    let lengths = match call.name {
        Name::Build | Name::BuildChecked | Name::Read => Lengths {
            net: MOST_NUMBERS + 2,
            ..Lengths::default()
        },
        Name::Write | Name::WritePacked => Lengths {
            text: 65_536,
            ..Lengths::default()
        },
        _ => Lengths {
            latches: usize::from(call.net[2]) + 1,
            values: usize::from(call.net[0]) + 2,
            verdicts: 4,
            ..Lengths::default()
        },
    };
    let mut memory = Memory::random(&mut bench.random, lengths);
    memory.tally = tally;
    bench.compare(&call, memory)?;
    Ok(())
}

/// With and without checked, on buffers that are just long enough for the one or for the
/// other, or too short by one.
fn sweep_builds(bench: &mut Bench, graph: &[u8]) -> Result<usize, Mismatch> {
    let mut count = 0;
    let both = [Outputs::Accept, Outputs::AcceptAndChecked];
    let needed = both.map(|outputs| net_of(graph, outputs).map_or(MOST_NUMBERS, |net| net.len()));
    for outputs in both {
        for needed in needed {
            for net in needed - 1..=needed + 1 {
                let lengths = Lengths {
                    net,
                    ..Lengths::default()
                };
                let memory = Memory::random(&mut bench.random, lengths);
                let call = Call::on_bytes(Name::building(outputs), graph.to_vec());
                bench.compare(&call, memory)?;
                count += 1;
            }
        }
    }
    Ok(count)
}

/// Every choice of marks of up to five edges, under each rule.
fn marked_graphs() -> Vec<Vec<u8>> {
    const EDGES: [(&str, &str); 5] = [
        ("a\ta", "p\t0"),
        ("a\tb", "1\tp"),
        ("b\tb", "k\t!p"),
        ("b\ta", "p\tk"),
        ("a\ta", "1\t1"),
    ];
    let mut graphs = Vec::new();
    for mode in ["", "M\tterminal\n", "M\tstrong\n"] {
        let head = format!("{mode}S\tp\nK\tk\nV\ta\nV\tb\n");
        for edges in 0..=EDGES.len() {
            for choice in 0..1 << edges {
                let mut graph = head.clone();
                for (at, (vertices, labels)) in EDGES[..edges].iter().enumerate() {
                    let mark = if choice >> at & 1 == 1 { "t" } else { "-" };
                    graph += &format!("E\t{vertices}\t{mark}\t{labels}\n");
                }
                graphs.push(graph);
            }
        }
    }
    graphs.into_iter().map(String::into_bytes).collect()
}

/// 128 edges, marked or not, under each rule.
fn large_graphs() -> Vec<Vec<u8>> {
    let mut graphs = Vec::new();
    for mode in ["", "M\tterminal\n", "M\tstrong\n"] {
        for mark in ["t", "-"] {
            let edge = format!("E\ta\ta\t{mark}\t1\t1\n");
            graphs.push(format!("{mode}V\ta\n{}", edge.repeat(128)).into_bytes());
        }
    }
    graphs
}

/// M of 4,094 to 4,097 with checked or without, with no terminal edge and with some.
fn graphs_at_the_limit() -> Vec<Vec<u8>> {
    let fillers = 16;
    let mut graphs = Vec::new();
    for records in [
        "M\tterminal\nV\ta\n",
        "V\ta\n",
        "V\ta\nE\ta\ta\tt\t1\t0\n",
        "V\ta\nE\ta\ta\tt\t1\t0\nE\ta\ta\tt\t1\t0\n",
    ] {
        let text = records.as_bytes();
        for outputs in [Outputs::Accept, Outputs::AcceptAndChecked] {
            let bare = variables(&with_fillers(text, fillers, 0), outputs);
            let bare = bare.expect("a graph of few gates");
            for due in 4_094..=4_097 {
                graphs.push(with_fillers(text, fillers, due - bare));
            }
        }
    }
    graphs
}

/// The counts that a netlist's or a file's header says of outputs, and has of them; and these
/// good, or one of them past the limit.
pub fn output_lists(most: u16) -> Vec<(u16, Vec<u16>)> {
    let mut lists = Vec::new();
    for said in 0..=4 {
        for has in 0..=4 {
            lists.push((said, vec![most; has]));
            for past in 0..has {
                let mut outputs = vec![0; has];
                outputs[past] = most + 1;
                lists.push((said, outputs));
            }
        }
    }
    lists
}

/// The numbers of a body with these outputs.
pub fn numbers(body: (u16, &[u16], &[u16]), said: u16, outputs: &[u16]) -> Vec<u16> {
    let (inputs, latches, gates) = body;
    let [l, a] = [latches, gates].map(|numbers| numbers.len() as u16 / 2);
    let header = [inputs + l + a, inputs, l, said, a];
    [&header, latches, outputs, gates].concat()
}

pub fn netlists_by_outputs() -> Vec<Vec<u16>> {
    let mut nets = Vec::new();
    for body in BODIES {
        let most = 2 * numbers(body, 0, &[])[0] + 1;
        for (said, outputs) in output_lists(most) {
            nets.push(numbers(body, said, &outputs));
        }
    }
    nets
}

/// Each with a good line for each output, or with a wrong one, or cut off at each line.
fn files_by_outputs() -> Vec<Vec<u8>> {
    let mut files = Vec::new();
    for body in BODIES {
        let most = 2 * numbers(body, 0, &[])[0] + 1;
        for (said, outputs) in output_lists(most) {
            let right = printed(&numbers(body, outputs.len() as u16, &outputs));
            let mut lines: Vec<Vec<u8>> = right
                .split_inclusive(|byte| *byte == b'\n')
                .map(<[u8]>::to_vec)
                .collect();
            let header = numbers(body, said, &outputs)[..5].to_vec();
            let header: Vec<String> = header.iter().map(u16::to_string).collect();
            lines[0] = format!("aag {}\n", header.join(" ")).into_bytes();
            for cut in 1..=lines.len() {
                files.push(lines[..cut].concat());
            }
            let first = 1 + usize::from(body.0) + body.1.len() / 2;
            for at in first..first + outputs.len() {
                let mut wrong = lines.clone();
                wrong[at].insert(0, b'0');
                files.push(wrong.concat());
            }
        }
    }
    files
}

/// As many numbers as there may be, with either count of outputs: latches alone, gates alone.
pub fn longest_netlists() -> Vec<Vec<u16>> {
    let latches = [8_191, 1].repeat(4_094);
    let gates: Vec<u16> = (2..=4_095u16)
        .flat_map(|own| [2 * own - 1, 2 * own - 2])
        .collect();
    let mut nets = Vec::new();
    for outputs in [&[8_191][..], &[8_191, 8_190]] {
        let said = outputs.len() as u16;
        nets.push(numbers((1, &latches, &[]), said, outputs));
        nets.push(numbers((1, &[], &gates), said, outputs));
    }
    nets
}

/// Every call that takes a netlist, with a cycle or a trace as its header asks for.
fn calls_on(net: &[u16]) -> Vec<Call> {
    let cycle = b"1".repeat(usize::from(net[1]));
    let trace = [&cycle[..], b"\n"].concat().repeat(2);
    [
        (Name::Write, &b""[..]),
        (Name::WritePacked, b""),
        (Name::Start, b""),
        (Name::StartChecked, b""),
        (Name::Step, &cycle),
        (Name::StepChecked, &cycle),
        (Name::Run, &trace),
        (Name::RunChecked, &trace),
    ]
    .map(|(name, bytes)| Call::on_net(name, net.to_vec(), bytes.to_vec()))
    .into()
}

/// Every three of some numbers as a tally, at a step and at runs of up to three cycles, all of
/// them checked, or none.
fn sweep_tallies(bench: &mut Bench) -> Result<usize, Mismatch> {
    let mut count = 0;
    for tally in tallies() {
        for net in [&ONE_OUTPUT[..], &TWO_OUTPUTS] {
            for byte in ["0", "1"] {
                for (name, bytes) in [
                    (Name::Start, String::new()),
                    (Name::StartChecked, String::new()),
                    (Name::Step, byte.to_string()),
                    (Name::StepChecked, byte.to_string()),
                ] {
                    compare(bench, Call::on_net(name, net.to_vec(), bytes.into()), tally)?;
                    count += 1;
                }
                for cycles in 0..=3 {
                    let trace = format!("{byte}\n").repeat(cycles).into_bytes();
                    for name in [Name::Run, Name::RunChecked] {
                        let call = Call::on_net(name, net.to_vec(), trace.clone());
                        compare(bench, call, tally)?;
                        count += 1;
                    }
                }
            }
        }
    }
    Ok(count)
}

fn tallies() -> Vec<Tally> {
    let mut tallies = Vec::new();
    for cycles in LIMITS {
        for rejected in LIMITS {
            for checked in LIMITS {
                tallies.push(Tally {
                    cycles,
                    rejected,
                    checked,
                });
            }
        }
    }
    tallies
}

fn sweep_too_long(bench: &mut Bench) -> Result<usize, Mismatch> {
    let graph = [&b"V\ta\n"[..], &b"#".repeat(32_765)].concat();
    let trace = b"1\n".repeat(MAX_TRACE_BYTES / 2 + 1);
    let calls = [
        Call::on_bytes(Name::Build, graph.clone()),
        Call::on_bytes(Name::BuildChecked, graph),
        Call::on_net(Name::Run, TWO_OUTPUTS.to_vec(), trace.clone()),
        Call::on_net(Name::RunChecked, TWO_OUTPUTS.to_vec(), trace),
    ];
    let count = calls.len();
    for call in calls {
        compare(bench, call, Tally::default())?;
    }
    Ok(count)
}
