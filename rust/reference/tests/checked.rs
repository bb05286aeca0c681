//! No. 7 of document 02, "cycles in which a rule was at stake": worked cases, numbered as they
//! were decided, written with blanks for tabs and commas for line ends; then what the cases
//! leave to be shown: each number of the tally at its limit, both outputs' limits, the longest
//! netlist and file.

use reference::{
    build, formula_of_gates, judged_cycles, read, run, start, step, write, Edge, Graph, Judged,
    Outputs, Refusal, Tally, Verdict,
};
use Outputs::{Accept, AcceptAndChecked};

const G: &str = "S p,S q,V a,V b,E a b t p q";
/// As many as the longest netlist has.
const NUMBERS: usize = 8_195;
const ALL: u64 = u64::MAX;
/// The lanes in which the first constant bit is 1.
const ODD: u64 = 0xAAAA_AAAA_AAAA_AAAA;

fn text(notation: &str) -> Vec<u8> {
    format!("{}\n", notation.replace(' ', "\t").replace(',', "\n")).into_bytes()
}

fn lines(notation: &str) -> Vec<u8> {
    format!("{}\n", notation.replace(',', "\n")).into_bytes()
}

fn numbered(refusal: Refusal) -> (u8, u32) {
    (refusal.number, refusal.line)
}

/// Gates and numbers of a graph's netlist, or number and line of the refusal.
fn netlist(graph: &str, outputs: Outputs) -> Result<(usize, Vec<u16>), (u8, u32)> {
    let mut net = vec![0; NUMBERS];
    let gates = build(&text(graph), outputs, &mut net).map_err(numbered)?;
    let [_, _, latches, outputs, gates_said] = [0, 1, 2, 3, 4].map(|at| usize::from(net[at]));
    assert_eq!(gates, gates_said);
    net.truncate(5 + 2 * latches + outputs + 2 * gates);
    Ok((gates, net))
}

fn gates(graph: &str, outputs: Outputs) -> usize {
    netlist(graph, outputs).expect("an accepted graph").0
}

/// The output literals of a netlist.
fn outputs(net: &[u16]) -> &[u16] {
    let first = 5 + 2 * usize::from(net[2]);
    &net[first..][..usize::from(net[3])]
}

/// The operands of its last gates.
fn last_gates(net: &[u16], count: usize) -> &[u16] {
    &net[net.len() - 2 * count..]
}

fn file(net: &[u16]) -> Vec<u8> {
    let mut file = vec![0; 65_536];
    let length = write(net, &mut file).unwrap();
    file.truncate(length);
    file
}

/// The file is as due, and is read back to the netlist's numbers.
fn check_file(graph: &str, outputs: Outputs, due: &str) {
    let (_, net) = netlist(graph, outputs).unwrap();
    assert_eq!(file(&net), lines(due));
    let mut back = vec![0; NUMBERS];
    assert_eq!(read(&lines(due), &mut back), Ok(net.len()));
    assert_eq!(back[..net.len()], net);
}

/// How many edges are terminal.
fn terminal_edges(graph: &str) -> usize {
    let graph = Graph::parse(&text(graph)).unwrap();
    let is_terminal = |edge: &&Edge| graph.is_terminal(edge);
    graph.edges.iter().filter(is_terminal).count()
}

/// What start, step and run are lent.
struct Bench {
    net: Vec<u16>,
    latches: Vec<u64>,
    values: Vec<u64>,
    tally: Tally,
}

impl Bench {
    fn new(net: Vec<u16>) -> Bench {
        let mut bench = Bench {
            net,
            latches: vec![5; 4_094],
            values: vec![5; 4_096],
            tally: tally(7, 8, 9),
        };
        start(&bench.net, &mut bench.latches, &mut bench.tally).unwrap();
        bench
    }

    fn of_graph(graph: &str, outputs: Outputs) -> Bench {
        Bench::new(netlist(graph, outputs).unwrap().1)
    }

    fn step(&mut self, cycle: &str) -> Result<[u64; 2], (u8, u32)> {
        let (latches, values) = (&mut self.latches, &mut self.values);
        let cycle = cycle.as_bytes();
        let words = step(&self.net, cycle, latches, values, &mut self.tally).map_err(numbered)?;
        Ok([words.accept, words.checked])
    }

    fn run(&mut self, trace: &[u8]) -> Result<(Verdict, Vec<u8>), (u8, u32)> {
        let cycles = trace.iter().filter(|byte| **byte == b'\n').count();
        let mut verdicts = vec![5; cycles];
        let (latches, values) = (&mut self.latches, &mut self.values);
        let tally = &mut self.tally;
        let verdict =
            run(&self.net, trace, latches, values, &mut verdicts, tally).map_err(numbered)?;
        Ok((verdict, verdicts))
    }
}

fn tally(cycles: u32, rejected: u32, checked: u32) -> Tally {
    Tally {
        cycles,
        rejected,
        checked,
    }
}

/// Steps a graph's netlist through a trace: the tally, and each second word. A run leaves the
/// same tally, and so do the paths of the graph.
fn session(graph: &str, outputs: Outputs, trace: &str) -> ([u32; 3], Vec<u64>) {
    let mut bench = Bench::of_graph(graph, outputs);
    let words: Vec<[u64; 2]> = trace
        .split(' ')
        .map(|cycle| bench.step(cycle).unwrap())
        .collect();
    let mut at_once = Bench::of_graph(graph, outputs);
    at_once.run(&lines(&trace.replace(' ', ","))).unwrap();
    assert_eq!(at_once.tally, bench.tally);
    assert_eq!(at_once.latches, bench.latches);
    let parsed = Graph::parse(&text(graph)).unwrap();
    let cycles: Vec<&[u8]> = trace.split(' ').map(str::as_bytes).collect();
    for (words, judged) in words.iter().zip(judged_cycles(&parsed, &cycles)) {
        let Judged { rejected, checked } = judged;
        let due = match outputs {
            Accept => [!rejected, 0],
            AcceptAndChecked => [!rejected, checked],
        };
        assert_eq!(*words, due);
    }
    let Tally {
        cycles,
        rejected,
        checked,
    } = bench.tally;
    let second = words.iter().map(|words| words[1]).collect();
    ([cycles, rejected, checked], second)
}

/// Cases 7.1 to 7.3.
#[test]
fn files() {
    let without = "aag 12 3 2 1 7,2,4,6,8 18,10 25,24,\
        12 8 3,14 10 3,16 4 2,18 16 6,20 16 7,22 4 0,24 23 21";
    check_file(G, Accept, without);
    let with = "aag 13 3 2 2 8,2,4,6,8 18,10 25,24,27,\
        12 8 3,14 10 3,16 4 2,18 16 6,20 16 7,22 4 0,24 23 21,26 24 19";
    check_file(G, AcceptAndChecked, with);
    check_file("V a", AcceptAndChecked, "aag 1 1 0 2 0,2,1,0");
}

/// Case 7.4.
#[test]
fn no_terminal_edge() {
    let graph = "M terminal,V a,E a a - 1 1";
    let (gates_with, net) = netlist(graph, AcceptAndChecked).unwrap();
    let gates_without = gates(graph, Accept);
    let found = (outputs(&net), gates_with, gates_without);
    assert_eq!(found, (&[1, 0][..], 8, 8));
}

/// Case 7.5: both alive, then the join.
#[test]
fn two_terminal_edges() {
    let graph = format!("{G},E b b t p 1");
    let (gates_with, net) = netlist(&graph, AcceptAndChecked).unwrap();
    assert_eq!((gates(&graph, Accept), gates_with), (17, 20));
    assert_eq!(outputs(&net)[1], 55);
    assert_eq!(last_gates(&net, 3), [36, 31, 46, 41, 52, 50]);
}

/// Cases 7.6 and 7.7: gates without, with, and the bound of 12 an edge.
#[test]
fn dear_graphs() {
    let loops = |count: usize| format!("V a{}", ",E a a t 1 1".repeat(count));
    let three = [
        gates(&loops(3), Accept),
        gates(&loops(3), AcceptAndChecked),
        12 * 3,
    ];
    assert_eq!(three, [28, 33, 36]);
    let most = (gates(&loops(128), AcceptAndChecked), 12 * 128);
    assert_eq!(most, (1_533, 1_536));
}

/// Case 7.8: happy-now and condemned-now are the latches' next literals, which the gates of
/// alive take inverted; the edge between has none.
#[test]
fn one_edge_not_terminal() {
    let graph = "V a,E a a t 1 1,E a a - 1 1,E a a t 1 1";
    let (gates_with, net) = netlist(graph, AcceptAndChecked).unwrap();
    assert_eq!(gates_with - gates(graph, Accept), 3);
    let nexts: Vec<u16> = net[5..17].chunks(2).map(|latch| latch[0]).collect();
    let alive = |edge: usize| [nexts[2 * edge + 1] ^ 1, nexts[2 * edge] ^ 1];
    assert_eq!(last_gates(&net, 3)[..4], [alive(0), alive(2)].concat());
}

/// Cases 7.9 to 7.16.
#[test]
fn sessions() {
    let constant = "S p,K k,V a,E a a t k p";
    let late = "V a,V b,E a b - 1 1,E b b t 1 1";
    let condemned = "S p,V a,E a a t 1 p";
    for (case, graph, outputs, trace, tally, second) in [
        (
            9,
            G,
            AcceptAndChecked,
            "110 111 010",
            [3, 1, 2],
            vec![ALL, ALL, 0],
        ),
        (10, G, Accept, "110 111 010", [3, 1, 0], vec![0, 0, 0]),
        (11, G, AcceptAndChecked, "010", [1, 0, 0], vec![0]),
        (12, constant, AcceptAndChecked, "11", [1, 0, 1], vec![ODD]),
        (13, constant, AcceptAndChecked, "10", [1, 1, 1], vec![ODD]),
        (
            14,
            "S p,V a,E a a t p 1",
            AcceptAndChecked,
            "10",
            [1, 0, 0],
            vec![0],
        ),
        (15, late, AcceptAndChecked, "1 0", [2, 0, 1], vec![0, ALL]),
        (
            16,
            condemned,
            AcceptAndChecked,
            "10 01",
            [2, 2, 2],
            vec![ALL, ALL],
        ),
    ] {
        let found = session(graph, outputs, trace);
        assert_eq!(found, (tally, second), "case 7.{case}");
    }
}

/// Cases 7.17 and 7.18.
#[test]
fn full_third_number() {
    let mut bench = Bench::of_graph(G, Accept);
    bench.tally = tally(0, 0, u32::MAX);
    assert_eq!(bench.step("000"), Err((17, 0)));
    bench.tally = tally(0, 0, u32::MAX - 1);
    assert_eq!(bench.run(b"000\n000\n"), Err((17, 0)));
    assert!(bench.run(b"000\n").is_ok());
    assert_eq!(bench.tally, tally(1, 0, u32::MAX - 1));
}

/// Case 7.19.
#[test]
fn read_files() {
    for (notation, due) in [
        ("aag 1 1 0 2 0,2,2", Err((13, 4))),
        ("aag 1 1 0 3 0,2,2", Err((14, 1))),
        ("aag 1 1 0 2 0,2,2,4", Err((14, 4))),
        ("aag 1 1 0 2 0,2,2,3", Ok(7)),
    ] {
        let length = read(&lines(notation), &mut [0; 10]).map_err(numbered);
        assert_eq!(length, due, "{notation}");
    }
}

/// Case 7.20.
#[test]
fn too_many_variables_with_checked() {
    let label = |operator: &str| ["p"; 9].join(operator);
    let edge = format!(",E a a t {} {}", label("="), label("^"));
    let graph = format!("S p,V a{}", edge.repeat(68));
    assert_eq!(netlist(&graph, Accept).unwrap().1[0], 4_080);
    assert_eq!(netlist(&graph, AcceptAndChecked), Err((11, 0)));
}

/// Case 7.21: three alive, then two joins.
#[test]
fn joins_after_all_alive() {
    let graph = "V a,E a a t 1 1,E a a t 1 1,E a a t 1 1";
    let (_, net) = netlist(graph, AcceptAndChecked).unwrap();
    assert_eq!((net[0], outputs(&net)), (40, &[70, 81][..]));
    let due = [46, 41, 56, 51, 66, 61, 74, 72, 78, 76];
    assert_eq!(last_gates(&net, 5), due);
}

/// With checked a netlist has the gates and latches of the one without, then those of checked.
#[test]
fn checked_only_adds() {
    let edges = "E a b t p^k p=k,E a b - 1 p&!k,E b a t p|k 0,E b b - 1 1,E b a t p k";
    for mode in ["", "M terminal,", "M strong,"] {
        for count in 0..=5 {
            let edges: String = edges
                .split(',')
                .take(count)
                .map(|e| format!(",{e}"))
                .collect();
            let graph = format!("{mode}S p,K k,V a,V b{edges}");
            let terminal = terminal_edges(&graph);
            let (gates, without) = netlist(&graph, Accept).unwrap();
            let (gates_with, with) = netlist(&graph, AcceptAndChecked).unwrap();
            let added = (2 * terminal).saturating_sub(1);
            assert_eq!(gates_with, gates + added, "{graph}");
            let parsed = Graph::parse(&text(&graph)).unwrap();
            assert_eq!(gates_with, formula_of_gates(&parsed, AcceptAndChecked));
            let body = 5 + 2 * usize::from(without[2]);
            assert_eq!(with[5..=body], without[5..=body], "latches and accept");
            assert_eq!(with[body + 2..][..2 * gates], without[body + 1..], "gates");
            let due = match terminal {
                0 => 0,
                _ => 2 * with[0] + 1,
            };
            assert_eq!(with[body + 1], due, "{graph}");
        }
    }
}

/// 17 for each number of the tally by itself, with either count of outputs; each number that
/// just has room; and no 17 for an empty trace.
#[test]
fn each_number_at_its_limit() {
    for outputs in [Accept, AcceptAndChecked] {
        for place in 0..3 {
            let with = |number: u32| {
                let mut numbers = [3, 2, 1];
                numbers[place] = number;
                tally(numbers[0], numbers[1], numbers[2])
            };
            let mut bench = Bench::of_graph(G, outputs);
            bench.tally = with(u32::MAX);
            let latches = bench.latches.clone();
            assert_eq!(bench.step("110"), Err((17, 0)));
            assert_eq!(bench.run(b"110\n"), Err((17, 0)));
            assert!(bench.run(b"").is_ok());
            assert_eq!((bench.tally, &bench.latches), (with(u32::MAX), &latches));
            bench.tally = with(u32::MAX - 2);
            assert_eq!(bench.run(b"110\n110\n110\n"), Err((17, 0)));
            assert!(bench.run(b"110\n110\n").is_ok());
            let moved = match outputs {
                Accept => [2, 2, 0],
                AcceptAndChecked => [2, 2, 2],
            };
            let before = with(u32::MAX - 2);
            let due = tally(
                before.cycles + moved[0],
                before.rejected + moved[1],
                before.checked + moved[2],
            );
            assert_eq!(bench.tally, due);
        }
    }
}

/// The order of refusals is that of one output: 16, 15, 12, 17.
#[test]
fn order_of_refusals() {
    let mut bench = Bench::of_graph(G, AcceptAndChecked);
    bench.tally = tally(0, 0, u32::MAX);
    bench.values.truncate(13);
    assert_eq!(bench.step("11"), Err((15, 1)));
    assert_eq!(bench.step("110"), Err((12, 0)));
    bench.values.push(5);
    assert_eq!(bench.step("110"), Err((17, 0)));
    for outputs in [0, 3] {
        bench.net[3] = outputs;
        assert_eq!(bench.step("11"), Err((16, 0)));
        assert_eq!(bench.run(b"11"), Err((16, 0)));
        let mut tally = bench.tally;
        let refused = start(&bench.net, &mut [], &mut tally).map_err(numbered);
        assert_eq!((refused, tally), (Err((16, 0)), bench.tally));
        let refused = write(&bench.net, &mut []).map_err(numbered);
        assert_eq!(refused, Err((16, 0)));
    }
}

/// A buffer for the netlist without checked is too short for that with it; a longer one keeps
/// its surplus.
#[test]
fn buffers() {
    let (_, due) = netlist(G, AcceptAndChecked).unwrap();
    for length in [0, 24, 25, 26] {
        let mut net = vec![9; length];
        let refused = build(&text(G), AcceptAndChecked, &mut net).map_err(numbered);
        assert_eq!((refused, net), (Err((12, 0)), vec![9; length]));
    }
    let mut net = [9; 30];
    assert_eq!(build(&text(G), AcceptAndChecked, &mut net), Ok(8));
    assert_eq!((&net[..27], &net[27..]), (&due[..], &[9, 9, 9][..]));
}

/// 5 + 2 × 4,094 + 2 numbers, by latches or by gates; their files are under 65,536 bytes.
#[test]
fn longest_netlists() {
    let by_latches = {
        let mut net = vec![4_095, 1, 4_094, 2, 0];
        net.extend([8_191, 1].repeat(4_094));
        net
    };
    let by_gates = {
        let mut net = vec![4_095, 1, 0, 2, 4_094, 8_191, 8_191];
        net.extend((2..4_096u16).flat_map(|own| [2 * own - 1, 2 * own - 1]));
        net
    };
    for net in [[by_latches, vec![8_191, 8_191]].concat(), by_gates] {
        assert_eq!(net.len(), NUMBERS);
        let file = file(&net);
        assert!(file.len() < 65_536);
        let mut back = vec![0; NUMBERS];
        assert_eq!(read(&file, &mut back), Ok(NUMBERS));
        assert_eq!(back, net);
        let short = read(&file, &mut back[1..]).map_err(numbered);
        assert_eq!(short, Err((12, 0)));
        let mut bench = Bench::new(net);
        let [accept, checked] = bench.step("1").unwrap();
        assert_eq!(accept, checked);
    }
}
