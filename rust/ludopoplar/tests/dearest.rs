//! Document 02, No. 11: the dearest graph, through the C interface; and the bound of 10E − 2 gates
//! on graphs without operators.

mod common;

/// What the comparison draws from.
#[allow(dead_code)]
#[path = "../../differential/src/random.rs"]
mod random;

use common::{Writer, TOO_SHORT};
use ludopoplar::{build, dearest_graph, raw, Refusal, LONGEST_NETLIST};
use random::Random;

const WRITER: Writer = Writer {
    call: dearest_graph,
    raw: raw::dearest_graph,
};

/// Edges, bytes, gates and M.
#[test]
fn worked_cases() {
    for (edges, bytes, gates, variables) in [
        (1, 16, 8, 11),
        (2, 28, 18, 23),
        (3, 40, 28, 35),
        (128, 1_540, 1_278, 1_535),
    ] {
        let (answer, text) = WRITER.written(edges, bytes);
        assert_eq!(answer, Ok(bytes));
        let mut net = [0; LONGEST_NETLIST];
        assert_eq!(build(&text, &mut net), Ok(gates));
        assert_eq!(net[0], variables);
    }
    let (_, text) = WRITER.written(2, 28);
    assert_eq!(text, b"V\ta\nE\ta\ta\tt\t1\t1\nE\ta\ta\tt\t1\t1\n");
}

/// Into a buffer of just its length and into longer ones, whose surplus stays; a byte less is too
/// short. Built into just its count of numbers; a number less is too short.
#[test]
fn each_number_of_edges() {
    let mut due = b"V\ta\n".to_vec();
    for edges in 1..=128 {
        due.extend(b"E\ta\ta\tt\t1\t1\n");
        for surplus in [0, 1, 50] {
            let filled = [&due[..], &vec![b'#'; surplus]].concat();
            let answer = (Ok(due.len()), filled);
            assert_eq!(WRITER.written(edges as u64, due.len() + surplus), answer);
        }
        for lent in [0, 4, due.len() - 1] {
            let answer = (Err(TOO_SHORT), vec![b'#'; lent]);
            assert_eq!(WRITER.written(edges as u64, lent), answer);
        }
        let (gates, numbers) = (10 * edges - 2, 24 * edges + 2);
        let mut net = vec![9; numbers];
        assert_eq!(build(&due, &mut net), Ok(gates as u64));
        let due_header = [12 * edges - 1, 1, 2 * edges, 1, gates];
        assert_eq!(net[..5], due_header.map(|count| count as u16));
        let mut short = vec![9; numbers - 1];
        assert_eq!(build(&due, &mut short), Err(TOO_SHORT));
        assert_eq!(short, vec![9; numbers - 1]);
    }
}

/// 24 comes before 12, so a number outside is refused whatever the buffer.
#[test]
fn numbers_outside() {
    let refused = Refusal {
        number: 24,
        line: 0,
    };
    WRITER.refuses_outside(128, refused, &[0, 4, 15, 16, 1_540, 1_552, 4_000]);
}

/// Graphs without operators, their gates and the bound.
#[test]
fn bound_of_worked_graphs() {
    let graphs: [(&[u8], u64, u64); 4] = [
        (b"V\ta\nE\ta\ta\t-\t1\t1\n", 8, 8),
        (b"V\ta\nV\tb\nE\ta\tb\tt\t1\t1\n", 7, 8),
        (b"V\ta\nV\tb\nE\ta\ta\tt\t1\t1\nE\ta\tb\tt\t1\t1\n", 16, 18),
        (b"V\ta\nE\ta\ta\tt\t!1\t!!0\nE\ta\ta\t-\t!1\t!!0\n", 17, 18),
    ];
    for (graph, gates, bound) in graphs {
        let shown = graph.escape_ascii();
        let edges = graph.iter().filter(|byte| **byte == b'E').count() as u64;
        assert_eq!(build(graph, &mut [0; 100]), Ok(gates), "{shown}");
        assert_eq!(10 * edges - 2, bound, "{shown}");
    }
}

/// No random graph passes the bound, and with each of 1 to 5 edges some reach it.
#[test]
fn bound_of_random_graphs() {
    let mut reached = [0; 129];
    let mut net = [0; LONGEST_NETLIST];
    for case in 0..6_000 {
        let random = &mut Random::of_case(11, case);
        let most = if random.once_in(16) { 128 } else { 8 };
        let edges = random.within(1..=most);
        let graph = plain_graph(random, edges);
        let gates = build(graph.as_bytes(), &mut net).expect(&graph);
        let bound = 10 * edges as u64 - 2;
        assert!(gates <= bound, "{gates} gates, {edges} edges:\n{graph}");
        reached[edges] += u32::from(gates == bound);
    }
    assert!(!reached[1..=5].contains(&0), "{reached:?}");
}

/// A graph with so many edges and no operators, of any mode, names, widths, vertices and marks.
fn plain_graph(random: &mut Random, edges: usize) -> String {
    let mut graph = random
        .pick(&["", "", "M\tterminal\n", "M\tstrong\n"])
        .to_string();
    let mut operands = vec!["0".to_string(), "1".to_string()];
    for (kind, most) in [("S", 63), ("K", 6)] {
        let mut left = random.within(0..=most);
        while left > 0 {
            let name = format!("{kind}{left}");
            let width = random.within(1..=left.min(16));
            left -= width;
            graph += &match width == 1 && random.coin() {
                true => format!("{kind}\t{name}\n"),
                false => format!("{kind}\t{name}\t{width}\n"),
            };
            operands.extend((0..width).map(|n| format!("{name}[{n}]")));
            if width == 1 {
                operands.push(name);
            }
        }
    }
    let vertices = &["a", "b", "c", "d", "e", "f"][..random.within(1..=6)];
    for vertex in vertices {
        graph += &format!("V\t{vertex}\n");
    }
    let marks = random.pick(&[&["t"][..], &["-"], &["t", "-"]]);
    for _ in 0..edges {
        let (from, to) = (random.pick(vertices), random.pick(vertices));
        let mark = random.pick(marks);
        let [antecedent, consequent] = [(); 2].map(|()| plain_formula(random, &operands));
        graph += &format!("E\t{from}\t{to}\t{mark}\t{antecedent}\t{consequent}\n");
    }
    graph
}

/// One operand under `!` and brackets, at most as deep as a formula may be.
fn plain_formula(random: &mut Random, operands: &[String]) -> String {
    let mut formula = operands[random.below(operands.len())].clone();
    let depth = random.pick(&[0, 0, 1, 2, 3, 16]);
    for _ in 0..depth {
        formula = match random.coin() {
            true => format!("!{formula}"),
            false => format!("({formula})"),
        };
    }
    formula
}
