//! No. 5 of document 02, "no mark means all edges": worked cases, numbered as they were
//! decided, each a graph text byte for byte.

mod common;

use common::{netlist, page};

/// The output literal stands after M I L O A and the latches.
fn output(net: &[u16]) -> u16 {
    net[5 + 2 * usize::from(net[2])]
}

/// Gates and output literal, or number and line of the refusal.
fn built(graph: &[u8]) -> Result<(usize, u16), (u8, u32)> {
    netlist(graph).map(|(gates, net)| (gates, output(&net)))
}

const REJECTED: &str = "R\t1\nsum\t1\t1\trejected\n";
const ACCEPTED: &str = "sum\t1\t0\taccepted\n";

/// Cases 1 to 7: one cycle with init.
#[test]
fn accepted_graphs() {
    let one: &[u8] = b"V\ta\nE\ta\ta\t-\t1\t0\n";
    let two: &[u8] = b"V\ta\nE\ta\ta\t-\t1\t0\nE\ta\ta\tt\t1\t1\n";
    // Where accept is the last gate: before the gates stand init and two latches an edge.
    let last = |edges: u16, gates: u16| 2 * (1 + 2 * edges + gates);
    for (case, mode, records, gates, due_output, due) in [
        (1, &b""[..], one, 8, last(1, 8), REJECTED),
        (2, b"M\tterminal\n", one, 8, 1, ACCEPTED),
        (3, b"M\tstrong\n", two, 18, last(2, 18), REJECTED),
        (4, b"", two, 17, last(2, 17), ACCEPTED),
        (5, b"M\tterminal\n", two, 17, last(2, 17), ACCEPTED),
        (6, b"", b"V\ta\n", 0, 1, ACCEPTED),
        (7, b"M\tstrong\n", b"V\ta\n", 0, 1, ACCEPTED),
    ] {
        let graph = [mode, records].concat();
        assert_eq!(built(&graph), Ok((gates, due_output)), "case {case}");
        assert_eq!(page(&graph, b"1\n"), due, "case {case}");
    }
}

/// Cases 8 to 26.
#[test]
fn refused_graphs() {
    let cases: [(&[u8], (u8, u32)); 19] = [
        (b"M\tterminal\n", (10, 0)),
        (b"M\tstrong\n", (10, 0)),
        (b"M\tweak\nV\ta\n", (2, 1)),
        (b"M\tStrong\nV\ta\n", (2, 1)),
        (b"M\n", (2, 1)),
        (b"M\t\nV\ta\n", (2, 1)),
        (b"M\tterminal\tx\nV\ta\n", (2, 1)),
        (b"M\tstrong", (2, 1)),
        (b"m\tstrong\nV\ta\n", (2, 1)),
        (b"V\ta\nM\tstrong\n", (3, 2)),
        (b"S\tp\nM\tterminal\nV\ta\n", (3, 2)),
        (b"V\ta\nE\ta\ta\t-\t1\t0\nM\tterminal\n", (3, 3)),
        (b"M\tterminal\nM\tterminal\nV\ta\n", (3, 2)),
        (b"M\tterminal\nM\tweak\nV\ta\n", (2, 2)),
        (b"V\ta\nM\tweak\n", (2, 2)),
        (b"M\tterminal\nV\ta\nS\tp\n", (3, 3)),
        (b"M\tterminal\nK\tk\nS\tp\nV\ta\n", (3, 3)),
        (b"M\tstrong\nV\ta\nV\ta\n", (5, 3)),
        (b"M\tstrong\nE\ta\ta\tt\t1\t1\n", (6, 2)),
    ];
    for (case, (graph, due)) in (8..).zip(cases) {
        assert_eq!(built(graph), Err(due), "case {case}");
    }
}

/// Case 27.
#[test]
fn all_named_m() {
    let graph = b"M\tstrong\nS\tM\nV\tM\nE\tM\tM\t-\tM\tM\n";
    let gates = built(graph).map(|(gates, _)| gates);
    assert_eq!(gates, Ok(8));
    assert_eq!(page(graph, b"10\n"), ACCEPTED);
    assert_eq!(page(graph, b"11\n"), ACCEPTED);
}

/// Case 28: document 01's graph G with `-` for `t`.
#[test]
fn g_without_its_mark() {
    let records = b"S\tp\nS\tq\nV\ta\nV\tb\nE\ta\tb\t-\tp\tq\n";
    let rejected = "R\t1\nsum\t3\t1\trejected\n";
    for (mode, due_output, due) in [
        (&b""[..], 24, rejected),
        (b"M\tterminal\n", 1, "sum\t3\t0\taccepted\n"),
        (b"M\tstrong\n", 24, rejected),
    ] {
        let graph = [mode, &records[..]].concat();
        assert_eq!(built(&graph), Ok((7, due_output)));
        assert_eq!(page(&graph, b"110\n111\n010\n"), due);
    }
}
