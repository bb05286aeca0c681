//! What the tests of document 02's requests share.

use reference::{build, rejected_cycles, run, start, Graph, Outputs, Tally, Verdict};

/// Gates and numbers of a graph's netlist, or number and line of the refusal.
pub fn netlist(graph: &[u8]) -> Result<(usize, Vec<u16>), (u8, u32)> {
    let mut net = vec![0; 8_194];
    match build(graph, Outputs::Accept, &mut net) {
        Ok(gates) => Ok((gates, net)),
        Err(refusal) => Err((refusal.number, refusal.line)),
    }
}

/// The monitor program's page on a trace, by the circuit and by the paths.
pub fn page(graph: &[u8], trace: &[u8]) -> String {
    let (_, net) = netlist(graph).unwrap();
    let cycles: Vec<&[u8]> = trace.split(|byte| *byte == b'\n').collect();
    let cycles = &cycles[..cycles.len() - 1];
    let (mut latches, mut values) = (vec![0; 4_094], vec![0; 4_096]);
    let (mut verdicts, mut tally) = (vec![0; cycles.len()], Tally::default());
    start(&net, &mut latches, &mut tally).unwrap();
    let verdict = run(
        &net,
        trace,
        &mut latches,
        &mut values,
        &mut verdicts,
        &mut tally,
    );
    let graph = Graph::parse(graph).unwrap();
    let by_paths: Vec<u8> = rejected_cycles(&graph, cycles)
        .into_iter()
        .map(u8::from)
        .collect();
    assert_eq!(verdicts, by_paths);
    let mut page = String::new();
    for (cycle, byte) in (1..).zip(&verdicts) {
        if *byte == 1 {
            page += &format!("R\t{cycle}\n");
        }
    }
    let verdict = match verdict.unwrap() {
        Verdict::Accepted => "accepted",
        Verdict::Rejected => "rejected",
    };
    page + &format!("sum\t{}\t{}\t{verdict}\n", tally.cycles, tally.rejected)
}
