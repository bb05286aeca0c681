//! How many gates a graph has: as many as the formula says, and no more than its bounds.

use crate::bench::Bench;
use crate::compare::{Mismatch, Name};
use reference::{formula_of_gates, Edge, Graph, Outputs};

/// "The number of gates built is exactly what document 01's formula says, never
/// above 10 × edges + 3 × operators", with checked "12 × edges + 3 × operators"; here
/// without the operator `!`. "With checked left out .. E edges (1 to 128) and no operators
/// cost at most 10E − 2 gates."
pub fn check_gates(
    bench: &mut Bench,
    text: &[u8],
    outputs: Outputs,
    gates: u64,
) -> Result<(), Mismatch> {
    let graph = Graph::parse(text).expect("an accepted graph");
    let of_edge = |edge: &Edge| edge.antecedent.operators() + edge.consequent.operators();
    let operators: usize = graph.edges.iter().map(of_edge).sum();
    let edges = graph.edges.len();
    let is_plain = outputs == Outputs::Accept && edges > 0 && operators == 0;
    let bound = match outputs {
        _ if is_plain => 10 * edges - 2,
        Outputs::Accept => 10 * edges + 3 * operators,
        Outputs::AcceptAndChecked => 12 * edges + 3 * operators,
    };
    let due = formula_of_gates(&graph, outputs);
    if gates != due as u64 || due > bound {
        let text = text.escape_ascii();
        let name = Name::building(outputs);
        return Err(Mismatch(format!(
            "call: {name:?}\ngraph: \"{text}\"\n{gates} gates, by the formula {due}, at most {bound}\n"
        )));
    }
    if is_plain {
        bench.coverage.record_plain(due == bound);
    }
    Ok(())
}
