//! The graph texts that are written: the stroke buffer's, No. 6 of document 02, with the cycles
//! that it rejects, and the dearest graph, No. 11.

use crate::refusal::{fill, Cause, Refusal};

/// Checks 20, 12; writes the graph's text and returns how many bytes it has.
pub fn buffer_graph(strokes: u64, text: &mut [u8]) -> Result<usize, Refusal> {
    // "k outside 1 to 40 is 20, line 0, before 12."
    if !(1..=40).contains(&strokes) {
        return Err(Cause::StrokesOutOfRange.no_line());
    }
    let mut graph = String::new();
    // "Signals are `reset`, `enq`, `deq`, `empty`, `full`; .. there is no `M` line."
    for signal in ["reset", "enq", "deq", "empty", "full"] {
        graph += &format!("S\t{signal}\n");
    }
    // "Vertices are `s`, then `n` with each count."
    graph += "V\ts\n";
    for count in 0..=strokes {
        graph += &format!("V\tn{count}\n");
    }
    // "The start vertex has one edge, `reset`/`1`, to the vertex of count 0; then come the
    // listing's edges, from-counts rising, at each in the listing's order." "Each edge is marked
    // `t`."
    graph += "E\ts\tn0\tt\treset\t1\n";
    for count in 0..=strokes {
        for [to, antecedent, consequent] in counting_state(count, strokes) {
            graph += &format!("E\tn{count}\tn{to}\tt\t{antecedent}\t{consequent}\n");
        }
    }
    fill(text, graph.as_bytes())?;
    Ok(graph.len())
}

/// The listing's edges from count i, in its order, with depth k: the count that each goes to, its
/// antecedent and its consequent.
fn counting_state(i: u64, k: u64) -> Vec<[String; 3]> {
    let edge = |to: u64, antecedent: &str, consequent: &str| {
        [to.to_string(), antecedent.into(), consequent.into()]
    };
    if i == 0 {
        vec![
            edge(1, "enq", "empty&!full"),
            edge(0, "!enq", "empty&!full"),
        ]
    } else if i == k {
        vec![
            edge(k - 1, "deq", "!empty&full"),
            edge(k, "!deq", "!empty&full"),
        ]
    } else {
        vec![
            edge(i + 1, "enq&!deq", "!empty&!full"),
            edge(i - 1, "!enq&deq", "!empty&!full"),
            edge(i, "enq=deq", "!empty&!full"),
        ]
    }
}

/// "A cycle is rejected exactly when a latest init exists, `reset` was high in that cycle, and
/// from the cycle after it up to now an edge of the listing could be taken each time and the
/// flags were wrong at least once against the listing's count": whether the last of these cycles
/// is. A cycle is six bytes: init, then the signals. No graph is looked at.
pub fn buffer_rejects(strokes: u64, cycles: &[&[u8]]) -> bool {
    let Some(latest_init) = cycles.iter().rposition(|cycle| cycle[0] == b'1') else {
        return false;
    };
    let was_reset = cycles[latest_init][1] == b'1';
    let mut wrong = false;
    let mut count = 0;
    for cycle in &cycles[latest_init + 1..] {
        // "Flags are judged against the count before their cycle": "the empty flag is set if and
        // only if the number of entries is 0, and the full flag is set if and only if it is the
        // depth".
        let (empty, full) = (cycle[4] == b'1', cycle[5] == b'1');
        wrong |= empty != (count == 0) || full != (count == strokes);
        match buffer_count_after(strokes, count, cycle) {
            Some(next) => count = next,
            None => return false,
        }
    }
    was_reset && wrong
}

/// The listing's count after a cycle before which it is `count`, at most `strokes`; `None` if no
/// edge could be taken.
pub fn buffer_count_after(strokes: u64, count: u64, cycle: &[u8]) -> Option<u64> {
    let (enq, deq) = (cycle[2] == b'1', cycle[3] == b'1');
    let edges = if count == 0 {
        vec![(1, enq), (0, !enq)]
    } else if count == strokes {
        vec![(strokes - 1, deq), (strokes, !deq)]
    } else {
        vec![
            (count + 1, enq && !deq),
            (count - 1, !enq && deq),
            (count, enq == deq),
        ]
    };
    let taken = edges.into_iter().find(|(_, antecedent)| *antecedent);
    taken.map(|(next, _)| next)
}

/// Checks 24, 12; writes the graph's text and returns how many bytes it has.
pub fn dearest_graph(edges: u64, text: &mut [u8]) -> Result<usize, Refusal> {
    if !(1..=128).contains(&edges) {
        return Err(Cause::EdgesOutOfRange.no_line());
    }
    // "E self-loops marked `t` on its one vertex `a`, labels `1`/`1`, and no other line."
    let loops = "E\ta\ta\tt\t1\t1\n".repeat(edges as usize);
    let graph = format!("V\ta\n{loops}");
    fill(text, graph.as_bytes())?;
    Ok(graph.len())
}

#[cfg(test)]
mod tests {
    use super::*;
    use crate::builder::{build, Outputs};
    use crate::graph::Graph;
    use crate::paths::rejected_cycles;
    use crate::simulator::{run, start, Tally};
    use crate::testing::{graph_text, numbered};

    /// M and gates of an accepted graph.
    fn sizes(graph: &[u8]) -> (u16, usize) {
        let mut net = [0; 8_194];
        let gates = build(graph, Outputs::Accept, &mut net).unwrap();
        (net[0], gates)
    }

    #[test]
    fn worked_cases() {
        for (edges, bytes, gates, variables) in [
            (1, 16, 8, 11),
            (2, 28, 18, 23),
            (3, 40, 28, 35),
            (128, 1_540, 1_278, 1_535),
        ] {
            let mut text = [0; 1_600];
            let length = dearest_graph(edges, &mut text);
            assert_eq!(length, Ok(bytes), "{edges}");
            assert_eq!(sizes(&text[..bytes]), (variables, gates), "{edges}");
            assert!(text[bytes..].iter().all(|byte| *byte == 0), "{edges}");
        }
        let mut text = [0; 28];
        assert_eq!(dearest_graph(2, &mut text), Ok(28));
        assert_eq!(text[..], graph_text("V a,E a a t 1 1,E a a t 1 1"));
    }

    #[test]
    fn refusals() {
        for (edges, lent, number) in [
            (0, 1_600, 24),
            (129, 1_600, 24),
            (u64::MAX, 1_600, 24),
            (0, 0, 24),
            (1, 15, 12),
            (128, 1_539, 12),
        ] {
            let mut text = vec![b'x'; lent];
            let refused = dearest_graph(edges, &mut text).map_err(numbered);
            assert_eq!(refused, Err((number, 0)), "{edges}");
            assert_eq!(text, vec![b'x'; lent], "{edges}");
        }
    }

    /// Other graphs without operators, their gates and 10E − 2.
    #[test]
    fn bound() {
        for (graph, gates, bound) in [
            ("V a,E a a - 1 1", 8, 8),
            ("V a,V b,E a b t 1 1", 7, 8),
            ("V a,V b,E a a t 1 1,E a b t 1 1", 16, 18),
            ("V a,E a a t !1 !!0,E a a - !1 !!0", 17, 18),
        ] {
            let edges = graph.matches(",E").count();
            assert_eq!(sizes(&graph_text(graph)).1, gates, "{graph}");
            assert_eq!(10 * edges - 2, bound, "{graph}");
        }
    }

    /// The text for so many strokes.
    fn buffer(strokes: u64) -> Vec<u8> {
        let mut text = vec![0; 4_400];
        let length = buffer_graph(strokes, &mut text).unwrap();
        assert!(text[length..].iter().all(|byte| *byte == 0), "{strokes}");
        text.truncate(length);
        text
    }

    #[test]
    fn buffer_worked_cases() {
        for (strokes, bytes, edges, vertices, gates, variables) in [
            (1, 172, 5, 3, 49, 65),
            (2, 272, 8, 4, 85, 107),
            (39, 4_180, 119, 41, 1_417, 1_661),
            (40, 4_287, 122, 42, 1_453, 1_703),
        ] {
            let text = buffer(strokes);
            let graph = Graph::parse(&text).unwrap();
            assert_eq!(text.len(), bytes, "{strokes}");
            assert_eq!(graph.edges.len(), edges, "{strokes}");
            let lines = text.split(|byte| *byte == b'\n');
            let due = lines.filter(|line| line.starts_with(b"V")).count();
            assert_eq!(vertices, due, "{strokes}");
            assert_eq!(sizes(&text), (variables, gates), "{strokes}");
        }
        let signals = "S reset,S enq,S deq,S empty,S full";
        let one = "V s,V n0,V n1,E s n0 t reset 1,\
            E n0 n1 t enq empty&!full,E n0 n0 t !enq empty&!full,\
            E n1 n0 t deq !empty&full,E n1 n1 t !deq !empty&full";
        assert_eq!(buffer(1), graph_text(&format!("{signals},{one}")));
        let two = "V s,V n0,V n1,V n2,E s n0 t reset 1,\
            E n0 n1 t enq empty&!full,E n0 n0 t !enq empty&!full,\
            E n1 n2 t enq&!deq !empty&!full,E n1 n0 t !enq&deq !empty&!full,\
            E n1 n1 t enq=deq !empty&!full,\
            E n2 n1 t deq !empty&full,E n2 n2 t !deq !empty&full";
        assert_eq!(buffer(2), graph_text(&format!("{signals},{two}")));
    }

    /// Bytes, gates and M of each number of strokes.
    #[test]
    fn buffer_sizes() {
        for strokes in 1..=40 {
            let text = buffer(strokes as u64);
            let bytes = match strokes {
                1..=9 => 100 * strokes + 72,
                _ => 107 * strokes + 7,
            };
            assert_eq!(text.len(), bytes, "{strokes}");
            let due = (42 * strokes as u16 + 23, 36 * strokes + 13);
            assert_eq!(sizes(&text), due, "{strokes}");
        }
    }

    #[test]
    fn buffer_refusals() {
        for (strokes, lent, number) in [
            (0, 4_400, 20),
            (41, 4_400, 20),
            (1 << 32 | 1, 4_400, 20),
            (u64::MAX, 4_400, 20),
            (0, 0, 20),
            (41, 0, 20),
            (1, 171, 12),
            (40, 4_286, 12),
        ] {
            let mut text = vec![b'x'; lent];
            let refused = buffer_graph(strokes, &mut text).map_err(numbered);
            assert_eq!(refused, Err((number, 0)), "{strokes}");
            assert_eq!(text, vec![b'x'; lent], "{strokes}");
        }
    }

    /// By the count, by the graph's paths and by its circuit, which must agree.
    fn rejected(strokes: u64, cycles: &[&[u8]]) -> Vec<bool> {
        let by_count: Vec<bool> = (1..=cycles.len())
            .map(|asked| buffer_rejects(strokes, &cycles[..asked]))
            .collect();
        let text = buffer(strokes);
        let graph = Graph::parse(&text).unwrap();
        let shown = cycles.join(&b' ').escape_ascii().to_string();
        let by_paths = rejected_cycles(&graph, cycles);
        assert_eq!(by_paths, by_count, "{strokes}: {shown}");
        let (mut net, mut latches, mut values) = ([0; 400], [0; 40], [0; 200]);
        let (mut verdicts, mut tally) = (vec![0; cycles.len()], Tally::default());
        build(&text, Outputs::Accept, &mut net).unwrap();
        start(&net, &mut latches, &mut tally).unwrap();
        let trace = [cycles.join(&b'\n'), b"\n".to_vec()].concat();
        run(
            &net,
            &trace,
            &mut latches,
            &mut values,
            &mut verdicts,
            &mut tally,
        )
        .unwrap();
        let by_count_bytes: Vec<u8> = by_count.iter().map(|byte| u8::from(*byte)).collect();
        assert_eq!(verdicts, by_count_bytes, "{strokes}: {shown}");
        by_count
    }

    /// Strokes; init, reset, enq, deq, empty, full of each cycle; the verdict bytes.
    #[test]
    fn buffer_traces() {
        for (strokes, trace, due) in [
            (1, "110000 000010", "00"),
            (1, "110000 001010 000001", "000"),
            (1, "110000 001010 000010", "001"),
            (1, "110000 000000 000010", "011"),
            // Reset low at the latest init; no init.
            (1, "100000 000000 000000", "000"),
            (1, "000000 000001", "00"),
            // Both at 0: up, where the prose says that the count stays.
            (1, "110000 001110 000001", "000"),
            // deq alone at 0.
            (2, "110000 000110 000010", "000"),
            // Both at k: down.
            (2, "110000 001010 001000 001101 000000", "00000"),
            (2, "110000 001010 001000 001101 000001", "00001"),
            // Both between them: the count stays.
            (2, "110000 001010 001110 000010", "0011"),
            // A new init, also one with reset low.
            (1, "110000 000001 110000 000010", "0100"),
            (1, "110000 000001 100000 000001", "0100"),
            // Reset is not read again.
            (3, "110000 011010 000000", "000"),
        ] {
            let cycles: Vec<&[u8]> = trace.split(' ').map(str::as_bytes).collect();
            let due: Vec<bool> = due.chars().map(|verdict| verdict == '1').collect();
            assert_eq!(rejected(strokes, &cycles), due, "{strokes}: {trace}");
        }
    }

    /// Every trace of an init cycle, with reset and without, and three cycles after it.
    #[test]
    fn buffer_short_traces() {
        let signals = |bits: usize| {
            let bit = |place: usize| b'0' + (bits >> place & 1) as u8;
            [b'0', b'0', bit(0), bit(1), bit(2), bit(3)]
        };
        for strokes in 1..=2 {
            let mut met = [0, 0];
            for init in [b"110000", b"100000"] {
                for bits in 0..1 << 12 {
                    let later = [0, 4, 8].map(|place| signals(bits >> place & 15));
                    let cycles = [&init[..], &later[0], &later[1], &later[2]];
                    for rejected in rejected(strokes, &cycles) {
                        met[usize::from(rejected)] += 1;
                    }
                }
            }
            assert!(!met.contains(&0), "{strokes}: {met:?}");
        }
    }
}
