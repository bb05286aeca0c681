//! The fixtures of the programs, most of them limit cases, hold what this implementation gives.

use reference::{buffer_graph, build, rejected_cycles, sheet, write, write_packed, Graph, Outputs};
use std::path::Path;

fn fixture(program: &str, name: &str) -> Vec<u8> {
    let crates = Path::new(env!("CARGO_MANIFEST_DIR")).join("../../crates");
    std::fs::read(crates.join(program).join(name)).unwrap()
}

#[test]
fn file_of_the_longest_graph() {
    let graph = fixture("graph2aiger", "stdin");
    assert_eq!(graph.len(), 32_768);
    let (mut net, mut text) = ([0; 8_194], [0; 65_536]);
    build(&graph, Outputs::Accept, &mut net).unwrap();
    let length = write(&net, &mut text).unwrap();
    assert_eq!(text[..length], fixture("graph2aiger", "stdout"));
}

#[test]
fn packed_file_of_a_graph() {
    let graph = fixture("graph2aig", "stdin");
    let (mut net, mut bytes) = ([0; 8_194], [0; 65_536]);
    build(&graph, Outputs::Accept, &mut net).unwrap();
    let length = write_packed(&net, &mut bytes).unwrap();
    assert_eq!(bytes[..length], fixture("graph2aig", "stdout"));
}

#[test]
fn page_of_the_longest_input() {
    let input = fixture("monitor", "stdin");
    assert_eq!(input.len(), 65_536);
    let at = input
        .windows(3)
        .position(|bytes| bytes == b"\nT\n")
        .unwrap();
    let graph = Graph::parse(&input[..=at]).unwrap();
    let cycles: Vec<&[u8]> = input[at + 3..].split(|byte| *byte == b'\n').collect();
    let (last, cycles) = cycles.split_last().unwrap();
    assert!(last.is_empty());
    let rejected = rejected_cycles(&graph, cycles);
    let lines = (1..).zip(&rejected).filter(|(_, rejected)| **rejected);
    let mut page: String = lines
        .clone()
        .map(|(cycle, _)| format!("R\t{cycle}\n"))
        .collect();
    let verdict = if rejected.contains(&true) {
        "rejected"
    } else {
        "accepted"
    };
    page += &format!("sum\t{}\t{}\t{verdict}\n", cycles.len(), lines.count());
    assert_eq!(page.len(), 250_991);
    assert_eq!(page.into_bytes(), fixture("monitor", "stdout"));
}

#[test]
fn sheet_of_the_longest_input() {
    let input = fixture("sheet", "stdin");
    assert_eq!(input.len(), 65_536);
    let page = sheet(&input);
    assert_eq!(page.len(), 265_518);
    assert!(page == fixture("sheet", "stdout"));
}

#[test]
fn graph_of_the_largest_buffer() {
    assert_eq!(fixture("buffer_rule", "stdin"), b"40\n");
    let mut text = [0; 4_287];
    assert_eq!(buffer_graph(40, &mut text), Ok(4_287));
    assert_eq!(text[..], fixture("buffer_rule", "stdout"));
}
