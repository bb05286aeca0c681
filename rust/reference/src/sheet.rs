//! What the program `sheet` prints: the session page of a run. Its input is the graph's
//! name on the first line, then what the monitor program reads.

use crate::builder::{build, Outputs};
use crate::graph::Graph;
use crate::page::{is_graph_name, session_page};
use crate::paths::rejected_cycles;
use crate::refusal::{check_size, Cause, Refusal};
use crate::trace::cycles_of;

const MAX_INPUT_BYTES: usize = 65_536;
/// As many as any netlist with one output has.
const NUMBERS: usize = 8_194;
/// More than the page of any input has.
const PAGE_BYTES: usize = 300_000;

/// The page, or the line `refused`, number, line, parted by tabs.
pub fn sheet(input: &[u8]) -> Vec<u8> {
    page_of(input).unwrap_or_else(|refusal| {
        let Refusal { number, line } = refusal;
        format!("refused\t{number}\t{line}\n").into_bytes()
    })
}

/// Checks 1, 22, then what the monitor program checks, on the bytes after the first line.
fn page_of(input: &[u8]) -> Result<Vec<u8>, Refusal> {
    check_size(input, MAX_INPUT_BYTES)?;
    let mut parts = input.splitn(2, |byte| *byte == b'\n');
    let (name, rest) = match (parts.next(), parts.next()) {
        (Some(name), Some(rest)) if is_graph_name(name) => (name, rest),
        _ => return Err(Cause::NotPrintable.no_line()),
    };
    let verdicts = judged(rest)?;
    let mut page = vec![0; PAGE_BYTES];
    let length = session_page(name, &verdicts, &mut page)?;
    page.truncate(length);
    Ok(page)
}

/// "Graph, a line `T` (the first such line), trace (no `T`: empty trace)"; the verdict
/// byte of each cycle, by the paths of the graph.
fn judged(input: &[u8]) -> Result<Vec<u8>, Refusal> {
    let lines: Vec<&[u8]> = input.split_inclusive(|byte| *byte == b'\n').collect();
    let (graph, trace) = match lines.iter().position(|line| *line == b"T\n") {
        Some(at) => (lines[..at].concat(), lines[at + 1..].concat()),
        None => (input.to_vec(), Vec::new()),
    };
    // "In the programs, netlists are as before."
    build(&graph, Outputs::Accept, &mut [0; NUMBERS])?;
    let graph = Graph::parse(&graph)?;
    let cycles = cycles_of(1 + graph.signal_bits, &trace)?;
    let rejected = rejected_cycles(&graph, &cycles);
    Ok(rejected.into_iter().map(u8::from).collect())
}

#[cfg(test)]
mod tests {
    use super::*;
    use crate::testing::{graph_text, lines_text, G};

    /// A name's line, a graph and a trace as document 01 writes them.
    fn input(name: &str, graph: &str, trace: &str) -> Vec<u8> {
        let name = format!("{name}\n").into_bytes();
        [name, graph_text(graph), lines_text("T"), lines_text(trace)].concat()
    }

    fn page(rows: &[&str]) -> Vec<u8> {
        let lines = rows.iter().map(|row| format!("{row:<80}\n"));
        lines.collect::<String>().into_bytes()
    }

    fn refused(number: u8, line: u32) -> Vec<u8> {
        format!("refused\t{number}\t{line}\n").into_bytes()
    }

    /// The graph that rejects every cycle with init.
    const ALWAYS: &[u8] = b"V\ta\nE\ta\ta\tt\t1\t0\n";

    #[test]
    fn pages() {
        let rejected_once = [
            "G                                3",
            "       1",
            "         1 333333         1",
        ];
        let of_g = input("G", G, "110,111,010");
        assert_eq!(sheet(&of_g), page(&rejected_once));
        let accepted = [
            "refused                          1",
            "         0      0         0",
        ];
        assert_eq!(sheet(&input("refused", G, "111")), page(&accepted));
        // Without a cycle: an empty trace, no line `T`; and a graph that is named `T`.
        let no_cycle = ["T                                0", "         0"];
        assert_eq!(sheet(b"T\nV\ta\nT\n"), page(&no_cycle));
        assert_eq!(sheet(b"T\nV\ta\n"), page(&no_cycle));
        // Constants are tried both ways.
        let constant = input("7up", "S p,K k,V a,E a a t k p", "11,10");
        let second = [
            "7up                              2",
            "       2",
            "         1 500000         0",
        ];
        assert_eq!(sheet(&constant), page(&second));
        let eleven = [
            "aaaaaaaaaaaaaaaaaaaaaaaa        11",
            "       1       2       3       4       5       6       7       8       9      10",
            "      11",
            "        111000000         0",
        ];
        let always = [&b"aaaaaaaaaaaaaaaaaaaaaaaa\n"[..], ALWAYS, b"T\n"].concat();
        let trace = b"1\n".repeat(11);
        assert_eq!(sheet(&[always, trace].concat()), page(&eleven));
    }

    /// The `M` line is the graph's first: it stands after the name.
    #[test]
    fn pages_with_a_mode_line() {
        let unmarked = "S p,S q,V a,V b,E a b - p q";
        let trace = "110,111,010";
        let rejected = page(&[
            "M                                3",
            "       1",
            "         1 333333         1",
        ]);
        let accepted = page(&[
            "M                                3",
            "         0      0         0",
        ]);
        for (mode, due) in [
            ("", &rejected),
            ("M terminal,", &accepted),
            ("M strong,", &rejected),
        ] {
            let graph = format!("{mode}{unmarked}");
            assert_eq!(sheet(&input("M", &graph, trace)), *due, "{mode}");
        }
        assert_eq!(sheet(b"M\tterminal\nV\ta\n"), refused(22, 0));
        assert_eq!(sheet(b"M\nV\ta\nM\tterminal\n"), refused(3, 2));
        assert_eq!(sheet(b"M\nM\tterminal\nM\tterminal\n"), refused(3, 2));
        assert_eq!(sheet(b"M\nM\tweak\n"), refused(2, 1));
        assert_eq!(sheet(b"M\nM\tterminal\nT\n"), refused(10, 0));
    }

    #[test]
    fn longest_page() {
        let head = [b"G\n", ALWAYS, b"T\n"].concat();
        let longest = [&head[..], &b"1\n".repeat(32_758)].concat();
        assert_eq!(longest.len(), 65_536);
        let sheet_of_longest = sheet(&longest);
        assert_eq!(sheet_of_longest.len(), 265_518);
        assert_eq!(
            sheet_of_longest[265_518 - 2 * 81..],
            page(&[
                "   32751   32752   32753   32754   32755   32756   32757   32758",
                "     327581000000         0"
            ])
        );
        assert_eq!(sheet(&[&longest[..], b"1"].concat()), refused(1, 0));
        let shorter = [&head[..], &b"1\n".repeat(32_757)].concat();
        assert_eq!(sheet(&shorter).len(), 265_518);
    }

    #[test]
    fn refusals() {
        let good = [&graph_text(G)[..], b"T\n110\n"].concat();
        let after = |first: &[u8]| sheet(&[first, &good].concat());
        for first in [
            &b"\n"[..],
            b"a b\n",
            b"G\r\n",
            b"S\tp\n",
            b"caf\xc3\xa9\n",
            b"aaaaaaaaaaaaaaaaaaaaaaaaa\n",
        ] {
            assert_eq!(after(first), refused(22, 0), "{}", first.escape_ascii());
        }
        for whole in [&b""[..], b"G", b"\n", &[b'a'; 65_536]] {
            assert_eq!(sheet(whole), refused(22, 0), "{}", whole.len());
        }
        // Too long comes first, then the name, then what monitor refuses of the rest.
        assert_eq!(sheet(&[b'a'; 65_537]), refused(1, 0));
        assert_eq!(sheet(&[b'\n'; 65_537]), refused(1, 0));
        assert_eq!(sheet(b"a b\nV a\n"), refused(22, 0));
        assert_eq!(sheet(b"G\n\n"), refused(2, 1));
        assert_eq!(sheet(b"G\nV\ta\nV a\n"), refused(2, 2));
        assert_eq!(sheet(b"G\nV\ta\nT"), refused(2, 2));
        assert_eq!(sheet(b"G\nV\ta\nV\ta\nT\nx\n"), refused(5, 2));
        assert_eq!(sheet(b"G\n"), refused(10, 0));
        assert_eq!(sheet(b"G\nT\n1\n"), refused(10, 0));
        assert_eq!(sheet(b"G\nV\ta\nT\n1\nT\n"), refused(15, 2));
        assert_eq!(sheet(b"G\nV\ta\nT\n1\n1"), refused(15, 2));
        let graph = [b"G\n", &b"V\ta\n".repeat(8_193)[..]].concat();
        assert_eq!(sheet(&graph), refused(1, 0));
    }
}
