//! The circuit of a graph with its second output, checked, and what both outputs say of a trace.
//!
//! Reads what the program `monitor` reads: a graph, a line `T`, a trace. Prints the circuit's
//! AIGER file and a line `T`; for each cycle the words accept and checked in 16 hexadecimal
//! digits each; then `sum` and the three numbers of the tally; or only `refused`, number, line.
//! Fields are parted by tabs.
//!
//!     cargo run --offline --example two_outputs < ../examples/stroke.txt

use ludopoplar::{
    build_checked, start_checked, step_checked, write, CheckedTally, Refusal, LONGEST_NETLIST,
};
use std::io::{Error, Read};

fn main() -> Result<(), Error> {
    let mut input = Vec::new();
    std::io::stdin().read_to_end(&mut input)?;
    match answer(&input) {
        Ok(page) => print!("{page}"),
        Err(Refusal { number, line }) => println!("refused\t{number}\t{line}"),
    }
    Ok(())
}

fn answer(input: &[u8]) -> Result<String, Refusal> {
    let lines: Vec<&[u8]> = input.split_inclusive(|byte| *byte == b'\n').collect();
    let mut parts = lines.splitn(2, |line| *line == b"T\n");
    let graph = parts.next().unwrap_or_default().concat();
    let trace = parts.next().unwrap_or_default();

    let mut net = [0; LONGEST_NETLIST];
    build_checked(&graph, &mut net)?;
    let mut file = [0; 65_536];
    let length = write(&net, &mut file)?;
    let mut page = String::from_utf8_lossy(&file[..length]).into_owned();
    page += "T\n";

    let (mut latches, mut values) = ([0; 4_094], [0; 4_096]);
    let mut tally = CheckedTally::default();
    start_checked(&net, &mut latches, &mut tally)?;
    for (at, line) in (1..).zip(trace) {
        let cycle = line.strip_suffix(b"\n").unwrap_or(line);
        let words = step_checked(&net, cycle, &mut latches, &mut values, &mut tally)
            // a step's cycle is line 1
            .map_err(|refusal| Refusal {
                line: at,
                ..refusal
            })?;
        page += &format!("{:016x}\t{:016x}\n", words.accept, words.checked);
    }
    let CheckedTally {
        cycles,
        rejected,
        checked,
    } = tally;
    page += &format!("sum\t{cycles}\t{rejected}\t{checked}\n");
    Ok(page)
}
