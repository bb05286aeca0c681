//! An AIGER file of either form, written in the form that is asked for: `aag` text, `aig` packed.
//! Prints only `refused`, number, line, parted by tabs, where the file is refused.
//!
//!     cargo run --offline --example convert aig < FILE

use ludopoplar::{read, write, write_packed, Refusal, LONGEST_NETLIST};
use std::io::{Error, Read, Write};

fn main() -> Result<(), Error> {
    let write = match std::env::args().nth(1).as_deref() {
        Some("aag") => write,
        Some("aig") => write_packed,
        _ => return Err(Error::other("usage: convert aag|aig < FILE")),
    };
    let mut file = Vec::new();
    std::io::stdin().read_to_end(&mut file)?;
    let (mut net, mut bytes) = ([0; LONGEST_NETLIST], [0; 65_536]);
    match read(&file, &mut net).and_then(|_| write(&net, &mut bytes)) {
        Ok(length) => std::io::stdout().write_all(&bytes[..length]),
        Err(Refusal { number, line }) => {
            println!("refused\t{number}\t{line}");
            Ok(())
        }
    }
}
