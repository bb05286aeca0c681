//! The round trip of a netlist: written, then read back; and in both forms.

use crate::bench::Bench;
use crate::compare::{Call, Lengths, Memory, Mismatch, Name};

/// Writes the numbers in both forms; reading either file gives the same netlist.
pub fn both_forms(bench: &mut Bench, net: Vec<u16>) -> Result<(), Mismatch> {
    let text = write_and_read_back(bench, Name::Write, &net)?;
    let packed = write_and_read_back(bench, Name::WritePacked, &net)?;
    if let (Some(text), Some(packed)) = (text, packed) {
        if text != packed {
            return Err(Mismatch(format!(
                "the forms read as other netlists\nnumbers: {net:?}\n"
            )));
        }
        bench.coverage.forms.record_both(&net);
    }
    Ok(())
}

/// Writes the numbers; if they are written, reading the file gives them back, without surplus.
pub fn write_and_read_back(
    bench: &mut Bench,
    name: Name,
    net: &[u16],
) -> Result<Option<Vec<u16>>, Mismatch> {
    let mut scratch = vec![0; 65_536];
    let written = match name {
        Name::WritePacked => reference::write_packed(net, &mut scratch),
        _ => reference::write(net, &mut scratch),
    };
    let needed = written.unwrap_or(bench.random.below(3_000));
    let lengths = Lengths {
        text: bench.length(needed),
        ..Lengths::default()
    };
    let memory = Memory::random(&mut bench.random, lengths);
    let call = Call::on_net(name, net.to_vec(), Vec::new());
    let written = bench.compare(&call, memory)?;
    if !written.is_accepted() {
        return Ok(None);
    }
    let file = &written.memory.text.get()[..written.memory.answer as usize];
    read_back(bench, net, file).map(Some)
}

fn read_back(bench: &mut Bench, net: &[u16], file: &[u8]) -> Result<Vec<u16>, Mismatch> {
    let lengths = Lengths {
        net: net.len(),
        ..Lengths::default()
    };
    let memory = Memory::random(&mut bench.random, lengths);
    let call = Call::on_bytes(Name::Read, file.to_vec());
    let read = bench.compare(&call, memory)?;
    let count = read.memory.answer as usize;
    if !read.is_accepted() || count > net.len() || read.memory.net.get()[..count] != net[..count] {
        let file = file.escape_ascii();
        return Err(Mismatch(format!(
            "write, then read gives other numbers\nnumbers: {net:?}\nfile: \"{file}\"\n"
        )));
    }
    bench.coverage.read_back += 1;
    Ok(net[..count].to_vec())
}
