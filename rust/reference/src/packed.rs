//! The packed form of No. 1 of document 02: AIGER's binary format, within the same subset.

use crate::aiger::Reader;
use crate::netlist::{Literal, Netlist, Reset};
use crate::refusal::{Cause, Refusal};

/// The first word of a packed file, and the blank after it.
pub const TAG: &[u8] = b"aig ";

/// A longer run is refused.
const MAX_RUN_BYTES: usize = 3;
/// "Top bit set when more follow."
const MORE: u8 = 0x80;

/// "The same header counts, no input lines, latch lines without their own literal, and each
/// gate as g − r0 and r0 − r1."
pub fn file(netlist: &Netlist) -> Vec<u8> {
    let header = &netlist.header;
    let [m, i, l, o, a] = header.numbers();
    let mut lines = format!("aig {m} {i} {l} {o} {a}\n");
    for (index, latch) in netlist.latches.iter().enumerate() {
        let own = header.latch(index).literal();
        lines += &match latch.reset {
            Reset::Zero => format!("{}\n", latch.next.0),
            reset => format!("{} {}\n", latch.next.0, reset.number(own)),
        };
    }
    for output in &netlist.outputs {
        lines += &format!("{}\n", output.0);
    }
    let mut bytes = lines.into_bytes();
    for (index, gate) in netlist.gates.iter().enumerate() {
        let own = header.gate(index).literal();
        bytes.extend(run(own.0 - gate.r0.0));
        bytes.extend(run(gate.r0.0 - gate.r1.0));
    }
    bytes
}

/// "Seven bits a byte, lowest first, top bit set when more follow"; as few bytes as will do.
fn run(mut number: u32) -> Vec<u8> {
    let mut bytes = Vec::new();
    while number >= 128 {
        bytes.push((number % 128) as u8 | MORE);
        number /= 128;
    }
    bytes.push(number as u8);
    bytes
}

/// The netlist of a packed file: its lines, then its bytes. A line is judged for its shape (13)
/// before its numbers (14), a run for its shape (18) before its number (14, line 0).
pub fn parse(text: &[u8]) -> Result<Netlist, Refusal> {
    let mut reader = Reader::new(text);
    let mut netlist = reader.header(TAG)?;
    for _ in 0..netlist.header.latches {
        let numbers = reader.numbers(b"", 1..=2)?;
        let reset = numbers.get(1).copied().unwrap_or(0);
        reader.within_limits(netlist.add_latch(numbers[0], reset))?;
    }
    reader.outputs(&mut netlist)?;
    let mut bytes = reader.rest;
    for index in 0..netlist.header.gates as usize {
        let own = netlist.header.gate(index).literal();
        let r0 = operand(own, take_run(&mut bytes)?)?;
        // the gate's own literal is no operand
        if r0 == own {
            return Err(Cause::AigerLimits.no_line());
        }
        let r1 = operand(r0, take_run(&mut bytes)?)?;
        netlist
            .add_gate(r0.0, r1.0)
            .expect("an operand is at most what it is counted from");
    }
    match bytes {
        [] => Ok(netlist),
        _ => Err(Cause::RunShape.no_line()),
    }
}

/// The operand that stands so far below a literal; "a difference that gives no allowed operand
/// is 14, line 0".
fn operand(from: Literal, difference: u32) -> Result<Literal, Refusal> {
    let operand = from.0.checked_sub(difference);
    operand.map(Literal).ok_or(Cause::AigerLimits.no_line())
}

/// The number of the run with which the bytes begin, which is taken from them; "a byte run that
/// is missing, over three bytes, unfinished or not shortest is 18, at line 0".
fn take_run(bytes: &mut &[u8]) -> Result<u32, Refusal> {
    let last = bytes.iter().position(|byte| byte & MORE == 0);
    let length = match last {
        Some(last) if last < MAX_RUN_BYTES => last + 1,
        _ => return Err(Cause::RunShape.no_line()),
    };
    let (taken, rest) = bytes.split_at(length);
    let number = taken
        .iter()
        .rev()
        .fold(0, |number, byte| 128 * number + u32::from(byte & !MORE));
    if run(number) != taken {
        return Err(Cause::RunShape.no_line());
    }
    *bytes = rest;
    Ok(number)
}

#[cfg(test)]
mod tests {
    use super::*;
    use crate::testing::numbered;

    fn taken(bytes: &[u8]) -> Result<(u32, usize), (u8, u32)> {
        let mut rest = bytes;
        let number = take_run(&mut rest).map_err(numbered)?;
        Ok((number, bytes.len() - rest.len()))
    }

    #[test]
    fn runs() {
        for (number, bytes) in [
            (0, &[0][..]),
            (1, &[1]),
            (127, &[127]),
            (128, &[128, 1]),
            (8_190, &[254, 63]),
            (16_383, &[255, 127]),
            (16_384, &[128, 128, 1]),
            (2_097_151, &[255, 255, 127]),
        ] {
            assert_eq!(run(number), bytes);
            assert_eq!(taken(bytes), Ok((number, bytes.len())));
            assert_eq!(taken(&[bytes, &[7]].concat()), Ok((number, bytes.len())));
            for length in 0..bytes.len() {
                assert_eq!(taken(&bytes[..length]), Err((18, 0)), "unfinished {number}");
            }
        }
    }

    #[test]
    fn a_run_of_each_number_is_taken_back() {
        for number in 0..128 * 128 * 128 {
            let bytes = run(number);
            assert_eq!(taken(&bytes), Ok((number, bytes.len())));
        }
        assert_eq!(run(128 * 128 * 128), [128, 128, 128, 1]);
    }

    #[test]
    fn no_runs() {
        for bytes in [
            &[][..],
            &[128],
            &[255, 255],
            &[255, 255, 255],
            &[128, 128, 128, 1],
            &[255, 255, 255, 127],
            &[128, 0],
            &[255, 0],
            &[255, 255, 0],
            &[128, 128, 0],
        ] {
            assert_eq!(taken(bytes), Err((18, 0)), "{bytes:?}");
        }
    }
}
