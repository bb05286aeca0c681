//! The AIGER subset: files of text, and the calls that take or make a file of either form.

use crate::netlist::{Header, Literal, Netlist, Reset};
use crate::order::Arrived;
use crate::packed;
use crate::refusal::{check_size, fill, Cause, Refusal};
use std::fmt::Write as _;
use std::ops::RangeInclusive;

const MAX_AIGER_BYTES: usize = 65_536;

/// Checks 1, then the file from its beginning, then 12; returns how many numbers were filled
/// in. "The header's first word tells the reader which form it has."
pub fn read(text: &[u8], net: &mut [u16]) -> Result<usize, Refusal> {
    check_size(text, MAX_AIGER_BYTES)?;
    let netlist = match text.starts_with(packed::TAG) {
        true => packed::parse(text)?,
        false => parse(text)?,
    };
    let numbers = netlist.numbers();
    fill(net, &numbers)?;
    Ok(numbers.len())
}

/// Checks 16, then 12; returns how many bytes were filled in.
pub fn write(net: &[u16], text: &mut [u8]) -> Result<usize, Refusal> {
    write_as(|netlist| file(netlist).into_bytes(), net, text)
}

/// As `write`, in the packed form.
pub fn write_packed(net: &[u16], bytes: &mut [u8]) -> Result<usize, Refusal> {
    write_as(packed::file, net, bytes)
}

fn write_as(
    file: impl Fn(&Netlist) -> Vec<u8>,
    net: &[u16],
    bytes: &mut [u8],
) -> Result<usize, Refusal> {
    let netlist = Netlist::from_numbers(net).ok_or(Cause::NoNetlist.no_line())?;
    let file = file(&netlist);
    fill(bytes, &file)?;
    Ok(file.len())
}

/// "Header `aag M I L O A`; input literals; latches `literal next`, with reset as
/// third number where not 0; output; gates `literal r0 r1`." A second output has the next line.
fn file(netlist: &Netlist) -> String {
    let header = &netlist.header;
    let [m, i, l, o, a] = header.numbers();
    let mut text = format!("aag {m} {i} {l} {o} {a}\n");
    let mut line = |numbers: &[u32]| {
        let fields: Vec<String> = numbers.iter().map(u32::to_string).collect();
        writeln!(text, "{}", fields.join(" ")).expect("a String takes all text");
    };
    for index in 0..header.inputs as usize {
        line(&[header.input(index).literal().0]);
    }
    for (index, latch) in netlist.latches.iter().enumerate() {
        let own = header.latch(index).literal();
        match latch.reset {
            Reset::Zero => line(&[own.0, latch.next.0]),
            reset => line(&[own.0, latch.next.0, reset.number(own)]),
        }
    }
    for output in &netlist.outputs {
        line(&[output.0]);
    }
    for (index, gate) in netlist.gates.iter().enumerate() {
        line(&[header.gate(index).literal().0, gate.r0.0, gate.r1.0]);
    }
    text
}

/// The netlist of a file. Each line is judged for its shape (13) before its
/// numbers (14); a number over 65,535 breaks the limits wherever it stands. The gates may
/// stand in any order, operands either way round; "gates that wait on each other, or a gate on
/// itself, are 23, line 0", when all lines are read.
fn parse(text: &[u8]) -> Result<Netlist, Refusal> {
    let mut reader = Reader::new(text);
    let mut netlist = reader.header(b"aag ")?;
    let header = netlist.header;
    for index in 0..header.inputs as usize {
        let numbers = reader.numbers(b"", 1..=1)?;
        reader.literal(numbers[0], header.input(index).literal())?;
    }
    for index in 0..header.latches as usize {
        let numbers = reader.numbers(b"", 2..=3)?;
        reader.literal(numbers[0], header.latch(index).literal())?;
        let reset = numbers.get(2).copied().unwrap_or(0);
        reader.within_limits(netlist.add_latch(numbers[1], reset))?;
    }
    reader.outputs(&mut netlist)?;
    let mut gates = Arrived::new(header);
    for _ in 0..header.gates {
        let numbers = reader.numbers(b"", 3..=3)?;
        reader.within_limits(gates.define(numbers[0], [numbers[1], numbers[2]]))?;
    }
    reader.end()?;
    let placed = gates.netlist(&netlist);
    placed.ok_or(Cause::WaitingGates.no_line())
}

/// The lines of a file, one after another, and what stands after those read.
pub struct Reader<'a> {
    pub rest: &'a [u8],
    /// The line last asked for, there or missing.
    line: u32,
}

impl<'a> Reader<'a> {
    pub fn new(text: &'a [u8]) -> Reader<'a> {
        Reader {
            rest: text,
            line: 0,
        }
    }

    /// The next line without its LF; `None` if no LF ends it.
    fn next_line(&mut self) -> Option<&'a [u8]> {
        let end = self.rest.iter().position(|byte| *byte == b'\n')?;
        let (line, rest) = self.rest.split_at(end);
        self.rest = &rest[1..];
        Some(line)
    }

    /// The numbers of the next line after its prefix, as many as `count` allows;
    /// 13 if the line is missing or of another shape.
    pub fn numbers(
        &mut self,
        prefix: &[u8],
        count: RangeInclusive<usize>,
    ) -> Result<Vec<u32>, Refusal> {
        self.line += 1;
        self.next_line()
            .and_then(|line| line.strip_prefix(prefix))
            .and_then(parse_numbers)
            .filter(|numbers| count.contains(&numbers.len()))
            .ok_or(Cause::AigerShape.at(self.line))
    }

    /// The header after its first word, with which a netlist begins.
    pub fn header(&mut self, tag: &[u8]) -> Result<Netlist, Refusal> {
        let numbers = self.numbers(tag, 5..=5)?;
        let header = Header::from_numbers([0, 1, 2, 3, 4].map(|field| numbers[field]));
        self.within_limits(Netlist::new(header))
    }

    /// A line for each output.
    pub fn outputs(&mut self, netlist: &mut Netlist) -> Result<(), Refusal> {
        for _ in 0..netlist.header.outputs {
            let numbers = self.numbers(b"", 1..=1)?;
            self.within_limits(netlist.add_output(numbers[0]))?;
        }
        Ok(())
    }

    pub fn within_limits<T>(&self, part: Option<T>) -> Result<T, Refusal> {
        part.ok_or(Cause::AigerLimits.at(self.line))
    }

    /// Inputs and latches stand in the order of their variables.
    fn literal(&self, number: u32, due: Literal) -> Result<(), Refusal> {
        self.within_limits((number == due.0).then_some(()))
    }

    /// "Nothing after the last gate."
    fn end(&self) -> Result<(), Refusal> {
        match self.rest {
            [] => Ok(()),
            _ => Err(Cause::AigerShape.at(self.line + 1)),
        }
    }
}

/// Numbers parted by single spaces.
fn parse_numbers(bytes: &[u8]) -> Option<Vec<u32>> {
    bytes
        .split(|byte| *byte == b' ')
        .map(parse_number)
        .collect()
}

/// "1 to 5 digits without leading zeros."
fn parse_number(bytes: &[u8]) -> Option<u32> {
    let leading_zero = bytes.len() > 1 && bytes[0] == b'0';
    if leading_zero || !(1..=5).contains(&bytes.len()) || !bytes.iter().all(u8::is_ascii_digit) {
        return None;
    }
    std::str::from_utf8(bytes).ok()?.parse().ok()
}

#[cfg(test)]
mod tests {
    use super::*;
    use crate::testing::{lines_text, numbered};

    const FILE: &str = "aag 5 1 3 1 1,2,4 2,6 10 1,8 8 8,11,10 9 2";
    const NUMBERS: [u16; 14] = [5, 1, 3, 1, 1, 2, 0, 10, 1, 8, 8, 11, 9, 2];
    /// The same with a second output.
    const FILE_OF_TWO: &str = "aag 5 1 3 2 1,2,4 2,6 10 1,8 8 8,11,4,10 9 2";
    const NUMBERS_OF_TWO: [u16; 15] = [5, 1, 3, 2, 1, 2, 0, 10, 1, 8, 8, 11, 4, 9, 2];

    fn read_all(text: &[u8]) -> Result<Vec<u16>, (u8, u32)> {
        let mut net = vec![0; 8_200];
        let length = read(text, &mut net).map_err(numbered)?;
        net.truncate(length);
        Ok(net)
    }

    fn refused(file: &str) -> (u8, u32) {
        read_all(&lines_text(file)).expect_err(file)
    }

    #[test]
    fn reads_and_writes() {
        for (file, numbers) in [(FILE, &NUMBERS[..]), (FILE_OF_TWO, &NUMBERS_OF_TWO)] {
            assert_eq!(read_all(&lines_text(file)).unwrap(), numbers);
            let mut text = vec![b'x'; 100];
            let length = write(numbers, &mut text).unwrap();
            assert_eq!(text[..length], lines_text(file));
            assert!(text[length..].iter().all(|byte| *byte == b'x'));
        }
    }

    #[test]
    fn takes_an_explicit_reset_0() {
        let explicit = FILE.replace("4 2,", "4 2 0,");
        assert_eq!(read_all(&lines_text(&explicit)).unwrap(), NUMBERS);
    }

    #[test]
    fn published_examples() {
        // From the format's paper: buffer and inverter are within the subset.
        let buffer = lines_text("aag 1 1 0 1 0,2,2");
        assert_eq!(read_all(&buffer), Ok(vec![1, 1, 0, 1, 0, 2]));
        let inverter = lines_text("aag 1 1 0 1 0,2,3");
        assert_eq!(read_all(&inverter), Ok(vec![1, 1, 0, 1, 0, 3]));
        // So is its AND gate, with the smaller operand first.
        let and = lines_text("aag 3 2 0 1 1,2,4,6,6 2 4");
        assert_eq!(read_all(&and), Ok(vec![3, 2, 0, 1, 1, 6, 4, 2]));
        // So is its toggle with enable and reset, whose gates come before their operands.
        let toggle = "aag 7 2 1 2 4,2,4,6 8,6,7,8 4 10,10 13 15,12 2 6,14 3 7";
        let numbers = vec![7, 2, 1, 2, 4, 14, 0, 6, 7, 6, 2, 7, 3, 11, 9, 12, 4];
        assert_eq!(read_all(&lines_text(toggle)), Ok(numbers));
        // Its constants and its other toggle have no input.
        assert_eq!(refused("aag 0 0 0 1 0,0"), (14, 1));
        assert_eq!(refused("aag 1 0 1 2 0,2 3,2,3"), (14, 1));
    }

    #[test]
    fn wrong_shapes() {
        let rows = [
            (FILE.replace("aag", "AAG"), 1),
            (FILE.replace("aag", "AIG"), 1),
            (FILE.replace("aag", "abc"), 1),
            (FILE.replace("aag ", "aag\t"), 1),
            (FILE.replace("aag ", "aig\t"), 1),
            (FILE.replace("aag", "ai"), 1),
            (FILE.replace("aag", "aigg"), 1),
            (FILE.replace("aag", " aig"), 1),
            (FILE.replace("aag ", "aag  "), 1),
            (FILE.replace("aag 5", "aag 05"), 1),
            (FILE.replace("3 1 1,", "3 1 1 0,"), 1),
            (FILE.replace(",2,", ",2 ,"), 2),
            (FILE.replace(",2,", ",,"), 2),
            (FILE.replace(",2,", ",2\r,"), 2),
            (FILE.replace(",2,", ",000002,"), 2),
            (FILE.replace(",2,", ",100000,"), 2),
            (FILE.replace("4 2,", "4,"), 3),
            (FILE.replace("4 2,", "4 2 0 0,"), 3),
            (FILE.replace("4 2,", "70000 02,"), 3),
            (FILE.replace("10 9 2", "10 9"), 7),
            (FILE.replace("10 9 2", "10 9 2 2"), 7),
            (FILE.replace("10 9 2", "10 9 -2"), 7),
            (FILE.replace(",10 9 2", ""), 7),
            (FILE.replace("3 1 1,", "3 2 1,"), 7),
            (FILE_OF_TWO.replace("3 2 1,", "3 1 1,"), 7),
            (FILE_OF_TWO.replace("11,4,", "11,4 2,"), 7),
            (FILE_OF_TWO.replace("11,4,", "11 4,"), 6),
            (FILE_OF_TWO.replace(",10 9 2", ""), 8),
            (format!("{FILE},"), 8),
            (format!("{FILE},c"), 8),
        ];
        for (file, line) in rows {
            assert_eq!(refused(&file), (13, line), "{file}");
        }
        assert_eq!(read_all(b""), Err((13, 1)));
        assert_eq!(read_all(b"aag 1 1 0 1 0\n2\n2"), Err((13, 3)));
        assert_eq!(read_all(b"aag 1 1 0 1 0\n2\n"), Err((13, 3)));
        assert_eq!(read_all(b"aag 1 1 0 1 0\n2\n2\nx"), Err((13, 4)));
        assert_eq!(read_all(b"aag 9 1 0 1 0"), Err((13, 1)));
    }

    #[test]
    fn right_shape_but_past_a_limit() {
        let rows = [
            (FILE.replace("aag 5", "aag 6"), 1),
            (FILE.replace("aag 5", "aag 65541"), 1),
            ("aag 0 0 0 1 0,0".to_string(), 1),
            ("aag 65 65 0 1 0,0".to_string(), 1),
            ("aag 4096 1 4095 1 0".to_string(), 1),
            (FILE.replace("3 1 1,", "3 0 1,"), 1),
            (FILE.replace("3 1 1,", "3 3 1,"), 1),
            (FILE.replace(",2,", ",3,"), 2),
            (FILE.replace(",2,", ",65536,"), 2),
            (FILE.replace("4 2,", "6 2,"), 3),
            (FILE.replace("4 2,", "4 12,"), 3),
            (FILE.replace("4 2,", "4 2 2,"), 3),
            (FILE.replace(",11,", ",12,"), 6),
            (FILE_OF_TWO.replace(",11,", ",12,"), 6),
            (FILE_OF_TWO.replace("11,4,", "11,12,"), 7),
            (FILE.replace("10 9 2", "10 12 2"), 7),
            (FILE.replace("10 9 2", "10 2 65536"), 7),
            (FILE.replace("10 9 2", "8 9 2"), 7),
            (FILE.replace("10 9 2", "11 9 2"), 7),
            (FILE.replace("10 9 2", "12 9 2"), 7),
            (
                "aag 8 1 7 1 0,2,4 0 4,6 0 6,8 0 8,10 0 10,12 0 12,14 0 14,16 0 16,0".to_string(),
                9,
            ),
        ];
        for (file, line) in rows {
            assert_eq!(refused(&file), (14, line), "{file}");
        }
    }

    #[test]
    fn sizes_and_buffers() {
        assert_eq!(read_all(&[b'\n'; 65_536]), Err((13, 1)));
        assert_eq!(read_all(&[b'\n'; 65_537]), Err((1, 0)));
        let mut short = [9; 13];
        let refusal = read(&lines_text(FILE), &mut short).unwrap_err();
        assert_eq!((numbered(refusal), short), ((12, 0), [9; 13]));
        let mut text = [b'x'; 10];
        let refusal = write(&NUMBERS, &mut text).unwrap_err();
        assert_eq!((numbered(refusal), text), ((12, 0), [b'x'; 10]));
        let refusal = write(&NUMBERS[..13], &mut text).unwrap_err();
        assert_eq!(numbered(refusal), (16, 0));
    }
}
