//! AIGER texts: written ones and damaged ones; and what the lines of both forms share.

use crate::damage::{change_fields, damage};
use crate::netlists;
use crate::random::Random;

const MAX_AIGER_BYTES: usize = 65_536;
const MEANINGFUL: &[u8] = b"0123456789 \n\raigc-+\t\0\xff";

/// How a file is written; its header's first word says it.
#[derive(Clone, Copy, PartialEq, Eq)]
pub enum Form {
    Text,
    Packed,
}

impl Form {
    /// The first word, and the blank after it.
    pub fn tag(self) -> &'static [u8] {
        match self {
            Form::Text => b"aag ",
            Form::Packed => b"aig ",
        }
    }
}

/// An AIGER text of any kind.
pub fn any(random: &mut Random) -> Vec<u8> {
    let mut text = written(random);
    explicit_resets(random, &mut text);
    match random.below(4) {
        0 => (),
        1 if random.once_in(20) => near_size_limit(random, &mut text),
        _ => {
            for _ in 0..random.within(1..=2) {
                match random.coin() {
                    true => damage(random, &mut text, MEANINGFUL),
                    false => change_number(random, &mut text, Form::Text),
                }
            }
        }
    }
    text
}

fn written(random: &mut Random) -> Vec<u8> {
    if random.once_in(60) {
        return printed(&netlists::past_limit(random));
    }
    let net = netlists::valid(random);
    let mut text = vec![0; MAX_AIGER_BYTES];
    let length = reference::write(&net, &mut text).expect("a netlist and room for its text");
    text.truncate(length);
    text
}

/// The lines of numbers in a netlist's layout, whether they are a netlist or not.
pub fn printed(net: &[u16]) -> Vec<u8> {
    let counts: Vec<usize> = net[..5].iter().map(|count| usize::from(*count)).collect();
    let (inputs, latches) = (counts[1], counts[2]);
    let header = net[..5].iter().map(u16::to_string).collect::<Vec<_>>();
    let mut text = format!("aag {}\n", header.join(" "));
    let literal = |variable: usize| 2 * variable;
    for input in 1..=inputs {
        text += &format!("{}\n", literal(input));
    }
    let (pairs, rest) = net[5..].split_at(2 * latches);
    for (latch, pair) in pairs.chunks(2).enumerate() {
        let own = literal(1 + inputs + latch);
        text += &match pair[1] {
            0 => format!("{own} {}\n", pair[0]),
            reset => format!("{own} {} {reset}\n", pair[0]),
        };
    }
    let (outputs, gates) = rest.split_at(counts[3]);
    for output in outputs {
        text += &format!("{output}\n");
    }
    for (gate, pair) in gates.chunks(2).enumerate() {
        let own = literal(1 + inputs + latches + gate);
        text += &format!("{own} {} {}\n", pair[0], pair[1]);
    }
    text.into_bytes()
}

/// Writes a reset 0 out at some latches, as the reader also takes it; sometimes
/// at a line that is no latch's.
fn explicit_resets(random: &mut Random, text: &mut Vec<u8>) {
    for _ in 0..random.below(3) {
        change_fields(random, text, b' ', |_, fields| {
            if fields.len() == 2 {
                fields.push(b"0".to_vec());
            }
        });
    }
}

/// Of lines: a number, a count of the header, or an output.
pub fn change_number(random: &mut Random, text: &mut Vec<u8>, form: Form) {
    match random.below(12) {
        0 | 1 => return change_header(random, text),
        2 | 3 => return change_outputs(random, text, form),
        _ => (),
    }
    change_fields(random, text, b' ', |random, fields| {
        let field = random.below(fields.len());
        match random.below(8) {
            0 => drop(fields.remove(field)),
            1 => fields.insert(field, fields[field].clone()),
            2 => fields[field].insert(0, b'0'),
            3 => fields[field].insert(0, b' '),
            _ => fields[field] = other_number(random, &fields[field]),
        }
    });
}

/// Changes the header's O or the lines of outputs, or both: a line left out, doubled, or past
/// the limit.
fn change_outputs(random: &mut Random, text: &mut Vec<u8>, form: Form) {
    let mut lines: Vec<Vec<u8>> = text
        .split_inclusive(|byte| *byte == b'\n')
        .map(<[u8]>::to_vec)
        .collect();
    let Some(mut header) = header_of(text, form) else {
        return;
    };
    let [variables, inputs, latches, outputs, _] = header;
    let input_lines = match form {
        Form::Text => inputs,
        Form::Packed => 0,
    };
    let place = 1 + input_lines + latches + random.below(outputs.max(1));
    if place < lines.len() {
        match random.below(4) {
            0 => drop(lines.remove(place)),
            1 => lines.insert(place, lines[place].clone()),
            2 => lines[place] = format!("{}\n", 2 * variables + random.within(1..=3)).into_bytes(),
            _ => (),
        }
    }
    if random.coin() {
        header[3] = random.below(5);
    }
    let header: Vec<String> = header.iter().map(usize::to_string).collect();
    lines[0] = [form.tag(), header.join(" ").as_bytes(), b"\n"].concat();
    *text = lines.concat();
}

/// M I L O A; `None` if the first line is not a header of this form.
pub fn header_of(text: &[u8], form: Form) -> Option<[usize; 5]> {
    let line = text.split(|byte| *byte == b'\n').next()?;
    let fields = std::str::from_utf8(line.strip_prefix(form.tag())?).ok()?;
    let number = |field: &str| field.parse::<u16>().ok().map(usize::from);
    let numbers: Vec<usize> = fields.split(' ').map(number).collect::<Option<_>>()?;
    numbers.try_into().ok()
}

/// Changes a count of the header alone, or two of them against each other.
fn change_header(random: &mut Random, text: &mut Vec<u8>) {
    let end = text.iter().position(|byte| *byte == b'\n');
    let rest = text.split_off(end.unwrap_or(text.len()));
    let mut fields: Vec<Vec<u8>> = text
        .split(|byte| *byte == b' ')
        .map(<[u8]>::to_vec)
        .collect();
    for _ in 0..random.within(1..=2) {
        let field = random.below(fields.len());
        fields[field] = other_number(random, &fields[field]);
    }
    *text = [fields.join(&b' '), rest].concat();
}

fn other_number(random: &mut Random, field: &[u8]) -> Vec<u8> {
    let number: u64 = String::from_utf8_lossy(field).parse().unwrap_or(7);
    match random.below(6) {
        0 => number + 1,
        1 => number.saturating_sub(1),
        2 => random.below(8_300) as u64,
        3 => number + random.pick(&[65_536, 90_000, 100_000]),
        _ => random.pick(&[
            0, 1, 64, 65, 4_095, 4_096, 8_192, 65_535, 65_536, 99_999, 100_000,
        ]),
    }
    .to_string()
    .into_bytes()
}

/// Fills the text up to the limit, or one byte over it.
pub fn near_size_limit(random: &mut Random, text: &mut Vec<u8>) {
    let size = random.within(MAX_AIGER_BYTES - 1..=MAX_AIGER_BYTES + 1);
    text.resize(size, b'\n');
}
