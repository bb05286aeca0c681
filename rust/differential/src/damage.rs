//! Damage to any text of lines.

use crate::random::Random;

/// One random change. `bytes` are those that mean something in such a text.
pub fn damage(random: &mut Random, text: &mut Vec<u8>, bytes: &[u8]) {
    match random.below(8) {
        0 => flip_bit(random, text),
        1 => replace_byte(random, text, bytes),
        2 => insert_byte(random, text, bytes),
        3 => delete_byte(random, text),
        4 | 5 => change_lines(random, text),
        6 => carriage_return(random, text),
        _ => change_end(random, text, bytes),
    }
}

/// A byte of the given ones, or now and then any byte.
fn some_byte(random: &mut Random, bytes: &[u8]) -> u8 {
    if random.once_in(8) {
        random.byte()
    } else {
        random.pick(bytes)
    }
}

fn flip_bit(random: &mut Random, text: &mut [u8]) {
    if !text.is_empty() {
        let place = random.below(text.len());
        text[place] ^= 1 << random.below(8);
    }
}

fn replace_byte(random: &mut Random, text: &mut [u8], bytes: &[u8]) {
    if !text.is_empty() {
        let place = random.below(text.len());
        text[place] = some_byte(random, bytes);
    }
}

fn insert_byte(random: &mut Random, text: &mut Vec<u8>, bytes: &[u8]) {
    let place = random.within(0..=text.len());
    text.insert(place, some_byte(random, bytes));
}

fn delete_byte(random: &mut Random, text: &mut Vec<u8>) {
    if !text.is_empty() {
        text.remove(random.below(text.len()));
    }
}

/// Doubles, removes, swaps or moves lines.
fn change_lines(random: &mut Random, text: &mut Vec<u8>) {
    change_line_list(text, |lines| {
        let (one, other) = (random.below(lines.len()), random.below(lines.len()));
        match random.below(4) {
            0 => lines.insert(other, lines[one].clone()),
            1 => drop(lines.remove(one)),
            2 => lines.swap(one, other),
            _ => {
                let line = lines.remove(one);
                lines.insert(other, line);
            }
        }
    });
}

fn carriage_return(random: &mut Random, text: &mut Vec<u8>) {
    change_line_list(text, |lines| {
        let line = random.below(lines.len());
        let end = lines[line].len().saturating_sub(1);
        lines[line].insert(end, b'\r');
    });
}

fn change_end(random: &mut Random, text: &mut Vec<u8>, bytes: &[u8]) {
    match random.below(4) {
        0 => drop(text.pop()),
        1 => text.truncate(random.within(0..=text.len())),
        2 => text.push(b'\n'),
        _ => text.push(some_byte(random, bytes)),
    }
}

/// Hands over the lines, each with its LF, unless there are none.
fn change_line_list(text: &mut Vec<u8>, change: impl FnOnce(&mut Vec<Vec<u8>>)) {
    let mut lines: Vec<Vec<u8>> = text
        .split_inclusive(|byte| *byte == b'\n')
        .map(<[u8]>::to_vec)
        .collect();
    if !lines.is_empty() {
        change(&mut lines);
        *text = lines.concat();
    }
}

/// Changes the fields of one random line, the separators put back between them.
/// Later lines are drawn more often: there stand the edges and the gates.
pub fn change_fields(
    random: &mut Random,
    text: &mut Vec<u8>,
    separator: u8,
    change: impl FnOnce(&mut Random, &mut Vec<Vec<u8>>),
) {
    change_line_list(text, |lines| {
        let place = random.below(lines.len()).max(random.below(lines.len()));
        let line = lines[place].strip_suffix(b"\n").unwrap_or(&lines[place]);
        let mut fields: Vec<Vec<u8>> = line
            .split(|byte| *byte == separator)
            .map(<[u8]>::to_vec)
            .collect();
        change(random, &mut fields);
        lines[place] = fields.join(&separator);
        lines[place].push(b'\n');
    });
}
