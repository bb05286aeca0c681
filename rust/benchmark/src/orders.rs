//! Texts whose gates stand in other orders than ours.

/// In the chains.
pub const GATES: usize = 4_000;

/// A text with its gate lines shuffled, always in the same way.
pub fn shuffled(text: &[u8], gates: usize) -> Vec<u8> {
    let mut lines: Vec<&[u8]> = text.split_inclusive(|byte| *byte == b'\n').collect();
    let first = lines.len() - gates;
    shuffle(&mut lines[first..]);
    lines.concat()
}

/// A chain of gates over one input, each with the gate before it, inverted, and the input for
/// operands: its lines in order and shuffled, then its gates numbered backwards, so that each
/// waits on the one after it, and at random.
pub fn chains() -> [(&'static str, Vec<u8>); 4] {
    let in_order: Vec<usize> = (0..GATES).collect();
    let backwards: Vec<usize> = (0..GATES).rev().collect();
    let mut at_random = in_order.clone();
    shuffle(&mut at_random);
    let text = chain(&in_order);
    [
        ("in order", text.clone()),
        ("its lines shuffled", shuffled(&text, GATES)),
        ("gates numbered backwards", chain(&backwards)),
        ("gates numbered at random", chain(&at_random)),
    ]
}

/// What each of the chains reads as.
pub fn netlist() -> Vec<u16> {
    let most = GATES as u16 + 1;
    let mut net = vec![most, 1, 0, 1, GATES as u16, 2 * most];
    net.extend((1..most).flat_map(|before| [2 * before + 1, 2]));
    net
}

/// The chain whose gate at each place has the number given there, its lines in the order of the
/// literals; the output is the last gate.
fn chain(numbers: &[usize]) -> Vec<u8> {
    let own = |place: usize| 2 * (2 + numbers[place]);
    let mut gates: Vec<(usize, usize)> = (0..GATES)
        .map(|place| match place {
            0 => (own(0), 3),
            _ => (own(place), own(place - 1) + 1),
        })
        .collect();
    gates.sort();
    let mut text = format!("aag {} 1 0 1 {GATES}\n2\n{}\n", GATES + 1, own(GATES - 1));
    for (own, before) in gates {
        text += &format!("{own} {before} 2\n");
    }
    text.into_bytes()
}

/// By numbers of splitmix64 from a fixed one on.
fn shuffle<T>(items: &mut [T]) {
    let mut state = 10u64;
    for place in (1..items.len()).rev() {
        state = state.wrapping_add(0x9E37_79B9_7F4A_7C15);
        let mixed = (state ^ (state >> 30)).wrapping_mul(0xBF58_476D_1CE4_E5B9);
        items.swap(place, (mixed >> 32) as usize % (place + 1));
    }
}
