//! `run` and `step` by the library and by the reference, on the same words.

use crate::bench::Words;

pub fn run_by_library(net: &[u16], trace: &[u8], words: &mut Words) {
    let mut tally = ludopoplar::Tally {
        cycles: words.cycles,
        rejected: words.rejected,
    };
    let (latches, values) = (&mut words.latches, &mut words.values);
    ludopoplar::run(net, trace, latches, values, &mut words.verdicts, &mut tally)
        .expect("an accepted run");
    (words.cycles, words.rejected) = (tally.cycles, tally.rejected);
}

pub fn run_checked_by_library(net: &[u16], trace: &[u8], words: &mut Words) {
    let mut tally = ludopoplar::CheckedTally {
        cycles: words.cycles,
        rejected: words.rejected,
        checked: words.checked,
    };
    let (latches, values) = (&mut words.latches, &mut words.values);
    ludopoplar::run_checked(net, trace, latches, values, &mut words.verdicts, &mut tally)
        .expect("an accepted run");
    (words.cycles, words.rejected) = (tally.cycles, tally.rejected);
    words.checked = tally.checked;
}

pub fn run_by_reference(net: &[u16], trace: &[u8], words: &mut Words) {
    let mut tally = reference_tally(words);
    let (latches, values) = (&mut words.latches, &mut words.values);
    reference::run(net, trace, latches, values, &mut words.verdicts, &mut tally)
        .expect("an accepted run");
    put_reference_tally(tally, words);
}

fn reference_tally(words: &Words) -> reference::Tally {
    reference::Tally {
        cycles: words.cycles,
        rejected: words.rejected,
        checked: words.checked,
    }
}

fn put_reference_tally(tally: reference::Tally, words: &mut Words) {
    (words.cycles, words.rejected) = (tally.cycles, tally.rejected);
    words.checked = tally.checked;
}

/// Steps through the cycles; the output words, folded together.
pub fn steps_by_library(net: &[u16], cycles: &[&[u8]], words: &mut Words) -> u64 {
    let mut tally = ludopoplar::Tally {
        cycles: words.cycles,
        rejected: words.rejected,
    };
    let (latches, values) = (&mut words.latches, &mut words.values);
    let folded = cycles.iter().fold(0u64, |folded, cycle| {
        let word = ludopoplar::step(net, cycle, latches, values, &mut tally);
        folded.rotate_left(1) ^ word.expect("an accepted step")
    });
    (words.cycles, words.rejected) = (tally.cycles, tally.rejected);
    folded
}

pub fn steps_by_reference(net: &[u16], cycles: &[&[u8]], words: &mut Words) -> u64 {
    let mut tally = reference_tally(words);
    let (latches, values) = (&mut words.latches, &mut words.values);
    let folded = cycles.iter().fold(0u64, |folded, cycle| {
        let stepped = reference::step(net, cycle, latches, values, &mut tally);
        folded.rotate_left(1) ^ stepped.expect("an accepted step").accept
    });
    put_reference_tally(tally, words);
    folded
}
