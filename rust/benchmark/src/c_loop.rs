//! The C loop of `c/run.c`.

use crate::bench::Words;

extern "C" {
    fn c_loop_run(
        net: *const u16,
        net_len: usize,
        trace: *const u8,
        trace_len: usize,
        latches: *mut u64,
        values: *mut u64,
        verdicts: *mut u8,
        cycles: *mut u32,
        rejected: *mut u32,
        checked: *mut u32,
    ) -> i32;
}

/// Runs an accepted trace over words that fit the netlist.
pub fn run(net: &[u16], trace: &[u8], words: &mut Words) {
    let (variables, inputs, latches) = (net[0], net[1], net[2]);
    assert!(words.latches.len() >= usize::from(latches));
    assert!(words.values.len() > usize::from(variables));
    assert!(words.verdicts.len() >= trace.len() / (usize::from(inputs) + 1));
    // SAFETY: the loop checks netlist and trace by their lengths, and the three
    // buffers are as long as it says they must be.
    let done = unsafe {
        c_loop_run(
            net.as_ptr(),
            net.len(),
            trace.as_ptr(),
            trace.len(),
            words.latches.as_mut_ptr(),
            words.values.as_mut_ptr(),
            words.verdicts.as_mut_ptr(),
            &mut words.cycles,
            &mut words.rejected,
            &mut words.checked,
        )
    };
    assert_eq!(done, 1, "the C loop refused");
}
