//! The C interface as it stands: each call returns 0 where it is accepted, else
//! number × 2^32 + line, and a refusal leaves its out-parameters as they were.
//! `broken_line` is never refused; `bench_turn` serves 8 where it is idle, and leaves both words.

mod c {
    extern "C" {
        pub fn ludo_build(
            graph: *const u8,
            graph_len: usize,
            net: *mut u16,
            net_len: usize,
            gates: *mut u64,
        ) -> u64;

        pub fn ludo_write(
            net: *const u16,
            net_len: usize,
            text: *mut u8,
            text_len: usize,
            length: *mut u64,
        ) -> u64;

        pub fn ludo_write_packed(
            net: *const u16,
            net_len: usize,
            bytes: *mut u8,
            bytes_len: usize,
            length: *mut u64,
        ) -> u64;

        pub fn ludo_read(
            text: *const u8,
            text_len: usize,
            net: *mut u16,
            net_len: usize,
            length: *mut u64,
        ) -> u64;

        pub fn ludo_start(
            net: *const u16,
            net_len: usize,
            latches: *mut u64,
            latches_len: usize,
            cycles: *mut u32,
            rejected: *mut u32,
        ) -> u64;

        pub fn ludo_step(
            net: *const u16,
            net_len: usize,
            cycle: *const u8,
            cycle_len: usize,
            latches: *mut u64,
            latches_len: usize,
            values: *mut u64,
            values_len: usize,
            cycles: *mut u32,
            rejected: *mut u32,
            word: *mut u64,
        ) -> u64;

        pub fn ludo_run(
            net: *const u16,
            net_len: usize,
            trace: *const u8,
            trace_len: usize,
            latches: *mut u64,
            latches_len: usize,
            values: *mut u64,
            values_len: usize,
            verdicts: *mut u8,
            verdicts_len: usize,
            cycles: *mut u32,
            rejected: *mut u32,
            verdict: *mut u64,
        ) -> u64;

        pub fn ludo_build_checked(
            graph: *const u8,
            graph_len: usize,
            net: *mut u16,
            net_len: usize,
            gates: *mut u64,
        ) -> u64;

        pub fn ludo_start_checked(
            net: *const u16,
            net_len: usize,
            latches: *mut u64,
            latches_len: usize,
            cycles: *mut u32,
            rejected: *mut u32,
            checked: *mut u32,
        ) -> u64;

        pub fn ludo_step_checked(
            net: *const u16,
            net_len: usize,
            cycle: *const u8,
            cycle_len: usize,
            latches: *mut u64,
            latches_len: usize,
            values: *mut u64,
            values_len: usize,
            cycles: *mut u32,
            rejected: *mut u32,
            checked: *mut u32,
            word: *mut u64,
            checked_word: *mut u64,
        ) -> u64;

        pub fn ludo_run_checked(
            net: *const u16,
            net_len: usize,
            trace: *const u8,
            trace_len: usize,
            latches: *mut u64,
            latches_len: usize,
            values: *mut u64,
            values_len: usize,
            verdicts: *mut u8,
            verdicts_len: usize,
            cycles: *mut u32,
            rejected: *mut u32,
            checked: *mut u32,
            verdict: *mut u64,
        ) -> u64;

        pub fn ludo_per_million(
            cycles: u32,
            rejected: u32,
            whole: *mut u64,
            remainder: *mut u64,
        ) -> u64;

        pub fn ludo_broken_check(
            width: u64,
            flywheel: *const u8,
            flywheel_len: usize,
            handle: *const u8,
            handle_len: usize,
            flywheel_verdicts: *const u8,
            flywheel_verdicts_len: usize,
            handle_verdicts: *const u8,
            handle_verdicts_len: usize,
        ) -> u64;

        pub fn ludo_broken_line(
            width: u64,
            flywheel: *const u8,
            flywheel_len: usize,
            handle: *const u8,
            handle_len: usize,
            flywheel_verdicts: *const u8,
            flywheel_verdicts_len: usize,
            handle_verdicts: *const u8,
            handle_verdicts_len: usize,
            trace: *mut u64,
            offset: *mut u64,
            length: *mut u64,
        ) -> u64;

        pub fn ludo_session_page(
            name: *const u8,
            name_len: usize,
            verdicts: *const u8,
            verdicts_len: usize,
            page: *mut u8,
            page_len: usize,
            length: *mut u64,
        ) -> u64;

        pub fn ludo_dearest_graph(
            edges: u64,
            text: *mut u8,
            text_len: usize,
            length: *mut u64,
        ) -> u64;

        pub fn ludo_buffer_graph(
            strokes: u64,
            text: *mut u8,
            text_len: usize,
            length: *mut u64,
        ) -> u64;

        pub fn ludo_bench_add(
            nets: *const u16,
            nets_len: usize,
            latches: *const u64,
            latches_len: usize,
            queues: *mut u8,
            queues_len: usize,
            bench: *mut u32,
            bench_len: usize,
            machine: u32,
            cycle: *const u8,
            cycle_len: usize,
        ) -> u64;

        pub fn ludo_bench_turn(
            nets: *const u16,
            nets_len: usize,
            latches: *mut u64,
            latches_len: usize,
            values: *mut u64,
            values_len: usize,
            queues: *mut u8,
            queues_len: usize,
            bench: *mut u32,
            bench_len: usize,
            served: *mut u64,
            word: *mut u64,
            checked_word: *mut u64,
        ) -> u64;
    }
}

// SAFETY, of all nineteen: every pointer comes from a reference or a slice that lives
// through the call, with that slice's own length; the exclusive borrows keep what
// the library writes apart from all else; the library keeps no pointer.

pub fn build(graph: &[u8], net: &mut [u16], gates: &mut u64) -> u64 {
    unsafe {
        c::ludo_build(
            graph.as_ptr(),
            graph.len(),
            net.as_mut_ptr(),
            net.len(),
            gates,
        )
    }
}

pub fn write(net: &[u16], text: &mut [u8], length: &mut u64) -> u64 {
    unsafe {
        c::ludo_write(
            net.as_ptr(),
            net.len(),
            text.as_mut_ptr(),
            text.len(),
            length,
        )
    }
}

pub fn write_packed(net: &[u16], bytes: &mut [u8], length: &mut u64) -> u64 {
    unsafe {
        c::ludo_write_packed(
            net.as_ptr(),
            net.len(),
            bytes.as_mut_ptr(),
            bytes.len(),
            length,
        )
    }
}

pub fn read(text: &[u8], net: &mut [u16], length: &mut u64) -> u64 {
    unsafe {
        c::ludo_read(
            text.as_ptr(),
            text.len(),
            net.as_mut_ptr(),
            net.len(),
            length,
        )
    }
}

pub fn start(net: &[u16], latches: &mut [u64], cycles: &mut u32, rejected: &mut u32) -> u64 {
    unsafe {
        c::ludo_start(
            net.as_ptr(),
            net.len(),
            latches.as_mut_ptr(),
            latches.len(),
            cycles,
            rejected,
        )
    }
}

pub fn step(
    net: &[u16],
    cycle: &[u8],
    latches: &mut [u64],
    values: &mut [u64],
    cycles: &mut u32,
    rejected: &mut u32,
    word: &mut u64,
) -> u64 {
    unsafe {
        c::ludo_step(
            net.as_ptr(),
            net.len(),
            cycle.as_ptr(),
            cycle.len(),
            latches.as_mut_ptr(),
            latches.len(),
            values.as_mut_ptr(),
            values.len(),
            cycles,
            rejected,
            word,
        )
    }
}

// As many arguments as the C function has.
#[allow(clippy::too_many_arguments)]
pub fn run(
    net: &[u16],
    trace: &[u8],
    latches: &mut [u64],
    values: &mut [u64],
    verdicts: &mut [u8],
    cycles: &mut u32,
    rejected: &mut u32,
    verdict: &mut u64,
) -> u64 {
    unsafe {
        c::ludo_run(
            net.as_ptr(),
            net.len(),
            trace.as_ptr(),
            trace.len(),
            latches.as_mut_ptr(),
            latches.len(),
            values.as_mut_ptr(),
            values.len(),
            verdicts.as_mut_ptr(),
            verdicts.len(),
            cycles,
            rejected,
            verdict,
        )
    }
}

pub fn build_checked(graph: &[u8], net: &mut [u16], gates: &mut u64) -> u64 {
    unsafe {
        c::ludo_build_checked(
            graph.as_ptr(),
            graph.len(),
            net.as_mut_ptr(),
            net.len(),
            gates,
        )
    }
}

pub fn start_checked(
    net: &[u16],
    latches: &mut [u64],
    cycles: &mut u32,
    rejected: &mut u32,
    checked: &mut u32,
) -> u64 {
    unsafe {
        c::ludo_start_checked(
            net.as_ptr(),
            net.len(),
            latches.as_mut_ptr(),
            latches.len(),
            cycles,
            rejected,
            checked,
        )
    }
}

// As many arguments as the C function has.
#[allow(clippy::too_many_arguments)]
pub fn step_checked(
    net: &[u16],
    cycle: &[u8],
    latches: &mut [u64],
    values: &mut [u64],
    cycles: &mut u32,
    rejected: &mut u32,
    checked: &mut u32,
    word: &mut u64,
    checked_word: &mut u64,
) -> u64 {
    unsafe {
        c::ludo_step_checked(
            net.as_ptr(),
            net.len(),
            cycle.as_ptr(),
            cycle.len(),
            latches.as_mut_ptr(),
            latches.len(),
            values.as_mut_ptr(),
            values.len(),
            cycles,
            rejected,
            checked,
            word,
            checked_word,
        )
    }
}

// As many arguments as the C function has.
#[allow(clippy::too_many_arguments)]
pub fn run_checked(
    net: &[u16],
    trace: &[u8],
    latches: &mut [u64],
    values: &mut [u64],
    verdicts: &mut [u8],
    cycles: &mut u32,
    rejected: &mut u32,
    checked: &mut u32,
    verdict: &mut u64,
) -> u64 {
    unsafe {
        c::ludo_run_checked(
            net.as_ptr(),
            net.len(),
            trace.as_ptr(),
            trace.len(),
            latches.as_mut_ptr(),
            latches.len(),
            values.as_mut_ptr(),
            values.len(),
            verdicts.as_mut_ptr(),
            verdicts.len(),
            cycles,
            rejected,
            checked,
            verdict,
        )
    }
}

pub fn per_million(cycles: u32, rejected: u32, whole: &mut u64, remainder: &mut u64) -> u64 {
    unsafe { c::ludo_per_million(cycles, rejected, whole, remainder) }
}

pub fn broken_check(
    width: u64,
    flywheel: &[u8],
    handle: &[u8],
    flywheel_verdicts: &[u8],
    handle_verdicts: &[u8],
) -> u64 {
    unsafe {
        c::ludo_broken_check(
            width,
            flywheel.as_ptr(),
            flywheel.len(),
            handle.as_ptr(),
            handle.len(),
            flywheel_verdicts.as_ptr(),
            flywheel_verdicts.len(),
            handle_verdicts.as_ptr(),
            handle_verdicts.len(),
        )
    }
}

// As many arguments as the C function has.
#[allow(clippy::too_many_arguments)]
pub fn broken_line(
    width: u64,
    flywheel: &[u8],
    handle: &[u8],
    flywheel_verdicts: &[u8],
    handle_verdicts: &[u8],
    trace: &mut u64,
    offset: &mut u64,
    length: &mut u64,
) -> u64 {
    unsafe {
        c::ludo_broken_line(
            width,
            flywheel.as_ptr(),
            flywheel.len(),
            handle.as_ptr(),
            handle.len(),
            flywheel_verdicts.as_ptr(),
            flywheel_verdicts.len(),
            handle_verdicts.as_ptr(),
            handle_verdicts.len(),
            trace,
            offset,
            length,
        )
    }
}

pub fn session_page(name: &[u8], verdicts: &[u8], page: &mut [u8], length: &mut u64) -> u64 {
    unsafe {
        c::ludo_session_page(
            name.as_ptr(),
            name.len(),
            verdicts.as_ptr(),
            verdicts.len(),
            page.as_mut_ptr(),
            page.len(),
            length,
        )
    }
}

pub fn dearest_graph(edges: u64, text: &mut [u8], length: &mut u64) -> u64 {
    unsafe { c::ludo_dearest_graph(edges, text.as_mut_ptr(), text.len(), length) }
}

pub fn buffer_graph(strokes: u64, text: &mut [u8], length: &mut u64) -> u64 {
    unsafe { c::ludo_buffer_graph(strokes, text.as_mut_ptr(), text.len(), length) }
}

pub fn bench_add(
    nets: &[u16],
    latches: &[u64],
    queues: &mut [u8],
    bench: &mut [u32],
    machine: u32,
    cycle: &[u8],
) -> u64 {
    unsafe {
        c::ludo_bench_add(
            nets.as_ptr(),
            nets.len(),
            latches.as_ptr(),
            latches.len(),
            queues.as_mut_ptr(),
            queues.len(),
            bench.as_mut_ptr(),
            bench.len(),
            machine,
            cycle.as_ptr(),
            cycle.len(),
        )
    }
}

// As many arguments as the C function has.
#[allow(clippy::too_many_arguments)]
pub fn bench_turn(
    nets: &[u16],
    latches: &mut [u64],
    values: &mut [u64],
    queues: &mut [u8],
    bench: &mut [u32],
    served: &mut u64,
    word: &mut u64,
    checked_word: &mut u64,
) -> u64 {
    unsafe {
        c::ludo_bench_turn(
            nets.as_ptr(),
            nets.len(),
            latches.as_mut_ptr(),
            latches.len(),
            values.as_mut_ptr(),
            values.len(),
            queues.as_mut_ptr(),
            queues.len(),
            bench.as_mut_ptr(),
            bench.len(),
            served,
            word,
            checked_word,
        )
    }
}
