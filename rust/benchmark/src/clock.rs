//! Timing by the clock of `c/clock.c`.

mod c {
    extern "C" {
        pub fn processor_seconds() -> f64;
    }
}

fn processor_seconds() -> f64 {
    // SAFETY: it takes nothing and keeps nothing.
    unsafe { c::processor_seconds() }
}

/// Processor seconds of each piece of work in the best of so many repetitions.
/// The pieces take turns, so that a busy machine slows all of them alike.
pub fn best<const N: usize>(repetitions: usize, mut work: [&mut dyn FnMut(); N]) -> [f64; N] {
    let mut least = [f64::INFINITY; N];
    for _ in 0..repetitions {
        for (piece, least) in work.iter_mut().zip(&mut least) {
            let begun = processor_seconds();
            piece();
            *least = least.min(processor_seconds() - begun);
        }
    }
    least
}
