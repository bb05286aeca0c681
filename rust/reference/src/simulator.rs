//! The simulator: start, step and run over 64 lanes.

use crate::netlist::{Literal, Netlist, Reset};
use crate::refusal::{check_buffer, check_size, Cause, Refusal};
use crate::trace::{cycles_of, is_cycle, MAX_TRACE_BYTES};

const ALL_LANES: u64 = u64::MAX;

/// Document 02, No. 7: "The tally gains a third number, cycles with checked high in some
/// lane"; "with O = 1 the third number does not move".
#[derive(Clone, Copy, Debug, Default, PartialEq, Eq)]
pub struct Tally {
    pub cycles: u32,
    pub rejected: u32,
    pub checked: u32,
}

/// "Step answers both output words, the second 0 when O = 1."
#[derive(Clone, Copy, Debug, PartialEq, Eq)]
pub struct Words {
    pub accept: u64,
    pub checked: u64,
}

/// Of a run; a step has none.
#[derive(Clone, Copy, Debug, PartialEq, Eq)]
pub enum Verdict {
    Accepted,
    Rejected,
}

/// Checks 16, then 12. "Start fills the L latch words and zeroes the tally."
pub fn start(net: &[u16], latches: &mut [u64], tally: &mut Tally) -> Result<(), Refusal> {
    let netlist = lent_netlist(net)?;
    check_buffer(latches, netlist.latches.len())?;
    let mut uninitialised = 0;
    for (word, latch) in latches.iter_mut().zip(&netlist.latches) {
        *word = match latch.reset {
            Reset::Zero => 0,
            Reset::One => ALL_LANES,
            Reset::Uninitialised => {
                uninitialised += 1;
                lanes_with_bit(uninitialised - 1)
            }
        };
    }
    *tally = Tally::default();
    Ok(())
}

/// "The j-th uninitialised latch (from 0) starts in lane n as bit j of n."
fn lanes_with_bit(j: u32) -> u64 {
    (0..64u64)
        .map(|lane| ((lane >> j) & 1) << lane)
        .fold(0, |word, bit| word | bit)
}

/// Checks 16, 15, 12, 17; answers the output words.
pub fn step(
    net: &[u16],
    cycle: &[u8],
    latches: &mut [u64],
    values: &mut [u64],
    tally: &mut Tally,
) -> Result<Words, Refusal> {
    let netlist = lent_netlist(net)?;
    if !is_cycle(netlist.header.inputs as usize, cycle) {
        return Err(Cause::CycleWrong.at(1));
    }
    check_words(&netlist, latches, values)?;
    check_tally(tally, 1)?;
    Ok(one_cycle(&netlist, cycle, latches, values, tally))
}

/// Checks 1, 16, 15, 12, 17; answers the verdict over all cycles of this run.
pub fn run(
    net: &[u16],
    trace: &[u8],
    latches: &mut [u64],
    values: &mut [u64],
    verdicts: &mut [u8],
    tally: &mut Tally,
) -> Result<Verdict, Refusal> {
    check_size(trace, MAX_TRACE_BYTES)?;
    let netlist = lent_netlist(net)?;
    let cycles = cycles_of(netlist.header.inputs as usize, trace)?;
    check_words(&netlist, latches, values)?;
    check_buffer(verdicts, cycles.len())?;
    check_tally(tally, cycles.len())?;
    // Document 02, No. 2: "a run's verdict is `rejected` exactly when any cycle of that run was."
    let mut verdict = Verdict::Accepted;
    for (cycle, byte) in cycles.into_iter().zip(verdicts) {
        let words = one_cycle(&netlist, cycle, latches, values, tally);
        *byte = u8::from(is_rejected(words));
        if is_rejected(words) {
            verdict = Verdict::Rejected;
        }
    }
    Ok(verdict)
}

fn lent_netlist(net: &[u16]) -> Result<Netlist, Refusal> {
    Netlist::from_numbers(net).ok_or(Cause::NoNetlist.no_line())
}

fn check_words(netlist: &Netlist, latches: &[u64], values: &[u64]) -> Result<(), Refusal> {
    check_buffer(latches, netlist.latches.len())?;
    check_buffer(values, netlist.header.variables as usize + 1)
}

/// "Cycles or rejected + new cycles over 4,294,967,295"; and "17 guards" the third number
/// "too, also with O = 1".
pub fn check_tally(tally: &Tally, new_cycles: usize) -> Result<(), Refusal> {
    let room = |count: u32| (u32::MAX - count) as usize >= new_cycles;
    match room(tally.cycles) && room(tally.rejected) && room(tally.checked) {
        true => Ok(()),
        false => Err(Cause::TallyFull.no_line()),
    }
}

/// "A cycle is rejected if any lane of it is 0."
fn is_rejected(words: Words) -> bool {
    words.accept != ALL_LANES
}

/// "Cycles with checked high in some lane."
fn is_checked(words: Words) -> bool {
    words.checked != 0
}

/// One cycle of an accepted call: fills the value words, moves the latches,
/// brings the tally up to date, answers the output words.
fn one_cycle(
    netlist: &Netlist,
    cycle: &[u8],
    latches: &mut [u64],
    values: &mut [u64],
    tally: &mut Tally,
) -> Words {
    let inputs = cycle.len();
    values[0] = 0;
    for (value, byte) in values[1..].iter_mut().zip(cycle) {
        *value = if *byte == b'1' { ALL_LANES } else { 0 };
    }
    for (index, word) in latches[..netlist.latches.len()].iter().enumerate() {
        values[1 + inputs + index] = *word;
    }
    let first_gate = 1 + inputs + netlist.latches.len();
    for (index, gate) in netlist.gates.iter().enumerate() {
        values[first_gate + index] = word(values, gate.r0) & word(values, gate.r1);
    }
    // The values still hold the old latch words, so all latches move together.
    for (latch_word, latch) in latches.iter_mut().zip(&netlist.latches) {
        *latch_word = word(values, latch.next);
    }
    let words = Words {
        accept: word(values, netlist.outputs[0]),
        checked: match netlist.outputs.get(1) {
            Some(second) => word(values, *second),
            None => 0,
        },
    };
    tally.cycles += 1;
    tally.rejected += u32::from(is_rejected(words));
    tally.checked += u32::from(is_checked(words));
    words
}

fn word(values: &[u64], literal: Literal) -> u64 {
    let value = values[literal.variable().0 as usize];
    match literal.is_inverted() {
        true => !value,
        false => value,
    }
}

#[cfg(test)]
mod tests {
    use super::*;
    use crate::builder::{build, Outputs};
    use crate::testing::{graph_text, lines_text, numbered, G};

    /// A netlist with all that start, step and run are lent.
    struct Bench {
        net: Vec<u16>,
        latches: Vec<u64>,
        values: Vec<u64>,
        verdicts: Vec<u8>,
        tally: Tally,
    }

    impl Bench {
        fn of_net(net: &[u16]) -> Bench {
            let mut bench = Bench {
                net: net.to_vec(),
                latches: vec![5; 300],
                values: vec![7; 4_096],
                verdicts: vec![9; 20],
                tally: Tally::default(),
            };
            start(&bench.net, &mut bench.latches, &mut bench.tally).unwrap();
            bench
        }

        fn with_outputs(outputs: Outputs, graph: &str) -> Bench {
            let mut net = vec![0; 8_200];
            build(&graph_text(graph), outputs, &mut net).unwrap();
            Bench::of_net(&net)
        }

        fn of_graph(graph: &str) -> Bench {
            Bench::with_outputs(Outputs::Accept, graph)
        }

        fn words(&mut self, cycle: &str) -> Result<Words, (u8, u32)> {
            let (latches, values) = (&mut self.latches, &mut self.values);
            let cycle = cycle.as_bytes();
            step(&self.net, cycle, latches, values, &mut self.tally).map_err(numbered)
        }

        /// Of a netlist with one output.
        fn step(&mut self, cycle: &str) -> Result<u64, (u8, u32)> {
            let words = self.words(cycle)?;
            assert_eq!((words.checked, self.tally.checked), (0, 0));
            Ok(words.accept)
        }

        fn run_bytes(&mut self, trace: &[u8]) -> Result<Verdict, (u8, u32)> {
            run(
                &self.net,
                trace,
                &mut self.latches,
                &mut self.values,
                &mut self.verdicts,
                &mut self.tally,
            )
            .map_err(numbered)
        }

        fn run(&mut self, trace: &str) -> Result<Verdict, (u8, u32)> {
            self.run_bytes(&lines_text(trace))
        }
    }

    fn tally(cycles: u32, rejected: u32, checked: u32) -> Tally {
        Tally {
            cycles,
            rejected,
            checked,
        }
    }

    /// Verdict bytes and verdict of a graph over a trace.
    fn judged(graph: &str, trace: &str) -> (Vec<u8>, Verdict) {
        let mut bench = Bench::of_graph(graph);
        let verdict = bench.run(trace).unwrap();
        let cycles = bench.tally.cycles as usize;
        assert_eq!(cycles, trace.split(',').count());
        assert!(bench.verdicts[cycles..].iter().all(|byte| *byte == 9));
        let rejected: u32 = bench.verdicts[..cycles]
            .iter()
            .map(|byte| u32::from(*byte))
            .sum();
        assert_eq!(bench.tally.rejected, rejected);
        bench.verdicts.truncate(cycles);
        (bench.verdicts, verdict)
    }

    #[test]
    fn trace_of_g() {
        assert_eq!(judged(G, "110,111,010"), (vec![1, 0, 0], Verdict::Rejected));
        assert_eq!(judged(G, "010"), (vec![0], Verdict::Accepted));
    }

    #[test]
    fn g_with_a_loop() {
        let graph = format!("{G},E b b t p 1");
        assert_eq!(
            judged(&graph, "110,011,001"),
            (vec![1, 1, 0], Verdict::Rejected)
        );
    }

    /// A path of G is one edge long, so a cycle is rejected exactly where it is 110.
    #[test]
    fn one_rejected_cycle_rejects_the_run() {
        use Verdict::{Accepted, Rejected};
        for (trace, bytes, verdict) in [
            ("111", vec![0], Accepted),
            ("110", vec![1], Rejected),
            ("111,010,110", vec![0, 0, 1], Rejected),
            ("110,010,111", vec![1, 0, 0], Rejected),
            ("111,110,010", vec![0, 1, 0], Rejected),
            ("110,110,110", vec![1, 1, 1], Rejected),
            ("111,010,101", vec![0, 0, 0], Accepted),
        ] {
            assert_eq!(judged(G, trace), (bytes, verdict), "{trace}");
        }
        // By one path of two edges; and in the lanes of k = 1 only.
        let chain = "S p,S q,V a,V b,V c,E a b - 1 q,E b c t p 1";
        assert_eq!(judged(chain, "100,010,000"), (vec![0, 1, 0], Rejected));
        let constant = "S p,K k,V a,E a a t k p";
        assert_eq!(judged(constant, "11,10,11"), (vec![0, 1, 0], Rejected));
    }

    #[test]
    fn each_run_is_judged_alone() {
        let mut bench = Bench::of_graph(G);
        assert_eq!(bench.run("110"), Ok(Verdict::Rejected));
        assert_eq!(bench.verdicts[..2], [1, 9]);
        assert_eq!(bench.run("111"), Ok(Verdict::Accepted));
        assert_eq!(bench.verdicts[..2], [0, 9]);
        let due = tally(2, 1, 0);
        assert_eq!(bench.tally, due);
        assert_eq!(bench.run_bytes(b""), Ok(Verdict::Accepted));
        assert_eq!((&bench.verdicts[..2], bench.tally), (&[0, 9][..], due));
        // A rejected step is in the tally, but in no run.
        assert_eq!(bench.step("110"), Ok(0));
        assert_eq!(bench.run("010"), Ok(Verdict::Accepted));
        // A path may begin in the run before.
        let mut bench = Bench::of_graph("S p,V a,V b,E a b - 1 0,E b a t p 1");
        assert_eq!(bench.run("10"), Ok(Verdict::Accepted));
        assert_eq!(bench.run("01"), Ok(Verdict::Rejected));
    }

    #[test]
    fn constants_are_tried_both_ways() {
        let graph = "S p,K k,V a,E a a t k p";
        assert_eq!(judged(graph, "10"), (vec![1], Verdict::Rejected));
        assert_eq!(judged(graph, "11"), (vec![0], Verdict::Accepted));
        let mut bench = Bench::of_graph(graph);
        // The odd lanes are those with k = 1.
        assert_eq!(bench.step("10"), Ok(0x5555_5555_5555_5555));
    }

    #[test]
    fn formulas_at_inputs() {
        let rejected = |formula: &str, inputs: &str| {
            let graph = format!("S p,S q,S r,V a,E a a t 1 {formula}");
            judged(&graph, &format!("1{inputs}")).1 == Verdict::Rejected
        };
        assert!(!rejected("p|q&r", "100"));
        assert!(rejected("p=q=r", "000"));
    }

    #[test]
    fn misreadings_shut_out() {
        // A later false antecedent excuses a condemned path, and a consequent is
        // not checked under a false antecedent.
        let chain = "S p,S q,V a,V b,V c,E a b - 1 q,E b c t p 1";
        assert_eq!(judged(chain, "100,010").0, [0, 1]);
        assert_eq!(judged(chain, "100,000,010").0, [0, 0, 0]);
        assert_eq!(judged(G, "100").0, [0]);
        // Init takes effect in its own cycle and drops earlier tokens.
        assert_eq!(judged(chain, "100,110,010").0, [0, 0, 1]);
        assert_eq!(judged(chain, "100,111,010").0, [0, 0, 0]);
    }

    #[test]
    fn start_sets_lanes() {
        // Six uninitialised latches with a 0 and a 1 among them.
        let mut net = vec![9, 1, 8, 1, 0];
        for (index, reset) in [4, 0, 8, 10, 1, 14, 16, 18].into_iter().enumerate() {
            net.extend([2 * (index as u16 + 2), reset]);
        }
        net.push(0);
        let bench = Bench::of_net(&net);
        let lanes = [
            0xAAAA_AAAA_AAAA_AAAA,
            0,
            0xCCCC_CCCC_CCCC_CCCC,
            0xF0F0_F0F0_F0F0_F0F0,
            u64::MAX,
            0xFF00_FF00_FF00_FF00,
            0xFFFF_0000_FFFF_0000,
            0xFFFF_FFFF_0000_0000,
            5,
        ];
        assert_eq!(bench.latches[..9], lanes);
    }

    #[test]
    fn latches_move_together() {
        // Two latches that swap: 0 and 1.
        let mut bench = Bench::of_net(&[3, 1, 2, 1, 0, 6, 0, 4, 1, 4]);
        assert_eq!(bench.step("0"), Ok(0));
        assert_eq!(bench.latches[..3], [u64::MAX, 0, 5]);
        assert_eq!(bench.values[..5], [0, 0, 0, u64::MAX, 7]);
        assert_eq!(bench.step("1"), Ok(u64::MAX));
        assert_eq!(bench.values[..5], [0, u64::MAX, u64::MAX, 0, 7]);
        assert_eq!(bench.tally, tally(2, 1, 0));
    }

    #[test]
    fn wrong_cycles() {
        let mut bench = Bench::of_graph(G);
        for cycle in ["", "11", "1100", "112", "11\r", "11\n"] {
            assert_eq!(bench.step(cycle), Err((15, 1)), "{cycle:?}");
        }
        assert_eq!(bench.run("110,11,110"), Err((15, 2)));
        assert_eq!(bench.run("110,110\r"), Err((15, 2)));
        assert_eq!(bench.run_bytes(b"110\n110"), Err((15, 2)));
        assert_eq!(bench.run_bytes(b"110\n\n"), Err((15, 2)));
        assert_eq!(bench.tally, Tally::default());
        assert!(bench.values.iter().all(|word| *word == 7));
    }

    #[test]
    fn empty_trace() {
        let mut bench = Bench::of_graph(G);
        assert_eq!(bench.run_bytes(b""), Ok(Verdict::Accepted));
        assert!(bench.values.iter().all(|word| *word == 7));
        assert!(bench.verdicts.iter().all(|byte| *byte == 9));
        bench.values.truncate(12);
        assert_eq!(bench.run_bytes(b""), Err((12, 0)));
        bench.values.push(7);
        bench.latches.truncate(1);
        assert_eq!(bench.run_bytes(b""), Err((12, 0)));
    }

    #[test]
    fn short_buffers() {
        let mut bench = Bench::of_graph(G);
        bench.values.truncate(12);
        assert_eq!(bench.step("110"), Err((12, 0)));
        bench.values.push(0);
        assert!(bench.step("110").is_ok());
        bench.latches.truncate(1);
        assert_eq!(bench.step("110"), Err((12, 0)));
        let refusal = start(&bench.net, &mut bench.latches, &mut bench.tally).unwrap_err();
        assert_eq!((numbered(refusal), bench.tally.cycles), ((12, 0), 1));
        bench.latches.push(0);
        bench.verdicts.truncate(1);
        assert_eq!(bench.run("110,110"), Err((12, 0)));
    }

    #[test]
    fn no_netlist() {
        let mut bench = Bench::of_graph(G);
        bench.net[0] += 1;
        assert_eq!(bench.step(""), Err((16, 0)));
        assert_eq!(bench.run("x"), Err((16, 0)));
        let refusal = start(&bench.net, &mut [], &mut bench.tally).unwrap_err();
        assert_eq!(numbered(refusal), (16, 0));
        assert_eq!(bench.run_bytes(&[0; 1_048_577]), Err((1, 0)));
        assert_eq!(bench.run_bytes(&[0; 1_048_576]), Err((16, 0)));
    }

    #[test]
    fn full_tally() {
        let mut bench = Bench::of_graph(G);
        bench.tally = tally(u32::MAX, 0, 0);
        assert_eq!(bench.step("110"), Err((17, 0)));
        assert_eq!(bench.run_bytes(b""), Ok(Verdict::Accepted));
        bench.tally = tally(0, u32::MAX - 1, 0);
        assert_eq!(bench.run("111,111"), Err((17, 0)));
        assert_eq!(bench.run("110"), Ok(Verdict::Rejected));
        assert_eq!(bench.tally, tally(1, u32::MAX, 0));
        assert_eq!(bench.step("111"), Err((17, 0)));
        assert_eq!(bench.step("11"), Err((15, 1)));
    }

    /// 000 before an init moves no number but the first; 110 with checked moves all three.
    #[test]
    fn full_third_number() {
        for (outputs, due) in [(Outputs::Accept, 0), (Outputs::AcceptAndChecked, 1)] {
            let mut bench = Bench::with_outputs(outputs, G);
            bench.tally = tally(0, 0, u32::MAX);
            assert_eq!(bench.words("000"), Err((17, 0)));
            assert_eq!(bench.run("000"), Err((17, 0)));
            assert_eq!(bench.run_bytes(b""), Ok(Verdict::Accepted));
            assert_eq!(bench.tally, tally(0, 0, u32::MAX));
            bench.tally = tally(0, 0, u32::MAX - 1);
            assert_eq!(bench.run("000,000"), Err((17, 0)));
            assert_eq!(bench.run("110"), Ok(Verdict::Rejected));
            assert_eq!(bench.tally, tally(1, 1, u32::MAX - 1 + due));
            start(&bench.net, &mut bench.latches, &mut bench.tally).unwrap();
            assert_eq!(bench.tally, Tally::default());
        }
    }

    /// Outputs that no graph has: the same input twice, its inverse, both constants.
    #[test]
    fn two_outputs_of_any_netlist() {
        for (second, words) in [
            (2, [0, u64::MAX]),
            (3, [u64::MAX, 0]),
            (0, [0, 0]),
            (1, [u64::MAX, u64::MAX]),
        ] {
            let mut bench = Bench::of_net(&[1, 1, 0, 2, 0, 2, second]);
            for (cycle, [accept, checked]) in [("0", [0, words[0]]), ("1", [u64::MAX, words[1]])] {
                assert_eq!(bench.words(cycle), Ok(Words { accept, checked }));
            }
            let due = words.iter().filter(|word| **word != 0).count() as u32;
            assert_eq!(bench.tally, tally(2, 1, due));
            assert_eq!(bench.run("0,1,1"), Ok(Verdict::Rejected));
            assert_eq!(bench.verdicts[..4], [1, 0, 0, 9]);
        }
        // Lanes count once: the latch is high in every second of them.
        let mut bench = Bench::of_net(&[2, 1, 1, 2, 0, 4, 4, 1, 4]);
        let odd = 0xAAAA_AAAA_AAAA_AAAA;
        let due = Words {
            accept: u64::MAX,
            checked: odd,
        };
        assert_eq!(bench.words("0"), Ok(due));
        assert_eq!(bench.tally, tally(1, 0, 1));
    }
}
