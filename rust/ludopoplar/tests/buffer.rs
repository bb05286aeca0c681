//! Document 02, No. 6: the stroke buffer's graph, through the C interface, and the cycles that it
//! rejects.

mod common;

/// What the comparison draws from.
#[allow(dead_code)]
#[path = "../../differential/src/random.rs"]
mod random;

use common::{Writer, TOO_SHORT};
use ludopoplar::{buffer_graph, build, raw, run, start, Refusal, Tally, Verdict};
use random::Random;

const WRITER: Writer = Writer {
    call: buffer_graph,
    raw: raw::buffer_graph,
};

/// The text that is due, by the request's sentences and the listing of source 001.
fn due_text(strokes: u64) -> Vec<u8> {
    let mut text = "S\treset\nS\tenq\nS\tdeq\nS\tempty\nS\tfull\nV\ts\n".to_string();
    for count in 0..=strokes {
        text += &format!("V\tn{count}\n");
    }
    text += "E\ts\tn0\tt\treset\t1\n";
    for count in 0..=strokes {
        let edges = if count == 0 {
            vec![(1, "enq"), (0, "!enq")]
        } else if count == strokes {
            vec![(count - 1, "deq"), (count, "!deq")]
        } else {
            let up_and_down = [(count + 1, "enq&!deq"), (count - 1, "!enq&deq")];
            [&up_and_down[..], &[(count, "enq=deq")]].concat()
        };
        let empty = if count == 0 { "empty" } else { "!empty" };
        let full = if count == strokes { "full" } else { "!full" };
        for (to, antecedent) in edges {
            text += &format!("E\tn{count}\tn{to}\tt\t{antecedent}\t{empty}&{full}\n");
        }
    }
    text.into_bytes()
}

/// Strokes, bytes, edges, vertices, gates, M and numbers.
#[test]
fn worked_cases() {
    for (strokes, bytes, edges, vertices, gates, variables, numbers) in [
        (1, 172, 5, 3, 49, 65, 124),
        (2, 272, 8, 4, 85, 107, 208),
        (39, 4_180, 119, 41, 1_417, 1_661, 3_316),
        (40, 4_287, 122, 42, 1_453, 1_703, 3_400),
    ] {
        let (answer, text) = WRITER.written(strokes, bytes);
        assert_eq!(answer, Ok(bytes));
        let lines = |kind: u8| {
            let lines = text.split(|byte| *byte == b'\n');
            lines.filter(|line| line.first() == Some(&kind)).count()
        };
        assert_eq!([lines(b'E'), lines(b'V')], [edges, vertices]);
        let mut net = vec![0; numbers];
        assert_eq!(build(&text, &mut net), Ok(gates));
        assert_eq!(net[0], variables);
    }
    let one = "S\treset\nS\tenq\nS\tdeq\nS\tempty\nS\tfull\nV\ts\nV\tn0\nV\tn1\n\
        E\ts\tn0\tt\treset\t1\n\
        E\tn0\tn1\tt\tenq\tempty&!full\nE\tn0\tn0\tt\t!enq\tempty&!full\n\
        E\tn1\tn0\tt\tdeq\t!empty&full\nE\tn1\tn1\tt\t!deq\t!empty&full\n";
    assert_eq!(WRITER.written(1, 172).1, one.as_bytes());
}

/// Into a buffer of just its length and into longer ones, whose surplus stays; a byte less is too
/// short. Built into just its count of numbers; a number less is too short.
#[test]
fn each_number_of_strokes() {
    for strokes in 1..=40 {
        let due = due_text(strokes as u64);
        let bytes = match strokes {
            1..=9 => 100 * strokes + 72,
            _ => 107 * strokes + 7,
        };
        assert_eq!(due.len(), bytes);
        for surplus in [0, 1, 50] {
            let filled = [&due[..], &vec![b'#'; surplus]].concat();
            assert_eq!(
                WRITER.written(strokes as u64, bytes + surplus),
                (Ok(bytes), filled)
            );
        }
        for lent in [0, 1, 40, bytes - 17, bytes - 1] {
            let answer = (Err(TOO_SHORT), vec![b'#'; lent]);
            assert_eq!(WRITER.written(strokes as u64, lent), answer);
        }
        let (gates, numbers) = (36 * strokes + 13, 84 * strokes + 40);
        let mut net = vec![9; numbers];
        assert_eq!(build(&due, &mut net), Ok(gates as u64));
        let due_header = [42 * strokes + 23, 6, 6 * strokes + 4, 1, gates];
        assert_eq!(net[..5], due_header.map(|count| count as u16));
        let mut short = vec![9; numbers - 1];
        assert_eq!(build(&due, &mut short), Err(TOO_SHORT));
        assert_eq!(short, vec![9; numbers - 1]);
    }
}

/// 20 comes before 12, so a number outside is refused whatever the buffer.
#[test]
fn numbers_outside() {
    let refused = Refusal {
        number: 20,
        line: 0,
    };
    WRITER.refuses_outside(40, refused, &[0, 1, 171, 172, 4_286, 4_287, 4_394, 6_000]);
}

/// The verdict bytes of a run of the graph's netlist from its start on.
fn verdicts_of(strokes: u64, trace: &[u8]) -> Vec<u8> {
    let mut text = [0; 4_287];
    let length = buffer_graph(strokes, &mut text).unwrap();
    let mut net = [0; 3_400];
    build(&text[..length], &mut net).unwrap();
    let [variables, _, latches, ..] = net.map(usize::from);
    let (mut latches, mut values) = (vec![0; latches], vec![0; variables + 1]);
    let (mut verdicts, mut tally) = (vec![9; trace.len() / 7], Tally::default());
    start(&net, &mut latches, &mut tally).unwrap();
    let verdict = run(
        &net,
        trace,
        &mut latches,
        &mut values,
        &mut verdicts,
        &mut tally,
    );
    let rejected = verdicts.iter().map(|byte| u32::from(*byte)).sum();
    let due_verdict = match rejected {
        0 => Verdict::Accepted,
        _ => Verdict::Rejected,
    };
    assert_eq!(verdict, Ok(due_verdict));
    let cycles = verdicts.len() as u32;
    assert_eq!(tally, Tally { cycles, rejected });
    verdicts
}

/// Strokes; init, reset, enq, deq, empty, full of each cycle; the verdict bytes.
#[test]
fn worked_traces() {
    let traces: [(u64, &str, &[u8]); 15] = [
        (1, "110000 000010", &[0, 0]),
        (1, "110000 001010 000001", &[0, 0, 0]),
        (1, "110000 001010 000010", &[0, 0, 1]),
        (1, "110000 000000 000010", &[0, 1, 1]),
        // Reset low at the latest init; no init.
        (1, "100000 000000 000000", &[0, 0, 0]),
        (1, "000000 000001", &[0, 0]),
        // enq and deq at 0: up.
        (1, "110000 001110 000001", &[0, 0, 0]),
        (1, "110000 001110 000010", &[0, 0, 1]),
        // deq alone at 0: the count stays.
        (2, "110000 000110 000010", &[0, 0, 0]),
        // enq and deq at k: down.
        (2, "110000 001010 001000 001101 000000", &[0, 0, 0, 0, 0]),
        (2, "110000 001010 001000 001101 000001", &[0, 0, 0, 0, 1]),
        // enq and deq between: the count stays.
        (2, "110000 001010 001110 000010", &[0, 0, 1, 1]),
        // A new init, with reset and without.
        (1, "110000 000001 110000 000010", &[0, 1, 0, 0]),
        (1, "110000 000001 100000 000001", &[0, 1, 0, 0]),
        // Reset is not read again.
        (3, "110000 011010 000000", &[0, 0, 0]),
    ];
    for (strokes, cycles, due) in traces {
        let trace = format!("{cycles} ").replace(' ', "\n");
        let verdicts = verdicts_of(strokes, trace.as_bytes());
        assert_eq!(verdicts, due, "{strokes}: {cycles}");
    }
}

/// The count of strokes, kept cycle by cycle.
struct Buffer {
    strokes: u64,
    count: u64,
    /// Whether reset was high at the latest init, and a flag wrong since.
    was_reset: bool,
    was_wrong: bool,
}

impl Buffer {
    fn new(strokes: u64, was_reset: bool) -> Buffer {
        Buffer {
            strokes,
            count: 0,
            was_reset,
            was_wrong: false,
        }
    }

    /// `empty` and `full` as they should be.
    fn flags(&self) -> [bool; 2] {
        [self.count == 0, self.count == self.strokes]
    }

    /// Whether the cycle is rejected; moves the count on.
    fn rejects(&mut self, [init, reset, enq, deq, empty, full]: [bool; 6]) -> bool {
        if init {
            *self = Buffer::new(self.strokes, reset);
            return false;
        }
        self.was_wrong |= [empty, full] != self.flags();
        self.count = match self.flags() {
            [true, _] => u64::from(enq),
            [_, true] => self.strokes - u64::from(deq),
            [false, false] => self.count + u64::from(enq) - u64::from(deq),
        };
        self.was_reset && self.was_wrong
    }
}

/// Init and reset are random too. For each number of strokes, each kind that `random_trace` counts
/// must be met both accepted and rejected.
#[test]
fn random_traces() {
    for strokes in 1..=40 {
        let mut met = [[0; 2]; 3];
        for case in 0..60 {
            let random = &mut Random::of_case(strokes, case);
            let (trace, due) = random_trace(random, strokes, &mut met);
            let shown = trace.escape_ascii();
            assert_eq!(verdicts_of(strokes, &trace), due, "{strokes}: {shown}");
        }
        let unmet = met.iter().flatten().any(|count| *count == 0);
        assert!(!unmet, "{strokes}: {met:?}");
    }
}

/// A trace and its verdict bytes. Counted by their verdict are, of the cycles that are judged,
/// those with the buffer full, those after enq and deq at 0, and those after enq and deq at k.
fn random_trace(random: &mut Random, strokes: u64, met: &mut [[u32; 2]; 3]) -> (Vec<u8>, Vec<u8>) {
    let mut buffer = Buffer::new(strokes, false);
    let (mut trace, mut verdicts) = (Vec::new(), Vec::new());
    let init_rarity = random.pick(&[4, 200, 2_000]);
    let slip_rarity = random.pick(&[2, 60, 2_000]);
    // Of eight cycles, so many with enq, and so many with deq.
    let mut loads = [7, 2];
    let mut left = [false; 2];
    for cycle in 0..random.within(1..=5 * strokes as usize + 20) {
        if random.once_in(2 * strokes as usize + 10) {
            loads = random.pick(&[[7, 2], [2, 7], [4, 4], [7, 7]]);
        }
        let [enq, deq] = loads.map(|load| random.below(8) < load);
        let init = random.once_in(init_rarity) || cycle == 0 && !random.once_in(4);
        let reset = if init {
            !random.once_in(5)
        } else {
            random.coin()
        };
        let mut flags = buffer.flags();
        if random.once_in(slip_rarity) {
            flags[random.below(2)] ^= true;
        }
        let [was_empty, was_full] = buffer.flags();
        let bits = [init, reset, enq, deq, flags[0], flags[1]];
        let rejected = buffer.rejects(bits);
        if buffer.was_reset && !init {
            let kinds = [was_full, left[0], left[1]];
            for (kind, _) in met.iter_mut().zip(kinds).filter(|(_, is_met)| *is_met) {
                kind[usize::from(rejected)] += 1;
            }
        }
        left = [was_empty, was_full].map(|here| here && enq && deq && !init);
        trace.extend(bits.map(|bit| b'0' + u8::from(bit)));
        trace.push(b'\n');
        verdicts.push(u8::from(rejected));
    }
    (trace, verdicts)
}
