//! Document 02, No. 13: eight machines on one bench, through the C interface. A call is `k:c`,
//! which adds cycle c for machine k, or `t`, a turn.

/// What the comparison draws from.
#[allow(dead_code)]
#[path = "../../differential/src/random.rs"]
mod random;

use ludopoplar::{
    bench_add, bench_turn, build, build_checked, raw, start_checked, step_checked, Bench,
    CheckedTally, Place, Refusal, Turn, Words, LONGEST_NETLIST, NO_MACHINE,
};
use random::Random;
use std::collections::VecDeque;

const G: &[u8] = b"S\tp\nS\tq\nV\ta\nV\tb\nE\ta\tb\tt\tp\tq\n";
/// Without edges: one input, no latch, one output.
const NO_EDGE: &[u8] = b"V\ta\n";
const ALL: u64 = u64::MAX;
/// Where the last one served stands among the numbers.
const LAST: usize = 32;
/// No call writes it.
const KEPT: u8 = b'#';
/// What the results of a turn hold before it.
const RESULTS: [u64; 3] = [77, 78, 79];

/// All that the two calls are lent.
#[derive(Clone, Debug, PartialEq)]
struct Lent {
    nets: Vec<u16>,
    latches: Vec<u64>,
    values: Vec<u64>,
    queues: Vec<u8>,
    numbers: Vec<u32>,
}

/// What a call showed; an accepted cycle shows nothing.
#[derive(Clone, Copy, Debug, PartialEq)]
enum Shown {
    Idle,
    Served(u32),
    Refused(u32, u32),
}

use Shown::{Idle, Refused, Served};

fn refusal(number: u32, line: u32) -> Refusal {
    Refusal { number, line }
}

fn served(machines: impl IntoIterator<Item = u32>) -> Vec<Shown> {
    machines.into_iter().map(Served).collect()
}

/// The netlist of G with checked: 3 inputs, 13 variables, 2 latches.
fn net_of_g() -> [u16; 27] {
    let mut net = [0; 27];
    assert_eq!(build_checked(G, &mut net), Ok(8));
    net
}

fn net_without_edge() -> [u16; 6] {
    let mut net = [0; 6];
    assert_eq!(build(NO_EDGE, &mut net), Ok(0));
    net
}

impl Lent {
    /// Started places with empty queues of 16 slots, in parts of just the lengths that are needed.
    fn of(nets: [&[u16]; 8]) -> Lent {
        Lent::with_parts(nets, [0; 3], 16 * 64)
    }

    /// G with checked in place 0, and in the others the graph without edges.
    fn new() -> Lent {
        Lent::with_g_at(0)
    }

    fn with_g_at(place: usize) -> Lent {
        let (g, no_edge) = (net_of_g(), net_without_edge());
        let mut nets = [&no_edge[..]; 8];
        nets[place] = &g;
        Lent::of(nets)
    }

    fn with_last(last: u32) -> Lent {
        let mut lent = Lent::new();
        lent.numbers[LAST] = last;
        lent
    }

    /// With a surplus in each part of the netlists and of the latch words, one of value words, and
    /// parts of so many bytes in the queues.
    fn with_parts(nets: [&[u16]; 8], surplus: [usize; 3], queue: usize) -> Lent {
        let most = |at: usize| nets.map(|net| usize::from(net[at])).into_iter().max();
        let longest = nets.iter().map(|net| net.len()).max().unwrap() + surplus[0];
        let latches = most(2).unwrap() + surplus[1];
        let mut lent = Lent {
            nets: Vec::new(),
            latches: vec![5; 8 * latches],
            values: vec![7; most(0).unwrap() + 1 + surplus[2]],
            queues: vec![KEPT; 8 * queue],
            numbers: vec![0; 33],
        };
        for (place, net) in nets.into_iter().enumerate() {
            lent.nets.extend(net);
            lent.nets.resize((place + 1) * longest, 54_321);
            let mut tally = CheckedTally::default();
            let own = &mut lent.latches[place * latches..][..latches];
            assert_eq!(start_checked(net, own, &mut tally), Ok(()));
        }
        lent.numbers[LAST] = 7;
        lent
    }

    /// A place's part of the netlists.
    fn net(&self, place: usize) -> &[u16] {
        let length = self.nets.len() / 8;
        &self.nets[place * length..][..length]
    }

    fn net_mut(&mut self, place: usize) -> &mut [u16] {
        let length = self.nets.len() / 8;
        &mut self.nets[place * length..][..length]
    }

    /// A place's part of the queues.
    fn queue_mut(&mut self, place: usize) -> &mut [u8] {
        let length = self.queues.len() / 8;
        &mut self.queues[place * length..][..length]
    }

    /// Waiting, cycles, rejected, checked.
    fn place(&self, place: usize) -> [u32; 4] {
        [0, 1, 2, 3].map(|at| self.numbers[4 * place + at])
    }

    fn inputs(&self, place: usize) -> usize {
        usize::from(self.net(place)[1])
    }

    fn waiting(&self, place: usize) -> usize {
        self.numbers[4 * place] as usize
    }

    /// A good cycle of a place.
    fn cycle(&self, place: u32) -> Vec<u8> {
        b"1".repeat(self.inputs(place as usize))
    }

    /// By the wrapper and as C has it. An accepted cycle is in the first bytes of the next slot,
    /// and one more waits; every other cell stays, and every one where the call is refused.
    fn add(&mut self, machine: u32, cycle: &[u8]) -> Result<(), Refusal> {
        let (mut due, mut again) = (self.clone(), self.clone());
        let (queues, numbers) = (&mut self.queues, &mut self.numbers);
        let answer = bench_add(&self.nets, &self.latches, queues, numbers, machine, cycle);
        let (queues, numbers) = (&mut again.queues, &mut again.numbers);
        let code = raw::bench_add(&again.nets, &again.latches, queues, numbers, machine, cycle);
        assert_eq!(Refusal::check(code), answer);
        if answer.is_ok() {
            let place = machine as usize;
            let slot = 64 * due.waiting(place);
            due.queue_mut(place)[slot..][..cycle.len()].copy_from_slice(cycle);
            due.numbers[4 * place] += 1;
        }
        assert!(*self == due && again == due, "{machine}, {answer:?}");
        answer
    }

    /// By the wrapper and as C has it. A machine is served as `step_checked` steps it with its
    /// oldest cycle; those behind that move one slot forward, one fewer waits, and it is the last
    /// one served. Every other cell stays, and every one where the call is refused or idle.
    fn turn(&mut self) -> Result<Turn, Refusal> {
        let (mut due, mut again) = (self.clone(), self.clone());
        let answer = bench_turn(
            &self.nets,
            &mut self.latches,
            &mut self.values,
            &mut self.queues,
            &mut self.numbers,
        );
        let [mut served, mut word, mut checked_word] = RESULTS;
        let code = raw::bench_turn(
            &again.nets,
            &mut again.latches,
            &mut again.values,
            &mut again.queues,
            &mut again.numbers,
            &mut served,
            &mut word,
            &mut checked_word,
        );
        assert_eq!(Refusal::check(code), answer.map(|_| ()));
        let due_results = match answer {
            Ok(Turn::Served { machine, words }) => {
                due.serve(machine as usize, words);
                [machine.into(), words.accept, words.checked]
            }
            Ok(Turn::Idle) => [8, RESULTS[1], RESULTS[2]],
            Err(_) => RESULTS,
        };
        assert_eq!([served, word, checked_word], due_results, "{answer:?}");
        assert!(*self == due && again == due, "{answer:?}");
        answer
    }

    fn serve(&mut self, place: usize, words: Words) {
        let (inputs, waiting) = (self.inputs(place), self.waiting(place));
        let queue = self.queue_mut(place);
        let cycle = queue[..inputs].to_vec();
        queue.copy_within(64..64 * waiting, 0);
        let [_, cycles, rejected, checked] = self.place(place);
        let mut tally = CheckedTally {
            cycles,
            rejected,
            checked,
        };
        let net = self.net(place).to_vec();
        let length = self.latches.len() / 8;
        let latches = &mut self.latches[place * length..][..length];
        let stepped = step_checked(&net, &cycle, latches, &mut self.values, &mut tally);
        assert_eq!(stepped, Ok(words));
        self.numbers[4 * place..][..4].copy_from_slice(&[
            waiting as u32 - 1,
            tally.cycles,
            tally.rejected,
            tally.checked,
        ]);
        self.numbers[LAST] = place as u32;
    }

    fn play(&mut self, calls: &str) -> Vec<Shown> {
        let mut shown = Vec::new();
        for call in calls.split_whitespace() {
            let answer = match call.split_once(':') {
                Some((machine, cycle)) => self.add(machine.parse().unwrap(), cycle.as_bytes()),
                None => self.turn().map(|turn| {
                    shown.push(match turn {
                        Turn::Idle => Idle,
                        Turn::Served { machine, .. } => Served(machine),
                    });
                }),
            };
            let refused = answer.err();
            shown.extend(refused.map(|refusal| Refused(refusal.number, refusal.line)));
        }
        shown
    }
}

/// The worked cases, by their numbers on the request's page.
#[test]
fn worked_cases() {
    let mut lent = Lent::new();
    assert_eq!(lent.play("t"), [Idle], "13.1");
    assert_eq!(lent.numbers, [&[0; LAST][..], &[7]].concat(), "13.1");

    let shown = Lent::new().play("5:1 0:110 t t t");
    assert_eq!(shown, [Served(0), Served(5), Idle], "13.2");
    let shown = Lent::new().play("0:110 t 0:010 3:1 t t");
    assert_eq!(shown, served([0, 3, 0]), "13.3");
    let shown = [5, 6].map(|last| Lent::with_last(last).play("7:1 6:0 t t"));
    assert_eq!(shown, [served([6, 7]), served([7, 6])], "13.4");
    let shown = Lent::new().play("2:1 2:0 2:1 t t t");
    assert_eq!(shown, served([2, 2, 2]), "13.5");

    let mut lent = Lent::new();
    let shown = lent.play("0:110 0:111 0:010 t t t");
    assert_eq!(shown, served([0, 0, 0]), "13.6");
    assert_eq!(lent.place(0), [0, 3, 1, 2], "13.6");

    let twice = "1:1 2:1 3:1 4:1 5:1 6:1 7:1 ".repeat(2);
    let calls = format!("{twice} 0:110 t t t t t t t t");
    let shown = Lent::with_last(0).play(&calls);
    assert_eq!(shown, served([1, 2, 3, 4, 5, 6, 7, 0]), "13.7");

    let mut lent = Lent::new();
    let shown = lent.play(&format!("{} t 1:0", "1:1 ".repeat(17)));
    assert_eq!(shown, [Refused(28, 0), Served(1)], "13.8");
    assert_eq!(lent.place(1), [16, 1, 0, 0], "13.8");

    let mut lent = Lent::new();
    assert_eq!(lent.play("8:1"), [Refused(27, 0)], "13.9");
    lent.nets.fill(0);
    assert_eq!(lent.play("8:1"), [Refused(27, 0)], "13.10");

    let mut lent = Lent::new();
    lent.net_mut(7)[0] += 1;
    assert_eq!(lent.play("0:110 t"), [Refused(16, 0); 2], "13.11");
    let shown = Lent::with_last(8).play("0:110");
    assert_eq!(shown, [Refused(16, 0)], "13.12");
    let mut lent = Lent::new();
    lent.numbers[4 * 4] = 17;
    assert_eq!(lent.play("0:110"), [Refused(16, 0)], "13.12");
    lent.numbers[4 * 4] = 1;
    lent.queue_mut(4)[0] = 0;
    assert_eq!(lent.play("0:110"), [Refused(16, 0)], "13.12");

    let shown = Lent::new().play("0:11 0:112 0:1100");
    assert_eq!(shown, [Refused(15, 1); 3], "13.13");
    let mut lent = Lent::new();
    let shown = lent.play(&format!("{} 0:11", "0:110 ".repeat(16)));
    assert_eq!(shown, [Refused(28, 0)], "13.14");
    let mut lent = Lent::new();
    lent.latches.clear();
    let shown = lent.play("0:11 0:110");
    assert_eq!(shown, [Refused(15, 1), Refused(12, 0)], "13.14");
    assert_eq!(lent.play("1:1"), [], "13.15");

    let mut lent = Lent::new();
    lent.numbers[3] = u32::MAX - 2;
    let shown = lent.play("0:110 0:110 0:110");
    assert_eq!(shown, [Refused(17, 0)], "13.16");
    let mut lent = Lent::new();
    lent.numbers[1..4].fill(u32::MAX);
    assert_eq!(lent.play("1:1"), [], "13.17");

    let mut lent = Lent::new();
    assert_eq!(lent.play("0:110"), []);
    lent.values = vec![7; 13];
    assert_eq!(lent.play("t"), [Refused(12, 0)], "13.18");
    lent.numbers[1..4].fill(u32::MAX);
    assert_eq!(lent.play("t"), [Refused(12, 0)], "13.18");
    lent.values.push(7);
    assert_eq!(lent.play("t"), [Refused(17, 0)], "13.18");

    let mut lent = Lent::with_last(3);
    (lent.latches, lent.values, lent.queues) = Default::default();
    for place in 0..8 {
        lent.numbers[4 * place + 1..][..3].fill(u32::MAX);
    }
    assert_eq!(lent.play("t"), [Idle], "13.19");
    assert_eq!(lent.numbers[LAST], 3, "13.19");

    let mut lent = Lent::new();
    assert_eq!(lent.play("0:110 0:011"), [], "13.20");
    let words = Words {
        accept: 0,
        checked: ALL,
    };
    let turn = Turn::Served { machine: 0, words };
    assert_eq!(lent.turn(), Ok(turn), "13.20");
    assert_eq!(lent.queues[..4], *b"011#", "13.20");
    assert_eq!(lent.queues[64..68], *b"011#", "13.20");
    assert_eq!(lent.place(0)[0], 1, "13.20");
}

/// Every rest behind the eight parts, and every surplus, in and behind them, is kept by calls that
/// are accepted; `add` and `turn` compare each cell.
#[test]
fn surplus_is_kept() {
    let (g, no_edge) = (net_of_g(), net_without_edge());
    let mut nets = [&no_edge[..]; 8];
    (nets[1], nets[7]) = (&g, &g);
    for rest in 0..8 {
        for surplus in [0, 1, 5] {
            let queue = 2 * 64 + 9 * surplus;
            let mut lent = Lent::with_parts(nets, [surplus; 3], queue);
            // Bytes behind a cycle move with it, up to the end of its slot.
            for (at, byte) in (0..).zip(&mut lent.queues) {
                *byte = at as u8;
            }
            lent.nets.resize(lent.nets.len() + rest, 9);
            lent.latches.resize(lent.latches.len() + rest, 9);
            lent.queues.resize(lent.queues.len() + rest, 9);
            lent.numbers.resize(33 + surplus, 9);
            let shown = lent.play("7:110 1:110 7:011 1:111 7:110 t t t 6:0 7:100 t t t");
            let mut due = served([1, 7, 1, 6, 7, 7]);
            due.insert(0, Refused(12, 0));
            assert_eq!(shown, due, "{rest}, {surplus}");
            assert_eq!(lent.place(7), [0, 3, 1, 1], "{rest}, {surplus}");
        }
    }
}

/// 27 comes before all others.
#[test]
fn machines_above_seven() {
    let mut none = Lent::new();
    none.nets.clear();
    none.numbers.clear();
    for machine in [8, 9, 15, 16, 255, 256, 263, 1 << 16, 1 << 31, u32::MAX] {
        for cycle in [&b"1"[..], b"110", b"", b"x"] {
            let refused = Err(refusal(27, 0));
            assert_eq!(Lent::new().add(machine, cycle), refused);
            assert_eq!(none.add(machine, cycle), refused);
        }
    }
}

/// What makes a bench none: its name, and how a place or all of the bench gets it.
type Fault = (&'static str, fn(&mut Lent, usize));

const FAULTS: [Fault; 12] = [
    ("M one too large", |lent, place| lent.net_mut(place)[0] += 1),
    ("O of 3", |lent, place| lent.net_mut(place)[3] = 3),
    ("no input", |lent, place| lent.net_mut(place)[1] = 0),
    ("a queue of 17", |lent, place| lent.numbers[4 * place] = 17),
    ("the longest queue", |lent, place| {
        lent.numbers[4 * place] = u32::MAX;
    }),
    ("a waiting cycle that is none", |lent, place| {
        lent.numbers[4 * place] = 1;
    }),
    ("a wrong last byte of the oldest cycle", |lent, place| {
        let last = lent.inputs(place) - 1;
        lent.numbers[4 * place] = 16;
        lent.queue_mut(place).fill(b'0');
        lent.queue_mut(place)[last] = b'2';
    }),
    ("a wrong byte of the newest cycle", |lent, place| {
        lent.numbers[4 * place] = 16;
        lent.queue_mut(place).fill(b'1');
        lent.queue_mut(place)[64 * 15] = b'/';
    }),
    ("a waiting cycle without a whole slot", |lent, place| {
        lent.queues = b"0".repeat(8 * (3 * 64 - 1) + 7);
        lent.numbers[4 * place] = 3;
    }),
    ("a last one served of 8", |lent, _| lent.numbers[LAST] = 8),
    ("the highest last one served", |lent, _| {
        lent.numbers[LAST] = u32::MAX;
    }),
    ("32 numbers", |lent, _| lent.numbers.truncate(32)),
];

/// 16 in any of the eight places, for each machine and for a turn, whether something waits or not,
/// and before 28, 15, 12 and 17.
#[test]
fn no_bench_in_any_place() {
    for place in 0..8 {
        for (name, fault) in FAULTS {
            for waits in [false, true] {
                let mut lent = Lent::with_g_at(place);
                if waits {
                    let other = (place as u32 + 3) % 8;
                    assert_eq!(lent.add(other, b"1"), Ok(()));
                }
                fault(&mut lent, place);
                let shown = format!("{name} in place {place}");
                let refused = refusal(16, 0);
                assert_eq!(lent.turn(), Err(refused), "{shown}");
                for machine in 0..8 {
                    let cycle = lent.cycle(machine);
                    assert_eq!(lent.add(machine, &cycle), Err(refused), "{shown}");
                }
                lent.latches.clear();
                lent.values.clear();
                for at in 0..32.min(lent.numbers.len()) {
                    if at % 4 > 0 {
                        lent.numbers[at] = u32::MAX;
                    }
                }
                assert_eq!(lent.turn(), Err(refused), "{shown}");
                for machine in 0..8 {
                    assert_eq!(lent.add(machine, b"x"), Err(refused), "{shown}");
                }
            }
        }
        // Without the fault it is a bench.
        let mut lent = Lent::with_g_at(place);
        assert_eq!(lent.turn(), Ok(Turn::Idle));
        assert_eq!(lent.add(place as u32, b"110"), Ok(()));
    }
}

/// Nothing is lent.
#[test]
fn empty_slices() {
    let mut lent = Lent::new();
    lent.nets.clear();
    (lent.latches, lent.values, lent.queues) = Default::default();
    lent.numbers.clear();
    let empty = b"";
    assert_eq!(lent.add(8, empty), Err(refusal(27, 0)));
    assert_eq!(lent.add(0, empty), Err(refusal(16, 0)));
    assert_eq!(lent.turn(), Err(refusal(16, 0)));
}

/// A netlist cut short by its part is none, and so is a bench without netlists.
#[test]
fn short_netlists() {
    let mut lent = Lent::with_g_at(7);
    let whole = lent.nets.clone();
    for length in [0, 1, 7, 8, 8 * 27 - 1] {
        lent.nets = whole[..length].to_vec();
        let shown = lent.play("0:1 7:110 t");
        assert_eq!(shown, [Refused(16, 0); 3], "{length}");
    }
}

/// The refusals of a new cycle behind 16, for a machine in any place: each alone, and each before
/// those that follow it.
#[test]
fn refused_cycles_in_any_place() {
    for machine in 0..8 {
        let place = machine as usize;
        let refused = |lent: &mut Lent, cycle: &[u8], number, line| {
            let answer = lent.add(machine, cycle);
            assert_eq!(answer, Err(refusal(number, line)), "machine {machine}");
        };
        let mut lent = Lent::with_g_at(place);
        for cycle in [&b""[..], b"11", b"1100", b"112", b"11/", b":10", b"1\x000"] {
            refused(&mut lent, cycle, 15, 1);
        }

        // 28, also with a wrong cycle, no latch words and a full tally.
        for _ in 0..16 {
            assert_eq!(lent.add(machine, b"110"), Ok(()));
        }
        refused(&mut lent, b"110", 28, 0);
        refused(&mut lent, b"x", 28, 0);
        lent.latches.clear();
        lent.numbers[4 * place + 1..][..3].fill(u32::MAX);
        refused(&mut lent, b"110", 28, 0);

        // 12 by latch words: one too few, and none. Machines without latches need none.
        for length in [15, 8, 0] {
            let mut lent = Lent::with_g_at(place);
            lent.latches.truncate(length);
            refused(&mut lent, b"110", 12, 0);
            refused(&mut lent, b"111x", 15, 1);
            lent.numbers[4 * place + 1..][..3].fill(u32::MAX);
            refused(&mut lent, b"110", 12, 0);
            assert_eq!(lent.add((machine + 1) % 8, b"1"), Ok(()));
        }

        // 12 by slots: each is whole, or counts for nothing.
        for (bytes, slots) in [(0, 0), (63, 0), (64, 1), (127, 1), (15 * 64 + 63, 15)] {
            let mut lent = Lent::with_g_at(place);
            lent.queues = vec![KEPT; 8 * bytes + 7];
            for _ in 0..slots {
                assert_eq!(lent.add(machine, b"110"), Ok(()));
            }
            refused(&mut lent, b"110", 12, 0);
            refused(&mut lent, b"11", 15, 1);
            lent.numbers[4 * place + 1..][..3].fill(u32::MAX);
            refused(&mut lent, b"110", 12, 0);
        }

        // 17 by each of the three numbers: the last room is for the 3rd cycle, or there is none.
        for number in 1..=3 {
            let mut lent = Lent::with_g_at(place);
            lent.numbers[4 * place + number] = u32::MAX - 3;
            for _ in 0..3 {
                assert_eq!(lent.add(machine, b"110"), Ok(()));
            }
            refused(&mut lent, b"110", 17, 0);
            refused(&mut lent, b"11", 15, 1);
            // Those waiting are in it: each number alone has room for one more.
            lent.numbers[4 * place + number] = u32::MAX - 1;
            refused(&mut lent, b"110", 17, 0);
            let mut lent = Lent::with_g_at(place);
            lent.numbers[4 * place + number] = u32::MAX;
            refused(&mut lent, b"110", 17, 0);
            assert_eq!(lent.add((machine + 1) % 8, b"1"), Ok(()));
        }
    }
}

/// The refusals of a turn behind 16, for the machine that it would step, in any place. The same
/// machine is next again; what another would be refused for does not matter.
#[test]
fn refused_turns_in_any_place() {
    for machine in 0..8 {
        let place = machine as usize;
        let other = (machine + 1) % 8;
        let refused = |lent: &mut Lent, number| {
            let answer = lent.turn();
            assert_eq!(answer, Err(refusal(number, 0)), "machine {machine}");
        };
        let waiting = || {
            let mut lent = Lent::with_g_at(place);
            lent.numbers[LAST] = (machine + 7) % 8;
            assert_eq!(lent.add(machine, b"110"), Ok(()));
            assert_eq!(lent.add(other, b"1"), Ok(()));
            lent
        };
        for short in [0, 1, 13] {
            let mut lent = waiting();
            lent.values.truncate(short);
            refused(&mut lent, 12);
            refused(&mut lent, 12);
            lent.values.resize(14, 7);
            assert_eq!(lent.play("t t t"), [Served(machine), Served(other), Idle]);
        }
        for length in [15, 8, 0] {
            let mut lent = waiting();
            lent.latches.truncate(length);
            refused(&mut lent, 12);
            // The other has no latch.
            lent.numbers[LAST] = machine;
            assert_eq!(lent.play("t"), [Served(other)]);
            refused(&mut lent, 12);
        }
        for number in 1..=3 {
            let mut lent = waiting();
            lent.numbers[4 * place + number] = u32::MAX;
            refused(&mut lent, 17);
            lent.values.truncate(13);
            refused(&mut lent, 12);
            lent.numbers[LAST] = machine;
            assert_eq!(lent.play("t"), [Served(other)]);
            // Those waiting are not added here.
            let mut lent = waiting();
            assert_eq!(lent.add(machine, b"110"), Ok(()));
            lent.numbers[4 * place + number] = u32::MAX - 1;
            assert_eq!(lent.play("t t"), served([machine, other]));
            lent.numbers[4 * place + number] = u32::MAX;
            refused(&mut lent, 17);
        }
    }
}

/// Nothing waits: whatever the last one served, only 16 is asked for, and nothing changes.
#[test]
fn idle_turns() {
    for last in 0..8 {
        let mut lent = Lent::with_last(last);
        assert_eq!(lent.play("t t"), [Idle; 2]);
        (lent.latches, lent.values, lent.queues) = Default::default();
        for place in 0..8 {
            lent.numbers[4 * place + 1..][..3].fill(u32::MAX);
        }
        assert_eq!(lent.play("t t"), [Idle; 2]);
        assert_eq!(lent.numbers[LAST], last);
    }
}

/// After each machine all others come before it again: eight turns can be needed.
#[test]
fn longest_wait() {
    for machine in 0..8 {
        let mut lent = Lent::with_last(machine);
        let round = (1..=8).map(|after| (machine + after) % 8);
        for other in round.clone() {
            let cycle = lent.cycle(other);
            for _ in 0..3 {
                assert_eq!(lent.add(other, &cycle), Ok(()));
            }
        }
        for _ in 0..3 {
            assert_eq!(lent.play("t t t t t t t t"), served(round.clone()));
        }
        assert_eq!(lent.play("t"), [Idle]);
    }
}

/// From each last one served, with one cycle for each machine of every choice of them: the round.
#[test]
fn every_choice_of_waiting_machines() {
    for last in 0..8 {
        for choice in 0..256u32 {
            let mut lent = Lent::with_last(last);
            let round = (1..=8).map(|after| (last + after) % 8);
            let chosen: Vec<u32> = round.filter(|at| choice >> at & 1 == 1).collect();
            for &machine in chosen.iter().rev() {
                let cycle = lent.cycle(machine);
                assert_eq!(lent.add(machine, &cycle), Ok(()));
            }
            for machine in chosen {
                assert_eq!(lent.play("t"), [Served(machine)], "{last}, {choice:b}");
            }
            assert_eq!(lent.play("t"), [Idle]);
        }
    }
}

/// The longest netlist, and one whose cycles fill their slots.
#[test]
fn largest_places() {
    let mut longest = vec![4_095, 1, 0, 2, 4_094, 8_190, 8_191];
    longest.extend((2..=4_095).flat_map(|own: u16| [2 * own - 1, 2]));
    assert_eq!(longest.len(), LONGEST_NETLIST);
    let inputs = [64, 64, 0, 1, 0, 128];
    let mut nets = [&inputs[..]; 8];
    nets[6] = &longest;
    let mut lent = Lent::of(nets);
    let cycle = [&b"0".repeat(63)[..], b"1"].concat();
    for machine in [0, 7] {
        for _ in 0..16 {
            assert_eq!(lent.add(machine, &cycle), Ok(()));
        }
        let full = Err(refusal(28, 0));
        assert_eq!(lent.add(machine, &cycle), full);
    }
    assert_eq!(lent.add(6, b"1"), Ok(()));
    assert_eq!(lent.play("t t t t"), served([0, 6, 7, 0]));
    assert_eq!(lent.place(0), [14, 2, 0, 0]);
    assert_eq!(lent.values.len(), 4_096);
}

/// A machine's cycles since its start, and how many accepted turns it waits.
#[derive(Default)]
struct Own {
    waiting: VecDeque<Vec<u8>>,
    served: Vec<Vec<u8>>,
    turns: usize,
}

/// Random arrivals, more of them than turns or fewer: no wait over eight turns, of which some are
/// of just eight for each machine; each queue in the order of arrival; and each machine's tally and
/// latch words those of its own served cycles by `step_checked`.
#[test]
fn random_sessions() {
    let (g, no_edge) = (net_of_g(), net_without_edge());
    let nets: [&[u16]; 8] = [&g, &no_edge, &g, &g, &no_edge, &g, NO_MACHINE, &g];
    let mut waits = [[0; 9]; 8];
    for case in 0..40 {
        let random = &mut Random::of_case(13, case);
        let mut lent = Lent::of(nets);
        let started = lent.clone();
        let mut own: [Own; 8] = Default::default();
        let load = random.pick(&[2, 4, 7]);
        for _ in 0..400 {
            if random.below(8) < load {
                let machine = random.below(8);
                let cycle: Vec<u8> = (0..lent.inputs(machine))
                    .map(|_| random.pick(b"01"))
                    .collect();
                let full = own[machine].waiting.len() == 16;
                let answer = lent.add(machine as u32, &cycle);
                match full {
                    true => assert_eq!(answer, Err(refusal(28, 0))),
                    false => {
                        assert_eq!(answer, Ok(()));
                        own[machine].waiting.push_back(cycle);
                    }
                }
                continue;
            }
            match lent.turn().unwrap() {
                Turn::Idle => assert!(own.iter().all(|own| own.waiting.is_empty())),
                Turn::Served { machine, .. } => {
                    for (place, own) in own.iter_mut().enumerate() {
                        own.turns += usize::from(!own.waiting.is_empty());
                        assert!(own.turns <= 8, "machine {place}");
                    }
                    let machine = machine as usize;
                    let own = &mut own[machine];
                    own.served.push(own.waiting.pop_front().unwrap());
                    waits[machine][std::mem::take(&mut own.turns)] += 1;
                }
            }
        }
        for (place, own) in own.iter().enumerate() {
            let mut alone = started.clone();
            for cycle in &own.served {
                alone.add(place as u32, cycle).unwrap();
                alone.turn().unwrap();
            }
            let parts = |lent: &Lent| {
                let length = lent.latches.len() / 8;
                lent.latches[place * length..][..length].to_vec()
            };
            assert_eq!(parts(&lent), parts(&alone));
            assert_eq!(lent.place(place)[1..], alone.place(place)[1..]);
            assert_eq!(lent.waiting(place), own.waiting.len());
        }
    }
    let unmet = waits.iter().any(|waits| waits[1..].contains(&0));
    assert!(!unmet, "{waits:?}");
}

/// The owned bench does what the calls on slices do; a refused call leaves it as it was.
#[test]
fn owned_bench() {
    let (g, no_edge) = (net_of_g(), net_without_edge());
    let nets: [&[u16]; 8] = [&g, &no_edge, &g, NO_MACHINE, &g, &no_edge, NO_MACHINE, &g];
    let mut bench = Bench::new(nets).unwrap();
    let mut lent = Lent::of(nets);
    let random = &mut Random::of_case(13, 1_000);
    let mut met = [0; 4];
    for call in 0..4_000 {
        let before = bench.clone();
        // Queues fill up, and are emptied.
        let load = if call / 500 % 2 == 0 { 8 } else { 2 };
        let refused = match random.below(9) < load {
            true => {
                let machine = random.below(9) as u32;
                let bytes = random.pick(&[&b"1"[..], b"0", b"110", b"111", b"010", b"11x", b""]);
                let answer = bench.add(machine, bytes);
                assert_eq!(answer, lent.add(machine, bytes));
                answer.err()
            }
            false => {
                let answer = bench.turn();
                assert_eq!(answer, lent.turn());
                met[3] += u32::from(answer == Ok(Turn::Idle));
                answer.err()
            }
        };
        if let Some(refusal) = refused {
            assert_eq!(bench, before);
            let numbers = [27, 28, 15];
            let kind = numbers.iter().position(|number| *number == refusal.number);
            met[kind.unwrap()] += 1;
        }
        for place in 0..8 {
            let [waiting, cycles, rejected, checked] = lent.place(place);
            let tally = CheckedTally {
                cycles,
                rejected,
                checked,
            };
            assert_eq!(bench.place(place as u32), Some(Place { waiting, tally }));
        }
        assert_eq!(bench.last(), lent.numbers[LAST]);
    }
    assert!(!met.contains(&0), "{met:?}");
    for machine in [8, 9, u32::MAX] {
        assert_eq!(bench.place(machine), None);
    }
}

/// Refused as the start of any of the eight is; a surplus of any length behind a netlist is not
/// read.
#[test]
fn owned_bench_of_any_numbers() {
    let g = net_of_g();
    let mut longer = vec![u16::MAX; 3 * LONGEST_NETLIST];
    longer[..27].copy_from_slice(&g);
    for place in 0..8 {
        let mut nets = [NO_MACHINE; 8];
        nets[place] = &longer;
        let mut bench = Bench::new(nets).unwrap();
        assert_eq!(bench.last(), 7);
        assert_eq!(bench.add(place as u32, b"110"), Ok(()));
        let words = Words {
            accept: 0,
            checked: ALL,
        };
        let machine = place as u32;
        assert_eq!(bench.turn(), Ok(Turn::Served { machine, words }));
        assert_eq!(bench.turn(), Ok(Turn::Idle));
        for net in [&[][..], &[1, 1], &g[..26], &[0; 27], &[u16::MAX; 30]] {
            nets[place] = net;
            let refused = Err(refusal(16, 0));
            assert_eq!(Bench::new(nets), refused);
            let mut tally = CheckedTally::default();
            let started = start_checked(net, &mut [0; 4_094], &mut tally);
            assert_eq!(started.map(|()| bench.clone()), refused);
        }
    }
}
