//! No. 13 of document 02, "eight machines on one bench": worked cases, numbered as they were
//! decided, then what they leave to be shown: each refusal in each of the eight places, and the
//! bytes that stay.

use reference::{
    bench_add, bench_turn, build, start, step, Outputs, Refusal, Tally, Turn, Verdict, Words,
};

/// Document 01's graph G, and a graph without edges; written with blanks for tabs and commas for
/// line ends.
const G: &str = "S p,S q,V a,V b,E a b t p q";
const NO_EDGE: &str = "V a";
const ALL: u64 = u64::MAX;
/// Where the last one served stands.
const LAST: usize = 32;
/// Stands where no call has written.
const KEPT: u8 = b'#';

/// All that the two calls are lent.
#[derive(Clone, Debug, PartialEq)]
struct Bench {
    nets: Vec<u16>,
    latches: Vec<u64>,
    values: Vec<u64>,
    queues: Vec<u8>,
    numbers: Vec<u32>,
}

/// What a call showed; an accepted cycle shows nothing.
#[derive(Clone, Copy, Debug, PartialEq)]
enum Shown {
    Idle,
    Served(usize),
    Refused(u8, u32),
}

use Shown::{Idle, Refused, Served};

fn netlist(graph: &str, outputs: Outputs) -> Vec<u16> {
    let text = format!("{}\n", graph.replace(' ', "\t").replace(',', "\n"));
    let mut net = vec![0; 64];
    build(text.as_bytes(), outputs, &mut net).unwrap();
    net
}

impl Bench {
    /// Started places with empty queues: G with checked, and seven times the graph without edges.
    /// In each part and behind the eight there is a surplus.
    fn new() -> Bench {
        let mut bench = Bench {
            nets: Vec::new(),
            latches: vec![5; 8 * 3 + 7],
            values: vec![7; 16],
            queues: vec![KEPT; 8 * (16 * 64 + 9) + 5],
            numbers: [&[0; LAST][..], &[7, 77, 78]].concat(),
        };
        for place in 0..8 {
            let net = match place {
                0 => netlist(G, Outputs::AcceptAndChecked),
                _ => netlist(NO_EDGE, Outputs::Accept),
            };
            let mut tally = Tally::default();
            start(&net, &mut bench.latches[3 * place..][..3], &mut tally).unwrap();
            bench.nets.extend(net);
        }
        bench.nets.extend([9; 6]);
        bench
    }

    fn with_last(last: u32) -> Bench {
        let mut bench = Bench::new();
        bench.numbers[LAST] = last;
        bench
    }

    /// A refused call changes nothing.
    fn add(&mut self, machine: u32, cycle: &[u8]) -> Result<(), (u8, u32)> {
        let before = self.clone();
        let (queues, numbers) = (&mut self.queues, &mut self.numbers);
        let answer = bench_add(&self.nets, &self.latches, queues, numbers, machine, cycle);
        if answer.is_err() {
            assert_eq!(*self, before);
        }
        answer.map_err(numbered)
    }

    /// A turn that is refused or idle changes nothing.
    fn turn(&mut self) -> Result<Turn, (u8, u32)> {
        let before = self.clone();
        let answer = bench_turn(
            &self.nets,
            &mut self.latches,
            &mut self.values,
            &mut self.queues,
            &mut self.numbers,
        );
        if !matches!(answer, Ok(Turn::Served { .. })) {
            assert_eq!(*self, before);
        }
        answer.map_err(numbered)
    }

    /// The calls of a notation: `k:c` adds cycle c for machine k, `t` is a turn.
    fn play(&mut self, calls: &str) -> Vec<Shown> {
        let mut shown = Vec::new();
        for call in calls.split_whitespace() {
            let refused = match call.split_once(':') {
                Some((machine, cycle)) => self.add(machine.parse().unwrap(), cycle.as_bytes()),
                None => self.turn().map(|turn| {
                    shown.push(match turn {
                        Turn::Idle => Idle,
                        Turn::Served { machine, .. } => Served(machine),
                    });
                }),
            };
            shown.extend(refused.err().map(|(number, line)| Refused(number, line)));
        }
        shown
    }

    fn place(&self, place: usize) -> &[u32] {
        &self.numbers[4 * place..][..4]
    }

    /// The first bytes of a slot.
    fn slot(&self, place: usize, slot: usize) -> &[u8] {
        let part = self.queues.len() / 8;
        &self.queues[place * part + 64 * slot..][..64]
    }
}

fn numbered(refusal: Refusal) -> (u8, u32) {
    (refusal.number, refusal.line)
}

fn served(machines: impl IntoIterator<Item = usize>) -> Vec<Shown> {
    machines.into_iter().map(Served).collect()
}

/// Cases 13.1 to 13.5 and 13.7: the round.
#[test]
fn round_order() {
    let mut bench = Bench::new();
    assert_eq!(bench.play("t"), [Idle], "13.1");
    assert_eq!(bench.numbers[..LAST], [0; LAST], "13.1");
    assert_eq!(bench.numbers[LAST..], [7, 77, 78], "13.1");

    let shown = Bench::new().play("5:1 0:110 t t t");
    assert_eq!(shown, [Served(0), Served(5), Idle], "13.2");
    let shown = Bench::new().play("0:110 t 0:010 3:1 t t");
    assert_eq!(shown, served([0, 3, 0]), "13.3");
    let shown = Bench::with_last(5).play("7:1 6:0 t t");
    assert_eq!(shown, served([6, 7]), "13.4");
    let shown = Bench::with_last(6).play("7:1 6:0 t t");
    assert_eq!(shown, served([7, 6]), "13.4");
    let shown = Bench::new().play("2:1 2:0 2:1 t t t");
    assert_eq!(shown, served([2, 2, 2]), "13.5");

    let mut bench = Bench::with_last(0);
    let cycles = "1:1 2:1 3:1 4:1 5:1 6:1 7:1 ";
    assert_eq!(bench.play(&cycles.repeat(2)), [], "13.7");
    let shown = bench.play("0:110 t t t t t t t t");
    assert_eq!(shown, served([1, 2, 3, 4, 5, 6, 7, 0]), "13.7");
}

#[test]
fn order_of_arrival() {
    let mut bench = Bench::new();
    assert_eq!(
        bench.play("0:110 0:111 0:010 t t t"),
        served([0, 0, 0]),
        "13.6"
    );
    assert_eq!(bench.place(0), [0, 3, 1, 2], "13.6");
}

#[test]
fn a_full_queue() {
    let mut bench = Bench::new();
    let mut calls = "1:1 ".repeat(17);
    calls += "t 1:0";
    assert_eq!(bench.play(&calls), [Refused(28, 0), Served(1)], "13.8");
    assert_eq!(bench.place(1), [16, 1, 0, 0], "13.8");
    assert_eq!(bench.slot(1, 14)[..2], [b'1', KEPT], "13.8");
    assert_eq!(bench.slot(1, 15)[..2], [b'0', KEPT], "13.8");
}

/// Cases 13.9 and 13.10; then all that 27 comes before.
#[test]
fn no_such_machine() {
    assert_eq!(Bench::new().play("8:1"), [Refused(27, 0)], "13.9");
    let mut bench = Bench::new();
    bench.nets.fill(0);
    assert_eq!(bench.play("8:1"), [Refused(27, 0)], "13.10");
    assert_eq!(bench.play("7:1"), [Refused(16, 0)]);
    bench.numbers.clear();
    for machine in [8, 9, 255, 256, 257, 1 << 16, 1 << 31, u32::MAX] {
        assert_eq!(bench.add(machine, b"x"), Err((27, 0)), "{machine}");
    }
}

/// Cases 13.11 and 13.12.
#[test]
fn no_bench() {
    let mut bench = Bench::new();
    bench.nets[7 * 64] += 1;
    assert_eq!(bench.play("0:110 t"), [Refused(16, 0); 2], "13.11");

    assert_eq!(Bench::with_last(8).play("0:110"), [Refused(16, 0)], "13.12");
    let mut bench = Bench::new();
    bench.numbers[4 * 4] = 17;
    assert_eq!(bench.play("0:110"), [Refused(16, 0)], "13.12");
    let mut bench = Bench::new();
    bench.numbers[4 * 4] = 1;
    let slot = 4 * (bench.queues.len() / 8);
    bench.queues[slot] = 0;
    assert_eq!(bench.play("0:110"), [Refused(16, 0)], "13.12");
}

/// Cases 13.13 to 13.15: 28, then 15, then 12.
#[test]
fn wrong_cycles() {
    let shown = Bench::new().play("0:11 0:112 0:1100");
    assert_eq!(shown, [Refused(15, 1); 3], "13.13");

    let mut bench = Bench::new();
    assert_eq!(bench.play(&"0:110 ".repeat(16)), [], "13.14");
    assert_eq!(bench.play("0:11"), [Refused(28, 0)], "13.14");
    let mut bench = Bench::new();
    bench.latches.clear();
    let shown = bench.play("0:11 0:110");
    assert_eq!(shown, [Refused(15, 1), Refused(12, 0)], "13.14");
    assert_eq!(bench.play("1:1"), [], "13.15");
}

/// Cases 13.16 and 13.17.
#[test]
fn full_tallies_at_a_new_cycle() {
    for number in 1..=3 {
        let mut bench = Bench::new();
        bench.numbers[number] = u32::MAX - 2;
        let shown = bench.play("0:110 0:110 0:110");
        assert_eq!(shown, [Refused(17, 0)], "13.16");
        assert_eq!(bench.place(0)[0], 2, "13.16");
    }
    let mut bench = Bench::new();
    bench.numbers[1..4].fill(u32::MAX);
    assert_eq!(bench.play("1:1"), [], "13.17");
    assert_eq!(bench.play("0:110"), [Refused(17, 0)]);
    bench.latches.clear();
    assert_eq!(bench.play("0:110"), [Refused(12, 0)], "12 before 17");
}

/// Cases 13.18 and 13.19.
#[test]
fn refused_turns() {
    for number in 1..=3 {
        let mut bench = Bench::new();
        assert_eq!(bench.play("0:110"), []);
        bench.values.truncate(13);
        assert_eq!(bench.play("t"), [Refused(12, 0)], "13.18");
        bench.numbers[number] = u32::MAX;
        assert_eq!(bench.play("t"), [Refused(12, 0)], "13.18");
        bench.values.push(7);
        assert_eq!(bench.play("t"), [Refused(17, 0)], "13.18");
        bench.latches.truncate(8 * 2 - 1);
        assert_eq!(bench.play("t"), [Refused(12, 0)]);
    }
    // The same machine is next again.
    let mut bench = Bench::new();
    let values = std::mem::take(&mut bench.values);
    assert_eq!(bench.play("1:1 0:110 t t"), [Refused(12, 0); 2]);
    bench.values = values;
    assert_eq!(bench.play("t t"), served([0, 1]));

    let mut bench = Bench::with_last(3);
    bench.latches.clear();
    bench.values.clear();
    bench.queues.clear();
    for place in 0..8 {
        bench.numbers[4 * place + 1..][..3].fill(u32::MAX);
    }
    assert_eq!(bench.play("t"), [Idle], "13.19");
    assert_eq!(bench.numbers[LAST], 3, "13.19");
}

/// Case 13.20, with every cell of every buffer; the other bytes of a slot move with its cycle.
#[test]
fn a_served_cycle_frees_its_place() {
    let mut bench = Bench::new();
    bench.queues[64 + 3] = b'x';
    let mut due = bench.clone();
    assert_eq!(bench.play("0:110 0:011"), []);
    due.queues[..3].copy_from_slice(b"110");
    due.queues[64..67].copy_from_slice(b"011");
    due.numbers[0] = 2;
    assert_eq!(bench, due);

    let words = Words {
        accept: 0,
        checked: ALL,
    };
    let turn = Turn::Served { machine: 0, words };
    assert_eq!(bench.turn(), Ok(turn), "13.20");
    assert_eq!(bench.slot(0, 0)[..5], *b"011x#", "13.20");
    assert_eq!(bench.slot(0, 1)[..5], *b"011x#", "13.20");
    assert_eq!(bench.place(0), [1, 1, 1, 1], "13.20");

    let mut tally = Tally::default();
    let (net, latches) = (&due.nets[..64], &mut due.latches[..3]);
    assert_eq!(
        step(net, b"110", latches, &mut due.values, &mut tally),
        Ok(words)
    );
    due.queues[..4].copy_from_slice(b"011x");
    due.numbers[..4].copy_from_slice(&[1, 1, 1, 1]);
    due.numbers[LAST] = 0;
    assert_eq!(bench, due);
}

/// What makes a bench none, by its name.
type Fault<'a> = (&'static str, &'a dyn Fn(&mut Bench));

/// 16 of each kind, in each place, for each machine and for a turn.
#[test]
fn any_of_the_eight_places() {
    for place in 0..8 {
        let faults: [Fault; 6] = [
            ("no netlist", &|bench| bench.nets[64 * place + 3] = 3),
            ("17 waiting", &|bench| bench.numbers[4 * place] = 17),
            ("most waiting", &|bench| bench.numbers[4 * place] = u32::MAX),
            ("no cycle", &|bench| bench.numbers[4 * place] = 1),
            ("no slot", &|bench| {
                bench.queues = b"0".repeat(8 * (2 * 64 + 63) + 7);
                bench.numbers[4 * place] = 3;
            }),
            ("no cycle in the last of 16", &|bench| {
                bench.queues.fill(b'1');
                bench.numbers[4 * place] = 16;
                let part = bench.queues.len() / 8;
                bench.queues[place * part + 64 * 15] = b'2';
            }),
        ];
        for (name, fault) in faults {
            let mut bench = Bench::new();
            fault(&mut bench);
            assert_eq!(bench.turn(), Err((16, 0)), "{name}, {place}");
            for machine in 0..8 {
                assert_eq!(bench.add(machine, b""), Err((16, 0)), "{name}, {place}");
            }
        }
    }
    let mut bench = Bench::new();
    bench.numbers.truncate(33);
    assert_eq!(bench.turn(), Ok(Turn::Idle));
    bench.numbers.truncate(32);
    assert_eq!(bench.play("0:110 t"), [Refused(16, 0); 2]);
}

/// A slot counts only whole.
#[test]
fn slots_of_a_queue() {
    for (bytes, slots) in [(0, 0), (63, 0), (64, 1), (127, 1), (128, 2), (15 * 64, 15)] {
        for place in 0..8 {
            let mut bench = Bench::new();
            bench.queues.resize(8 * bytes + 7, KEPT);
            let cycle: &[u8] = if place == 0 { b"110" } else { b"1" };
            for _ in 0..slots {
                assert_eq!(bench.add(place, cycle), Ok(()));
            }
            assert_eq!(bench.add(place, cycle), Err((12, 0)), "{bytes}, {place}");
            bench.numbers[4 * place as usize + 1] = u32::MAX;
            assert_eq!(bench.add(place, cycle), Err((12, 0)), "{bytes}, {place}");
        }
    }
}

/// Each machine's tally and latch words are those of a run of its own served cycles.
#[test]
fn served_cycles_as_a_run() {
    let mut bench = Bench::new();
    let calls = "0:100 3:1 0:110 t 0:000 5:0 t t 0:111 t 0:010 3:0 t t t t";
    let shown = bench.play(calls);
    assert_eq!(shown, served([0, 3, 5, 0, 3, 0, 0, 0]));
    let net = &bench.nets[..64];
    let (mut latches, mut values, mut tally) = ([5; 3], [7; 16], Tally::default());
    start(net, &mut latches, &mut tally).unwrap();
    let verdict = reference::run(
        net,
        b"100\n110\n000\n111\n010\n",
        &mut latches,
        &mut values,
        &mut [0; 5],
        &mut tally,
    );
    assert_eq!(verdict, Ok(Verdict::Rejected));
    assert_eq!(bench.latches[..3], latches);
    assert_eq!(bench.values, values);
    assert_eq!(
        bench.place(0),
        [0, tally.cycles, tally.rejected, tally.checked]
    );
}
