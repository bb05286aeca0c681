//! No. 10 of document 02, "gates in the order they arrive": the worked cases as they were
//! decided, a file written with commas for line ends; then what the cases leave to be shown: a
//! file of ours reads as itself in whatever order its gates stand; of any other the netlist does
//! what the file's own equations say, and its order is that of the request's sentence; gates
//! that wait on each other are 23 exactly where there is a cycle; and the longest files.

use reference::{build, read, step, write, Outputs, Refusal, Tally};

/// As many as the longest netlist has.
const NUMBERS: usize = 8_195;
const G: &[u8] = b"S\tp\nS\tq\nV\ta\nV\tb\nE\ta\tb\tt\tp\tq\n";

type Answer<'a> = Result<&'a [u16], (u8, u32)>;

fn numbered(refusal: Refusal) -> (u8, u32) {
    (refusal.number, refusal.line)
}

fn numbers(text: &str) -> Result<Vec<u16>, (u8, u32)> {
    let mut net = vec![0; NUMBERS];
    let length = read(text.as_bytes(), &mut net).map_err(numbered)?;
    net.truncate(length);
    Ok(net)
}

fn text(net: &[u16]) -> String {
    let mut bytes = vec![0; 65_536];
    let length = write(net, &mut bytes).unwrap();
    bytes.truncate(length);
    String::from_utf8(bytes).unwrap()
}

fn lines(notation: &str) -> String {
    notation.replace(',', "\n") + "\n"
}

#[test]
fn worked_cases() {
    let cases: [(&str, Answer); 23] = [
        (
            "aag 3 1 0 1 2,2,6,6 2 4,4 2 2",
            Ok(&[3, 1, 0, 1, 2, 6, 2, 2, 4, 2]),
        ),
        (
            "aag 3 1 0 1 2,2,4,4 6 2,6 2 3",
            Ok(&[3, 1, 0, 1, 2, 6, 3, 2, 4, 2]),
        ),
        (
            "aag 3 1 0 1 2,2,5,4 6 7,6 2 2",
            Ok(&[3, 1, 0, 1, 2, 7, 2, 2, 5, 4]),
        ),
        (
            "aag 4 1 1 1 2,2,4 6 4,8,6 8 2,8 4 2",
            Ok(&[4, 1, 1, 1, 2, 8, 4, 6, 4, 2, 6, 2]),
        ),
        (
            "aag 5 1 0 1 4,2,4,4 10 2,6 2 2,8 4 6,10 3 2",
            Ok(&[5, 1, 0, 1, 4, 8, 2, 2, 3, 2, 6, 2, 8, 4]),
        ),
        (
            "aag 3 1 0 2 2,2,4,7,4 6 2,6 2 3",
            Ok(&[3, 1, 0, 2, 2, 6, 5, 3, 2, 4, 2]),
        ),
        ("aag 2 1 0 1 1,2,4,4 2 3", Ok(&[2, 1, 0, 1, 1, 4, 3, 2])),
        (
            "aag 3 1 1 1 1,2,4 6,6,6 2 4",
            Ok(&[3, 1, 1, 1, 1, 6, 0, 6, 4, 2]),
        ),
        ("aag 3 1 0 1 2,2,4,4 6 2,6 4 2", Err((23, 0))),
        ("aag 2 1 0 1 1,2,4,4 4 2", Err((23, 0))),
        ("aag 2 1 0 1 1,2,4,4 5 2", Err((23, 0))),
        ("aag 3 1 0 1 2,2,4,4 2 2,4 2 2", Err((14, 5))),
        ("aag 2 1 0 1 1,2,4,5 2 2", Err((14, 4))),
        ("aag 2 1 0 1 1,2,4,2 2 2", Err((14, 4))),
        ("aag 2 1 0 1 1,2,4,6 2 2", Err((14, 4))),
        ("aag 2 1 0 1 1,2,4,4 6 2", Err((14, 4))),
        ("aag 3 1 0 1 2,2,4,4 4 2,4 2 2", Err((14, 5))),
        ("aag 3 1 0 1 2,2,4,4 4 2,6 2 2,6 2 2", Err((13, 6))),
        ("aag 3 1 0 1 2,2,4,6 2 2", Err((13, 5))),
        // further: an odd literal under 2M, the other operand past the limit, a latch's literal, and
        // a line of wrong shape behind a gate that waits
        ("aag 3 1 0 1 2,2,4,5 2 2,6 2 2", Err((14, 4))),
        ("aag 2 1 0 1 1,2,4,4 2 6", Err((14, 4))),
        ("aag 3 1 1 1 1,2,4 6,6,4 2 2", Err((14, 5))),
        ("aag 3 1 0 1 2,2,4,4 4 2,6 2", Err((13, 5))),
    ];
    for (file, due) in cases {
        let due = due.map(<[u16]>::to_vec);
        assert_eq!(numbers(&lines(file)), due, "{file}");
    }
    for own in [
        "0", "1", "3", "7", "8190", "65535", "65536", "65540", "99999",
    ] {
        let file = lines(&format!("aag 2 1 0 1 1,2,4,{own} 2 2"));
        assert_eq!(numbers(&file), Err((14, 4)), "{own}");
    }
    for operand in ["65535", "65536", "65538", "99999"] {
        for operands in [format!("{operand} 2"), format!("2 {operand}")] {
            let file = lines(&format!("aag 2 1 0 1 1,2,4,4 {operands}"));
            assert_eq!(numbers(&file), Err((14, 4)), "{operands}");
        }
    }
}

/// The packed form is as it was: there a gate cannot come after its operands.
#[test]
fn packed_form_unchanged() {
    let mut net = [9; 8];
    let refusal = read(b"aig 2 1 0 1 1\n4\n\x00\x00", &mut net).unwrap_err();
    assert_eq!((numbered(refusal), net), ((14, 0), [9; 8]));
}

/// G's gate lines in every order, operands either way round.
#[test]
fn every_order_of_g() {
    let mut net = vec![0; 24];
    build(G, Outputs::Accept, &mut net).unwrap();
    let file = text(&net);
    let all: Vec<&str> = file.lines().collect();
    let (head, gates) = all.split_at(7);
    assert_eq!(gates.len(), 7);
    let reversed: Vec<&str> = gates.iter().rev().copied().collect();
    assert_eq!(numbers(&join(head, &reversed)), Ok(net.clone()));
    let mut orders = vec![Vec::new()];
    for _ in gates {
        orders = orders
            .iter()
            .flat_map(|order: &Vec<usize>| {
                let left = (0..7).filter(|gate| !order.contains(gate));
                left.map(|gate| [&order[..], &[gate]].concat())
            })
            .collect();
    }
    assert_eq!(orders.len(), 5_040);
    for (swapped, order) in orders.iter().enumerate() {
        let turned: Vec<String> = order
            .iter()
            .map(|gate| match swapped >> gate & 1 {
                1 => turned(gates[*gate]),
                _ => gates[*gate].to_string(),
            })
            .collect();
        let turned: Vec<&str> = turned.iter().map(String::as_str).collect();
        assert_eq!(numbers(&join(head, &turned)), Ok(net.clone()), "{order:?}");
    }
}

fn join(head: &[&str], gates: &[&str]) -> String {
    [head, gates].concat().join("\n") + "\n"
}

/// A gate's line with its operands the other way round.
fn turned(line: &str) -> String {
    let fields: Vec<&str> = line.split(' ').collect();
    [fields[0], fields[2], fields[1]].join(" ")
}

#[test]
fn sizes_and_buffers() {
    let taken = lines("aag 3 1 0 1 2,2,4,4 6 2,6 2 3");
    let due = [3, 1, 0, 1, 2, 6, 3, 2, 4, 2];
    let mut long = [9; 14];
    assert_eq!(read(taken.as_bytes(), &mut long), Ok(10));
    assert_eq!((&long[..10], &long[10..]), (&due[..], &[9; 4][..]));
    assert_eq!(read(taken.as_bytes(), &mut [0; 10]), Ok(10));
    // 23 before 12, and after 13 and 14; 1 first
    let waiting = lines("aag 3 1 0 1 2,2,4,4 6 2,6 4 2");
    for (file, number, line) in [
        (taken.clone(), 12, 0),
        (waiting.clone(), 23, 0),
        (waiting.clone() + "\n", 13, 6),
        (waiting.replace("6 4 2", "6 8 2"), 14, 5),
        (waiting + &"\n".repeat(65_536), 1, 0),
    ] {
        for length in [0, 9] {
            let mut short = vec![9; length];
            let refusal = read(file.as_bytes(), &mut short).unwrap_err();
            assert_eq!(
                (numbered(refusal), short),
                ((number, line), vec![9; length])
            );
        }
    }
}

/// Random numbers (xorshift64*).
struct Random(u64);

impl Random {
    fn word(&mut self) -> u64 {
        self.0 ^= self.0 >> 12;
        self.0 ^= self.0 << 25;
        self.0 ^= self.0 >> 27;
        self.0.wrapping_mul(0x2545_F491_4F6C_DD1D)
    }

    fn below(&mut self, bound: usize) -> usize {
        (self.word() >> 16) as usize % bound
    }

    fn shuffle<T>(&mut self, items: &mut [T]) {
        for place in (1..items.len()).rev() {
            items.swap(place, self.below(place + 1));
        }
    }
}

/// A file by its numbers: of the latches next and reset; the gates' operands by their own
/// variables, in whatever order their lines stand.
struct Loose {
    inputs: usize,
    latches: Vec<[usize; 2]>,
    outputs: Vec<usize>,
    gates: Vec<[usize; 2]>,
}

impl Loose {
    fn first_gate(&self) -> usize {
        1 + self.inputs + self.latches.len()
    }

    fn variables(&self) -> usize {
        self.first_gate() - 1 + self.gates.len()
    }

    /// Random; with `order`, each gate's operands come before it in an order of the gates that
    /// is random too, and without it they may be any.
    fn random(random: &mut Random, gates: usize, order: bool) -> Loose {
        let (inputs, latches) = (1 + random.below(4), random.below(4));
        let first = 1 + inputs + latches;
        let variables = first - 1 + gates;
        let mut places: Vec<usize> = (0..gates).collect();
        random.shuffle(&mut places);
        let mut operands = vec![[0, 0]; gates];
        for place in 0..gates {
            let mut operand = || match (order, random.below(4)) {
                (_, 0) => random.below(2 * first),
                (true, _) if place == 0 => random.below(2 * first),
                // often one of the last few
                (true, 1) => {
                    2 * (first + places[place - 1 - random.below(place.min(3))]) + random.below(2)
                }
                (true, _) => 2 * (first + places[random.below(place)]) + random.below(2),
                (false, _) => random.below(2 * variables + 2),
            };
            operands[places[place]] = [operand(), operand()];
        }
        let any = |random: &mut Random| random.below(2 * variables + 2);
        Loose {
            inputs,
            latches: (0..latches)
                .map(|latch| {
                    let own = 2 * (1 + inputs + latch);
                    [any(random), [0, 1, own][random.below(3)]]
                })
                .collect(),
            outputs: (0..1 + random.below(2)).map(|_| any(random)).collect(),
            gates: operands,
        }
    }

    /// The text, its gate lines in the order that is given.
    fn text(&self, order: &[usize]) -> String {
        let (variables, first) = (self.variables(), self.first_gate());
        let (latches, outputs) = (self.latches.len(), self.outputs.len());
        let gates = self.gates.len();
        let mut text = format!(
            "aag {variables} {} {latches} {outputs} {gates}\n",
            self.inputs
        );
        for input in 1..=self.inputs {
            text += &format!("{}\n", 2 * input);
        }
        for (latch, [next, reset]) in self.latches.iter().enumerate() {
            text += &format!("{} {next} {reset}\n", 2 * (1 + self.inputs + latch));
        }
        for output in &self.outputs {
            text += &format!("{output}\n");
        }
        for gate in order {
            let [one, other] = self.gates[*gate];
            text += &format!("{} {one} {other}\n", 2 * (first + gate));
        }
        text
    }

    /// The value word of each variable by the file's own equations, by passes up and
    /// down the gates until none gives a new value; `None` if a gate never has one.
    fn values(&self, inputs: &[u64], latches: &[u64]) -> Option<Vec<u64>> {
        let mut values: Vec<Option<u64>> = [&[0], inputs, latches]
            .concat()
            .into_iter()
            .map(Some)
            .collect();
        values.resize(self.variables() + 1, None);
        let mut moved = true;
        while moved {
            moved = false;
            let up = 0..self.gates.len();
            for gate in up.clone().chain(up.rev()) {
                let variable = self.first_gate() + gate;
                let [one, other] = self.gates[gate].map(|operand| literal(&values, operand));
                if let (None, Some(one), Some(other)) = (values[variable], one, other) {
                    values[variable] = Some(one & other);
                    moved = true;
                }
            }
        }
        values.into_iter().collect()
    }

    /// The numbers that the request's sentence gives, by a look at all gates for each place;
    /// `None` if at some place no gate has its operands placed.
    fn placed(&self) -> Option<Vec<usize>> {
        let first = self.first_gate();
        let mut new: Vec<Option<usize>> = (0..first).map(Some).collect();
        new.resize(self.variables() + 1, None);
        let mut gates = Vec::new();
        let mut order = Vec::new();
        for place in first..=self.variables() {
            let is_ready = |variable: &usize| {
                let operands = self.gates[variable - first];
                new[*variable].is_none()
                    && operands.iter().all(|operand| new[operand / 2].is_some())
            };
            let variable = (first..=self.variables()).find(is_ready)?;
            new[variable] = Some(place);
            order.push(variable);
        }
        let renumbered = |literal: usize| 2 * new[literal / 2].unwrap() + literal % 2;
        for variable in order {
            let [one, other] = self.gates[variable - first].map(renumbered);
            gates.extend([one.max(other), one.min(other)]);
        }
        let latches = self.latches.len();
        let mut numbers = vec![self.variables(), self.inputs, latches];
        numbers.extend([self.outputs.len(), self.gates.len()]);
        for [next, reset] in &self.latches {
            numbers.extend([renumbered(*next), *reset]);
        }
        numbers.extend(self.outputs.iter().map(|output| renumbered(*output)));
        Some([numbers, gates].concat())
    }

    /// Whether from some gate operands lead back to it.
    fn has_cycle(&self) -> bool {
        let first = self.first_gate();
        (0..self.gates.len()).any(|from| {
            let mut seen = vec![false; self.gates.len()];
            let mut left = vec![from];
            while let Some(gate) = left.pop() {
                for operand in self.gates[gate] {
                    let Some(other) = (operand / 2).checked_sub(first) else {
                        continue;
                    };
                    if other == from {
                        return true;
                    }
                    if !seen[other] {
                        seen[other] = true;
                        left.push(other);
                    }
                }
            }
            false
        })
    }
}

fn literal(values: &[Option<u64>], literal: usize) -> Option<u64> {
    let value = values[literal / 2]?;
    Some(if literal % 2 == 1 { !value } else { value })
}

fn as_u16(numbers: &[usize]) -> Vec<u16> {
    numbers.iter().map(|number| *number as u16).collect()
}

/// A netlist's outputs and its next latch words are those of the file's equations, on random
/// inputs and latch words, each with 64 lanes.
fn check_meaning(random: &mut Random, file: &Loose, net: &[u16]) {
    for _ in 0..4 {
        let cycle: Vec<u8> = (0..file.inputs)
            .map(|_| b'0' + random.below(2) as u8)
            .collect();
        let inputs: Vec<u64> = cycle
            .iter()
            .map(|byte| (u64::from(*byte) & 1).wrapping_neg())
            .collect();
        let mut latches: Vec<u64> = file.latches.iter().map(|_| random.word()).collect();
        let values = file.values(&inputs, &latches).expect("no gate waits");
        let values: Vec<Option<u64>> = values.into_iter().map(Some).collect();
        let of = |number: usize| literal(&values, number).unwrap();
        let mut words = vec![0; file.variables() + 1];
        let mut tally = Tally::default();
        let stepped = step(net, &cycle, &mut latches, &mut words, &mut tally).unwrap();
        let found = [stepped.accept, stepped.checked];
        for (found, output) in found.iter().zip(&file.outputs) {
            assert_eq!(*found, of(*output));
        }
        let next: Vec<u64> = file.latches.iter().map(|latch| of(latch[0])).collect();
        assert_eq!(latches, next);
    }
}

/// Files whose gates stand in no order: of some the gates have one, of others perhaps none.
#[test]
fn random_files() {
    let random = &mut Random(10);
    let (mut taken, mut renumbered, mut waiting) = (0, 0, 0);
    for case in 0..6_000 {
        let gates = match case % 8 {
            0 => 1 + random.below(200),
            _ => random.below(12),
        };
        let file = Loose::random(random, gates, case % 3 != 0);
        let mut order: Vec<usize> = (0..gates).collect();
        random.shuffle(&mut order);
        let text = file.text(&order);
        let due = file.placed().map(|numbers| as_u16(&numbers));
        assert_eq!(due.is_none(), file.has_cycle(), "{text}");
        assert_eq!(numbers(&text), due.clone().ok_or((23, 0)), "{text}");
        let Some(net) = due else {
            waiting += 1;
            let zeros = |count| vec![0; count];
            assert_eq!(
                file.values(&zeros(file.inputs), &zeros(file.latches.len())),
                None
            );
            continue;
        };
        taken += 1;
        // what is written is in order, and reads as itself
        assert_eq!(numbers(&self::text(&net)), Ok(net.clone()));
        renumbered += usize::from(self::text(&net) != file.text(&(0..gates).collect::<Vec<_>>()));
        check_meaning(random, &file, &net);
    }
    assert!(taken > 3_000 && renumbered > 2_000 && waiting > 500);
}

/// A file of ours, its gate lines shuffled and operands either way round.
#[test]
fn shuffled_files_of_netlists() {
    let random = &mut Random(11);
    for case in 0..1_500 {
        let gates = match case % 10 {
            0 => random.below(4_000),
            _ => random.below(40),
        };
        let file = Loose::random(random, gates.min(200), true);
        let mut net = as_u16(&file.placed().unwrap());
        // more gates, each of earlier variables
        for variable in file.variables() + 1..=file.variables() + gates.saturating_sub(200) {
            let (one, other) = (random.below(2 * variable), random.below(2 * variable));
            net.extend([one.max(other) as u16, one.min(other) as u16]);
            net[0] += 1;
            net[4] += 1;
        }
        let file = text(&net);
        let all: Vec<&str> = file.lines().collect();
        let (head, gates) = all.split_at(all.len() - usize::from(net[4]));
        let mut gates: Vec<String> = gates
            .iter()
            .map(|line| match random.below(2) {
                0 => line.to_string(),
                _ => turned(line),
            })
            .collect();
        random.shuffle(&mut gates);
        let gates: Vec<&str> = gates.iter().map(String::as_str).collect();
        assert_eq!(numbers(&join(head, &gates)), Ok(net));
    }
}

/// One input, and so many gates, each of which waits on the one after it; the last has operand
/// `last`.
fn reversed_chain(gates: usize, last: usize) -> Loose {
    let operands = |gate| match gate + 1 == gates {
        true => [last, 2],
        false => [2 * (gate + 3) + 1, 2],
    };
    Loose {
        inputs: 1,
        latches: Vec::new(),
        outputs: vec![4],
        gates: (0..gates).map(operands).collect(),
    }
}

#[test]
fn long_chains() {
    let random = &mut Random(12);
    for gates in [4_000, 4_094] {
        let file = reversed_chain(gates, 3);
        let mut due = vec![gates + 1, 1, 0, 1, gates, 2 * (gates + 1), 3, 2];
        due.extend((2..=gates).flat_map(|variable| [2 * variable + 1, 2]));
        let mut order: Vec<usize> = (0..gates).collect();
        for _ in 0..3 {
            let text = file.text(&order);
            assert!(text.len() <= 65_536);
            let net = numbers(&text).unwrap();
            assert_eq!(net, as_u16(&due));
            check_meaning(random, &file, &net);
            order.reverse();
            random.shuffle(&mut order[1..]);
        }
        // it begins with itself, with the first gate, and with another
        for last in [2 * (gates + 1), 4, 2 * (gates / 2)] {
            let cyclic = reversed_chain(gates, last).text(&order);
            assert_eq!(numbers(&cyclic), Err((23, 0)), "{last}");
        }
    }
}
