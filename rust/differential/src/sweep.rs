//! Every change of one byte or one number in a few small inputs, every short list of some
//! lines as a graph, names of every width and short formulas over them, every count of
//! outputs, packed files of every small kind, texts whose gates stand in every order, every pair
//! of some numbers as a tally and every three of some, sessions of every small kind, session
//! pages of every small kind and of the largest, every dearest graph, every stroke buffer's,
//! with some runs of each, and benches of small machines with every change of one cell.

use crate::bench::Bench;
use crate::buffers;
use crate::checked;
use crate::compare::{Call, Lengths, Memory, Mismatch, Name};
use crate::graphs::{MODES, WRONG_MODES};
use crate::machines;
use crate::packed;
use crate::pages::{compare_page_into, needed, MAX_CYCLES};
use crate::rates;
use crate::sessions::{compare_session, Measurement};
use crate::shuffled;
use crate::texts;
use crate::traces::MAX_TRACE_BYTES;
use crate::widths;
use reference::Tally;

/// Has records of every kind, operators of every strength, both marks.
const GRAPH: &[u8] = b"S\tp\nS\tq_9\nK\tk\nV\ta\nV\tbZ\n\
    E\ta\tbZ\tt\tp=k|q_9\t!(p&1)\nE\tbZ\ta\t-\tp^0\tk\n";
/// Have an `M` line each, and no mark.
const TERMINAL: &[u8] = b"M\tterminal\nV\ta\nE\ta\ta\t-\t1\t0\n";
const STRONG: &[u8] = b"M\tstrong\nV\ta\nE\ta\ta\t-\t1\t0\n";
/// Has names of two bits, one bit of a name and a comparison.
const WIDE: &[u8] = b"S\ta\t2\nK\tk\t2\nV\tv\nE\tv\tv\tt\ta==k\tk[1]\n";
const AIGER: &[u8] = b"aag 6 2 3 1 1\n2\n4\n6 5\n8 12 1\n10 10 10\n12\n12 9 4\n";
const NUMBERS: [u16; 14] = [6, 2, 3, 1, 1, 5, 0, 12, 1, 10, 10, 12, 9, 4];
/// Has a terminal edge, and one that is not.
const CHECKED: &[u8] = b"V\ta\nE\ta\ta\tt\t1\t0\nE\ta\ta\t-\t1\t1\n";
/// Have two outputs.
const AIGER_OF_TWO: &[u8] = b"aag 5 2 2 2 1\n2\n4\n6 10\n8 8 8\n11\n7\n10 9 4\n";
const NUMBERS_OF_TWO: [u16; 13] = [5, 2, 2, 2, 1, 10, 0, 8, 8, 11, 7, 9, 4];
/// The two files packed, and one with runs of two bytes.
const PACKED: &[u8] = b"aig 6 2 3 1 1\n5\n12 1\n10 10\n12\n\x03\x05";
const PACKED_OF_TWO: &[u8] = b"aig 5 2 2 2 1\n10\n8 8\n11\n7\n\x01\x05";
const LONG_RUNS: &[u8] = b"aig 66 64 0 1 2\n133\n\x81\x01\x01\x02\x80\x01";
/// Has gates in no order: 10 is placed before 8.
const LOOSE: &[u8] = b"aag 5 2 1 2 2\n2\n4\n6 8 6\n10\n9\n8 4 10\n10 2 3\n";
const TRACE: &[u8] = b"10\n01\n11\n";
const HANDLE: &[u8] = b"00\n01\n";

/// Answers how many calls were compared.
pub fn sweep(bench: &mut Bench) -> Result<usize, Mismatch> {
    let mut count = 0;
    for (name, text) in [
        (Name::Build, GRAPH),
        (Name::Build, TERMINAL),
        (Name::Build, STRONG),
        (Name::Build, WIDE),
        (Name::BuildChecked, CHECKED),
        (Name::Read, AIGER),
        (Name::Read, AIGER_OF_TWO),
        (Name::Read, LOOSE),
        (Name::Read, PACKED),
        (Name::Read, PACKED_OF_TWO),
        (Name::Read, LONG_RUNS),
    ] {
        for changed in changed_texts(text) {
            sweep_call(bench, Call::on_bytes(name, changed))?;
            count += 1;
        }
    }
    for text in [lists_of_lines(), widths::texts()].concat() {
        sweep_call(bench, Call::on_bytes(Name::Build, text))?;
        count += 1;
    }
    for (name, net, bytes) in [
        (Name::Run, &NUMBERS[..], TRACE),
        (Name::RunChecked, &NUMBERS_OF_TWO, TRACE),
        (Name::Step, &NUMBERS, b"01"),
        (Name::StepChecked, &NUMBERS_OF_TWO, b"01"),
    ] {
        for changed in changed_texts(bytes) {
            sweep_call(bench, Call::on_net(name, net.to_vec(), changed))?;
            count += 1;
        }
    }
    for net in [changed_numbers(&NUMBERS), changed_numbers(&NUMBERS_OF_TWO)].concat() {
        for (name, bytes) in [
            (Name::Write, &b""[..]),
            (Name::WritePacked, b""),
            (Name::Start, b""),
            (Name::Step, b"01"),
            (Name::Run, TRACE),
            (Name::StartChecked, b""),
            (Name::StepChecked, b"01"),
            (Name::RunChecked, TRACE),
        ] {
            sweep_call(bench, Call::on_net(name, net.clone(), bytes.to_vec()))?;
            count += 1;
        }
    }
    count += checked::sweep(bench)?;
    count += packed::sweep(bench)?;
    count += shuffled::sweep(bench)?;
    for tally in rates::pairs() {
        rates::compare_rate(bench, tally)?;
        count += 1;
    }
    count += sweep_sessions(bench)?;
    count += sweep_pages(bench)?;
    count += texts::sweep(bench)?;
    count += buffers::sweep(bench)?;
    count += machines::sweep(bench)?;
    Ok(count)
}

/// On buffers long enough for all of these.
fn sweep_call(bench: &mut Bench, call: Call) -> Result<(), Mismatch> {
    let lengths = Lengths {
        net: 300,
        text: 200,
        latches: 20,
        values: 40,
        verdicts: 12,
    };
    let mut memory = Memory::random(&mut bench.random, lengths);
    memory.tally = Tally::default();
    bench.compare(&call, memory)?;
    Ok(())
}

/// The text with each byte put instead of each, or before each, or at the end;
/// with each byte left out; and cut off at each place.
fn changed_texts(text: &[u8]) -> Vec<Vec<u8>> {
    let mut changed = vec![text.to_vec()];
    for place in 0..=text.len() {
        let (before, after) = text.split_at(place);
        changed.push(before.to_vec());
        for byte in 0..=255 {
            changed.push([before, &[byte], after].concat());
            if let Some((_, rest)) = after.split_first() {
                changed.push([before, &[byte], rest].concat());
            }
        }
        if let Some((_, rest)) = after.split_first() {
            changed.push([before, rest].concat());
        }
    }
    changed
}

/// Every list of up to four of some lines: records of each kind, an edge with either mark,
/// and `M` lines, good and wrong ones, in every place; then each wrong `M` line before,
/// between and after records. Each list also without its last LF.
fn lists_of_lines() -> Vec<Vec<u8>> {
    let lines: Vec<&str> = [
        &MODES[..],
        &["M\tweak\n", "S\tp\n", "K\tk\n", "V\ta\n"],
        &["E\ta\ta\tt\t1\t0\n", "E\ta\ta\t-\t1\t0\n"],
    ]
    .concat();
    let mut lists = vec![String::new()];
    let mut longer = lists.clone();
    for _ in 0..4 {
        longer = longer
            .iter()
            .flat_map(|list| lines.iter().map(move |line| format!("{list}{line}")))
            .collect();
        lists.extend_from_slice(&longer);
    }
    for wrong in WRONG_MODES {
        for first in ["", MODES[0], MODES[1]] {
            lists.push(format!("{first}{wrong}V\ta\n"));
            lists.push(format!("{first}V\ta\n{wrong}E\ta\ta\t-\t1\t0\n"));
            lists.push(format!("{first}V\ta\n{wrong}"));
        }
    }
    let texts = lists.into_iter().map(String::into_bytes);
    texts
        .flat_map(|text| {
            let cut = text[..text.len().saturating_sub(1)].to_vec();
            [text, cut]
        })
        .collect()
}

/// The numbers with each of them changed to each that may matter, and cut off.
fn changed_numbers(numbers: &[u16]) -> Vec<Vec<u16>> {
    let mut changed = vec![numbers.to_vec()];
    for place in 0..numbers.len() {
        changed.push(numbers[..place].to_vec());
        for number in (0..20).chain([64, 65, 4_095, 4_096, 8_191, 8_192, u16::MAX]) {
            let mut net = numbers.to_vec();
            net[place] = number;
            changed.push(net);
        }
    }
    changed
}

/// A session at many widths, and with every change of one byte in a trace or a verdict
/// list; every pair of verdict lists of up to four cycles; every choice of faults.
fn sweep_sessions(bench: &mut Bench) -> Result<usize, Mismatch> {
    let mut count = 0;
    let mut compare = |width, flywheel: &Measurement, handle: &Measurement| {
        count += 2;
        compare_session(bench, width, flywheel, handle)
    };
    let flywheel = measurement(TRACE, &[0, 0, 1]);
    let handle = measurement(HANDLE, &[0, 1]);
    // Those of more bits have 2 in the lowest, or are all ones.
    for width in (0..=70).chain([258, 65_538, 1 << 32 | 2, 1 << 63 | 2, u64::MAX]) {
        compare(width, &flywheel, &handle)?;
    }
    for changed in changed_measurements(&flywheel) {
        compare(2, &changed, &handle)?;
    }
    for changed in changed_measurements(&handle) {
        compare(2, &flywheel, &changed)?;
    }
    for (flywheel, handle) in pairs(&judged_measurements()) {
        compare(2, flywheel, handle)?;
    }
    for width in [2, 0] {
        for (flywheel, handle) in pairs(&faulty_measurements()) {
            compare(width, flywheel, handle)?;
        }
    }
    Ok(count)
}

fn measurement(trace: &[u8], verdicts: &[u8]) -> Measurement {
    Measurement {
        trace: trace.to_vec(),
        verdicts: verdicts.to_vec(),
    }
}

fn pairs<T>(items: &[T]) -> impl Iterator<Item = (&T, &T)> {
    items
        .iter()
        .flat_map(|one| items.iter().map(move |other| (one, other)))
}

fn changed_measurements(good: &Measurement) -> Vec<Measurement> {
    let traces = changed_texts(&good.trace).into_iter();
    let verdicts = changed_texts(&good.verdicts).into_iter();
    let with_trace = traces.map(|trace| measurement(&trace, &good.verdicts));
    let with_verdicts = verdicts.map(|verdicts| measurement(&good.trace, &verdicts));
    with_trace.chain(with_verdicts).collect()
}

/// Every verdict list of up to four cycles, over a trace of as many.
fn judged_measurements() -> Vec<Measurement> {
    let over_trace = |list: &Vec<u8>| measurement(&b"01\n".repeat(list.len()), list);
    verdict_lists(4).iter().map(over_trace).collect()
}

/// Every verdict list of up to so many cycles, the shorter ones first.
fn verdict_lists(cycles: u32) -> Vec<Vec<u8>> {
    let mut lists: Vec<Vec<u8>> = vec![Vec::new()];
    for shorter in 0..(1 << cycles) - 1 {
        for byte in [0, 1] {
            lists.push([&lists[shorter][..], &[byte]].concat());
        }
    }
    lists
}

/// With or without each fault of a trace, and of a verdict list.
fn faulty_measurements() -> Vec<Measurement> {
    let too_long = vec![b'1'; MAX_TRACE_BYTES + 1];
    let mut measurements = Vec::new();
    for trace in [TRACE, b"10\n0x\n11\n", b"10\n01\n11", &too_long] {
        for verdicts in [&[0, 1, 0][..], &[0, 1], &[0, 1, 2]] {
            measurements.push(measurement(trace, verdicts));
        }
    }
    measurements
}

/// Every change of one byte in a name or a verdict list; names of every length; every list
/// of up to eight cycles; every count of rejected cycles up to 130, all rejected or one
/// more accepted; every length of the buffer about those that are needed; every choice of
/// faults; and the longest lists.
fn sweep_pages(bench: &mut Bench) -> Result<usize, Mismatch> {
    let mut count = 0;
    let mut compare = |name: &[u8], verdicts: &[u8], lent| {
        count += 1;
        compare_page_into(bench, name, verdicts, lent)
    };
    let long_name = b"zZ_09_Aa_session_page_24";
    for name in [&b"G"[..], b"7up", long_name] {
        for changed in changed_texts(name) {
            compare(&changed, &[1, 0, 0], 250)?;
        }
    }
    for length in 0..=60 {
        compare(&b"_".repeat(length), &[0, 1], 243)?;
    }
    for changed in changed_texts(&[0, 1, 1, 0, 1]) {
        compare(b"G", &changed, 250)?;
    }
    for verdicts in verdict_lists(8) {
        compare(b"G", &verdicts, needed(&verdicts))?;
    }
    for rejected in 0..=130 {
        for verdicts in [
            vec![1; rejected],
            [&vec![1; rejected][..], &[0]].concat(),
            [&[0], &vec![1; rejected][..]].concat(),
        ] {
            compare(b"count", &verdicts, needed(&verdicts) + 1)?;
        }
    }
    for verdicts in [&[][..], &[0], &[1], &[1; 10], &[1; 11], &[1; 21]] {
        for lent in 0..=needed(verdicts) + 85 {
            compare(b"G", verdicts, lent)?;
        }
    }
    let (most, too_many) = (vec![0; MAX_CYCLES], vec![0; MAX_CYCLES + 1]);
    let mut wrong_at_end = most.clone();
    wrong_at_end[MAX_CYCLES - 1] = 2;
    for name in [&b"G"[..], b"", b"a b", &[b'a'; 25]] {
        for verdicts in [&[0, 1][..], &[0, 2], &most, &wrong_at_end, &too_many] {
            for short in [0, 1] {
                compare(name, verdicts, needed(verdicts) - short)?;
            }
        }
    }
    // All rejected, in a buffer of just that length, of one byte more, and of one less.
    let all_rejected = vec![1; MAX_CYCLES];
    let longest = needed(&all_rejected);
    for lent in longest - 1..=longest + 1 {
        compare(long_name, &all_rejected, lent)?;
    }
    let every_third: Vec<u8> = (0..MAX_CYCLES).map(|at| u8::from(at % 3 == 0)).collect();
    compare(b"G", &every_third, needed(&every_third))?;
    Ok(count)
}
