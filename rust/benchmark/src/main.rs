//! Measures the proved library beside the reference and, for `run`, a C loop; `run` with two
//! outputs beside `run` with one; files of the packed form beside those of text; texts whose gates
//! stand in other orders; the writing of graphs; and eight machines on one bench beside eight that
//! are stepped alone.
//! The results of all of them are compared before anything is timed.

mod bench;
mod c_loop;
mod calls;
mod clock;
mod graphs;
mod machines;
mod orders;
mod traces;

use bench::{Bench, Words};
use clock::best;
use machines::{Circuits, Machines, MACHINES};
use reference::Outputs;
use std::cell::RefCell;
use std::fmt::Debug;
use std::hint::black_box;

const RUNS: usize = 7;
/// Repetitions of `build`, of `read` and the writers, and of a row of steps, texts or turns.
const SHORT_CALLS: usize = 300;
/// Cycles in a row of steps.
const STEPS: usize = 100;
/// Texts in a row, of each graph that is written.
const TEXTS: usize = 100;

fn main() {
    println!(
        "Processor time, best of {RUNS} repetitions for run, of {SHORT_CALLS} for the others."
    );
    println!("A ratio is another implementation's time over the library's: above 1 the");
    println!("library is faster. Those of one output, of text, of lines in order and of step are");
    println!("the library's own times with it.");
    report(
        "stroke buffer of 40 places",
        &graphs::stroke_buffer(40),
        &traces::longest(40, false),
    );
    report(
        "stroke buffer of 8 places and its content, with six constants",
        &graphs::stroke_content(8),
        &traces::longest(8, true),
    );
    report_build_by_size();
    report_read_by_order();
    report_graph(
        "dearest graph of 128 edges",
        [0; 1_540],
        |text| ludopoplar::dearest_graph(128, text),
        |text| reference::dearest_graph(128, text),
    );
    report_graph(
        "stroke buffer's graph of 40 strokes",
        [0; 4_287],
        |text| ludopoplar::buffer_graph(40, text),
        |text| reference::buffer_graph(40, text),
    );
    report_machines();
}

/// The calls on the netlist with one output, and `run` on that with two beside it.
fn report(name: &str, graph: &str, trace: &[u8]) {
    let bench = &Bench::new(graph, Outputs::Accept, trace);
    let two_outputs = &Bench::new(graph, Outputs::AcceptAndChecked, trace);
    let [_, inputs, latches, _, gates] = bench.net[..5] else {
        unreachable!("a netlist has a header");
    };
    println!("\n{name}: {inputs} inputs, {latches} latches, {gates} gates");
    report_run(bench);
    report_two_outputs(bench, two_outputs);
    report_step(bench);
    report_build(bench);
    report_read(bench);
    report_write(bench);
    report_packed(bench);
}

/// Runs over the longest trace, each going on where the one before ended.
fn report_run(bench: &Bench) {
    let (net, trace) = (&bench.net, &bench.trace);
    let (mut by_library, mut by_reference, mut by_c) =
        (bench.words(), bench.words(), bench.words());
    for _ in 0..2 {
        calls::run_by_library(net, trace, &mut by_library);
        calls::run_by_reference(net, trace, &mut by_reference);
        c_loop::run(net, trace, &mut by_c);
        check_alike(&by_library, &[&by_reference, &by_c]);
    }
    println!(
        "  trace of {} cycles, {} rejected",
        bench.cycles(),
        rejected(&by_library)
    );
    let [library, reference, c] = best(
        RUNS,
        [
            &mut || calls::run_by_library(net, trace, &mut by_library),
            &mut || calls::run_by_reference(net, trace, &mut by_reference),
            &mut || c_loop::run(net, trace, &mut by_c),
        ],
    );
    check_alike(&by_library, &[&by_reference, &by_c]);
    println!(
        "  run    {}, {}, {}, {}; reference {}, gcc -O3 loop {}",
        duration(library),
        rate(bench.cycles(), library, "cycles"),
        rate(bench.cycles() * bench.gates(), library, "gates"),
        megabytes(trace.len(), library),
        ratio(reference, library),
        ratio(c, library),
    );
}

/// The same graph and trace with checked; the two runs of the library take turns.
fn report_two_outputs(one: &Bench, two: &Bench) {
    let (net, trace) = (&two.net, &two.trace);
    let (mut by_library, mut by_reference, mut by_c) = (two.words(), two.words(), two.words());
    let mut with_one = one.words();
    calls::run_checked_by_library(net, trace, &mut by_library);
    calls::run_by_reference(net, trace, &mut by_reference);
    c_loop::run(net, trace, &mut by_c);
    calls::run_by_library(&one.net, trace, &mut with_one);
    check_alike(&by_library, &[&by_reference, &by_c]);
    assert_eq!(
        by_library.verdicts, with_one.verdicts,
        "checked moves accept"
    );
    let checked = by_library.checked;
    let [library, library_with_one, reference, c] = best(
        RUNS,
        [
            &mut || calls::run_checked_by_library(net, trace, &mut by_library),
            &mut || calls::run_by_library(&one.net, trace, &mut with_one),
            &mut || calls::run_by_reference(net, trace, &mut by_reference),
            &mut || c_loop::run(net, trace, &mut by_c),
        ],
    );
    check_alike(&by_library, &[&by_reference, &by_c]);
    println!(
        "  run with two outputs, {} gates, {checked} cycles checked\n         \
         {}, {}, {}, {}; one output {}, reference {}, gcc -O3 loop {}",
        two.gates(),
        duration(library),
        rate(two.cycles(), library, "cycles"),
        rate(two.cycles() * two.gates(), library, "gates"),
        megabytes(trace.len(), library),
        ratio(library_with_one, library),
        ratio(reference, library),
        ratio(c, library),
    );
}

fn check_alike(library: &Words, others: &[&Words]) {
    for other in others {
        assert!(library == *other, "another implementation's results differ");
    }
}

fn rejected(words: &Words) -> usize {
    words.verdicts.iter().filter(|byte| **byte == 1).count()
}

fn report_step(bench: &Bench) {
    let net = &bench.net;
    let cycles: Vec<&[u8]> = bench
        .trace
        .chunks_exact(bench.inputs() + 1)
        .map(|line| &line[..bench.inputs()])
        .take(STEPS)
        .collect();
    let (mut by_library, mut by_reference) = (bench.words(), bench.words());
    let mut word = calls::steps_by_library(net, &cycles, &mut by_library);
    let mut due = calls::steps_by_reference(net, &cycles, &mut by_reference);
    assert_eq!(word, due, "the output words differ");
    let [library, reference] = best(
        SHORT_CALLS,
        [
            &mut || word = calls::steps_by_library(net, &cycles, &mut by_library),
            &mut || due = calls::steps_by_reference(net, &cycles, &mut by_reference),
        ],
    );
    assert_eq!(word, due, "the output words differ");
    check_alike(&by_library, &[&by_reference]);
    println!(
        "  step   {}, {}, {}; reference {}",
        duration(library / cycles.len() as f64),
        rate(cycles.len(), library, "cycles"),
        rate(cycles.len() * bench.gates(), library, "gates"),
        ratio(reference, library),
    );
}

fn report_build(bench: &Bench) {
    let (mut net, mut other) = (bench.net.clone(), bench.net.clone());
    let times = best(
        SHORT_CALLS,
        [
            &mut || accepted(ludopoplar::build(&bench.graph, &mut net)),
            &mut || accepted(reference::build(&bench.graph, Outputs::Accept, &mut other)),
        ],
    );
    report_text_call("build", bench.gates(), bench.graph.len(), times);
}

fn report_read(bench: &Bench) {
    let (mut net, mut other) = (bench.net.clone(), bench.net.clone());
    let times = best(
        SHORT_CALLS,
        [
            &mut || accepted(ludopoplar::read(&bench.text, &mut net)),
            &mut || accepted(reference::read(&bench.text, &mut other)),
        ],
    );
    report_text_call("read", bench.gates(), bench.text.len(), times);
    report_shuffled(bench);
}

/// The same text with its gate lines shuffled, beside the lines in order.
fn report_shuffled(bench: &Bench) {
    let (text, shuffled) = (&bench.text, &bench.shuffled);
    let (mut net, mut same, mut other) = (bench.net.clone(), bench.net.clone(), bench.net.clone());
    let [library, in_order, reference] = best(
        SHORT_CALLS,
        [
            &mut || accepted(ludopoplar::read(shuffled, &mut net)),
            &mut || accepted(ludopoplar::read(text, &mut same)),
            &mut || accepted(reference::read(shuffled, &mut other)),
        ],
    );
    println!(
        "  read   lines shuffled {}, {}, {}; in order {}, reference {}",
        duration(library),
        rate(bench.gates(), library, "gates"),
        megabytes(shuffled.len(), library),
        ratio(in_order, library),
        ratio(reference, library),
    );
}

fn report_write(bench: &Bench) {
    let (mut text, mut other) = (bench.text.clone(), bench.text.clone());
    let times = best(
        SHORT_CALLS,
        [
            &mut || accepted(ludopoplar::write(&bench.net, &mut text)),
            &mut || accepted(reference::write(&bench.net, &mut other)),
        ],
    );
    report_text_call("write", bench.gates(), bench.text.len(), times);
}

/// The packed file beside the text; the two calls of the library take turns.
fn report_packed(bench: &Bench) {
    let (text, packed) = (&bench.text, &bench.packed);
    println!(
        "  packed file of {} bytes, text of {}",
        packed.len(),
        text.len()
    );
    let (mut net, mut same, mut other) = (bench.net.clone(), bench.net.clone(), bench.net.clone());
    let times = best(
        SHORT_CALLS,
        [
            &mut || accepted(ludopoplar::read(packed, &mut net)),
            &mut || accepted(ludopoplar::read(text, &mut same)),
            &mut || accepted(reference::read(packed, &mut other)),
        ],
    );
    report_packed_call("read", bench, times);
    let net = &bench.net;
    let (mut bytes, mut same, mut other) = (packed.clone(), text.clone(), packed.clone());
    let times = best(
        SHORT_CALLS,
        [
            &mut || accepted(ludopoplar::write_packed(net, &mut bytes)),
            &mut || accepted(ludopoplar::write(net, &mut same)),
            &mut || accepted(reference::write_packed(net, &mut other)),
        ],
    );
    report_packed_call("write", bench, times);
}

fn report_packed_call(name: &str, bench: &Bench, [library, text, reference]: [f64; 3]) {
    println!(
        "  {name:5}  packed {}, {}, {}; text {}, reference {}",
        duration(library),
        rate(bench.gates(), library, "gates"),
        megabytes(bench.packed.len(), library),
        ratio(text, library),
        ratio(reference, library),
    );
}

fn report_text_call(name: &str, gates: usize, bytes: usize, [library, reference]: [f64; 2]) {
    println!(
        "  {name:5}  {}, {}, {}; reference {}",
        duration(library),
        rate(gates, library, "gates"),
        megabytes(bytes, library),
        ratio(reference, library),
    );
}

/// The time for each gate stays about the same where build is linear.
fn report_build_by_size() {
    println!("\nbuild of the stroke buffer by its places");
    let mut net = vec![0; 8_196];
    for places in [5, 10, 20, 40] {
        let graph = graphs::stroke_buffer(places).into_bytes();
        let gates = ludopoplar::build(&graph, &mut net).expect("an accepted graph");
        let build = &mut || accepted(ludopoplar::build(&graph, &mut net));
        let [seconds] = best(SHORT_CALLS, [build]);
        println!(
            "  {places:2} places: {gates:4} gates, {}, {:.1} ns a gate",
            duration(seconds),
            1e9 * seconds / gates as f64,
        );
    }
}

/// A chain of gates under other numbers: where each waits on the one after it, all that are
/// left are looked at for each place.
fn report_read_by_order() {
    println!(
        "\nread of a chain of {} gates by their order",
        orders::GATES
    );
    for (name, text) in orders::chains() {
        let (mut net, mut other) = (vec![0; 8_196], vec![0; 8_196]);
        let numbers = ludopoplar::read(&text, &mut net).expect("a netlist's text");
        reference::read(&text, &mut other).expect("a netlist's text");
        assert_eq!(net, other, "the readers differ");
        assert_eq!(net[..numbers], orders::netlist(), "the chain is another");
        let [library, reference] = best(
            SHORT_CALLS,
            [
                &mut || accepted(ludopoplar::read(&text, &mut net)),
                &mut || accepted(reference::read(&text, &mut other)),
            ],
        );
        println!(
            "  {name:26}  {}, {:.1} ns a gate; reference {}",
            duration(library),
            1e9 * library / orders::GATES as f64,
            ratio(reference, library),
        );
    }
}

/// The writing of a graph, into a buffer of just its length.
fn report_graph<const LENGTH: usize, Refusal: Debug, OtherRefusal: Debug>(
    name: &str,
    mut text: [u8; LENGTH],
    by_library: fn(&mut [u8]) -> Result<usize, Refusal>,
    by_reference: fn(&mut [u8]) -> Result<usize, OtherRefusal>,
) {
    let mut other = text;
    accepted(by_library(&mut text));
    accepted(by_reference(&mut other));
    assert_eq!(text, other, "the graphs differ");
    let [library, reference] = best(
        SHORT_CALLS,
        [
            &mut || (0..TEXTS).for_each(|_| accepted(by_library(&mut text))),
            &mut || (0..TEXTS).for_each(|_| accepted(by_reference(&mut other))),
        ],
    );
    println!(
        "\n{name}\n  write  {}, {}; reference {}",
        duration(library / TEXTS as f64),
        megabytes(TEXTS * LENGTH, library),
        ratio(reference, library),
    );
}

/// A new cycle for each machine, then a turn for each; beside the turns a step of each alone.
fn report_machines() {
    let graph = graphs::stroke_buffer(40);
    let bench = &Bench::new(&graph, Outputs::Accept, &traces::longest(40, false));
    println!("\n{MACHINES} stroke buffers of 40 places on one bench");
    let by_library = RefCell::new(Machines::started(bench));
    let by_reference = RefCell::new(Machines::started(bench));
    let mut alone = Circuits::started(bench);
    let (mut words, mut due, mut stepped) = (0, 0, 0);
    let [add, turn, reference_add, reference_turn, step] = best(
        SHORT_CALLS,
        [
            &mut || by_library.borrow_mut().add_by_library(),
            &mut || words = by_library.borrow_mut().turn_by_library(),
            &mut || by_reference.borrow_mut().add_by_reference(),
            &mut || due = by_reference.borrow_mut().turn_by_reference(),
            &mut || stepped = alone.step_by_library(),
        ],
    );
    assert_eq!([words, words], [due, stepped], "the output words differ");
    assert!(by_library == by_reference, "the reference's bench differs");
    assert!(
        by_library.borrow().agree_with(&alone),
        "the circuits differ"
    );
    println!(
        "  add    {}, {}; reference {}",
        duration(add / MACHINES as f64),
        rate(MACHINES, add, "cycles"),
        ratio(reference_add, add),
    );
    println!(
        "  turn   {}, {}, {}; step {}, reference {}",
        duration(turn / MACHINES as f64),
        rate(MACHINES, turn, "turns"),
        rate(MACHINES * bench.gates(), turn, "gates"),
        ratio(step, turn),
        ratio(reference_turn, turn),
    );
}

/// Lets no part of a timed call be left out as unused.
fn accepted<T, Refusal: Debug>(answer: Result<T, Refusal>) {
    black_box(answer.expect("an accepted call"));
}

fn duration(seconds: f64) -> String {
    match seconds {
        long if long >= 0.1 => format!("{long:.3} s"),
        short if short >= 1e-3 => format!("{:.3} ms", 1e3 * short),
        shorter => format!("{:.2} µs", 1e6 * shorter),
    }
}

fn rate(count: usize, seconds: f64, what: &str) -> String {
    let each_second = count as f64 / seconds;
    match each_second {
        many if many >= 1e6 => format!("{:.1} M {what}/s", many / 1e6),
        few => format!("{:.1} k {what}/s", few / 1e3),
    }
}

fn megabytes(bytes: usize, seconds: f64) -> String {
    format!("{:.2} MB/s", bytes as f64 / seconds / 1e6)
}

fn ratio(other: f64, library: f64) -> String {
    format!("{:.2}x", other / library)
}
