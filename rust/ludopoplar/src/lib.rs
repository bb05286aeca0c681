//! Builder and simulator of monitor circuits: safe calls into the proved
//! static library.
//!
//! Each function is one call of the C interface; `first_broken` hands back a part of what
//! it was lent, and makes a second call where that is empty. A refused call leaves every buffer and the tally as they
//! were; a longer buffer keeps its surplus. `Bench` owns what the two calls on eight machines are
//! lent.
//!
//! A circuit has one output, accept, or two, accept and checked. Every function that takes a
//! netlist or a file takes either. With two outputs a session is run from its start on by
//! `start_checked`, `step_checked` and `run_checked`, which count the cycles in which a rule
//! was at stake; `start`, `step` and `run` are for callers who do not ask for that number, and
//! a session that mixes both counts it in part only.

mod bench;
pub mod raw;

pub use bench::{Bench, Place, NO_MACHINE};

/// Why a call was turned down: a number of document 01's table or of document 02's
/// answers, and the line at fault (0 where there is none).
#[derive(Clone, Copy, Debug, PartialEq, Eq)]
pub struct Refusal {
    pub number: u32,
    pub line: u32,
}

impl Refusal {
    /// The refusal in a call's return: 0 where accepted, else number × 2^32 + line.
    pub fn check(code: u64) -> Result<(), Refusal> {
        match code {
            0 => Ok(()),
            _ => Err(Refusal {
                number: (code >> 32) as u32,
                line: code as u32,
            }),
        }
    }
}

/// How many numbers the longest netlist has: 8,195 with two outputs, 8,194 with one.
pub const LONGEST_NETLIST: usize = 8_195;

/// How many cycles were run since start, and how many of them were rejected.
#[derive(Clone, Copy, Debug, Default, PartialEq, Eq)]
pub struct Tally {
    pub cycles: u32,
    pub rejected: u32,
}

/// The tally of a session whose circuit has the output checked.
///
/// `checked` counts the cycles in which a rule was at stake: those in which some setting of
/// the constants and some path from the latest init to a terminal edge met all antecedents. A
/// session in which it is 0 tested nothing, whatever `rejected` says. With a circuit of one
/// output it does not move. With one of two outputs that was not built of a graph it counts the
/// cycles in which the second output is 1 in some lane.
#[derive(Clone, Copy, Debug, Default, PartialEq, Eq)]
pub struct CheckedTally {
    pub cycles: u32,
    pub rejected: u32,
    pub checked: u32,
}

impl From<CheckedTally> for Tally {
    fn from(tally: CheckedTally) -> Tally {
        Tally {
            cycles: tally.cycles,
            rejected: tally.rejected,
        }
    }
}

/// The output words of one cycle, a bit for each lane; `checked` is 0 where the circuit has
/// one output.
#[derive(Clone, Copy, Debug, PartialEq, Eq)]
pub struct Words {
    pub accept: u64,
    pub checked: u64,
}

/// Of one run: rejected exactly when any cycle of it was.
#[derive(Clone, Copy, Debug, PartialEq, Eq)]
pub enum Verdict {
    Accepted,
    Rejected,
}

impl Verdict {
    /// As a run answers it.
    fn of(number: u64) -> Verdict {
        match number {
            0 => Verdict::Accepted,
            _ => Verdict::Rejected,
        }
    }
}

/// Rejections in a million cycles: rejected × 1,000,000 = whole × cycles + remainder,
/// with a remainder under cycles.
#[derive(Clone, Copy, Debug, PartialEq, Eq)]
pub struct Rate {
    pub whole: u64,
    pub remainder: u64,
}

/// What a turn of a bench did.
#[derive(Clone, Copy, Debug, PartialEq, Eq)]
pub enum Turn {
    /// No cycle waits.
    Idle,
    /// This machine was stepped, with these output words.
    Served { machine: u32, words: Words },
}

/// One of the two traces of a session.
#[derive(Clone, Copy, Debug, PartialEq, Eq)]
pub enum Trace {
    Flywheel,
    Handle,
}

/// A part of a session's traces: `length` bytes of that trace, after its first `offset`.
#[derive(Clone, Copy, Debug, PartialEq, Eq)]
pub struct Part {
    pub trace: Trace,
    pub offset: usize,
    pub length: usize,
}

/// Builds the monitor circuit of a graph text; returns the number of its gates.
///
/// Its terminal edges are those with mark `t`, or each edge where none has it. A first line
/// `M`, tab, `terminal` leaves it at those with `t`; `M`, tab, `strong` makes each edge
/// terminal. Any other line whose first field is `M` is refused, with 3 if only its place is
/// wrong, else with 2.
///
/// A signal or constant may have a width, 1 to 16: then it stands for so many inputs or
/// latches, bit 0 first, and a cycle has a byte for each. In a formula `name[n]` is one bit of
/// it, and `left==right` compares two of one width; a width that does not fit is refused with
/// 19.
pub fn build(graph: &[u8], net: &mut [u16]) -> Result<u64, Refusal> {
    let mut gates = 0;
    Refusal::check(raw::build(graph, net, &mut gates))?;
    Ok(gates)
}

/// Builds the circuit that `build` builds, with a second output, checked: high in a lane
/// where some path from the latest init to a terminal edge met all antecedents, its
/// consequents met or not. Returns the number of its gates: with T terminal edges 2T − 1 more
/// than `build`; with none as many, and checked is 0.
///
/// The refusals 11 and 12 are for this circuit, which has more variables and numbers than that
/// of `build`.
pub fn build_checked(graph: &[u8], net: &mut [u16]) -> Result<u64, Refusal> {
    let mut gates = 0;
    Refusal::check(raw::build_checked(graph, net, &mut gates))?;
    Ok(gates)
}

/// Writes a netlist as AIGER text; returns the text's length in bytes.
pub fn write(net: &[u16], text: &mut [u8]) -> Result<usize, Refusal> {
    let mut length = 0;
    Refusal::check(raw::write(net, text, &mut length))?;
    Ok(length as usize)
}

/// Writes a netlist in AIGER's binary form, the packed one; returns the file's length in bytes.
/// Its lines are those of the text form with `aig` for `aag`, without inputs, gates and own
/// literals; each gate is two runs of one or two bytes. Reading it gives the netlist that reading the text gives.
pub fn write_packed(net: &[u16], bytes: &mut [u8]) -> Result<usize, Refusal> {
    let mut length = 0;
    Refusal::check(raw::write_packed(net, bytes, &mut length))?;
    Ok(length as usize)
}

/// Reads an AIGER file of either form; returns how many numbers the netlist has, at most
/// `LONGEST_NETLIST`.
///
/// A file that begins with `aig` and a blank is packed, any other is read as text.
///
/// The gates of a text may stand in any order, their operands either way round. In the netlist
/// each place has the gate of lowest literal in the file whose operands are placed already, with
/// the larger operand first; gates, and each next and output that speaks of them, are renumbered
/// accordingly. So a file that `write` wrote reads as its netlist in whatever order its gate lines
/// are. A gate's line that defines another variable than a gate's, or one that is defined already,
/// is refused with 14 at that line; gates that wait on each other, or a gate on itself, with 23 at
/// line 0, where no line is refused and before 12.
///
/// Of a packed file the bytes of its gates are in no line: a byte run that is missing, over three
/// bytes, unfinished or not shortest is refused with 18 at line 0, and so is what stands after the
/// last gate; a difference that gives no allowed operand with 14 at line 0.
pub fn read(text: &[u8], net: &mut [u16]) -> Result<usize, Refusal> {
    let mut length = 0;
    Refusal::check(raw::read(text, net, &mut length))?;
    Ok(length as usize)
}

/// Sets the latch words to their resets and the tally to zero.
pub fn start(net: &[u16], latches: &mut [u64], tally: &mut Tally) -> Result<(), Refusal> {
    Refusal::check(raw::start(
        net,
        latches,
        &mut tally.cycles,
        &mut tally.rejected,
    ))
}

/// Simulates one cycle; returns the word of the first output, one bit a lane.
pub fn step(
    net: &[u16],
    cycle: &[u8],
    latches: &mut [u64],
    values: &mut [u64],
    tally: &mut Tally,
) -> Result<u64, Refusal> {
    let mut word = 0;
    Refusal::check(raw::step(
        net,
        cycle,
        latches,
        values,
        &mut tally.cycles,
        &mut tally.rejected,
        &mut word,
    ))?;
    Ok(word)
}

/// Simulates a trace, with one byte a cycle in `verdicts`, 1 where rejected;
/// returns the verdict over all cycles of this run, accepted where there is none.
pub fn run(
    net: &[u16],
    trace: &[u8],
    latches: &mut [u64],
    values: &mut [u64],
    verdicts: &mut [u8],
    tally: &mut Tally,
) -> Result<Verdict, Refusal> {
    let mut verdict = 0;
    Refusal::check(raw::run(
        net,
        trace,
        latches,
        values,
        verdicts,
        &mut tally.cycles,
        &mut tally.rejected,
        &mut verdict,
    ))?;
    Ok(Verdict::of(verdict))
}

/// Sets the latch words to their resets and all three numbers of the tally to zero.
pub fn start_checked(
    net: &[u16],
    latches: &mut [u64],
    tally: &mut CheckedTally,
) -> Result<(), Refusal> {
    Refusal::check(raw::start_checked(
        net,
        latches,
        &mut tally.cycles,
        &mut tally.rejected,
        &mut tally.checked,
    ))
}

/// Simulates one cycle; returns the words of both outputs. The cycle is rejected where a lane
/// of accept is 0, and a rule was at stake in it where a lane of checked is 1.
///
/// Refused with 17 where any of the three numbers is at 4,294,967,295, also where it would not
/// move.
pub fn step_checked(
    net: &[u16],
    cycle: &[u8],
    latches: &mut [u64],
    values: &mut [u64],
    tally: &mut CheckedTally,
) -> Result<Words, Refusal> {
    let (mut accept, mut checked) = (0, 0);
    Refusal::check(raw::step_checked(
        net,
        cycle,
        latches,
        values,
        &mut tally.cycles,
        &mut tally.rejected,
        &mut tally.checked,
        &mut accept,
        &mut checked,
    ))?;
    Ok(Words { accept, checked })
}

/// Simulates a trace as `run` does, and counts also the cycles in which a rule was at stake.
/// Verdict bytes and verdict are those of the first output, as in `run`.
///
/// Refused with 17 where any of the three numbers, added to the cycles of the trace, would
/// pass 4,294,967,295, also where it would not move.
pub fn run_checked(
    net: &[u16],
    trace: &[u8],
    latches: &mut [u64],
    values: &mut [u64],
    verdicts: &mut [u8],
    tally: &mut CheckedTally,
) -> Result<Verdict, Refusal> {
    let mut verdict = 0;
    Refusal::check(raw::run_checked(
        net,
        trace,
        latches,
        values,
        verdicts,
        &mut tally.cycles,
        &mut tally.rejected,
        &mut tally.checked,
        &mut verdict,
    ))?;
    Ok(Verdict::of(verdict))
}

/// Works out a tally's rejections in a million cycles; refused if it has no cycles, or
/// more rejected than cycles.
pub fn per_million(tally: Tally) -> Result<Rate, Refusal> {
    let (mut whole, mut remainder) = (0, 0);
    Refusal::check(raw::per_million(
        tally.cycles,
        tally.rejected,
        &mut whole,
        &mut remainder,
    ))?;
    Ok(Rate { whole, remainder })
}

/// Checks a session: two traces whose lines all have `width` bytes, 1 to 64, and the
/// verdict bytes of each. The traces need not be equally long.
pub fn broken_check(
    width: usize,
    flywheel: &[u8],
    handle: &[u8],
    flywheel_verdicts: &[u8],
    handle_verdicts: &[u8],
) -> Result<(), Refusal> {
    Refusal::check(raw::broken_check(
        width as u64,
        flywheel,
        handle,
        flywheel_verdicts,
        handle_verdicts,
    ))
}

/// Finds the line, without its LF, of the earliest cycle that was rejected in either
/// trace, the flywheel's where both were. Never refused: where no cycle was rejected, or
/// `broken_check` refuses, it is the empty beginning of the flywheel trace, and only then is
/// its length 0.
pub fn broken_line(
    width: usize,
    flywheel: &[u8],
    handle: &[u8],
    flywheel_verdicts: &[u8],
    handle_verdicts: &[u8],
) -> Part {
    let (mut trace, mut offset, mut length) = (0, 0, 0);
    raw::broken_line(
        width as u64,
        flywheel,
        handle,
        flywheel_verdicts,
        handle_verdicts,
        &mut trace,
        &mut offset,
        &mut length,
    );
    Part {
        trace: match trace {
            0 => Trace::Flywheel,
            _ => Trace::Handle,
        },
        offset: offset as usize,
        length: length as usize,
    }
}

/// Hands back the line that `broken_line` finds, as a part of the caller's own trace; the
/// empty beginning of the flywheel trace where no cycle was rejected. Refused where
/// `broken_check` refuses.
pub fn first_broken<'a>(
    width: usize,
    flywheel: &'a [u8],
    handle: &'a [u8],
    flywheel_verdicts: &[u8],
    handle_verdicts: &[u8],
) -> Result<&'a [u8], Refusal> {
    let part = broken_line(width, flywheel, handle, flywheel_verdicts, handle_verdicts);
    if part.length == 0 {
        broken_check(width, flywheel, handle, flywheel_verdicts, handle_verdicts)?;
    }
    let trace = match part.trace {
        Trace::Flywheel => flywheel,
        Trace::Handle => handle,
    };
    Ok(&trace[part.offset..][..part.length])
}

/// Lays a run's verdict bytes, at most 524,288, out as the page that goes on the wall;
/// returns its length in bytes, at most 4,246,911. Each line has 80 bytes and an LF: a
/// title of the graph's name, 1 to 24 letters, digits or `_`, and the cycles; ten rejected
/// cycles a line; and at the end the rejected, with whole part and remainder of their rate
/// in a million.
pub fn session_page(name: &[u8], verdicts: &[u8], page: &mut [u8]) -> Result<usize, Refusal> {
    let mut length = 0;
    Refusal::check(raw::session_page(name, verdicts, page, &mut length))?;
    Ok(length as usize)
}

/// Writes the dearest graph of so many edges, 1 to 128, from which a gate array is sized: one
/// vertex, and self-loops on it. Returns its length in bytes, 4 + 12 × edges.
///
/// `build` makes 10 × edges − 2 gates of it, and no more of any graph with as many edges whose
/// formulas have no operator but `!`. Another number of edges is refused with 24, before 12.
pub fn dearest_graph(edges: u64, text: &mut [u8]) -> Result<usize, Refusal> {
    let mut length = 0;
    Refusal::check(raw::dearest_graph(edges, text, &mut length))?;
    Ok(length as usize)
}

/// Writes the graph of a buffer of so many strokes, 1 to 40. Returns its length in bytes:
/// 100 × strokes + 72 up to 9 strokes, 107 × strokes + 7 from 10 on, so at most 4,287.
///
/// An init cycle with `reset` high sets the count of strokes in the buffer to 0. In each cycle
/// after it `empty` must be high exactly where the count before the cycle is 0, and `full`
/// exactly where it is `strokes`; where one of them is wrong, that cycle and all later ones are
/// rejected until the next init. Nothing is rejected before any init, nor where `reset` was low
/// in the latest; in other cycles `reset` is not read. At 0 the count goes up with `enq` and at
/// `strokes` down with `deq`, whatever the other is; between them it goes up with `enq` alone and
/// down with `deq` alone.
///
/// `build` makes 36 × strokes + 13 gates of it, in 84 × strokes + 40 numbers. Another number of
/// strokes is refused with 20, before 12.
///
/// ```
/// let mut text = [0; 272];
/// assert_eq!(ludopoplar::buffer_graph(2, &mut text), Ok(272));
/// let lines = "\
///     S reset|S enq|S deq|S empty|S full|V s|V n0|V n1|V n2|\
///     E s n0 t reset 1|\
///     E n0 n1 t enq empty&!full|\
///     E n0 n0 t !enq empty&!full|\
///     E n1 n2 t enq&!deq !empty&!full|\
///     E n1 n0 t !enq&deq !empty&!full|\
///     E n1 n1 t enq=deq !empty&!full|\
///     E n2 n1 t deq !empty&full|\
///     E n2 n2 t !deq !empty&full|";
/// let due = lines.replace(' ', "\t").replace('|', "\n");
/// assert_eq!(text[..], *due.as_bytes());
/// ```
pub fn buffer_graph(strokes: u64, text: &mut [u8]) -> Result<usize, Refusal> {
    let mut length = 0;
    Refusal::check(raw::buffer_graph(strokes, text, &mut length))?;
    Ok(length as usize)
}

/// Puts a new cycle behind those that wait for a machine, 0 to 7, of a bench of eight places.
/// `Bench` owns such places.
///
/// `nets`, `latches` and `queues` are eight equal parts each, of an eighth of the length, rounded
/// down, part k being that of machine k; a rest behind them is not touched. In a part of `queues`
/// the waiting cycles stand oldest first, each in the first bytes of a slot of 64. `numbers` has
/// for each place how many cycles wait and its cycles, rejected and checked, and as its 33rd the
/// last machine served. Begin with none waiting and 7 as the last one, and with each place started
/// by `start_checked`.
///
/// Refused with 27 where `machine` is above 7; then 16 where any of the eight places has no
/// netlist, more than 16 waiting cycles, fewer slots than that or a waiting cycle that is none,
/// where the last one served is above 7 or where `numbers` has fewer than 33; 28 where 16 cycles
/// wait for the machine; 15, line 1; 12 where its latch words are too few, or no whole slot is
/// left; 17 where a number of its tally would pass 4,294,967,295 with those waiting and this one.
pub fn bench_add(
    nets: &[u16],
    latches: &[u64],
    queues: &mut [u8],
    numbers: &mut [u32],
    machine: u32,
    cycle: &[u8],
) -> Result<(), Refusal> {
    Refusal::check(raw::bench_add(
        nets, latches, queues, numbers, machine, cycle,
    ))
}

/// Steps the next machine, in the round after the last one served, that has a cycle waiting, with
/// its oldest cycle; those behind it move one slot forward, and the slot that is freed keeps its
/// bytes. The buffers are those of `bench_add`; one row of `values` serves all machines.
///
/// Refused with 16 as `bench_add` is, also where no cycle waits; then, for the machine that would
/// be stepped, with 12 and 17 as `step_checked` is. That machine is then the next one still.
pub fn bench_turn(
    nets: &[u16],
    latches: &mut [u64],
    values: &mut [u64],
    queues: &mut [u8],
    numbers: &mut [u32],
) -> Result<Turn, Refusal> {
    let (mut served, mut accept, mut checked) = (0, 0, 0);
    Refusal::check(raw::bench_turn(
        nets,
        latches,
        values,
        queues,
        numbers,
        &mut served,
        &mut accept,
        &mut checked,
    ))?;
    Ok(match served {
        0..=7 => Turn::Served {
            machine: served as u32,
            words: Words { accept, checked },
        },
        _ => Turn::Idle,
    })
}
