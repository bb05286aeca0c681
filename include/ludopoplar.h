/* Ludopoplar: monitor circuits of assertion graphs. Builds the circuit of a graph text, writes and reads
   circuits as AIGER files, runs them cycle by cycle, counts the cycles in which a rule was at stake, tells
   rejections in a million cycles, finds the line that was rejected first in the two traces of a session, lays
   the verdicts of a run out as a page for the wall, writes the dearest graph of so many edges, from which a gate
   array is sized, and the graph of a buffer of so many strokes, and serves eight circuits in turn, each with a
   queue of cycles.

   Link with libludopoplar.a (x86-64 Linux). It needs memcpy, memmove and memset of the C library and nothing else.

   Memory
     The library keeps nothing, allocates nothing and has no state: all memory is the caller's, and is used
     only during the call. Calls on different memory may run in different threads.
     Every length is a number of elements, not of bytes. Each pointer must be non-null and aligned for its
     type, also where its length is 0. What a call writes, buffer, tally or result, must not overlap anything
     else that is lent to it; what is only read may be lent twice.
     The tally and what is lent to be read must be initialised; buffers that are only filled need not be.
     A call fills a buffer from its start; where the buffer is longer than needed, the rest stays as it was.
     ludo_build and ludo_build_checked take up to 220 KB of stack, for deep formulas, and ludo_read under 40 KB;
     the other calls take under 4 KB.

   Return code
     0 where the call is accepted. Else the call is refused, and the code is number * 2^32 + line, which
     LUDO_NUMBER and LUDO_LINE take apart. A refusal leaves every buffer, tally and result as it was.
     ludo_broken_line is never refused: every call of it returns 0 and writes its three results.

      number  line   cause
        1     0      too long: graph over 32,768 bytes, AIGER over 65,536, trace over 1,048,576; session page:
                     more than 524,288 verdicts
        2     its    graph: line of no record's shape, last line without LF, width that is none of 1 to 16, or M
                     line with another word than terminal or strong
        3     its    graph: kind of record out of order, or M line that is not the first line
        4     its    graph: one record too many, or signal or constant with more bits than are left
        5     its    graph: name repeated
        6     its    graph: edge to or from an unknown vertex
        7     its    graph: formula of wrong form or length
        8     its    graph: formula more than 16 deep
        9     its    graph: unknown name in a formula
       10     0      graph: no vertex
       11     0      graph: its netlist would have more than 4,095 variables
       12     0      a buffer is too short
       13     its    AIGER: line of wrong shape, missing or extra
       14     its    AIGER: line of right shape that breaks order or limits; a gate of the ASCII form may stand
                     anywhere among the gates, but its variable must be a gate's, and defined once
       14     0      packed AIGER: difference that gives no allowed operand
       15     its    trace: wrong line, counted in its own trace; a step's cycle, and a bench's, is line 1
       16     0      the numbers are no netlist; bench: in one of the eight places the numbers are no netlist, more
                     than 16 cycles wait or a waiting cycle is wrong; or the machine served last is above 7
       17     0      a number of the tally would pass 4,294,967,295 if each new cycle were added to it, and on a
                     bench each waiting cycle of the machine too
       18     0      packed AIGER: byte run that is missing, over three bytes, unfinished or not shortest, or
                     bytes after the last gate
       19     its    graph: in a formula, names of unequal widths compared, a bit beyond the width, or a name of
                     several bits where one bit is due
       20     0      stroke buffer's graph: number of strokes outside 1 to 40
       21     0      tally: no cycle, or more rejected than cycles
       22     0      session page: graph name not of 1 to 24 letters, digits or _, or a verdict above 1
       23     0      AIGER, ASCII form: gates that wait on each other, or a gate on itself
       24     0      dearest graph: number of edges outside 1 to 128
       25     0      verdicts: not one byte for each line of their trace, or a byte above 1
       26     0      width of lines outside 1 to 64
       27     0      bench: machine number above 7
       28     0      bench: 16 cycles wait for the machine already

     Lines count from 1; the first faulty line decides, and in it the lower number, also where an edge's two
     formulas have one each. Build checks 1, the lines, 10, 11, 12; read 1, the lines, missing and extra ones
     among them, then of a packed file its byte runs in order, each for 18 before 14, and 18 for what follows
     them, of an ASCII file 23, then 12; write, packed write and start 16, 12; step 16, 15, 12, 17; run 1, then
     as step; per million 21; broken check 1 of either trace, 26, 15 of the flywheel trace, 15 of the handle
     trace, 25; session page 1, 22, 12; dearest graph 24, 12; stroke buffer's graph 20, 12; a new cycle of a bench
     27, 16, 28, 15, 12, 17; a turn of a bench 16, 12, 17. A call whose name ends in _checked checks what the one
     without it checks, in the same order.

   Netlist: uint16_t numbers, 5 + 2L + O + 2A of them, at most 8,195
     M I L O A               highest variable, inputs, latches, outputs, AND gates
     next reset              L times; reset is 0, 1 or the latch's own literal (uninitialised)
     output                  O times: accept, then checked
     r0 r1                   A times, the operands of each gate
     Variable 0 is false; 1 to I are the inputs, then the latches, then the gates. Variable v has the literal
     2v, and 2v + 1 for its inverse. A gate's literal g has g > r0 >= r1; next and output are at most 2M + 1.
     Limits: M = I + L + A <= 4,095; 1 <= I <= 64; O = 1 or 2; at most 6 uninitialised latches.
     Numbers that stand after a netlist in a lent buffer are not looked at.

   Words: a simulated variable is a uint64_t, with one bit, a lane, for each setting of the uninitialised
   latches: the j-th of them, from 0, starts in lane n as bit j of n.

   One output or two
     A session can pass because nothing was ever tested; the second output, checked, tells. Every call that takes
     a netlist or a file takes one output or two. ludo_build makes one, ludo_build_checked two.
     With two outputs a session is run by ludo_start_checked, ludo_step_checked and ludo_run_checked, which count
     in a third number of the tally the cycles in which checked is 1 in some lane. ludo_start, ludo_step and
     ludo_run are then for callers who read no third number: they do all else, and move and guard the first two.
     They are not to be mixed with the new ones in one run: its third number would miss cycles. */

#ifndef LUDOPOPLAR_H
#define LUDOPOPLAR_H

#include <stddef.h>
#include <stdint.h>

#ifdef __cplusplus
extern "C" {
#endif

/* The number and the line of a refusal, from the code that a call returned. */
#define LUDO_NUMBER(code) ((uint32_t)((uint64_t)(code) >> 32))
#define LUDO_LINE(code) ((uint32_t)((uint64_t)(code) & 0xffffffffu))

/* Builds the netlist of a graph text into `net`; `*gates` is the number A of its gates.

   The text has one record a line, each ended by LF, its fields parted by one tab, kinds in this order:
     M mode                                       first line or none; mode terminal or strong
     S name width                                 signal, 0 to 63 bits in all
     K name width                                 constant, 0 to 6 bits in all
     V name                                       vertex, 1 to 64; the first is the start
     E from to mark antecedent consequent         edge, 0 to 128; mark t or -
   Which edges are terminal is decided when the whole text is read. With no M line those with mark t are, or all
   where none has it; with M terminal those with mark t, even where there is none; with M strong all.
   A name is a letter, then letters, digits or _, 1 to 15 bytes. A width is 1 to 16; without it a name has 1 bit.
   A formula is 1 to 255 bytes without blanks: names of one bit, 0, 1, ( ), and ! & ^ | = from tightest to
   loosest; name[n] is bit n of a name, from 0 on, and left==right, which stands as one operand, holds where two
   names of equal width have all bits alike. Input 1 of the netlist is init, then come the bits of the signals,
   each signal's bit 0 first; each bit of a constant is an uninitialised latch. */
uint64_t ludo_build(const uint8_t *graph, size_t graph_len, uint16_t *net, size_t net_len, uint64_t *gates);

/* As ludo_build, with a second output, checked: 1 in a lane where some path from the latest init to a terminal
   edge met all antecedents, whether it met its consequents or not. Before any init it is 0. With T terminal
   edges there are 2T - 1 gates more than without it; with no terminal edge there is none more, and checked is 0.
   11 and 12 are for the netlist with them. Gates, latches and accept are otherwise those of ludo_build. */
uint64_t ludo_build_checked(const uint8_t *graph, size_t graph_len, uint16_t *net, size_t net_len, uint64_t *gates);

/* Writes the AIGER ASCII file of a netlist into `text`; `*length` is its number of bytes, at most 65,536. */
uint64_t ludo_write(const uint16_t *net, size_t net_len, uint8_t *text, size_t text_len, uint64_t *length);

/* Writes the AIGER binary file of a netlist, the packed form, into `bytes`; `*length` is its number of bytes, at
   most 28,706. Its lines are the header, whose first word is aig, then next for each latch, and reset after it
   where that is not 0, then the outputs. After them stand two byte runs for each gate, for g - r0 and r0 - r1:
   seven bits a byte, the lowest first, the top bit set where more follow. */
uint64_t ludo_write_packed(const uint16_t *net, size_t net_len, uint8_t *bytes, size_t bytes_len, uint64_t *length);

/* Reads the AIGER file `text`, of either form, into `net`; `*length` is the number of numbers of its netlist.
   Where the file begins with aig and a blank it is read as packed, else as ASCII; a netlist written in either
   form reads as the same netlist. A byte run is in no line, so what is refused there, with 18 or 14, is told with
   line 0. The reader also takes a reset of 0 that is written out; it takes nothing after the last gate, no
   symbols and no comment.

   Inputs and latches come in order, numbered as a netlist's, and each gate variable is defined by one line. The
   gates of an ASCII file may stand in any order, operands either way round; the netlist's gates are renumbered.
   At each place of the netlist stands the gate of lowest literal in the file whose operands are placed already;
   the constant, inputs and latches are from the start. Operands, next and outputs take the new literals, each
   with its sign, and of two operands the larger new one is first. What the netlist computes is what the file
   says. A file of a netlist reads as that netlist in whatever order its gate lines are.

     aag 3 1 0 1 2 | 2 | 4 | 4 6 2 | 6 2 3        lines parted by |
     3 1 0 1 2   6   3 2   4 2                    6 is placed first and becomes 4, and 4 becomes 6

   Gates that wait on each other, or a gate on itself or its inverse, are refused with 23. */
uint64_t ludo_read(const uint8_t *text, size_t text_len, uint16_t *net, size_t net_len, uint64_t *length);

/* Begins a run of a netlist: fills the first L words of `latches` and sets the tally, `*cycles` and
   `*rejected`, to 0. */
uint64_t ludo_start(const uint16_t *net, size_t net_len, uint64_t *latches, size_t latches_len, uint32_t *cycles, uint32_t *rejected);

/* Runs one cycle. `cycle` is exactly I bytes, '0' or '1', one for each input. Moves the L words of `latches`,
   fills the first M + 1 words of `values` with the words of the variables, adds the cycle to the tally, and
   puts the word of the first output into `*word`. The cycle is rejected if a bit of that word is 0. */
uint64_t ludo_step(const uint16_t *net, size_t net_len, const uint8_t *cycle, size_t cycle_len, uint64_t *latches, size_t latches_len,
                   uint64_t *values, size_t values_len, uint32_t *cycles, uint32_t *rejected, uint64_t *word);

/* Runs a trace: lines of I bytes, '0' or '1', each ended by LF; it may be empty. Does what ludo_step does for
   each line, and writes one byte a line into `verdicts`, 1 rejected or 0 accepted. `values` holds the words of
   the last cycle, or stays as it was where the trace is empty; its M + 1 words must be lent even then.
   `*verdict` is 1, rejected, where any cycle of this trace was rejected; else, and where the trace is empty, 0,
   accepted. */
uint64_t ludo_run(const uint16_t *net, size_t net_len, const uint8_t *trace, size_t trace_len, uint64_t *latches, size_t latches_len,
                  uint64_t *values, size_t values_len, uint8_t *verdicts, size_t verdicts_len, uint32_t *cycles, uint32_t *rejected, uint64_t *verdict);

/* As ludo_start, ludo_step and ludo_run, with a third number of the tally, `*checked`: the cycles in which the
   second output was 1 in some lane. Of a netlist that ludo_build_checked made these are the cycles in which a
   rule was at stake: those in which some setting of the constants and some path from the latest init to a
   terminal edge met all antecedents. A session in which `*checked` is 0 tested nothing, though no cycle of it
   was rejected. With one output `*checked` does not move.

   ludo_start_checked sets all three numbers to 0. ludo_step_checked puts the word of the second output into
   `*checked_word`, 0 where there is one output. Verdicts and `*verdict` are by the first output alone. 17 is for
   any of the three numbers, also for one that would not move, and with one output too; a run of an empty trace
   is never refused for it. */
uint64_t ludo_start_checked(const uint16_t *net, size_t net_len, uint64_t *latches, size_t latches_len,
                            uint32_t *cycles, uint32_t *rejected, uint32_t *checked);
uint64_t ludo_step_checked(const uint16_t *net, size_t net_len, const uint8_t *cycle, size_t cycle_len, uint64_t *latches, size_t latches_len,
                           uint64_t *values, size_t values_len, uint32_t *cycles, uint32_t *rejected, uint32_t *checked,
                           uint64_t *word, uint64_t *checked_word);
uint64_t ludo_run_checked(const uint16_t *net, size_t net_len, const uint8_t *trace, size_t trace_len, uint64_t *latches, size_t latches_len,
                          uint64_t *values, size_t values_len, uint8_t *verdicts, size_t verdicts_len,
                          uint32_t *cycles, uint32_t *rejected, uint32_t *checked, uint64_t *verdict);

/* Rejections in a million cycles, from a tally: `*whole` is the whole part and `*remainder` the remainder of
   rejected * 1,000,000 / cycles. So rejected * 1,000,000 = *whole * cycles + *remainder, with *remainder below
   cycles and *whole at most 1,000,000; nothing is rounded. */
uint64_t ludo_per_million(uint32_t cycles, uint32_t rejected, uint64_t *whole, uint64_t *remainder);

/* Checks what ludo_broken_line looks at: the flywheel trace and the handle trace of a session, and the verdicts
   of each. Both traces have lines of `width` bytes, '0' or '1', each ended by LF, which `width`, 1 to 64, does
   not count; a trace may be empty, and the two need not be equally long. The verdicts of a trace are one byte
   for each line of it, 1 rejected or 0 accepted, as ludo_run writes them; where ludo_run was lent a longer
   buffer, only the bytes of the lines are lent here.

   Writes nothing. The line of a 15 counts in its own trace, and the code does not say which trace that is. */
uint64_t ludo_broken_check(uint64_t width, const uint8_t *flywheel, size_t flywheel_len, const uint8_t *handle, size_t handle_len,
                           const uint8_t *flywheel_verdicts, size_t flywheel_verdicts_len,
                           const uint8_t *handle_verdicts, size_t handle_verdicts_len);

/* Finds the line that was rejected first: that of whichever trace was rejected at the earlier cycle; at a tie,
   the flywheel's. Cycle n of one trace is compared with cycle n of the other. `*trace` is 0 for the flywheel
   trace, 1 for the handle trace. The line is the `*length` bytes from `*offset` on in that trace, without its
   LF, so `*length` is `width`. Where no cycle was rejected, or ludo_broken_check refuses, all three are 0: the
   empty beginning of the flywheel trace. So `*length` is 0 only then, and ludo_broken_check, which goes through
   the same bytes again, need be asked only then: it tells whether and why the session is refused.

   Takes what ludo_broken_check takes. Every call returns 0 and writes the three results. */
uint64_t ludo_broken_line(uint64_t width, const uint8_t *flywheel, size_t flywheel_len, const uint8_t *handle, size_t handle_len,
                          const uint8_t *flywheel_verdicts, size_t flywheel_verdicts_len,
                          const uint8_t *handle_verdicts, size_t handle_verdicts_len,
                          uint64_t *trace, uint64_t *offset, uint64_t *length);

/* Lays the verdicts of a run out as a page for the wall; `*length` is its number of bytes. `name` is the graph's
   name, 1 to 24 letters, digits or _, of which any may stand first. `verdicts` has one byte a cycle, at most
   524,288, 1 rejected or 0 accepted, as ludo_run writes them; where ludo_run was lent a longer buffer, only the
   bytes of the cycles are lent here. Cycles count from 1.

   The page has lines of 80 bytes, each ended by LF, which is not one of the 80; blanks fill up:
     first line       the name in columns 1 to 24, left; the number of cycles in 25 to 34, right
     further lines    the rejected cycles, rising, ten a line, each in 8 columns, right; no line with none
     last line        the number of rejected cycles in columns 1 to 10; of its rate in a million, as in
                      ludo_per_million, the whole part in 11 to 17 and the remainder in 18 to 27, blank where
                      there is no cycle; all right
   So with r rejected cycles it has 81 * (2 + (r + 9) / 10) bytes, the division rounded down: 162 with none, at
   most 4,246,911. Other names or other verdicts give another page. */
uint64_t ludo_session_page(const uint8_t *name, size_t name_len, const uint8_t *verdicts, size_t verdicts_len,
                           uint8_t *page, size_t page_len, uint64_t *length);

/* Writes the dearest graph of `edges` edges, 1 to 128, into `text`; `*length` is its number of bytes,
   4 + 12 * edges, so at most 1,540. The graph has one vertex, a, and on it `edges` self-loops with mark t and
   labels 1 and 1. With two edges, lines parted by | and fields by blanks:

     V a | E a a t 1 1 | E a a t 1 1

   ludo_build makes 10 * edges - 2 gates of it, in a netlist of 24 * edges + 2 numbers. No graph with as many
   edges and without & ^ | = and == costs more, whatever its mode, names, vertices and marks; ! and brackets cost
   nothing. ludo_build_checked adds gates of its own. */
uint64_t ludo_dearest_graph(uint64_t edges, uint8_t *text, size_t text_len, uint64_t *length);

/* Writes the graph of a buffer of `strokes` strokes, 1 to 40, into `text`; `*length` is its number of bytes,
   100 * strokes + 72 up to 9 strokes and 107 * strokes + 7 from 10 on, so at most 4,287. Its signals are reset,
   enq, deq, empty and full, so a cycle has six bytes, init first. Vertices n0, n1 and so on stand for so many
   strokes in the buffer; each edge has mark t. With one stroke, lines parted by | and fields by blanks:

     S reset | S enq | S deq | S empty | S full | V s | V n0 | V n1 | E s n0 t reset 1
     E n0 n1 t enq empty&!full | E n0 n0 t !enq empty&!full
     E n1 n0 t deq !empty&full | E n1 n1 t !deq !empty&full

   An init cycle with reset 1 sets the count to 0. In each cycle after it empty must be 1 exactly where the count
   before the cycle is 0, and full exactly where it is `strokes`; where one of them is wrong, that cycle and all
   later ones are rejected until the next init. Nothing is rejected before any init, nor where reset was 0 in the
   latest; in other cycles reset is not read. At 0 the count goes up with enq and at `strokes` down with deq,
   whatever the other is; between them it goes up with enq alone and down with deq alone.

   ludo_build makes 36 * strokes + 13 gates of it, in a netlist of 84 * strokes + 40 numbers. */
uint64_t ludo_buffer_graph(uint64_t strokes, uint8_t *text, size_t text_len, uint64_t *length);

/* Eight machines on one bench: ludo_bench_add puts a cycle into the queue of one machine, and ludo_bench_turn steps
   the next machine, in round order, that has a cycle waiting.

   A bench has eight places, 0 to 7. Machine k has place k: a netlist, latch words, a tally and a queue of at most 16
   waiting cycles. The caller lends all of this in five buffers. Declared like this they are long enough for every
   netlist:

     uint16_t nets[8][8195];          nets[k]      the netlist; numbers behind it are not looked at
     uint64_t latches[8][4094];       latches[k]   the L latch words; words behind them stay as they are
     uint8_t queues[8][16][64];       queues[k]    16 slots of 64 bytes
     ludo_bench b = {.last = 7};      b.place[k]   how many cycles wait, and the three numbers of the tally
     uint64_t values[4096];           values       M + 1 words, the same for all machines; only a turn needs them

   They are lent as nets[0], 8 * 8195; latches[0], 8 * 4094; queues[0][0], 8 * 16 * 64; (uint32_t *)&b, 33; and
   values, 4096. The second bounds may be smaller: the library cuts each of `nets`, `latches` and `queues` into eight
   equal parts of len / 8 elements, rounded down, and part k is machine k's. It neither reads nor writes what is
   behind the eighth part. A part of `nets` must hold its netlist, a part of `latches` the L words of that netlist; a
   part of `queues` holds as many waiting cycles as it has whole slots, at most 16.

   In a queue the oldest cycle is in slot 0, the next in slot 1 and so on. A cycle is the first I bytes of its slot;
   the other bytes of the slot, and all slots behind the waiting cycles, may hold anything. With n cycles waiting:

     byte      0             64            128     ..     64 * (n - 1)      64 * n
     slot      0: oldest     1             2       ..     n - 1: newest     n: a new cycle goes here

   The numbers of the bench, in the order of ludo_bench:

     number    0        1       2         3         4 to 7     ..     28 to 31     32
               waiting  cycles  rejected  checked   place 1    ..     place 7      last: the machine served last
               ------------- place 0 ------------

   To begin, set waiting to 0 in each place and last to 7, and build and start each place:

     ludo_build_checked(graph, graph_len, nets[k], 8195, &gates)
     ludo_start_checked(nets[k], 8195, latches[k], 4094,
                        &b.place[k].cycles, &b.place[k].rejected, &b.place[k].checked)

   The first round then begins with machine 0. If the bench is all zeros, last is 0: the first round begins with
   machine 1 and ends with machine 0, and all else is the same. A place without a machine needs all of this too: give
   it any netlist, such as the one that ludo_build makes of "V\ta\n", start it, and add no cycle for it.

   Each call tests all eight places, whichever machine it is about.

   The following is proved of eight places that were started with empty queues, as long as only these two calls write
   to `latches`, `queues` and `bench` and the netlists stay as they are, whichever calls are made or refused:
     - A machine with a cycle waiting is served within eight accepted turns, whatever is added for the others.
     - Each queue is served in the order in which its cycles were added.
     - A machine's tally counts its own served cycles only, in that order, since its start. If ludo_build_checked made
       its netlist, cycles is their number, rejected the number of those that break the rule, and checked the number
       of those in which the rule was at stake.
     - ludo_bench_add is never refused with 16, and ludo_bench_turn only with 12, for too few `values`. */
typedef struct {
    uint32_t waiting, cycles, rejected, checked;
} ludo_place;
typedef struct {
    ludo_place place[8];
    uint32_t last;
} ludo_bench;

/* Compiles only if a ludo_bench is 33 numbers without a gap. */
typedef char ludo_bench_is_33_numbers[sizeof(ludo_bench) == 33 * sizeof(uint32_t) ? 1 : -1];

/* Adds a cycle to the queue of a machine, 0 to 7. `cycle` is exactly I bytes, '0' or '1', one for each input of the
   machine's netlist. Writes them into the first slot behind the waiting cycles, and adds 1 to waiting. Nothing else
   changes.

   Refused with the first of these that applies:
     27             `machine` is above 7
     16             the bench is none: in any of the eight places the numbers are no netlist, more than 16 cycles wait,
                    the part of `queues` has fewer whole slots than cycles wait, or a waiting cycle has a byte other
                    than '0' or '1'; or last is above 7; or `bench` has fewer than 33 numbers
     28             16 cycles wait for the machine already
     15, line 1     `cycle` is not I bytes '0' or '1'
     12             the machine's part of `latches` has fewer than L words, or its part of `queues` no whole slot left
     17             a number of the machine's tally, with the waiting cycles and this one added, would pass
                    4,294,967,295
   A refusal leaves every buffer as it was. */
uint64_t ludo_bench_add(const uint16_t *nets, size_t nets_len, const uint64_t *latches, size_t latches_len,
                        uint8_t *queues, size_t queues_len, uint32_t *bench, size_t bench_len,
                        uint32_t machine, const uint8_t *cycle, size_t cycle_len);

/* Takes a turn. The round goes from the machine after last up to 7, then from 0 up to last; the first machine in it
   that has a cycle waiting is served. The call steps that machine with its oldest cycle, as ludo_step_checked does:
   it moves the machine's latch words, fills the first M + 1 words of `values` and adds the cycle to the machine's
   tally. The cycles that wait behind it move one slot forward; the bytes of the freed slot stay. waiting is then 1
   less, and last is this machine. `*served` is the machine, `*word` the word of its first output and `*checked_word`
   that of its second, 0 if it has one output.

   If no cycle waits for any machine, the turn is idle: it is accepted, `*served` is 8, and nothing else changes;
   `*word`, `*checked_word` and last stay as they were.

   Refused with the first of these that applies:
     16             as in ludo_bench_add, also where the turn would be idle
     12             for the machine to be served `latches` has fewer than L words in its part, or `values` has fewer
                    than M + 1
     17             a number of that machine's tally is 4,294,967,295
   A refusal leaves every buffer and result as it was, so the same machine is next again: if `values` is too short
   for it, no machine is served until a longer buffer is lent. */
uint64_t ludo_bench_turn(const uint16_t *nets, size_t nets_len, uint64_t *latches, size_t latches_len, uint64_t *values, size_t values_len,
                         uint8_t *queues, size_t queues_len, uint32_t *bench, size_t bench_len,
                         uint64_t *served, uint64_t *word, uint64_t *checked_word);

#ifdef __cplusplus
}
#endif

#endif
