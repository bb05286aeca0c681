/* The graphs that the library writes, from C.

   Sizing a gate array: how many gates are enough for every graph of so many edges without operators, which is what the
   dearest one takes. Some numbers of edges, then a count over all; the text of two edges; what other graphs take of an
   array so sized; what the call leaves in a longer buffer, and where it is refused.

   A buffer of strokes: the sizes of its graph for some numbers of strokes; the text of two; what the call leaves in a
   longer buffer, and where it is refused; and two runs over a buffer of two. At the repository's root:

     cc -std=c99 -Iinclude -o graphs examples/graphs.c crates/ludopoplar/out/libludopoplar.a && ./graphs */
#include <inttypes.h>
#include <stdio.h>
#include <string.h>

#include "ludopoplar.h"

#define LENGTH(array) (sizeof(array) / sizeof(array)[0])

/* as many edges as a graph can have, and as many strokes as a buffer can hold */
enum { MOST_EDGES = 128, MOST_STROKES = 40 };

/* init and the signals of a stroke buffer */
enum { INPUTS = 6 };

/* the longest text, 4,287 bytes, and something more; the numbers of its netlist, which is the longest, too */
static uint8_t text[4400];
static uint16_t net[84 * MOST_STROKES + 40];

/* Writes the graph for a number, of edges or of strokes. */
typedef uint64_t writer(uint64_t number, uint8_t *text, size_t text_len, uint64_t *length);

/* Whether a call was accepted; says so where it was not. */
static int accepted(const char *call, uint64_t code) {
    if (code != 0)
        printf("%s refused: number %" PRIu32 ", line %" PRIu32 "\n", call, LUDO_NUMBER(code), LUDO_LINE(code));
    return code == 0;
}

/* The gates of a graph. */
static uint64_t gates_of(const uint8_t *graph, size_t graph_len) {
    uint64_t gates = 0;

    accepted("build", ludo_build(graph, graph_len, net, LENGTH(net), &gates));
    return gates;
}

/* The gates of the graph for a number, whose text and netlist are left in the buffers. Of the dearest graph they are
   enough for every graph of so many edges without operators. */
static uint64_t gates_for(writer *write, uint64_t number, uint64_t *length) {
    if (!accepted("write", write(number, text, LENGTH(text), length)))
        return 0;
    return gates_of(text, (size_t)*length);
}

static void show_text(writer *write, uint64_t number) {
    uint64_t length = 0;

    if (accepted("write", write(number, text, LENGTH(text), &length)))
        fwrite(text, 1, (size_t)length, stdout);
}

/* Whether the text buffer has from here on what stood in it before the call. */
static int untouched(size_t from) {
    size_t i;

    for (i = from; i < sizeof text && text[i] == '#'; i++)
        ;
    return i == sizeof text;
}

/* Makes the call, with the first bytes of the text buffer lent. */
static void show_call(writer *write, uint64_t number, size_t lent) {
    uint64_t length = UINT64_MAX, code;

    memset(text, '#', sizeof text);
    code = write(number, text, lent, &length);
    printf("%" PRIu64 "; %d | ", number, (int)lent);
    if (code == 0)
        printf("%" PRIu64 " bytes | %s\n", length, untouched((size_t)length) ? "the rest as it was" : "changed");
    else
        printf("%" PRIu32 "@%" PRIu32 " | %s\n", LUDO_NUMBER(code), LUDO_LINE(code),
               length == UINT64_MAX && untouched(0) ? "all as it was" : "changed");
}

/* ---- the dearest graph */
static void show_size(uint64_t edges) {
    uint64_t length = 0, gates = gates_for(ludo_dearest_graph, edges, &length);

    printf("%" PRIu64 " | %" PRIu64 " | %" PRIu64 " | %d\n", edges, length, gates, net[0]);
}

/* Shows what a graph without operators takes of the array for its edges. */
static void show_use(const char *label, const char *graph, uint64_t edges) {
    uint64_t length = 0, array = gates_for(ludo_dearest_graph, edges, &length);

    printf("%s | %" PRIu64 " of %" PRIu64 "\n", label, gates_of((const uint8_t *)graph, strlen(graph)), array);
}

static void show_dearest(void) {
    uint64_t edges, length = 0;
    int as_said = 0;

    printf("edges | bytes | gates | variables\n");
    show_size(1);
    show_size(2);
    show_size(3);
    show_size(MOST_EDGES);
    for (edges = 1; edges <= MOST_EDGES; edges++)
        as_said += gates_for(ludo_dearest_graph, edges, &length) == 10 * edges - 2;
    printf("1 to %d: %d of them with 10 * edges - 2 gates\n", MOST_EDGES, as_said);

    printf("the text of 2 edges\n");
    show_text(ludo_dearest_graph, 2);

    printf("graph | gates\n");
    show_use("a to a, unmarked", "V\ta\nE\ta\ta\t-\t1\t1\n", 1);
    show_use("a to b", "V\ta\nV\tb\nE\ta\tb\tt\t1\t1\n", 1);
    show_use("a to a, a to b", "V\ta\nV\tb\nE\ta\ta\tt\t1\t1\nE\ta\tb\tt\t1\t1\n", 2);
    show_use("a to a twice, once unmarked, !1 / !!0", "V\ta\nE\ta\ta\tt\t!1\t!!0\nE\ta\ta\t-\t!1\t!!0\n", 2);

    printf("edges; bytes lent | bytes or refused | the rest\n");
    show_call(ludo_dearest_graph, 1, sizeof text);
    show_call(ludo_dearest_graph, 1, 16);
    show_call(ludo_dearest_graph, MOST_EDGES, sizeof text);
    show_call(ludo_dearest_graph, 0, sizeof text);
    show_call(ludo_dearest_graph, 129, sizeof text);
    show_call(ludo_dearest_graph, UINT64_MAX, sizeof text);
    show_call(ludo_dearest_graph, 0, 0);
    show_call(ludo_dearest_graph, 1, 15);
}

/* ---- the stroke buffer */
/* The lines of a kind in the text buffer. */
static int lines_of(char kind, size_t length) {
    size_t i;
    int lines = 0;

    for (i = 0; i < length; i++)
        lines += text[i] == (uint8_t)kind && (i == 0 || text[i - 1] == '\n');
    return lines;
}

static void show_buffer(uint64_t strokes) {
    uint64_t length = 0, gates = gates_for(ludo_buffer_graph, strokes, &length);
    int numbers = 5 + 2 * net[2] + net[3] + 2 * net[4];

    printf("%" PRIu64 " | %" PRIu64 " | %d | %d | %" PRIu64 " | %d | %d\n", strokes, length, lines_of('E', (size_t)length),
           lines_of('V', (size_t)length), gates, net[0], numbers);
}

/* Runs a trace over a buffer of two strokes, and shows each cycle with its verdict. */
static void show_run(const char *trace) {
    /* M is 107, and there are two latches for each of the eight edges */
    static uint64_t latches[16], values[108];
    uint8_t verdicts[16];
    uint32_t cycles = 0, rejected = 0;
    uint64_t length = 0, verdict = 0;
    size_t i, lines = strlen(trace) / (INPUTS + 1);

    gates_for(ludo_buffer_graph, 2, &length);
    if (!accepted("start", ludo_start(net, LENGTH(net), latches, LENGTH(latches), &cycles, &rejected)) ||
        !accepted("run", ludo_run(net, LENGTH(net), (const uint8_t *)trace, strlen(trace), latches, LENGTH(latches), values, LENGTH(values),
                                  verdicts, LENGTH(verdicts), &cycles, &rejected, &verdict)))
        return;
    for (i = 0; i < lines; i++)
        printf("%.*s | %d\n", INPUTS, trace + (INPUTS + 1) * i, verdicts[i]);
    printf("%" PRIu32 " of %" PRIu32 " rejected\n", rejected, cycles);
}

static void show_buffers(void) {
    uint64_t strokes, length = 0;
    int as_said = 0;

    printf("strokes | bytes | edges | vertices | gates | variables | numbers\n");
    show_buffer(1);
    show_buffer(2);
    show_buffer(39);
    show_buffer(MOST_STROKES);
    for (strokes = 1; strokes <= MOST_STROKES; strokes++)
        as_said += gates_for(ludo_buffer_graph, strokes, &length) == 36 * strokes + 13;
    printf("1 to %d: %d of them with 36 * strokes + 13 gates\n", MOST_STROKES, as_said);

    printf("the text of 2 strokes\n");
    show_text(ludo_buffer_graph, 2);

    printf("strokes; bytes lent | bytes or refused | the rest\n");
    show_call(ludo_buffer_graph, 1, sizeof text);
    show_call(ludo_buffer_graph, 1, 172);
    show_call(ludo_buffer_graph, MOST_STROKES, sizeof text);
    show_call(ludo_buffer_graph, 0, sizeof text);
    show_call(ludo_buffer_graph, 41, sizeof text);
    show_call(ludo_buffer_graph, UINT64_MAX, sizeof text);
    show_call(ludo_buffer_graph, 0, 0);
    show_call(ludo_buffer_graph, 1, 171);
    show_call(ludo_buffer_graph, MOST_STROKES, 4286);

    /* enq and deq in the full buffer: the count goes down to 1, so neither flag may be set after it */
    printf("init reset enq deq empty full | rejected\n");
    show_run("110000\n001010\n001000\n001101\n000000\n");
    show_run("110000\n001010\n001000\n001101\n000001\n");
}

int main(void) {
    show_dearest();
    show_buffers();
    return 0;
}
