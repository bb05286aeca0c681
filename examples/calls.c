/* Ludopoplar from C: builds the monitor of a small graph, writes its AIGER file and reads it back, runs a
   trace on it, tells its rejections in a million, shows what a graph without marks means, signals of several
   wires, and two refusals. At the repository's root:

     cc -std=c99 -Iinclude -o calls examples/calls.c crates/ludopoplar/out/libludopoplar.a && ./calls */
#include <inttypes.h>
#include <stdio.h>
#include <string.h>

#include "ludopoplar.h"

/* in a cycle of init, if p holds then q must hold */
static const char graph[] = "S\tp\nS\tq\nV\ta\nV\tb\nE\ta\tb\tt\tp\tq\n";

/* the same and a loop on b; no edge has mark t */
#define UNMARKED "S\tp\nS\tq\nV\ta\nV\tb\nE\ta\tb\t-\tp\tq\nE\tb\tb\t-\tp\t1\n"

/* in a pull the handle's counter and the one that is shown, eight wires each, must be alike */
#define HANDLE "S\tpull\nS\thandle\t8\nS\tshown\t8\nV\ta\n"
#define ALIKE HANDLE "E\ta\ta\tt\tpull\thandle==shown\n"
#define UNEQUAL HANDLE "E\ta\ta\tt\tpull\thandle==pull\n"

/* a cycle a line: init, p, q */
static const char trace[] = "110\n111\n010\n";

/* buffers that are long enough for every netlist, and verdicts for this trace */
static uint16_t made[8195], net[8195];
static uint8_t file[65536], verdicts[3];
static uint64_t latches[4094], values[4096];

#define LENGTH(array) (sizeof(array) / sizeof(array)[0])

/* Whether a call was accepted; says so where it was not. */
static int accepted(const char *call, uint64_t code) {
    if (code != 0)
        printf("%s refused: number %" PRIu32 ", line %" PRIu32 "\n", call, LUDO_NUMBER(code), LUDO_LINE(code));
    return code == 0;
}

static const uint8_t *bytes(const char *text) { return (const uint8_t *)text; }

/* Judges one cycle. */
static int judge(const char *label, const char *text, const char *cycle) {
    uint64_t gates = 0, word = 0;
    uint32_t cycles = 0, rejected = 0;

    if (!accepted("build", ludo_build(bytes(text), strlen(text), net, LENGTH(net), &gates)) ||
        !accepted("start", ludo_start(net, LENGTH(net), latches, LENGTH(latches), &cycles, &rejected)) ||
        !accepted("step", ludo_step(net, LENGTH(net), bytes(cycle), strlen(cycle), latches, LENGTH(latches),
                                    values, LENGTH(values), &cycles, &rejected, &word)))
        return 0;
    printf("%s: gates %" PRIu64 ", %s\n", label, gates, rejected == 0 ? "accepted" : "rejected");
    return 1;
}

int main(void) {
    uint64_t gates = 0, length = 0, numbers = 0, verdict = 0, whole = 0, remainder = 0;
    uint32_t cycles = 0, rejected = 0;
    size_t i;

    if (!accepted("build", ludo_build(bytes(graph), strlen(graph), made, LENGTH(made), &gates)))
        return 1;
    printf("gates %" PRIu64 "\n", gates);

    if (!accepted("write", ludo_write(made, LENGTH(made), file, LENGTH(file), &length)))
        return 1;
    fwrite(file, 1, (size_t)length, stdout);

    if (!accepted("read", ludo_read(file, (size_t)length, net, LENGTH(net), &numbers)))
        return 1;
    printf("numbers %" PRIu64 ", %s\n", numbers, memcmp(net, made, sizeof net) == 0 ? "as built" : "not as built");

    if (!accepted("start", ludo_start(net, (size_t)numbers, latches, LENGTH(latches), &cycles, &rejected)))
        return 1;
    if (!accepted("run", ludo_run(net, (size_t)numbers, bytes(trace), strlen(trace), latches, LENGTH(latches),
                                  values, LENGTH(values), verdicts, LENGTH(verdicts), &cycles, &rejected, &verdict)))
        return 1;
    printf("verdicts");
    for (i = 0; i < LENGTH(verdicts); i++)
        printf(" %d", verdicts[i]);
    printf("\ncycles %" PRIu32 ", rejected %" PRIu32 ", ", cycles, rejected);
    printf("verdict %s\n", verdict == 0 ? "accepted" : "rejected");

    if (!accepted("per million", ludo_per_million(cycles, rejected, &whole, &remainder)))
        return 1;
    printf("rejected in a million %" PRIu64 ", remainder %" PRIu64 "\n", whole, remainder);

    /* where no edge has mark t all are terminal, unless the first line is M terminal; init and p without q */
    if (!judge("no mark", UNMARKED, "110") || !judge("no mark, M strong", "M\tstrong\n" UNMARKED, "110") ||
        !judge("no mark, M terminal", "M\tterminal\n" UNMARKED, "110"))
        return 1;

    /* init, pull, then the wires of each counter, the lowest first */
    if (!judge("eight wires, alike", ALIKE, "11" "10110100" "10110100") ||
        !judge("eight wires, the highest unlike", ALIKE, "11" "10110100" "10110101") ||
        !judge("one wire of each", HANDLE "E\ta\ta\tt\tpull\thandle[6]=shown[6]\n", "11" "10110100" "10110101"))
        return 1;

    /* widths that do not fit */
    accepted("build", ludo_build(bytes(UNEQUAL), strlen(UNEQUAL), made, LENGTH(made), &gates));

    /* a vertex without a name */
    accepted("build", ludo_build(bytes("V\n"), 2, made, LENGTH(made), &gates));
    return 0;
}
