/* Eight machines on one bench, from C. Places 0 to 3 have rowing machines, 4 to 6 cycling machines, 7 has none. Who is
   served when, also while two machines are always busy; refusals; and each machine's tally. At the repository's root:

     cc -std=c99 -Iinclude -o bench examples/bench.c crates/ludopoplar/out/libludopoplar.a && ./bench */
#include <inttypes.h>
#include <stdio.h>
#include <string.h>

#include "ludopoplar.h"

/* rowing: while the handle is pulled the flywheel must gain speed; a cycle is init, pull, spin */
#define STROKE "S\tpull\nS\tspin\nV\ta\nE\ta\ta\t-\t!pull\t1\nE\ta\ta\tt\tpull\tspin\n"
/* cycling: from init on the lamp must be lit; a cycle is init, lamp */
#define LAMP "S\tlamp\nV\ta\nE\ta\ta\tt\t1\tlamp\n"
/* no rule: a netlist for the place without a machine */
#define NONE "V\ta\n"

/* place k has nets[k], latches[k], queues[k] and bench.place[k], long enough for every netlist; the values serve all */
enum { NET = 8195, LATCHES = 4094, VALUES = 4096 };
static uint16_t nets[8][NET];
static uint64_t latches[8][LATCHES], values[VALUES];
static uint8_t queues[8][16][64];
static ludo_bench bench = {.last = 7};

/* what a turn answers; what arrived for each machine, as a trace; the turns since a cycle has been waiting for it */
static uint64_t served, word, checked_word;
static char arrived[8][128];
static int turns[8];

/* Whether a call was accepted; says so where it was not. */
static int accepted(const char *call, uint64_t code) {
    if (code != 0)
        printf("%s refused: number %" PRIu32 ", line %" PRIu32 "\n", call, LUDO_NUMBER(code), LUDO_LINE(code));
    return code == 0;
}

static int start(uint32_t k, ludo_place *p) {
    return accepted("start", ludo_start_checked(nets[k], NET, latches[k], LATCHES, &p->cycles, &p->rejected, &p->checked));
}

static void add(uint32_t machine, const char *cycle) {
    if (accepted("add", ludo_bench_add(nets[0], 8 * NET, latches[0], 8 * LATCHES, queues[0][0], sizeof queues, (uint32_t *)&bench, 33,
                                       machine, (const uint8_t *)cycle, strlen(cycle))))
        strcat(strcat(arrived[machine], cycle), "\n");
}

/* A turn with so many value words. */
static int turn(size_t words) {
    return accepted("turn", ludo_bench_turn(nets[0], 8 * NET, latches[0], 8 * LATCHES, values, words, queues[0][0], sizeof queues,
                                            (uint32_t *)&bench, 33, &served, &word, &checked_word));
}

/* Shows so many turns, before which machines 1 and 4 are kept busy or not: who is served, how soon, and the cycle. */
static void show_turns(int count, int busy) {
    for (; count > 0; count--) {
        if (busy && bench.place[1].waiting < 2)
            add(1, "111");
        if (busy && bench.place[4].waiting < 2)
            add(4, "11");
        if (!turn(VALUES) || served == 8)
            return;
        for (uint32_t k = 0; k < 8; k++)
            turns[k] += k == served || bench.place[k].waiting > 0;
        printf("machine %" PRIu64 " after %d turn%s: ", served, turns[served], turns[served] == 1 ? "" : "s");
        turns[served] = 0;
        for (uint32_t v = 1; v <= nets[served][1]; v++) /* the inputs */
            putchar(values[v] != 0 ? '1' : '0');
        printf(" %s\n", word != UINT64_MAX ? "rejected" : checked_word != 0 ? "accepted" : "accepted, nothing at stake");
    }
}

int main(void) {
    static const char *const graphs[8] = {STROKE, STROKE, STROKE, STROKE, LAMP, LAMP, LAMP, NONE};
    uint64_t gates, verdict;
    uint8_t verdicts[32];
    uint32_t n;

    for (uint32_t k = 0; k < 8; k++)
        if (!accepted("build", ludo_build_checked((const uint8_t *)graphs[k], strlen(graphs[k]), nets[k], NET, &gates)) || !start(k, &bench.place[k]))
            return 1;

    /* machine 0 comes first, and machine 2's cycles are served in the order of arrival */
    add(5, "11");
    add(2, "110");
    add(2, "111");
    add(0, "100");
    show_turns(4, 0);

    /* machines 1 and 4 always have cycles waiting; each of the others is served within eight turns all the same */
    add(1, "111");
    add(4, "11");
    show_turns(2, 1);
    add(0, "011");
    show_turns(2, 1);
    for (uint32_t k = 0; k < 7; k++)
        add(k, k < 4 ? "010" : "00");
    show_turns(8, 1);

    /* 28: 16 cycles wait for machine 3. 12: it needs 26 values, and nobody is served in its place. A turn frees a slot */
    for (n = 0; n < 17; n++)
        add(3, "111");
    add(6, "10");
    turn(25);
    show_turns(1, 0);
    add(3, "111");

    /* 27: there is no machine 8. 15: a cycle of machine 0 has three bytes. 16: place 7, which nobody uses, has no netlist */
    add(8, "111");
    add(0, "11");
    nets[7][0] = 2;
    add(0, "111");
    turn(VALUES);
    nets[7][0] = 1;

    /* until nothing waits; then each tally, and that of a run of the machine's own cycles without a bench */
    for (n = 0; turn(VALUES) && served != 8; n++)
        ;
    printf("%" PRIu32 " turns more, then idle\n", n);
    for (uint32_t k = 0; k < 8; k++) {
        ludo_place alone, *p = &bench.place[k];
        if (!start(k, &alone) ||
            !accepted("run", ludo_run_checked(nets[k], NET, (const uint8_t *)arrived[k], strlen(arrived[k]), latches[k], LATCHES, values, VALUES,
                                              verdicts, sizeof verdicts, &alone.cycles, &alone.rejected, &alone.checked, &verdict)))
            return 1;
        printf("machine %" PRIu32 ": cycles %" PRIu32 ", rejected %" PRIu32 ", checked %" PRIu32 "; alone %" PRIu32 ", %" PRIu32 ", %" PRIu32 "\n",
               k, p->cycles, p->rejected, p->checked, alone.cycles, alone.rejected, alone.checked);
    }
    return 0;
}
