/* The second output from C: sessions that pass because nothing was ever tested, beside sessions that were; the
   circuit's file, the words of a step with a constant, a circuit of one output, and two refusals. At the
   repository's root:

     cc -std=c99 -Iinclude -o checked examples/checked.c crates/ludopoplar/out/libludopoplar.a && ./checked */
#include <inttypes.h>
#include <stdio.h>
#include <string.h>

#include "ludopoplar.h"

/* while the handle is pulled the flywheel must gain speed; a cycle a line: init, pull, spin */
#define STROKE "S\tpull\nS\tspin\nV\ta\nE\ta\ta\t-\t!pull\t1\nE\ta\ta\tt\tpull\tspin\n"

/* in a cycle of init, if p holds then q must hold */
#define SMALL "S\tp\nS\tq\nV\ta\nV\tb\nE\ta\tb\tt\tp\tq\n"

/* if the unknown k holds, p must hold */
#define UNKNOWN "S\tp\nK\tk\nV\ta\nE\ta\ta\tt\tk\tp\n"

#define LENGTH(array) (sizeof(array) / sizeof(array)[0])

/* buffers that are long enough for every netlist, and verdicts for these traces */
static uint16_t net[8195];
static uint8_t file[65536], verdicts[8];
static uint64_t latches[4094], values[4096], gates;
static uint32_t cycles, rejected, checked;

static const uint8_t *bytes(const char *text) { return (const uint8_t *)text; }

/* Whether a call was accepted; says so where it was not. */
static int accepted(const char *call, uint64_t code) {
    if (code != 0)
        printf("%s refused: number %" PRIu32 ", line %" PRIu32 "\n", call, LUDO_NUMBER(code), LUDO_LINE(code));
    return code == 0;
}

static int build(const char *graph, int with_checked) {
    return accepted("build", with_checked ? ludo_build_checked(bytes(graph), strlen(graph), net, LENGTH(net), &gates)
                                          : ludo_build(bytes(graph), strlen(graph), net, LENGTH(net), &gates));
}

static int start(void) {
    return accepted("start", ludo_start_checked(net, LENGTH(net), latches, LENGTH(latches), &cycles, &rejected, &checked));
}

static int run(const char *trace) {
    uint64_t verdict;

    return accepted("run", ludo_run_checked(net, LENGTH(net), bytes(trace), strlen(trace), latches, LENGTH(latches),
                                            values, LENGTH(values), verdicts, LENGTH(verdicts),
                                            &cycles, &rejected, &checked, &verdict));
}

/* Runs one session, and tells what its tally is worth. */
static int session(const char *label, const char *trace) {
    if (!start() || !run(trace))
        return 0;
    printf("%s: cycles %" PRIu32 ", rejected %" PRIu32 ", checked %" PRIu32, label, cycles, rejected, checked);
    printf(": %s\n", rejected != 0 ? "does not pass" : checked != 0 ? "passes" : "nothing was tested");
    return 1;
}

/* Runs one cycle, and shows the word of each output. */
static int step(const char *cycle) {
    uint64_t word = 0, checked_word = 0;

    if (!accepted("step", ludo_step_checked(net, LENGTH(net), bytes(cycle), strlen(cycle), latches, LENGTH(latches),
                                            values, LENGTH(values), &cycles, &rejected, &checked, &word, &checked_word)))
        return 0;
    printf("%s: accept %016" PRIx64 ", checked %016" PRIx64 "\n", cycle, word, checked_word);
    return 1;
}

int main(void) {
    uint64_t length = 0;

    /* none of the first three has a rejected cycle; the last number tells which of them is worth something */
    if (!build(STROKE, 1) || !session("nobody pulled", "100\n000\n001\n000\n") ||
        !session("init never came", "010\n011\n010\n") ||
        !session("pulled, and speed gained", "100\n011\n011\n000\n") ||
        !session("pulled, and no speed gained", "100\n011\n010\n000\n"))
        return 1;

    /* the file has a line for each output, and a gate for the second */
    if (!build(SMALL, 1) || !accepted("write", ludo_write(net, LENGTH(net), file, LENGTH(file), &length)))
        return 1;
    printf("gates %" PRIu64 "\n", gates);
    fwrite(file, 1, (size_t)length, stdout);

    /* the odd lanes are those in which k holds; the cycle counts once */
    if (!build(UNKNOWN, 1) || !start() || !step("11") || !step("10"))
        return 1;
    printf("cycles %" PRIu32 ", rejected %" PRIu32 ", checked %" PRIu32 "\n", cycles, rejected, checked);

    /* with one output the second word is 0, and the third number does not move */
    if (!build(UNKNOWN, 0) || !start() || !step("10"))
        return 1;
    printf("cycles %" PRIu32 ", rejected %" PRIu32 ", checked %" PRIu32 "\n", cycles, rejected, checked);

    /* but it must have room all the same */
    checked = UINT32_MAX;
    if (!run(""))
        return 1;
    run("10\n");

    /* three outputs */
    net[3] = 3;
    start();
    return 0;
}
