/* The session page from C: the sheet that goes on the wall, of a run of three cycles; then of small runs and of
   the longest, and one line for each way to be refused. Each line of a page stands between bars; of a page of
   more than four lines the first and the last two are shown. At the repository's root:

     cc -std=c99 -Iinclude -o session examples/session.c crates/ludopoplar/out/libludopoplar.a && ./session */
#include <inttypes.h>
#include <stdio.h>
#include <string.h>

#include "ludopoplar.h"

/* in a cycle of init, if p holds then q must hold; a cycle a line: init, p, q */
#define GRAPH "S\tp\nS\tq\nV\ta\nV\tb\nE\ta\tb\tt\tp\tq\n"
#define TRACE "110\n111\n010\n"

/* a literal as the pointer and the length that a call takes */
#define BYTES(literal) (const uint8_t *)(literal), sizeof(literal) - 1
#define LENGTH(array) (sizeof(array) / sizeof(array)[0])

#define A24 "aaaaaaaaaaaaaaaaaaaaaaaa"
#define TEN "\1\1\1\1\1\1\1\1\1\1"

/* the bytes of a line with its LF, and of the longest page */
enum { LINE = 81, LONGEST = 4246911 };

/* the longest page and something more; as many verdicts as a run can have, and one too many */
static uint8_t page[LONGEST + LINE], accepted[524288], rejected[524288], too_many[524289];

/* Whether the page buffer has from here on what stood in it before the call. */
static int untouched(size_t from) {
    size_t i;

    for (i = from; i < sizeof page && page[i] == '#'; i++)
        ;
    return i == sizeof page;
}

/* Makes the call, with the first bytes of the page buffer lent. */
static void show(const char *label, const uint8_t *name, size_t name_len,
                 const uint8_t *verdicts, size_t verdicts_len, size_t page_len) {
    uint64_t length = UINT64_MAX;
    uint64_t code;
    size_t lines, i;

    memset(page, '#', sizeof page);
    code = ludo_session_page(name, name_len, verdicts, verdicts_len, page, page_len, &length);
    printf("%s | ", label);
    if (code != 0) {
        printf("%" PRIu32 "@%" PRIu32 " | ", LUDO_NUMBER(code), LUDO_LINE(code));
        printf("%s\n", length == UINT64_MAX && untouched(0) ? "all as it was" : "changed");
        return;
    }
    if (length > page_len || length % LINE != 0) {
        printf("no page\n");
        return;
    }
    printf("%" PRIu64 " bytes | %s\n", length, untouched((size_t)length) ? "the rest as it was" : "changed");
    lines = (size_t)length / LINE;
    for (i = 0; i < lines; i++)
        if (lines <= 4 || i == 0 || i + 2 >= lines)
            printf("|%.80s|%s", (const char *)page + i * LINE, page[i * LINE + 80] == '\n' ? "\n" : " no LF\n");
}

/* Runs the trace on the graph and shows its page. */
static int show_run(void) {
    static uint16_t net[8194];
    static uint64_t latches[4094], values[4096];
    uint8_t verdicts[3];
    uint64_t gates, verdict;
    uint32_t cycles, broken;

    if (ludo_build(BYTES(GRAPH), net, LENGTH(net), &gates) != 0 ||
        ludo_start(net, LENGTH(net), latches, LENGTH(latches), &cycles, &broken) != 0 ||
        ludo_run(net, LENGTH(net), BYTES(TRACE), latches, LENGTH(latches), values, LENGTH(values),
                 verdicts, LENGTH(verdicts), &cycles, &broken, &verdict) != 0)
        return 0;
    show("stroke_rule; the run of 110, 111, 010", BYTES("stroke_rule"), verdicts, cycles, sizeof page);
    return 1;
}

int main(void) {
    memset(rejected, 1, sizeof rejected);

    printf("name; verdicts | bytes or refused | the rest\n");
    if (!show_run())
        return 1;
    show("G; 100", BYTES("G"), BYTES("\1\0\0"), sizeof page);
    show("G; none", BYTES("G"), BYTES(""), sizeof page);
    show("G; none, 162 bytes lent", BYTES("G"), BYTES(""), 162);
    show("G; 000", BYTES("G"), BYTES("\0\0\0"), sizeof page);
    show("24 a; eleven 1", BYTES(A24), BYTES(TEN "\1"), sizeof page);
    show("7up; 01", BYTES("7up"), BYTES("\0\1"), sizeof page);
    show("7up; 110", BYTES("7up"), BYTES("\1\1\0"), sizeof page);
    show("_; ten 1", BYTES("_"), BYTES(TEN), sizeof page);
    show("Z; twenty 1", BYTES("Z"), BYTES(TEN TEN), sizeof page);
    show("G; 524288 times 0", BYTES("G"), accepted, sizeof accepted, sizeof page);
    show("G; 524288 times 1", BYTES("G"), rejected, sizeof rejected, sizeof page);
    show("G; 524288 times 1, 4246911 bytes lent", BYTES("G"), rejected, sizeof rejected, LONGEST);

    show("empty; 1", BYTES(""), BYTES("\1"), sizeof page);
    show("25 a; 1", BYTES(A24 "a"), BYTES("\1"), sizeof page);
    show("a b; 1", BYTES("a b"), BYTES("\1"), sizeof page);
    show("a-b; 1", BYTES("a-b"), BYTES("\1"), sizeof page);
    show("byte e9; 1", BYTES("\xe9"), BYTES("\1"), sizeof page);
    show("G; 2", BYTES("G"), BYTES("\2"), sizeof page);
    show("G; 2, 161 bytes lent", BYTES("G"), BYTES("\2"), 161);
    show("empty; 524289 times 0", BYTES(""), too_many, sizeof too_many, sizeof page);
    show("G; 524289 times 0", BYTES("G"), too_many, sizeof too_many, sizeof page);
    show("G; none, 161 bytes lent", BYTES("G"), BYTES(""), 161);
    show("G; 524288 times 1, 4246910 bytes lent", BYTES("G"), rejected, sizeof rejected, LONGEST - 1);
    show("empty; none, 0 bytes lent", BYTES(""), BYTES(""), 0);
    return 0;
}
