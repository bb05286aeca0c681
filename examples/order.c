/* Gates in any order, from C: reads AIGER texts whose gates another tool left in no order, shows the numbers of the
   netlist and its file as it is written back; then files that are refused. At the repository's root:

     cc -std=c99 -Iinclude -o order examples/order.c crates/ludopoplar/out/libludopoplar.a && ./order */
#include <inttypes.h>
#include <stdio.h>
#include <string.h>

#include "ludopoplar.h"

#define LENGTH(array) (sizeof(array) / sizeof(array)[0])

/* buffers that are long enough for every netlist */
static uint16_t net[8195];
static uint8_t text[65536];

/* Whether a call was accepted; says so where it was not. */
static int accepted(const char *call, uint64_t code) {
    if (code != 0)
        printf("%s refused: number %" PRIu32 ", line %" PRIu32 "\n", call, LUDO_NUMBER(code), LUDO_LINE(code));
    return code == 0;
}

/* Reads a file and writes it back. */
static void show(const char *label, const char *file) {
    uint64_t numbers = 0, length = 0, i;

    printf("%s: ", label);
    if (!accepted("read", ludo_read((const uint8_t *)file, strlen(file), net, LENGTH(net), &numbers)))
        return;
    printf("numbers");
    for (i = 0; i < numbers; i++)
        printf(" %d", net[i]);
    printf("\n");
    if (accepted("write", ludo_write(net, LENGTH(net), text, LENGTH(text), &length)))
        fwrite(text, 1, (size_t)length, stdout);
}

int main(void) {
    /* 8 = p AND q stands after 10, which takes it: only the lines change places */
    show("lines out of order", "aag 5 2 1 1 2\n2\n4\n6 10\n11\n10 7 8\n8 2 4\n");

    /* the same circuit, in which the gate that is needed first has the higher number: it becomes 8 */
    show("renumbered", "aag 5 2 1 1 2\n2\n4\n6 8\n9\n8 7 10\n10 2 4\n");

    /* each of two gates waits on the other; a gate waits on its own inverse; a variable is defined twice */
    show("on each other", "aag 5 2 1 1 2\n2\n4\n6 8\n9\n8 7 10\n10 8 4\n");
    show("on itself", "aag 5 2 1 1 2\n2\n4\n6 8\n9\n8 7 9\n10 2 4\n");
    show("twice", "aag 5 2 1 1 2\n2\n4\n6 8\n9\n8 7 10\n8 2 4\n");
    return 0;
}
