/* The packed form from C: writes the circuit of a small graph as an AIGER binary file, shows its bytes, reads it
   back and compares the numbers with those of the text form; the same with two outputs; what is refused in a
   packed file, in a line or among the bytes; and a buffer that is too short. At the repository's root:

     cc -std=c99 -Iinclude -o packed examples/packed.c crates/ludopoplar/out/libludopoplar.a && ./packed */
#include <inttypes.h>
#include <stdio.h>
#include <string.h>

#include "ludopoplar.h"

/* in a cycle of init, if p holds then q must hold */
static const char graph[] = "S\tp\nS\tq\nV\ta\nV\tb\nE\ta\tb\tt\tp\tq\n";

#define LENGTH(array) (sizeof(array) / sizeof(array)[0])

/* buffers that are long enough for every netlist */
static uint16_t made[8195], net[8195], same[8195];
static uint8_t file[65536], text[65536];

static const uint8_t *bytes(const char *string) { return (const uint8_t *)string; }

/* Whether a call was accepted; says so where it was not. */
static int accepted(const char *call, uint64_t code) {
    if (code != 0)
        printf("%s refused: number %" PRIu32 ", line %" PRIu32 "\n", call, LUDO_NUMBER(code), LUDO_LINE(code));
    return code == 0;
}

/* Shows bytes in hexadecimal, sixteen a row. */
static void show(const uint8_t *from, size_t count) {
    size_t i;

    for (i = 0; i < count; i++)
        printf("%02x%c", from[i], i % 16 == 15 || i + 1 == count ? '\n' : ' ');
}

/* Writes the netlist in both forms and reads both; shows the packed file, whose length it puts into *length. */
static int both(uint64_t *length) {
    uint64_t text_length = 0, numbers = 0, same_numbers = 0;

    if (!accepted("packed write", ludo_write_packed(made, LENGTH(made), file, LENGTH(file), length)) ||
        !accepted("write", ludo_write(made, LENGTH(made), text, LENGTH(text), &text_length)))
        return 0;
    printf("packed %" PRIu64 " bytes, text %" PRIu64 "\n", *length, text_length);
    show(file, (size_t)*length);
    if (!accepted("read", ludo_read(file, (size_t)*length, net, LENGTH(net), &numbers)) ||
        !accepted("read", ludo_read(text, (size_t)text_length, same, LENGTH(same), &same_numbers)))
        return 0;
    printf("numbers %" PRIu64 ", %s, %s\n", numbers,
           memcmp(net, made, sizeof net) == 0 ? "as built" : "not as built",
           numbers == same_numbers && memcmp(net, same, sizeof net) == 0 ? "as the text's" : "not as the text's");
    return 1;
}

/* Reads a packed file that is damaged. */
static void damaged(const char *label, const uint8_t *packed, size_t length) {
    uint64_t numbers = 0;

    printf("%s: ", label);
    if (accepted("read", ludo_read(packed, length, net, LENGTH(net), &numbers)))
        printf("numbers %" PRIu64 "\n", numbers);
}

int main(void) {
    uint64_t gates = 0, length = 0;
    size_t end;
    uint8_t was;

    if (!accepted("build", ludo_build(bytes(graph), strlen(graph), made, LENGTH(made), &gates)) || !both(&length))
        return 1;

    /* the runs of the last gate, 24 with operands 23 and 21: 24 - 23 and 23 - 21 */
    end = (size_t)length;
    printf("last gate: %d %d\n", file[end - 2], file[end - 1]);

    /* a byte too few, a byte too many, a run that begins and does not end */
    damaged("cut", file, end - 1);
    file[end] = '\n';
    damaged("LF after the last gate", file, end + 1);
    file[end - 1] |= 128;
    damaged("unfinished", file, end);

    /* 2 in two bytes, where one is enough */
    file[end] = 0;
    damaged("not shortest", file, end + 1);
    file[end - 1] = 2;

    /* differences that give no operand: 24 - 0 is the gate itself, 23 - 24 is below 0 */
    was = file[end - 2];
    file[end - 2] = 0;
    damaged("r0 as large as the gate", file, end);
    file[end - 2] = was;
    file[end - 1] = 24;
    damaged("r1 below 0", file, end);
    file[end - 1] = 2;

    /* the lines are refused as those of a text, by their place in this file: a latch past the limit, and an
       output that is missing */
    damaged("latch", bytes("aig 2 1 1 1 0\n6\n5\n"), 18);
    damaged("no output", bytes("aig 2 1 1 1 0\n2\n"), 16);
    damaged("first word", bytes("AIG 1 1 0 1 0\n2\n"), 16);
    damaged("mended", file, end);

    /* two outputs; the file needs each of its bytes */
    if (!accepted("build", ludo_build_checked(bytes(graph), strlen(graph), made, LENGTH(made), &gates)) ||
        !both(&length))
        return 1;
    accepted("packed write", ludo_write_packed(made, LENGTH(made), file, (size_t)length - 1, &length));
    made[3] = 3;
    accepted("packed write", ludo_write_packed(made, LENGTH(made), file, LENGTH(file), &length));
    return 0;
}
