/* The offending line from C: of the flywheel and handle traces of a session, the line of the cycle that was
   rejected first, where it lies in the caller's own bytes. One line of output a session; small ones, the
   largest, and one for each way to be refused. At the repository's root:

     cc -std=c99 -Iinclude -o broken examples/broken.c crates/ludopoplar/out/libludopoplar.a && ./broken */
#include <inttypes.h>
#include <stdio.h>
#include <string.h>

#include "ludopoplar.h"

/* a cycle a line, two bytes wide */
#define FLYWHEEL "10\n11\n01\n"
#define HANDLE "00\n01\n"

/* a literal as the pointer and the length that a call takes */
#define BYTES(literal) (const uint8_t *)(literal), sizeof(literal) - 1

/* as many cycles as a trace can have, and their verdicts; a trace of one byte too many */
static uint8_t longest[1048576], verdicts[524288], too_long[1048577];

/* Makes both calls on a session. */
static void show(const char *label, uint64_t width, const uint8_t *flywheel, size_t flywheel_len,
                 const uint8_t *handle, size_t handle_len,
                 const uint8_t *flywheel_verdicts, size_t flywheel_verdicts_len,
                 const uint8_t *handle_verdicts, size_t handle_verdicts_len) {
    /* no part of a trace, so that a result which is left as it was shows */
    uint64_t trace = 7, offset = UINT64_MAX, length = UINT64_MAX;
    uint64_t check = ludo_broken_check(width, flywheel, flywheel_len, handle, handle_len,
                                       flywheel_verdicts, flywheel_verdicts_len,
                                       handle_verdicts, handle_verdicts_len);
    uint64_t code = ludo_broken_line(width, flywheel, flywheel_len, handle, handle_len,
                                     flywheel_verdicts, flywheel_verdicts_len,
                                     handle_verdicts, handle_verdicts_len, &trace, &offset, &length);
    const uint8_t *bytes = trace == 0 ? flywheel : handle;
    size_t bytes_len = trace == 0 ? flywheel_len : handle_len;

    printf("%s | ", label);
    if (check == 0)
        printf("none | ");
    else
        printf("%" PRIu32 "@%" PRIu32 " | ", LUDO_NUMBER(check), LUDO_LINE(check));
    if (code != 0 || trace > 1 || offset > bytes_len || length > bytes_len - offset) {
        printf("no part of a trace\n");
        return;
    }
    printf("%s %" PRIu64 " %" PRIu64 " | \"", trace == 0 ? "flywheel" : "handle", offset, length);
    fwrite(bytes + offset, 1, (size_t)length, stdout);
    printf("\"\n");
}

int main(void) {
    size_t i;

    printf("width; flywheel verdicts; handle verdicts | refused | part | line\n");
    show("2; 001; 00", 2, BYTES(FLYWHEEL), BYTES(HANDLE), BYTES("\0\0\1"), BYTES("\0\0"));
    show("2; 010; 01, a tie", 2, BYTES(FLYWHEEL), BYTES(HANDLE), BYTES("\0\1\0"), BYTES("\0\1"));
    show("2; 001; 01", 2, BYTES(FLYWHEEL), BYTES(HANDLE), BYTES("\0\0\1"), BYTES("\0\1"));
    show("2; 000; 11", 2, BYTES(FLYWHEEL), BYTES(HANDLE), BYTES("\0\0\0"), BYTES("\1\1"));
    show("2; 000; 00", 2, BYTES(FLYWHEEL), BYTES(HANDLE), BYTES("\0\0\0"), BYTES("\0\0"));
    show("2, both traces empty", 2, BYTES(""), BYTES(""), BYTES(""), BYTES(""));
    show("2, flywheel trace empty; 01", 2, BYTES(""), BYTES(HANDLE), BYTES(""), BYTES("\0\1"));

    for (i = 0; i < sizeof longest; i += 2)
        memcpy(longest + i, "1\n", 2);
    verdicts[sizeof verdicts - 1] = 1;
    show("1, 524288 lines, only the last rejected", 1, longest, sizeof longest, BYTES(""),
         verdicts, sizeof verdicts, BYTES(""));

    show("0; 001; 00", 0, BYTES(FLYWHEEL), BYTES(HANDLE), BYTES("\0\0\1"), BYTES("\0\0"));
    show("65; 001; 00", 65, BYTES(FLYWHEEL), BYTES(HANDLE), BYTES("\0\0\1"), BYTES("\0\0"));
    show("3; 001; 00", 3, BYTES(FLYWHEEL), BYTES(HANDLE), BYTES("\0\0\1"), BYTES("\0\0"));
    show("2, no last LF; 001; 00", 2, BYTES("10\n11\n01"), BYTES(HANDLE), BYTES("\0\0\1"), BYTES("\0\0"));
    show("2, handle line 0x; 001; 00", 2, BYTES(FLYWHEEL), BYTES("00\n0x\n"), BYTES("\0\0\1"), BYTES("\0\0"));
    show("2, lines 1 and 0; 0; 0", 2, BYTES("1\n"), BYTES("0\n"), BYTES("\0"), BYTES("\0"));
    show("2; 00; 00", 2, BYTES(FLYWHEEL), BYTES(HANDLE), BYTES("\0\0"), BYTES("\0\0"));
    show("2; 002; 00", 2, BYTES(FLYWHEEL), BYTES(HANDLE), BYTES("\0\0\2"), BYTES("\0\0"));
    show("2; 100; 000", 2, BYTES(FLYWHEEL), BYTES(HANDLE), BYTES("\1\0\0"), BYTES("\0\0\0"));
    show("2, flywheel trace empty; 0; 00", 2, BYTES(""), BYTES(HANDLE), BYTES("\0"), BYTES("\0\0"));
    show("0, flywheel of 1048577 bytes", 0, too_long, sizeof too_long, BYTES(HANDLE), BYTES("\0\0\1"), BYTES("\0\0"));
    show("0, handle of 1048577 bytes", 0, BYTES(FLYWHEEL), too_long, sizeof too_long, BYTES("\0\0\1"), BYTES("\0\0"));
    return 0;
}
