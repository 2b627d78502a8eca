/* A small console: reads a trace file by name, asks for every trace in it, and says the answers in words.
 *
 * Build, in the repository's root, after `rt lib` in crates/console and `mkdir -p target`:
 *   gcc -O2 -Iinclude -o target/console examples/console.c crates/console/out/libconsole.a
 */
#include "sklandupa.h"

#include <stdio.h>

static const uint32_t budget = 1000000;

/* The longest file, and a byte more, so that a longer one is seen to be too long. */
static uint8_t file[65536];
static uint8_t room[SKLANDUPA_ROOM];
static uint8_t area[SKLANDUPA_AREA];

static uint32_t number_at(const uint8_t *bytes) {
    return bytes[0] | (uint32_t)bytes[1] << 8 | (uint32_t)bytes[2] << 16 | (uint32_t)bytes[3] << 24;
}

static void say_event(uint8_t kind, uint8_t tablet) {
    switch (kind) {
    case SKLANDUPA_EVENT_READ:
        printf("  tablet %u reads the sheet\n", tablet);
        break;
    case SKLANDUPA_EVENT_WRITE:
        printf("  tablet %u writes the sheet\n", tablet);
        break;
    case SKLANDUPA_EVENT_STABILIZE:
        printf("  all tablets have come to rest\n");
        break;
    case SKLANDUPA_EVENT_UP:
        printf("  tablet %u uploads, unseen\n", tablet);
        break;
    case SKLANDUPA_EVENT_DOWN:
        printf("  tablet %u downloads, unseen\n", tablet);
        break;
    }
}

/* Whether the whole file is refused, so that no further trace needs to be asked. */
static int file_refused(uint32_t status) {
    return status > SKLANDUPA_REFUSED && status < SKLANDUPA_REFUSED + SKLANDUPA_REFUSAL_TRACE;
}

/* Asks for one trace, says the answer, and hands back the status. */
static uint32_t ask(size_t length, uint32_t trace) {
    uint32_t status = sklandupa_explain(file, length, trace, budget, room, sizeof room, area, sizeof area);
    uint32_t points = number_at(area), events = number_at(area + 4), place = number_at(area + 8);
    if (status == SKLANDUPA_REFUSED + SKLANDUPA_REFUSAL_TRACE) return status;
    if (file_refused(status)) {
        printf("the file is refused by %u at byte %u: nothing can be said of it\n", status - SKLANDUPA_REFUSED, place);
        return status;
    }
    printf("trace %u: ", trace);
    switch (status) {
    case SKLANDUPA_EXPLAINED:
        printf("explained. The service could have behaved so (points: %u):\n", points);
        for (uint32_t i = 0; i < events; i++) say_event(room[2 * i], room[2 * i + 1]);
        break;
    case SKLANDUPA_UNEXPLAINED:
        printf("unexplained. The service could not have behaved so, in any order (points: %u)\n", points);
        break;
    case SKLANDUPA_UNDECIDED:
        printf("undecided. No answer within %u points; this is not \"unexplained\"\n", points);
        break;
    default:
        printf("refused by %u: nothing can be said of it\n", status - SKLANDUPA_REFUSED);
    }
    return status;
}

int main(int count, char **words) {
    if (count != 2) {
        fprintf(stderr, "usage: console FILE\n");
        return 2;
    }
    FILE *opened = fopen(words[1], "rb");
    if (!opened) {
        perror(words[1]);
        return 2;
    }
    size_t length = fread(file, 1, sizeof file, opened);
    fclose(opened);
    uint32_t status = 0;
    for (uint32_t trace = 1; status != SKLANDUPA_REFUSED + SKLANDUPA_REFUSAL_TRACE && !file_refused(status); trace++)
        status = ask(length, trace);
    return file_refused(status);
}
