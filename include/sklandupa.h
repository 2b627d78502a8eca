/* Sklandupa: whether a synchronising service could have behaved as the tablets of a care home report.
 *
 * One call. It is proved for every content of what it is handed: a damaged file, a foreign one or none. What it cannot see is
 * for the caller to keep:
 *   - each pointer is to as many bytes as its length says, or the length is 0 (the pointer may then be NULL);
 *   - file, room and area do not overlap, and nobody else uses them during the call;
 *   - there is stack enough: 6 MB is enough for every evening.
 */
#ifndef SKLANDUPA_H
#define SKLANDUPA_H

#include <stddef.h>
#include <stdint.h>

#ifdef __cplusplus
extern "C" {
#endif

/* What the call returns. Undecided is not unexplained: the search was stopped by its budget. */
enum {
    SKLANDUPA_EXPLAINED = 0,
    SKLANDUPA_UNEXPLAINED = 1,
    SKLANDUPA_UNDECIDED = 2,
    SKLANDUPA_REFUSED = 10 /* plus the number of the refusal */
};

/* The refusals. */
enum {
    SKLANDUPA_REFUSAL_LENGTH = 1,   /* the file has under 4 or over 65,535 bytes */
    SKLANDUPA_REFUSAL_EDITION = 2,  /* the edition is not 1 */
    SKLANDUPA_REFUSAL_TABLETS = 3,  /* not 1 to 8 tablets */
    SKLANDUPA_REFUSAL_VALUES = 4,   /* not 1 to 64 values */
    SKLANDUPA_REFUSAL_BODIES = 5,   /* not 1 to 16 traces */
    SKLANDUPA_REFUSAL_CONTENTS = 6, /* the contents do not fit the file */
    SKLANDUPA_REFUSAL_RECORD = 7,   /* a record breaks its row of the format */
    SKLANDUPA_REFUSAL_TRACE = 8,    /* there is no trace of that number */
    SKLANDUPA_REFUSAL_ROOM = 9,     /* the room is too short, or the area has not 12 bytes */
    SKLANDUPA_REFUSAL_DEPTH = 10    /* the walk was stopped by its depth */
};

/* The kinds of events in the room: two bytes each, the kind and the tablet (0 where there is none). */
enum {
    SKLANDUPA_EVENT_READ = 1,
    SKLANDUPA_EVENT_WRITE = 2,
    SKLANDUPA_EVENT_STABILIZE = 3,
    SKLANDUPA_EVENT_UP = 5,
    SKLANDUPA_EVENT_DOWN = 6
};

/* The bytes of the result area, and of a room that is enough for every trace of every good file. */
enum { SKLANDUPA_AREA = 12, SKLANDUPA_ROOM = 4608 };

/* Says whether trace number `trace` of the file, counted from 1, can be explained within `budget` points.
 *
 * Explained: the events stand at the front of the room, in their order. With any other answer the room is as it was.
 * The area gets three numbers of 4 bytes, least byte first: the points of the walk, the events of the explanation, and the
 * place of a refusal in the file; each is 0 where there is none. An area that has not 12 bytes is refusal 9 before all else,
 * and stays as it was.
 */
uint32_t sklandupa_explain(const uint8_t *file, size_t file_len, uint32_t trace, uint32_t budget, uint8_t *room,
                           size_t room_len, uint8_t *area, size_t area_len);

#ifdef __cplusplus
}
#endif

#endif
