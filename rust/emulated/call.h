/*
 * A call of the library, in the memory that the stand-in shares with the x86-64 program that makes it.
 * The stand-in lays out the call and sends a byte; the program makes the call there and sends it back.
 */
#ifndef CALL_H
#define CALL_H

#include "mundrefol.h"

/* The descriptors that the program starts with: the socket for the bytes, and the memory. */
enum { SOCKET = 0, MEMORY = 3 };

/* At most so many numbers and buffers in a call; what a buffer's place is a multiple of; the bytes of the room. */
enum { NUMBERS = 5, BUFFERS = 4, ALIGNED = 64, ROOM = 1 << 25 };

typedef enum {
    READ, EVOLUTION_HOLDS, MARK, RUN_TO, PLAN, MULTI_RUN_TO, MULTI_LIST, SHORTEN, EXPECTED, MULTI_EXPECTED, UPDATE
} call_job;

/* The job, its numbers in the header's order, its frame, the place in the room and the number of elements of each buffer. */
typedef struct {
    uint64_t job, numbers[NUMBERS];
    mundrefol_frame frame;
    uint64_t places[BUFFERS], lengths[BUFFERS];
} call;

/* The answer of any job. */
typedef union {
    mundrefol_contents contents;
    mundrefol_answer answer;
    mundrefol_noted noted;
    bool holds;
} call_answer;

/* The shared memory: a call, its answer, and the room for its buffers. */
typedef struct {
    call made;
    call_answer answer;
    _Alignas(ALIGNED) uint8_t room[ROOM];
} call_memory;

/* Both sides lay these out alike. */
_Static_assert(__BYTE_ORDER__ == __ORDER_LITTLE_ENDIAN__, "low byte first");
_Static_assert(sizeof(bool) == 1, "bool");
_Static_assert(sizeof(mundrefol_answer) == 16, "answer");
_Static_assert(sizeof(mundrefol_frame) == 88, "frame");
_Static_assert(sizeof(mundrefol_contents) == 128, "contents");
_Static_assert(sizeof(mundrefol_evolution) == 6, "evolution");
_Static_assert(sizeof(mundrefol_entry) == 10, "entry");
_Static_assert(sizeof(mundrefol_log) == 396, "log");
_Static_assert(sizeof(mundrefol_noted) == 24, "noted");
_Static_assert(sizeof(call) == 200, "call");
_Static_assert(sizeof(call_answer) == 128, "call_answer");
_Static_assert(offsetof(call_memory, room) == 384, "call_memory.room");

#endif
