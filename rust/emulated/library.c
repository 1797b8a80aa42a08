/*
 * The x86-64 program that makes the calls of the stand-in. It is linked with the archive that the
 * checker leaves, and ends when the stand-in's process does.
 */

#include "call.h"

/* The kit has the x86-64 C library without its headers: these are what is used of it. */
_Noreturn void exit(int status);
void *mmap(void *at, size_t length, int allowed, int kind, int descriptor, long offset);
long read(int from, void *to, size_t length);
long write(int to, const void *from, size_t length);

enum { READABLE = 1, WRITABLE = 2, SHARED = 1 };

/* Notes a reading; n are the numbers of the call. */
static mundrefol_noted update(mundrefol_log *log, const uint64_t n[NUMBERS])
{
    return mundrefol_update(log, (uint16_t)n[0], (uint16_t)n[1], n[2] != 0, (uint16_t)n[3], (uint16_t)n[4]);
}

/* The answer to a call: n are its numbers, b its buffers, len their lengths. */
static call_answer answer_of(const call *made, uint8_t *room)
{
    const mundrefol_frame frame = made->frame;
    const uint64_t *n = made->numbers, *len = made->lengths;
    void *b[BUFFERS];
    for (int i = 0; i < BUFFERS; i++)
        b[i] = room + made->places[i];
    switch ((call_job)made->job) {
    case READ:
        return (call_answer){.contents = mundrefol_read(b[0], len[0], b[1], len[1], b[2], len[2], b[3], len[3])};
    case EVOLUTION_HOLDS:
        return (call_answer){.holds = mundrefol_evolution_holds(b[0], len[0], n[0], b[1], len[1], n[1], n[2])};
    case MARK:
        return (call_answer){.answer = mundrefol_mark(frame, b[0], len[0], b[1], len[1])};
    case RUN_TO:
        return (call_answer){.answer = mundrefol_run_to(frame, b[0], len[0], b[1], len[1], n[0], b[2], len[2])};
    case PLAN:
        return (call_answer){.answer = mundrefol_plan(frame, b[0], len[0], b[1], len[1], b[2], len[2])};
    case MULTI_RUN_TO:
        return (call_answer){.answer = mundrefol_multi_run_to(frame, b[0], len[0], b[1], len[1], n[0], b[2], len[2])};
    case MULTI_LIST:
        return (call_answer){.answer = mundrefol_multi_list(frame, b[0], len[0], b[1], len[1], b[2], len[2])};
    case SHORTEN:
        return (call_answer){.answer = mundrefol_shorten(frame, b[0], len[0], b[1], len[1])};
    case EXPECTED:
        return (call_answer){.answer = mundrefol_expected(frame, b[0], len[0], b[1], len[1], b[2], len[2], b[3], len[3])};
    case MULTI_EXPECTED:
        return (call_answer){.answer = mundrefol_multi_expected(frame, b[0], len[0], b[1], len[1], b[2], len[2], b[3], len[3])};
    case UPDATE:
        return (call_answer){.noted = update(b[0], n)};
    }
    exit(1);
}

int main(void)
{
    uint8_t turn;
    call_memory *memory = mmap(NULL, sizeof *memory, READABLE | WRITABLE, SHARED, MEMORY, 0);
    if (memory == (void *)-1)
        return 1;
    while (read(SOCKET, &turn, 1) == 1) {
        memory->answer = answer_of(&memory->made, memory->room);
        if (write(SOCKET, &turn, 1) != 1)
            return 1;
    }
    return 0;
}
