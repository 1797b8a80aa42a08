/*
 * The entry points of the header where the archive's x86-64 code cannot be linked: each hands its call,
 * with the buffers, to a program under the emulator that is linked with the archive (library.c), one
 * such program a thread, and takes back the answer and the buffers.
 *
 * START is the path of the script that runs a program under the emulator, LIBRARY that of the program.
 */

#include <spawn.h>
#include <stdio.h>
#include <stdlib.h>
#include <string.h>
#include <sys/mman.h>
#include <sys/socket.h>
#include <unistd.h>

#include "call.h"

extern char **environ;

/* The bytes around each buffer in the room, which no call changes. */
enum { GUARD = 0xA5 };

/* A lent buffer of so many elements of a size; to is null if it is only read. */
typedef struct { const void *from; void *to; size_t length, size; } lent;

#define READS(buffer, length) {buffer, NULL, length, sizeof *(buffer)}
#define WRITES(buffer, length) {buffer, buffer, length, sizeof *(buffer)}

/* What this thread shares with its program, once that is started, and the socket to it. */
static _Thread_local call_memory *memory;
static _Thread_local int program;

static _Noreturn void fail(const char *why)
{
    fprintf(stderr, "stand-in: %s\n", why);
    abort();
}

/* Starts the program with one end of a socket, and the shared memory. */
static bool start_with(int end, int shared)
{
    pid_t process;
    posix_spawn_file_actions_t actions;
    char *const arguments[] = {START, LIBRARY, NULL};
    return posix_spawn_file_actions_init(&actions) == 0
        && posix_spawn_file_actions_adddup2(&actions, end, SOCKET) == 0
        && posix_spawn_file_actions_adddup2(&actions, shared, MEMORY) == 0
        && posix_spawn(&process, START, &actions, NULL, arguments, environ) == 0
        && posix_spawn_file_actions_destroy(&actions) == 0;
}

/* Makes the memory and the socket of this thread, and starts its program. */
static void start(void)
{
    int ends[2];
    int shared = memfd_create("call", MFD_CLOEXEC);
    if (shared < 0 || ftruncate(shared, sizeof *memory) != 0)
        fail("there is no memory to share");
    memory = mmap(NULL, sizeof *memory, PROT_READ | PROT_WRITE, MAP_SHARED, shared, 0);
    if (memory == MAP_FAILED)
        fail("there is no memory to share");
    if (socketpair(AF_UNIX, SOCK_STREAM | SOCK_CLOEXEC, 0, ends) != 0 || !start_with(ends[1], shared))
        fail("the library's program " LIBRARY " cannot be started by " START);
    program = ends[0];
    close(ends[1]);
    close(shared);
}

/* Has the program make the call, and waits for it. */
static void make(void)
{
    uint8_t turn = 0;
    if (send(program, &turn, 1, MSG_NOSIGNAL) != 1 || recv(program, &turn, 1, 0) != 1)
        fail("the library's program has ended");
}

/* How many guard bytes stand after a buffer of so many bytes. */
static size_t guards_after(size_t bytes) { return 2 * ALIGNED - bytes % ALIGNED; }

/* Lays out a buffer at a place of the room, and guard bytes after it; answers the next place. */
static size_t lay_out(size_t place, const lent *buffer)
{
    size_t bytes = buffer->length * buffer->size;
    if (bytes > ROOM || ROOM - bytes < place + guards_after(bytes))
        fail("the buffers of a call are too long");
    if (bytes > 0)
        memcpy(memory->room + place, buffer->from, bytes);
    memset(memory->room + place + bytes, GUARD, guards_after(bytes));
    return place + bytes + guards_after(bytes);
}

/* Ends the process if one of so many bytes from a place of the room on is not a guard byte. */
static void check_guards(size_t place, size_t bytes)
{
    for (size_t end = place + bytes; place < end; place++)
        if (memory->room[place] != GUARD)
            fail("the library wrote outside the buffers");
}

/* Takes back a buffer that was laid out at a place. */
static void take_back(size_t place, const lent *buffer)
{
    size_t bytes = buffer->length * buffer->size;
    check_guards(place + bytes, guards_after(bytes));
    if (bytes > 0 && buffer->to != NULL)
        memcpy(buffer->to, memory->room + place, bytes);
    else if (bytes > 0 && memcmp(buffer->from, memory->room + place, bytes) != 0)
        fail("the library wrote a buffer that is only read");
}

/* Lays out a call with its buffers, guard bytes before the first and after each. */
static void lay_out_call(call *made, const lent buffers[BUFFERS])
{
    size_t place = ALIGNED;
    memset(memory->room, GUARD, ALIGNED);
    for (int i = 0; i < BUFFERS; i++) {
        made->places[i] = place;
        made->lengths[i] = buffers[i].length;
        place = lay_out(place, &buffers[i]);
    }
    memory->made = *made;
}

/* The library's answer to a call; the places and lengths of its buffers are filled in here. */
static call_answer answer_of(call made, const lent buffers[BUFFERS])
{
    if (memory == NULL)
        start();
    lay_out_call(&made, buffers);
    make();
    check_guards(0, ALIGNED);
    for (int i = 0; i < BUFFERS; i++)
        take_back(made.places[i], &buffers[i]);
    return memory->answer;
}

mundrefol_contents mundrefol_read(const uint8_t *file, size_t file_len, uint8_t *table, size_t table_len,
                                  uint16_t *words, size_t words_len, mundrefol_evolution *records, size_t records_len)
{
    const lent buffers[BUFFERS] = {READS(file, file_len), WRITES(table, table_len), WRITES(words, words_len),
                                   WRITES(records, records_len)};
    return answer_of((call){.job = READ}, buffers).contents;
}

bool mundrefol_evolution_holds(const mundrefol_evolution *records, size_t records_len, size_t evolution,
                               const uint8_t *file, size_t file_len, size_t inputs, size_t setting)
{
    const lent buffers[BUFFERS] = {READS(records, records_len), READS(file, file_len)};
    return answer_of((call){.job = EVOLUTION_HOLDS, .numbers = {evolution, inputs, setting}}, buffers).holds;
}

mundrefol_answer mundrefol_mark(mundrefol_frame frame, const uint8_t *table, size_t table_len, uint16_t *ranks, size_t ranks_len)
{
    const lent buffers[BUFFERS] = {READS(table, table_len), WRITES(ranks, ranks_len)};
    return answer_of((call){.job = MARK, .frame = frame}, buffers).answer;
}

mundrefol_answer mundrefol_run_to(mundrefol_frame frame, const uint8_t *table, size_t table_len, uint16_t *ranks, size_t ranks_len,
                                  size_t couple, uint8_t *run, size_t run_len)
{
    const lent buffers[BUFFERS] = {READS(table, table_len), WRITES(ranks, ranks_len), WRITES(run, run_len)};
    return answer_of((call){.job = RUN_TO, .numbers = {couple}, .frame = frame}, buffers).answer;
}

mundrefol_answer mundrefol_plan(mundrefol_frame frame, const uint8_t *table, size_t table_len, uint16_t *ranks, size_t ranks_len,
                                uint8_t *plan, size_t plan_len)
{
    const lent buffers[BUFFERS] = {READS(table, table_len), WRITES(ranks, ranks_len), WRITES(plan, plan_len)};
    return answer_of((call){.job = PLAN, .frame = frame}, buffers).answer;
}

mundrefol_answer mundrefol_multi_run_to(mundrefol_frame frame, const uint8_t *table, size_t table_len, uint16_t *ranks, size_t ranks_len,
                                        size_t couple, uint8_t *run, size_t run_len)
{
    const lent buffers[BUFFERS] = {READS(table, table_len), WRITES(ranks, ranks_len), WRITES(run, run_len)};
    return answer_of((call){.job = MULTI_RUN_TO, .numbers = {couple}, .frame = frame}, buffers).answer;
}

mundrefol_answer mundrefol_multi_list(mundrefol_frame frame, const uint8_t *table, size_t table_len, uint16_t *ranks, size_t ranks_len,
                                      uint8_t *list, size_t list_len)
{
    const lent buffers[BUFFERS] = {READS(table, table_len), WRITES(ranks, ranks_len), WRITES(list, list_len)};
    return answer_of((call){.job = MULTI_LIST, .frame = frame}, buffers).answer;
}

mundrefol_answer mundrefol_shorten(mundrefol_frame frame, const uint8_t *table, size_t table_len, uint8_t *plan, size_t plan_len)
{
    const lent buffers[BUFFERS] = {READS(table, table_len), WRITES(plan, plan_len)};
    return answer_of((call){.job = SHORTEN, .frame = frame}, buffers).answer;
}

mundrefol_answer mundrefol_expected(mundrefol_frame frame, const uint8_t *table, size_t table_len, const uint16_t *words, size_t words_len,
                                    const uint8_t *run, size_t run_len, uint16_t *readings, size_t readings_len)
{
    const lent buffers[BUFFERS] = {READS(table, table_len), READS(words, words_len), READS(run, run_len),
                                   WRITES(readings, readings_len)};
    return answer_of((call){.job = EXPECTED, .frame = frame}, buffers).answer;
}

mundrefol_answer mundrefol_multi_expected(mundrefol_frame frame, const uint8_t *table, size_t table_len,
                                          const uint16_t *words, size_t words_len, const uint8_t *run, size_t run_len,
                                          uint16_t *readings, size_t readings_len)
{
    const lent buffers[BUFFERS] = {READS(table, table_len), READS(words, words_len), READS(run, run_len),
                                   WRITES(readings, readings_len)};
    return answer_of((call){.job = MULTI_EXPECTED, .frame = frame}, buffers).answer;
}

mundrefol_noted mundrefol_update(mundrefol_log *log, uint16_t run, uint16_t change, bool second, uint16_t expected, uint16_t seen)
{
    const lent buffers[BUFFERS] = {WRITES(log, 1)};
    return answer_of((call){.job = UPDATE, .numbers = {run, change, second, expected, seen}}, buffers).noted;
}
