/* What the benchmarks need from C: libtirpc's codec as rpcgen writes it, the stack that a call uses, and callgrind's counter. */
#define _GNU_SOURCE
#include <drobulets.h>
#include <pthread.h>
#include <stdlib.h>
#include <string.h>
#include <sys/mman.h>
#include <valgrind/callgrind.h>

#include "messages.h"

/* ---- libtirpc. The pieces have a place from the start, so nothing is allocated. */

static piece places[MOST];
static message accept_message = {.code = ACCEPT, .message_u.accept.pieces = {MOST, places}};
static message inquire_message = {.code = INQUIRE};

/* Both give the bytes read or written, 0 on a failure. */
static unsigned coded(int longest, char *bytes, unsigned length, enum xdr_op way)
{
    XDR stream;
    xdrmem_create(&stream, bytes, length, way);
    return xdr_message(&stream, longest ? &accept_message : &inquire_message) ? xdr_getpos(&stream) : 0;
}

unsigned tirpc_decode(int longest, char *bytes, unsigned length) { return coded(longest, bytes, length, XDR_DECODE); }

unsigned tirpc_encode(int longest, char *bytes, unsigned room) { return coded(longest, bytes, room, XDR_ENCODE); }

/* ---- the stack */

enum { ROOM = 1 << 20, PAINT = 0xC3 };

/* What: 1 take, 2 run, 3 run until 0, any other nothing. */
struct call {
    int what;
    drobulets_server *server;
    const uint8_t *input;
    size_t length;
};

static void *on_its_stack(void *argument)
{
    static uint8_t output[DROBULETS_LONGEST];
    const struct call *call = argument;
    switch (call->what) {
    case 1: drobulets_server_take(call->server, call->input, call->length, output, sizeof output); break;
    case 2: drobulets_server_run(call->server); break;
    case 3: drobulets_server_run_all(call->server); break;
    }
    return NULL;
}

/* The bytes of a fresh painted stack that are no longer paint, the thread's own among them. */
size_t stack_used(int what, drobulets_server *server, const uint8_t *input, size_t length)
{
    uint8_t *stack = mmap(NULL, ROOM, PROT_READ | PROT_WRITE, MAP_PRIVATE | MAP_ANONYMOUS | MAP_STACK, -1, 0);
    struct call call = {what, server, input, length};
    pthread_attr_t attributes;
    pthread_t thread;
    if (stack == MAP_FAILED || pthread_attr_init(&attributes) != 0)
        abort();
    memset(stack, PAINT, ROOM);
    if (pthread_attr_setstack(&attributes, stack, ROOM) != 0 || pthread_create(&thread, &attributes, on_its_stack, &call) != 0)
        abort();
    pthread_join(thread, NULL);
    size_t untouched = 0;
    while (untouched < ROOM && stack[untouched] == PAINT)
        untouched++;
    munmap(stack, ROOM);
    return ROOM - untouched;
}

/* ---- instructions, counted when callgrind runs the program */

void count_from(void) { CALLGRIND_ZERO_STATS; }

void count_to(const char *label) { CALLGRIND_DUMP_STATS_AT(label); }
