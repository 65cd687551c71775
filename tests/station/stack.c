/* How much stack the exported functions take: each runs on a painted stack of its own, and what is no longer paint was used; what a call of nothing uses is the thread's own.
 * A server has 19.9 KB and a drive 1.0: so a function that copied a server could not pass here. The header's DROBULETS_STACK must be enough. */
#define _GNU_SOURCE
#include "check.h"
#include <pthread.h>
#include <sys/mman.h>

enum { ROOM = 1 << 20, PAINT = 0xC3, MOST = 6 * 1024, MOST_OF_A_STEP = 5 * 1024 };

static drobulets_server *server;
static drobulets_drive *drive;
static uint8_t input[DROBULETS_LONGEST], output[DROBULETS_LONGEST];
static size_t length;
static drobulets_message message;
static drobulets_pieces pieces;

static void nothing(void) {}
static void fresh(void) { drobulets_server_fresh(server, 0); }
static void take(void) { drobulets_server_take(server, input, length, output, sizeof output); }
static void run(void) { drobulets_server_run(server); }
static void run_all(void) { drobulets_server_run_all(server); }
static void wanted(void) { drobulets_server_wanted(server); }
static void counter(void) { drobulets_server_counter(server, 3); }
static void log_entry(void) { drobulets_server_log(server, 0); }
static void result(void) { drobulets_server_result(server, 8, 0); }
static void start(void) { drobulets_drive_start(drive, 0, 8, pieces); }
static void recover(void) { drobulets_drive_recover(drive, 0, 8, pieces, 8); }
static void again(void) { drobulets_drive_again(drive); }
static void move_on(void) { drobulets_drive_move_on(drive); }
static void reply(void) { drobulets_drive_take(drive, input, length); }
static void due(void) { drobulets_drive_due(drive, output, sizeof output); }
static void next_ballot(void) { drobulets_next_ballot(0, 8); }
static void decode(void) { drobulets_decode(input, length); }
static void encode(void) { drobulets_encode(&message, output, sizeof output); }

static void *on_its_stack(void *call)
{
    (*(void (**)(void))call)();
    return NULL;
}

/* The bytes of a fresh stack that the call used, the thread's own among them. */
static size_t used_by(void (*call)(void))
{
    uint8_t *stack = mmap(NULL, ROOM, PROT_READ | PROT_WRITE, MAP_PRIVATE | MAP_ANONYMOUS | MAP_STACK, -1, 0);
    if (stack == MAP_FAILED)
        exit(2);
    memset(stack, PAINT, ROOM);
    pthread_attr_t attributes;
    pthread_t thread;
    pthread_attr_init(&attributes);
    pthread_attr_setstack(&attributes, stack, ROOM);
    if (pthread_create(&thread, &attributes, on_its_stack, &call) != 0)
        exit(2);
    pthread_join(thread, NULL);
    size_t untouched = 0;
    while (untouched < ROOM && stack[untouched] == PAINT)
        untouched++;
    munmap(stack, ROOM);
    return ROOM - untouched;
}

static void measure(const char *name, void (*call)(void), size_t most)
{
    size_t used = used_by(call) - used_by(nothing);
    printf("  %-12s %zu\n", name, used);
    CHECK(used <= most && used <= DROBULETS_STACK);
}

/* Every number but 8 is committed, after 8: so the Commit of 8 runs them all. */
static void commit_all_but_8(void)
{
    for (uint32_t t = 0; t < DROBULETS_NUMBERS; t++) {
        drobulets_message later = message_of(DROBULETS_COMMIT, t, 0);
        later.pieces = pieces;
        later.set.w0 = 1u << 8;
        if (t != 8)
            CHECK(asked(server, later).ran == 0);
    }
}

int main(void)
{
    drobulets_piece put = {0, 3, DROBULETS_PUT, 5};
    pieces = pieces_of(&put, 1);
    server = lent_server(0);
    drive = lent(sizeof *drive);
    message = message_of(DROBULETS_COMMIT, 8, 0);
    message.pieces = pieces;
    length = bytes_of(message, input, sizeof input);
    printf("stack of each call, in bytes:\n");
    measure("fresh", fresh, MOST);
    commit_all_but_8();
    measure("take", take, MOST_OF_A_STEP);
    CHECK(server->records[8].committed.some == 1 && server->log.count == DROBULETS_NUMBERS);
    measure("wanted", wanted, MOST);
    unrun(server);
    measure("run", run, MOST_OF_A_STEP);
    CHECK(server->log.count == 1 && server->log.list[0] == 8);
    unrun(server);
    measure("run_all", run_all, MOST_OF_A_STEP);
    CHECK(server->log.count == DROBULETS_NUMBERS);
    measure("counter", counter, MOST);
    measure("log", log_entry, MOST);
    measure("result", result, MOST);
    measure("recover", recover, MOST);
    measure("again", again, MOST);
    measure("start", start, MOST);
    measure("due", due, MOST);
    measure("move_on", move_on, MOST);
    message = message_of(DROBULETS_PRE_ACCEPT_OK, 8, 0);
    length = bytes_of(message, input, sizeof input);
    measure("reply", reply, MOST);
    CHECK(drive->answers[0].counted == 1);
    measure("next_ballot", next_ballot, MOST);
    measure("decode", decode, MOST);
    measure("encode", encode, MOST);
    free(server);
    free(drive);
    printf("stack: %s\n", failures ? "bad" : "ok");
    return failures != 0;
}
