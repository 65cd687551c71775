/* Commit and run are a single call: what a Commit or a Done runs, the count in its CommitOK, and what a refusal leaves. */
#include "check.h"

#if DROBULETS_VERSION < 300
#error "a Commit runs from 0.3.0 on"
#endif

enum { COMMIT_OK_BYTES = 16 };

static const drobulets_piece PUT_5 = {0, 3, DROBULETS_PUT, 5}, ADD_2 = {0, 3, DROBULETS_ADD, 2};

/* A Commit or a Done of a number with this piece, after the numbers of a word of shard 0. */
static drobulets_message saying(uint32_t code, uint32_t t, drobulets_piece piece, uint64_t earlier)
{
    drobulets_message m = message_of(code, t, 0);
    m.pieces = pieces_of(&piece, 1);
    m.set.w0 = earlier;
    return m;
}

/* How many ran, by the CommitOK. Nothing is ready then. */
static uint32_t ran(drobulets_server *server, drobulets_message message)
{
    drobulets_message reply = asked(server, message), ok = message_of(DROBULETS_COMMIT_OK, message.t, 0);
    ok.server = server->id;
    ok.ran = reply.ran;
    CHECK(same_message(reply, ok));
    drobulets_server *before = lent(sizeof *before);
    *before = *server;
    drobulets_counted one = drobulets_server_run(server), all = drobulets_server_run_all(server);
    CHECK(one.refusal == 0 && one.many == 0 && all.refusal == 0 && all.many == 0 && same_server(server, before));
    free(before);
    return reply.ran;
}

/* T1, and T2 after it: a server where both have run. */
static drobulets_server *pair_run(uint32_t code)
{
    drobulets_server *server = lent_server(0);
    CHECK(ran(server, saying(code, 1, PUT_5, 0)) == 1 && ran(server, saying(code, 2, ADD_2, 2)) == 1);
    CHECK(server->log.count == 2 && server->log.list[0] == 1 && server->log.list[1] == 2);
    CHECK(drobulets_server_counter(server, 3).value == 7 && drobulets_server_result(server, 1, 0).value == 5);
    return server;
}

/* The same, both committed and still to be run. */
static drobulets_server *pair_ready(void)
{
    drobulets_server *server = pair_run(DROBULETS_COMMIT);
    unrun(server);
    return server;
}

/* The count is an unsigned int at the end of 16 bytes. */
static void the_bytes(void)
{
    static const uint8_t ok[COMMIT_OK_BYTES] = {0, 0, 0, 18, 0, 0, 0, 8, 0, 0, 0, 0, 0, 0, 0, 1};
    drobulets_server *server = lent_server(0);
    uint8_t input[DROBULETS_LONGEST], output[DROBULETS_LONGEST];
    size_t length = bytes_of(saying(DROBULETS_COMMIT, 8, PUT_5, 0), input, sizeof input);
    memset(output, 0x5A, sizeof output);
    drobulets_answer answer = drobulets_server_take(server, input, length, output, sizeof output);
    CHECK(answer.refusal == 0 && answer.length == sizeof ok && memcmp(output, ok, sizeof ok) == 0);
    for (size_t i = sizeof ok; i < sizeof output; i++)
        CHECK(output[i] == 0x5A);
    free(server);
}

/* All 64 numbers, each after the one below it, or each after all others: nothing runs before the last Commit, and everything with it. */
static void all_at_once(uint32_t code, int cycle)
{
    drobulets_server *server = lent_server(0);
    for (uint32_t t = DROBULETS_NUMBERS; t-- > 0;) {
        uint64_t own = UINT64_C(1) << t, earlier = cycle ? ~own : own >> 1;
        CHECK(ran(server, saying(code, t, ADD_2, earlier)) == (t == 0 ? DROBULETS_NUMBERS : 0));
    }
    CHECK(server->log.count == DROBULETS_NUMBERS && drobulets_server_counter(server, 3).value == 2 * DROBULETS_NUMBERS);
    for (uint32_t t = 0; t < DROBULETS_NUMBERS; t++)
        CHECK(server->log.list[t] == t && drobulets_server_result(server, t, 0).value == 2 * (int32_t)t + 2);
    free(server);
}

/* A repeat changes nothing by itself, and what is ready in the lent server runs; so does what is ready beside a new number. A Done is taken the same way. */
static void repeats(uint32_t code)
{
    drobulets_server *whole = pair_run(code), *repeated = pair_run(DROBULETS_COMMIT), *ready = pair_ready(), *beside = pair_ready();
    CHECK(same_server(whole, repeated));
    CHECK(ran(repeated, saying(code, 1, PUT_5, 0)) == 0 && ran(repeated, saying(code, 2, ADD_2, 2)) == 0 && same_server(repeated, whole));
    CHECK(!same_server(ready, whole));
    CHECK(ran(ready, saying(code, 2, ADD_2, 2)) == 2 && same_server(ready, whole));
    CHECK(ran(beside, saying(code, 9, ADD_2, UINT64_C(1) << 63)) == 2 && beside->log.count == 2 && beside->records[9].committed.some == 1);
    free(whole);
    free(repeated);
    free(ready);
    free(beside);
}

/* At start-up: a run takes one group, the runs take all. */
static void runs_alone(void)
{
    drobulets_server *whole = pair_run(DROBULETS_COMMIT), *one = pair_ready(), *all = pair_ready();
    CHECK(drobulets_server_run(one).many == 1 && drobulets_server_run(one).many == 1 && drobulets_server_run(one).many == 0);
    CHECK(drobulets_server_run_all(all).many == 2 && drobulets_server_run_all(all).many == 0);
    CHECK(same_server(one, whole) && same_server(all, whole));
    free(whole);
    free(one);
    free(all);
}

/* No other message runs what is ready. */
static void others_run_nothing(void)
{
    const drobulets_message others[] = {saying(DROBULETS_PRE_ACCEPT, 1, PUT_5, 0), saying(DROBULETS_PRE_ACCEPT, 9, PUT_5, 0), saying(DROBULETS_ACCEPT, 9, PUT_5, 2),
        message_of(DROBULETS_INQUIRE, 1, 0), message_of(DROBULETS_FETCH, 1, 0)};
    for (size_t i = 0; i < sizeof others / sizeof *others; i++) {
        drobulets_server *server = pair_ready();
        drobulets_message reply = asked(server, others[i]);
        CHECK(reply.code != DROBULETS_COMMIT_OK && reply.ran == 0);
        CHECK(server->log.count == 0 && server->records[1].ran == 0 && drobulets_server_counter(server, 3).value == 0);
        free(server);
    }
}

/* What is ready stays so, and the output untouched, where this is refused. */
static void refused(drobulets_message message, uint32_t refusal, size_t room)
{
    drobulets_server *server = pair_ready(), *before = pair_ready();
    uint8_t input[DROBULETS_LONGEST], output[DROBULETS_LONGEST], blank[DROBULETS_LONGEST];
    memset(output, 0x5A, sizeof output);
    memset(blank, 0x5A, sizeof blank);
    size_t length = bytes_of(message, input, sizeof input);
    drobulets_answer answer = drobulets_server_take(server, input, length, output, room);
    CHECK(answer.refusal == refusal && answer.length == 0);
    CHECK(same_server(server, before) && memcmp(output, blank, sizeof output) == 0);
    free(server);
    free(before);
}

static void refusals_run_nothing(uint32_t code)
{
    refused(saying(code, 64, PUT_5, 0), DROBULETS_BAD_NUMBER, DROBULETS_LONGEST);
    refused(message_of(code, 9, 0), DROBULETS_BAD_PIECES, DROBULETS_LONGEST);
    refused(saying(code, 9, PUT_5, UINT64_C(1) << 9), DROBULETS_BAD_SET, DROBULETS_LONGEST);
    refused(saying(code, 1, ADD_2, 0), DROBULETS_OTHER_PIECES, DROBULETS_LONGEST);
    refused(saying(code, 1, PUT_5, 4), DROBULETS_OTHER_SET, DROBULETS_LONGEST);
    for (size_t room = 0; room < COMMIT_OK_BYTES; room++) {
        refused(saying(code, 1, PUT_5, 0), DROBULETS_OUTPUT_SHORT, room);
        refused(saying(code, 9, ADD_2, 0), DROBULETS_OUTPUT_SHORT, room);
    }
}

int main(void)
{
    const uint32_t codes[] = {DROBULETS_COMMIT, DROBULETS_DONE};
    the_bytes();
    for (size_t i = 0; i < sizeof codes / sizeof *codes; i++) {
        all_at_once(codes[i], 0);
        all_at_once(codes[i], 1);
        repeats(codes[i]);
        refusals_run_nothing(codes[i]);
    }
    runs_alone();
    others_run_nothing();
    printf("commit: %s\n", failures ? "bad" : "ok");
    return failures != 0;
}
