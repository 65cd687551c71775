/* A counter at its end says so: case H of document 01 with its reads, through the exported functions, and the mark in the lent server. */
#include "check.h"

#if DROBULETS_VERSION < 200
#error "a counter has its full mark from 0.2.0 on"
#endif

enum { KEY = 9 };

static const int32_t TOP = INT32_MAX, BOTTOM = INT32_MIN;

static int same_reading(drobulets_reading a, drobulets_reading b)
{
    return a.some == b.some && a.value == b.value && a.kept == b.kept;
}

/* The next number has this piece alone; it is committed and runs. Gives its result, which a Fetch must tell too. */
static drobulets_reading run(drobulets_server *server, uint32_t kind, int32_t operand)
{
    uint32_t t = server->log.count;
    drobulets_piece piece = {0, KEY, kind, operand};
    drobulets_message commit = message_of(DROBULETS_COMMIT, t, 0);
    commit.pieces = pieces_of(&piece, 1);
    drobulets_message reply = asked(server, commit);
    CHECK(reply.code == DROBULETS_COMMIT_OK && reply.ran == 1);
    drobulets_reading result = drobulets_server_result(server, t, 0);
    drobulets_message fetched = asked(server, message_of(DROBULETS_FETCH, t, 0));
    CHECK(fetched.code == DROBULETS_RESULTS && fetched.values.count == 1);
    CHECK(fetched.values.list[0].value == result.value && fetched.values.list[0].kept == result.kept);
    return result;
}

/* A piece gives this value, kept or not, and leaves the counter at the same value, full or not. */
static int gives(drobulets_server *server, uint32_t kind, int32_t operand, int32_t value, uint32_t kept)
{
    drobulets_reading told = {1, value, kept};
    return same_reading(run(server, kind, operand), told) && same_reading(drobulets_server_counter(server, KEY), told);
}

/* H: 2,147,483,646 add 1 gives 2,147,483,647; again is kept, and so is what is read and added then; a put clears the mark. */
static void case_h_at_the_top(void)
{
    drobulets_server *server = lent_server(0);
    CHECK(gives(server, DROBULETS_PUT, TOP - 1, TOP - 1, 0));
    CHECK(gives(server, DROBULETS_ADD, 1, TOP, 0));
    CHECK(gives(server, DROBULETS_READ, 0, TOP, 0));
    CHECK(gives(server, DROBULETS_ADD, 1, TOP, 1));
    CHECK(gives(server, DROBULETS_READ, 0, TOP, 1));
    CHECK(gives(server, DROBULETS_ADD, -1, TOP, 1));
    CHECK(gives(server, DROBULETS_ADD, 0, TOP, 1));
    CHECK(gives(server, DROBULETS_PUT, TOP, TOP, 0));
    CHECK(gives(server, DROBULETS_READ, 0, TOP, 0));
    CHECK(gives(server, DROBULETS_ADD, -1, TOP - 1, 0));
    free(server);
}

/* H: -2,147,483,648 add -1 is kept. */
static void case_h_at_the_bottom(void)
{
    drobulets_server *server = lent_server(0);
    CHECK(gives(server, DROBULETS_PUT, BOTTOM, BOTTOM, 0));
    CHECK(gives(server, DROBULETS_ADD, -1, BOTTOM, 1));
    CHECK(gives(server, DROBULETS_READ, 0, BOTTOM, 1));
    CHECK(gives(server, DROBULETS_ADD, 1, BOTTOM, 1));
    CHECK(gives(server, DROBULETS_PUT, 0, 0, 0));
    CHECK(gives(server, DROBULETS_ADD, 1, 1, 0));
    free(server);
}

/* The mark is a number: 0 is none and any other is set. An add leaves it as it is, an add that does not fit writes 1, a put 0. */
static void the_mark_is_a_number(void)
{
    const uint32_t marks[] = {1, 2, 256, 0x80000000u, 0xFFFFFFFFu};
    for (size_t i = 0; i < sizeof marks / sizeof *marks; i++) {
        drobulets_server *server = lent_server(0);
        drobulets_counter *counter = &server->counters.list[KEY];
        *counter = (drobulets_counter){7, marks[i]};
        CHECK(gives(server, DROBULETS_READ, 0, 7, 1) && counter->full == marks[i]);
        CHECK(gives(server, DROBULETS_ADD, TOP, 7, 1) && counter->full == marks[i]);
        CHECK(gives(server, DROBULETS_ADD, -7, 7, 1) && counter->full == marks[i]);
        CHECK(gives(server, DROBULETS_PUT, 7, 7, 0) && counter->full == 0);
        CHECK(gives(server, DROBULETS_ADD, TOP, 7, 1) && counter->full == 1);
        free(server);
    }
}

/* Every counter has a mark of its own, where the header says that it stands; and a full one holds up no other piece. */
static void each_counter_has_its_mark(void)
{
    for (uint32_t full = 0; full < DROBULETS_KEYS; full++) {
        drobulets_server *server = lent_server(0);
        for (uint32_t key = 0; key < DROBULETS_KEYS; key++)
            server->counters.list[key].value = TOP - (int32_t)key;
        drobulets_piece pieces[2] = {{0, full, DROBULETS_ADD, TOP}, {0, full + 1, DROBULETS_ADD, -1}};
        drobulets_message commit = message_of(DROBULETS_COMMIT, 63, 0);
        commit.pieces = pieces_of(pieces, full + 1 < DROBULETS_KEYS ? 2 : 1);
        drobulets_message reply = asked(server, commit);
        CHECK(reply.code == DROBULETS_COMMIT_OK && reply.ran == 1);
        for (uint32_t key = 0; key < DROBULETS_KEYS; key++) {
            drobulets_reading held = {1, TOP - (int32_t)key - (key == full + 1), key == full};
            CHECK(same_reading(drobulets_server_counter(server, key), held));
            CHECK(server->counters.list[key].value == held.value && server->counters.list[key].full == held.kept);
        }
        free(server);
    }
}

int main(void)
{
    case_h_at_the_top();
    case_h_at_the_bottom();
    the_mark_is_a_number();
    each_counter_has_its_mark();
    printf("full: %s\n", failures ? "bad" : "ok");
    return failures != 0;
}
