/* Cases A, B, D, E, F and L, and refusals that change nothing, through the exported functions. */
#include "check.h"

static const drobulets_piece PUT_5 = {0, 3, DROBULETS_PUT, 5}, ADD_2 = {0, 3, DROBULETS_ADD, 2};

static drobulets_message pre_accept(uint32_t t, uint32_t ballot, drobulets_piece piece)
{
    drobulets_message m = message_of(DROBULETS_PRE_ACCEPT, t, ballot);
    m.pieces = pieces_of(&piece, 1);
    return m;
}

/* A: T8, then T1, then T8 again. B: Prepare T8 at 8, and PreAccept T8 at 0 is Behind. */
static void cases_a_and_b(void)
{
    drobulets_server *server = lent_server(0);
    drobulets_message reply = asked(server, pre_accept(8, 0, PUT_5));
    CHECK(reply.code == DROBULETS_PRE_ACCEPT_OK && reply.t == 8 && reply.server == 0 && reply.ballot == 0 && reply.word == 0);
    CHECK(asked(server, pre_accept(1, 0, ADD_2)).word == 256);
    CHECK(asked(server, pre_accept(8, 0, PUT_5)).word == 0);

    drobulets_message prepare = pre_accept(8, 8, PUT_5);
    prepare.code = DROBULETS_PREPARE;
    reply = asked(server, prepare);
    CHECK(reply.code == DROBULETS_PREPARE_OK && reply.ballot == 8);
    CHECK(reply.arrival.some == 1 && reply.arrival.word == 0 && reply.accepted.some == 0);
    reply = asked(server, pre_accept(8, 0, PUT_5));
    CHECK(reply.code == DROBULETS_BEHIND && reply.ballot == 0 && reply.promise == 8);
    free(server);
}

static drobulets_message commit(uint32_t t, drobulets_piece first, drobulets_piece second, drobulets_set set)
{
    drobulets_piece list[2] = {first, second};
    drobulets_message m = message_of(DROBULETS_COMMIT, t, 0);
    m.pieces = pieces_of(list, 2);
    m.set = set;
    return m;
}

/* Whether a Commit is answered by CommitOK with this count. */
static int runs(drobulets_server *server, drobulets_message message, uint32_t many)
{
    drobulets_message reply = asked(server, message);
    return reply.code == DROBULETS_COMMIT_OK && reply.t == message.t && reply.server == server->id && reply.ran == many;
}

/* D: two that depend on each other run as one group, in rising number, with the second Commit. E: the first alone runs nothing. */
static void cases_d_and_e(void)
{
    drobulets_server *server = lent_server(0);
    drobulets_piece put = {1, 0, DROBULETS_PUT, 5}, add = {1, 0, DROBULETS_ADD, 2};
    drobulets_set after_1 = {0, 2, 0, 0}, after_8 = {256, 0, 0, 0};
    CHECK(runs(server, commit(8, PUT_5, put, after_1), 0) && drobulets_server_log(server, 0).some == 0);
    drobulets_wants wants = drobulets_server_wanted(server);
    CHECK(wants.refusal == 0 && same_set(wants.set, after_1));
    CHECK(runs(server, commit(1, ADD_2, add, after_8), 2));
    drobulets_counted counted = drobulets_server_run(server);
    CHECK(counted.refusal == 0 && counted.many == 0);
    CHECK(drobulets_server_log(server, 0).number == 1 && drobulets_server_log(server, 1).number == 8);
    CHECK(drobulets_server_log(server, 2).some == 0 && drobulets_server_log(server, 64).some == 0);
    drobulets_reading counter = drobulets_server_counter(server, 3);
    CHECK(counter.some == 1 && counter.value == 5 && counter.kept == 0);
    CHECK(drobulets_server_counter(server, 16).some == 0);
    drobulets_reading result = drobulets_server_result(server, 1, 0);
    CHECK(result.some == 1 && result.value == 2 && result.kept == 0);
    CHECK(drobulets_server_result(server, 1, 1).some == 0 && drobulets_server_result(server, 2, 0).some == 0 && drobulets_server_result(server, 64, 0).some == 0);
    CHECK(drobulets_server_run_all(server).many == 0);
    free(server);
}

/* F: T1 without dependencies, T2 after T1. The other way round both run with the second Commit. */
static void case_f(void)
{
    drobulets_server *forth = lent_server(0), *back = lent_server(0);
    drobulets_piece put = {0, 4, DROBULETS_PUT, 5}, add = {0, 4, DROBULETS_ADD, 2};
    drobulets_message first = commit(1, PUT_5, put, (drobulets_set){0, 0, 0, 0}), second = commit(2, ADD_2, add, (drobulets_set){2, 0, 0, 0});
    CHECK(runs(forth, first, 1) && runs(forth, second, 1));
    CHECK(runs(back, second, 0) && runs(back, first, 2));
    CHECK(same_server(forth, back) && forth->log.count == 2 && forth->log.list[0] == 1 && forth->log.list[1] == 2);
    free(forth);
    free(back);
}

/* L: the answers 0, 0, `last` to a Start of T8 on shard 0. */
static drobulets_drive *case_l(uint64_t last)
{
    drobulets_drive *drive = lent(sizeof *drive);
    CHECK(drobulets_drive_start(drive, 0, 8, pieces_of(&PUT_5, 1)) == 0);
    uint8_t bytes[DROBULETS_LONGEST];
    drobulets_due due = drobulets_drive_due(drive, bytes, sizeof bytes);
    CHECK(due.refusal == 0 && due.servers == 7);
    drobulets_decoded said = drobulets_decode(bytes, due.length);
    CHECK(said.refusal == 0 && said.message.code == DROBULETS_PRE_ACCEPT && said.message.t == 8);
    for (uint32_t server = 0; server < 3; server++) {
        CHECK(drive->phase == 1);
        drobulets_message reply = message_of(DROBULETS_PRE_ACCEPT_OK, 8, 0);
        reply.server = server;
        reply.word = server == 2 ? last : 0;
        CHECK(told(drive, reply) == 0);
    }
    return drive;
}

static void cases_l(void)
{
    drobulets_set two = {2, 0, 0, 0}, none = {0, 0, 0, 0};
    drobulets_drive *slow = case_l(2), *fast = case_l(0);
    CHECK(slow->phase == 2 && slow->chosen.some == 1 && same_set(slow->chosen.set, two));
    CHECK(fast->phase == 3 && same_set(fast->chosen.set, none));
    free(slow);
    free(fast);
}

/* Refused by 14, by the step, by decoding and by the form: neither the server nor the output changes. */
static void refused_takes(void)
{
    drobulets_server *server = lent_server(0), *before = lent_server(0);
    uint8_t input[DROBULETS_LONGEST + 1], output[DROBULETS_LONGEST], blank[DROBULETS_LONGEST];
    memset(output, 0x5A, sizeof output);
    memset(blank, 0x5A, sizeof blank);
    size_t length = bytes_of(pre_accept(8, 0, PUT_5), input, sizeof input);
    input[length] = 0;
    drobulets_answer short_output = drobulets_server_take(server, input, length, output, 23);
    CHECK(short_output.refusal == DROBULETS_OUTPUT_SHORT && short_output.length == 0);
    CHECK(drobulets_server_take(server, input, length - 1, output, sizeof output).refusal == DROBULETS_BYTES_SHORT);
    CHECK(drobulets_server_take(server, input, length + 1, output, sizeof output).refusal == DROBULETS_BYTES_LEFT);
    size_t reply = bytes_of(message_of(DROBULETS_COMMIT_OK, 8, 0), input, sizeof input);
    CHECK(drobulets_server_take(server, input, reply, output, sizeof output).refusal == DROBULETS_NOT_TAKEN);
    size_t far = bytes_of(message_of(DROBULETS_INQUIRE, 64, 0), input, sizeof input);
    CHECK(drobulets_server_take(server, input, far, output, sizeof output).refusal == DROBULETS_BAD_NUMBER);
    CHECK(same_server(server, before));
    server->id = before->id = 12;
    CHECK(drobulets_server_take(server, input, far, output, sizeof output).refusal == DROBULETS_BAD_STATE);
    CHECK(drobulets_server_run(server).refusal == DROBULETS_BAD_STATE);
    CHECK(drobulets_server_fresh(server, 12) == DROBULETS_BAD_NUMBER);
    CHECK(same_server(server, before));
    CHECK(memcmp(output, blank, sizeof output) == 0);
    free(server);
    free(before);
}

static void refused_events(void)
{
    drobulets_drive *drive = lent(sizeof *drive), *before = lent(sizeof *before);
    uint8_t output[DROBULETS_LONGEST], blank[DROBULETS_LONGEST];
    memset(output, 0x5A, sizeof output);
    memset(blank, 0x5A, sizeof blank);
    CHECK(drobulets_drive_start(drive, 1, 8, pieces_of(&PUT_5, 1)) == DROBULETS_BAD_NUMBER);
    CHECK(drobulets_drive_recover(drive, 1, 8, pieces_of(&PUT_5, 1), 65535) == DROBULETS_NO_BALLOT);
    CHECK(drobulets_drive_again(drive) == DROBULETS_BAD_STATE);
    CHECK(drobulets_drive_move_on(drive) == DROBULETS_BAD_STATE);
    CHECK(told(drive, message_of(DROBULETS_ACCEPT_OK, 8, 0)) == DROBULETS_BAD_STATE);
    CHECK(drobulets_drive_due(drive, output, sizeof output).refusal == DROBULETS_BAD_STATE);
    CHECK(same_drive(drive, before));
    CHECK(drobulets_drive_start(drive, 0, 8, pieces_of(&PUT_5, 1)) == 0);
    CHECK(drobulets_drive_move_on(drive) == DROBULETS_UNDECIDED);
    drobulets_due due = drobulets_drive_due(drive, output, 31);
    CHECK(due.refusal == DROBULETS_OUTPUT_SHORT && due.length == 0 && due.servers == 0);
    CHECK(memcmp(output, blank, sizeof output) == 0);
    CHECK(drobulets_drive_again(drive) == 0 && drive->ballot == 8 && drive->phase == 0);
    free(drive);
    free(before);
}

int main(void)
{
    cases_a_and_b();
    cases_d_and_e();
    case_f();
    cases_l();
    refused_takes();
    refused_events();
    CHECK(drobulets_next_ballot(2, 65529).ballot == 65530 && drobulets_next_ballot(2, 65530).refusal == DROBULETS_NO_BALLOT);
    printf("cases: %s\n", failures ? "bad" : "ok");
    return failures != 0;
}
