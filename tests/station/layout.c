/* The header's layout against the archive's: each field is given a value of its own through the exported functions, and read where the header says that it stands. */
#include "check.h"

/* The largest numbers that each kind of field may have in a state that keeps its form. */
static const drobulets_set EARLIER = {.w1 = 0x0123456789ABCDEFu, .w3 = 0x7EDCBA9876543210u};

static drobulets_pieces eight_pieces(void)
{
    drobulets_piece list[8];
    for (uint32_t i = 0; i < 8; i++)
        list[i] = (drobulets_piece){.shard = i < 2 ? 1 : 3, .key = i < 2 ? i : 2 * i + 1, .kind = i % 2 ? DROBULETS_PUT : DROBULETS_ADD, .operand = -7000000 - (int32_t)i};
    return pieces_of(list, 8);
}

static drobulets_message about_63(uint32_t code, uint32_t ballot)
{
    drobulets_message m = message_of(code, 63, ballot);
    m.pieces = eight_pieces();
    m.set = EARLIER;
    return m;
}

/* A fresh server writes every field, and nothing past the end. */
static void fresh_fields(void)
{
    drobulets_server *server = lent_server(11);
    drobulets_record none;
    memset(&none, 0, sizeof none);
    CHECK(server->id == 11);
    for (uint32_t t = 0; t < DROBULETS_NUMBERS; t++) {
        CHECK(same_record(&server->records[t], &none));
        CHECK(server->log.list[t] == 0);
    }
    for (uint32_t key = 0; key < DROBULETS_KEYS; key++)
        CHECK(server->counters.list[key].value == 0 && server->counters.list[key].full == 0);
    CHECK(server->log.count == 0);
    free(server);
}

static void server_fields(void)
{
    drobulets_server *server = lent_server(9);
    drobulets_pieces pieces = eight_pieces();
    const drobulets_record *last = &server->records[63];

    drobulets_message first = message_of(DROBULETS_PRE_ACCEPT, 0, 0);
    drobulets_piece clash = {3, 15, DROBULETS_PUT, 41};
    first.pieces = pieces_of(&clash, 1);
    CHECK(asked(server, first).word == 0);
    CHECK(asked(server, about_63(DROBULETS_PRE_ACCEPT, 65528)).word == 1);
    CHECK(last->promise == 65528 && last->arrival.some == 1 && last->arrival.word == 1);
    CHECK(last->pieces.count == 8 && memcmp(last->pieces.list, pieces.list, sizeof pieces.list) == 0);
    CHECK(server->records[0].pieces.count == 1 && server->records[0].arrival.some == 1);
    CHECK(last->accepted.some == 0 && last->committed.some == 0);

    asked(server, about_63(DROBULETS_ACCEPT, 65535));
    CHECK(last->promise == 65535);
    CHECK(last->accepted.some == 1 && last->accepted.ballot == 65535 && same_set(last->accepted.set, EARLIER));

    drobulets_message commit = about_63(DROBULETS_COMMIT, 0);
    commit.set = (drobulets_set){0, 0, 0, 1};
    CHECK(asked(server, commit).ran == 0);
    CHECK(last->committed.some == 1 && same_set(last->committed.set, commit.set) && last->ran == 0);
    drobulets_message before = first;
    before.code = DROBULETS_COMMIT;
    CHECK(asked(server, before).ran == 2);
    CHECK(server->log.count == 2 && server->log.list[0] == 0 && server->log.list[1] == 63);
    CHECK(last->ran == 1 && last->values.count == 6);
    for (uint32_t i = 2; i < 8; i++) {
        CHECK(last->values.list[i - 2].value == pieces.list[i].operand && last->values.list[i - 2].kept == 0);
        CHECK(server->counters.list[2 * i + 1].value == pieces.list[i].operand && server->counters.list[2 * i + 1].full == 0);
    }
    CHECK(server->counters.list[15].value == -7000007);

    drobulets_message beyond = message_of(DROBULETS_COMMIT, 62, 0);
    clash = (drobulets_piece){3, 15, DROBULETS_ADD, INT32_MIN};
    beyond.pieces = pieces_of(&clash, 1);
    CHECK(asked(server, beyond).ran == 1 && server->log.count == 3 && server->log.list[2] == 62);
    CHECK(server->records[62].values.list[0].value == -7000007 && server->records[62].values.list[0].kept == 1);
    for (uint32_t key = 0; key < DROBULETS_KEYS; key++)
        CHECK(server->counters.list[key].full == (key == 15));
    CHECK(server->counters.list[15].value == -7000007);
    free(server);
}

static void drive_fields(void)
{
    drobulets_drive *drive = lent(sizeof *drive);
    drobulets_pieces pieces = eight_pieces();
    CHECK(drobulets_drive_recover(drive, 5, 63, pieces, 65000) == 0);
    CHECK(drive->t == 63 && drive->coordinator == 5 && drive->ballot == 65005 && drive->phase == 0);
    CHECK(memcmp(&drive->pieces, &pieces, sizeof pieces) == 0);
    CHECK(drive->chosen.some == 0 && drive->seen == 0);
    for (uint32_t s = 0; s < DROBULETS_SERVERS; s++)
        CHECK(drive->answers[s].counted == 0 && drive->answers[s].arrival.some == 0 && drive->answers[s].accepted.some == 0);

    drobulets_message ok = message_of(DROBULETS_PREPARE_OK, 63, 65005);
    ok.server = 11;
    ok.arrival = (drobulets_maybe_word){1, 0x7FEDCBA987654321u};
    ok.accepted = (drobulets_maybe_vote){1, 64997, EARLIER};
    CHECK(told(drive, ok) == 0);
    const drobulets_slot *slot = &drive->answers[11];
    CHECK(slot->counted == 1 && same_word(slot->arrival, ok.arrival) && same_vote(slot->accepted, ok.accepted));
    CHECK(told(drive, ok) == DROBULETS_MISPLACED);

    drobulets_message behind = message_of(DROBULETS_BEHIND, 63, 65005);
    behind.server = 11;
    behind.promise = 65535;
    CHECK(told(drive, behind) == 0 && drive->seen == 65535);

    CHECK(told(drive, about_63(DROBULETS_DONE, 0)) == 0);
    CHECK(drive->phase == 3 && drive->chosen.some == 1 && same_set(drive->chosen.set, EARLIER));
    CHECK(drive->answers[11].counted == 0 && drive->seen == 65535);
    free(drive);
}

static uint32_t word_at(const uint8_t *bytes, size_t place)
{
    return (uint32_t)bytes[place] << 24 | (uint32_t)bytes[place + 1] << 16 | (uint32_t)bytes[place + 2] << 8 | bytes[place + 3];
}

static uint64_t hyper_at(const uint8_t *bytes, size_t place)
{
    return (uint64_t)word_at(bytes, place) << 32 | word_at(bytes, place + 4);
}

/* The bytes of an Accept say which field is which: code, T, ballot, count, the pieces, the set. */
static void accept_bytes(void)
{
    uint8_t bytes[DROBULETS_LONGEST];
    drobulets_message accept = about_63(DROBULETS_ACCEPT, 65535);
    CHECK(drobulets_encode(&accept, bytes, sizeof bytes).length == DROBULETS_LONGEST);
    CHECK(word_at(bytes, 0) == DROBULETS_ACCEPT && word_at(bytes, 4) == 63 && word_at(bytes, 8) == 65535 && word_at(bytes, 12) == 8);
    for (uint32_t i = 0; i < 8; i++) {
        drobulets_piece piece = accept.pieces.list[i];
        size_t at = 16 + 16 * i;
        CHECK(word_at(bytes, at) == piece.shard && word_at(bytes, at + 4) == piece.key);
        CHECK(word_at(bytes, at + 8) == piece.kind && (int32_t)word_at(bytes, at + 12) == piece.operand);
    }
    CHECK(hyper_at(bytes, 144) == 0 && hyper_at(bytes, 152) == EARLIER.w1);
    CHECK(hyper_at(bytes, 160) == 0 && hyper_at(bytes, 168) == EARLIER.w3);
}

/* Messages are lent to be written, and come by value. */
static void message_fields(void)
{
    uint8_t bytes[DROBULETS_LONGEST];
    drobulets_message accept = about_63(DROBULETS_ACCEPT, 65535);
    drobulets_answer written = drobulets_encode(&accept, bytes, sizeof bytes);
    CHECK(written.refusal == 0 && written.length == DROBULETS_LONGEST);
    drobulets_decoded read = drobulets_decode(bytes, written.length);
    CHECK(read.refusal == 0 && same_message(read.message, accept));

    drobulets_message results = message_of(DROBULETS_RESULTS, 62, 0);
    results.server = 10;
    results.values.count = 8;
    for (int32_t i = 0; i < 8; i++)
        results.values.list[i] = (drobulets_value){-1 - i, (uint32_t)i % 2};
    written = drobulets_encode(&results, bytes, sizeof bytes);
    read = drobulets_decode(bytes, written.length);
    CHECK(written.length == 80 && same_message(read.message, results));

    drobulets_message committed = message_of(DROBULETS_COMMIT_OK, 62, 0);
    committed.server = 10;
    committed.ran = 0xFEDCBA98u;
    written = drobulets_encode(&committed, bytes, sizeof bytes);
    read = drobulets_decode(bytes, written.length);
    CHECK(written.length == 16 && word_at(bytes, 12) == 0xFEDCBA98u && same_message(read.message, committed));

    drobulets_message prepared = message_of(DROBULETS_PREPARE_OK, 62, 65535);
    prepared.server = 10;
    prepared.arrival = (drobulets_maybe_word){1, UINT64_MAX};
    prepared.accepted = (drobulets_maybe_vote){1, 65534, EARLIER};
    written = drobulets_encode(&prepared, bytes, sizeof bytes);
    read = drobulets_decode(bytes, written.length);
    CHECK(written.length == 68 && same_message(read.message, prepared));

    drobulets_message arrived = message_of(DROBULETS_PRE_ACCEPT_OK, 62, 0), behind = message_of(DROBULETS_BEHIND, 62, 0);
    arrived.word = 0x8000000000000001u;
    behind.promise = 65533;
    written = drobulets_encode(&arrived, bytes, sizeof bytes);
    CHECK(same_message(drobulets_decode(bytes, written.length).message, arrived));
    written = drobulets_encode(&behind, bytes, sizeof bytes);
    CHECK(same_message(drobulets_decode(bytes, written.length).message, behind));
    CHECK(drobulets_decode(bytes, 3).refusal == DROBULETS_BYTES_SHORT);
}

int main(void)
{
    fresh_fields();
    server_fields();
    drive_fields();
    accept_bytes();
    message_fields();
    printf("layout: %s\n", failures ? "bad" : "ok");
    return failures != 0;
}
