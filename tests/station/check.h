/* What the C tests of the archive share: a check that counts, states lent from the heap so that valgrind sees every byte past them, and messages by their fields. */
#ifndef CHECK_H
#define CHECK_H

#include <drobulets.h>
#include <stdio.h>
#include <stdlib.h>
#include <string.h>

static int failures;

#define CHECK(fact)                                                          \
    do {                                                                     \
        if (!(fact)) {                                                       \
            printf("%s:%d: not so: %s\n", __FILE__, __LINE__, #fact);        \
            failures++;                                                      \
        }                                                                    \
    } while (0)

/* Memory of exactly this size, full of a pattern that no state would have. */
static inline void *lent(size_t size)
{
    void *memory = malloc(size);
    if (memory == NULL)
        exit(2);
    memset(memory, 0xA5, size);
    return memory;
}

static inline drobulets_server *lent_server(uint32_t id)
{
    drobulets_server *server = lent(sizeof *server);
    CHECK(drobulets_server_fresh(server, id) == 0);
    return server;
}

/* Makes a server that began fresh one where nothing that is committed has run. No call leaves such a one behind: a Commit runs. */
static inline void unrun(drobulets_server *server)
{
    for (uint32_t t = 0; t < DROBULETS_NUMBERS; t++) {
        server->records[t].ran = 0;
        memset(&server->records[t].values, 0, sizeof server->records[t].values);
    }
    memset(&server->counters, 0, sizeof server->counters);
    memset(&server->log, 0, sizeof server->log);
}

static inline drobulets_pieces pieces_of(const drobulets_piece *list, uint32_t count)
{
    drobulets_pieces pieces;
    memset(&pieces, 0, sizeof pieces);
    memcpy(pieces.list, list, count * sizeof *list);
    pieces.count = count;
    return pieces;
}

static inline drobulets_message message_of(uint32_t code, uint32_t t, uint32_t ballot)
{
    drobulets_message message;
    memset(&message, 0, sizeof message);
    message.code = code;
    message.t = t;
    message.ballot = ballot;
    return message;
}

/* Writes a message, and answers how many bytes it takes. */
static inline size_t bytes_of(drobulets_message message, uint8_t *output, size_t room)
{
    drobulets_answer written = drobulets_encode(&message, output, room);
    CHECK(written.refusal == 0);
    return written.length;
}

/* The reply of a server to a message, by the bytes of both. */
static inline drobulets_message asked(drobulets_server *server, drobulets_message message)
{
    uint8_t input[DROBULETS_LONGEST], output[DROBULETS_LONGEST];
    size_t length = bytes_of(message, input, sizeof input);
    drobulets_answer answer = drobulets_server_take(server, input, length, output, sizeof output);
    CHECK(answer.refusal == 0);
    drobulets_decoded reply = drobulets_decode(output, answer.length);
    CHECK(reply.refusal == 0);
    return reply.message;
}

/* What a drive says to a reply. */
static inline uint32_t told(drobulets_drive *drive, drobulets_message reply)
{
    uint8_t input[DROBULETS_LONGEST];
    size_t length = bytes_of(reply, input, sizeof input);
    return drobulets_drive_take(drive, input, length);
}

/* Values are compared field by field: what stands between the fields is no part of them. */
static inline int same_set(drobulets_set a, drobulets_set b)
{
    return a.w0 == b.w0 && a.w1 == b.w1 && a.w2 == b.w2 && a.w3 == b.w3;
}

static inline int same_word(drobulets_maybe_word a, drobulets_maybe_word b)
{
    return a.some == b.some && a.word == b.word;
}

static inline int same_vote(drobulets_maybe_vote a, drobulets_maybe_vote b)
{
    return a.some == b.some && a.ballot == b.ballot && same_set(a.set, b.set);
}

/* The parts that have nothing between their fields. */
#define SAME_BYTES(a, b) (memcmp(&(a), &(b), sizeof(a)) == 0)

static inline int same_message(drobulets_message a, drobulets_message b)
{
    return a.code == b.code && a.t == b.t && a.server == b.server && a.ballot == b.ballot && a.promise == b.promise
        && SAME_BYTES(a.pieces, b.pieces) && same_set(a.set, b.set) && a.word == b.word
        && same_word(a.arrival, b.arrival) && same_vote(a.accepted, b.accepted) && SAME_BYTES(a.values, b.values)
        && a.ran == b.ran;
}

static inline int same_record(const drobulets_record *a, const drobulets_record *b)
{
    return SAME_BYTES(a->pieces, b->pieces) && a->promise == b->promise && same_word(a->arrival, b->arrival)
        && same_vote(a->accepted, b->accepted) && a->committed.some == b->committed.some
        && same_set(a->committed.set, b->committed.set) && a->ran == b->ran && SAME_BYTES(a->values, b->values);
}

static inline int same_server(const drobulets_server *a, const drobulets_server *b)
{
    for (uint32_t t = 0; t < DROBULETS_NUMBERS; t++)
        if (!same_record(&a->records[t], &b->records[t]))
            return 0;
    return a->id == b->id && SAME_BYTES(a->counters, b->counters) && SAME_BYTES(a->log, b->log);
}

static inline int same_drive(const drobulets_drive *a, const drobulets_drive *b)
{
    for (uint32_t s = 0; s < DROBULETS_SERVERS; s++) {
        const drobulets_slot *x = &a->answers[s], *y = &b->answers[s];
        if (x->counted != y->counted || !same_word(x->arrival, y->arrival) || !same_vote(x->accepted, y->accepted))
            return 0;
    }
    return a->t == b->t && a->coordinator == b->coordinator && a->ballot == b->ballot && a->phase == b->phase
        && SAME_BYTES(a->pieces, b->pieces) && a->chosen.some == b->chosen.some && same_set(a->chosen.set, b->chosen.set)
        && a->seen == b->seen;
}

#endif
