/*
 * Drobulets: one server and one coordinator drive of the Janus protocol, and the XDR codec between them.
 * Link target/staticlib/libstation.a (made by `tests/archive`), for x86-64 Linux. It needs memcpy and memset alone.
 *
 * What the host must ensure, since nothing here can check it:
 *  - each pointer is good for the whole call, and aligned as its type asks;
 *  - what is lent does not overlap: a state, an input and an output are three separate pieces of memory;
 *  - a slice is a pointer and a count of bytes, and the pointer is not null even where the count is 0;
 *  - no other thread touches what is lent during the call. No function keeps a pointer after it returns;
 *  - the stack has DROBULETS_STACK bytes left.
 *
 * Every pattern of bytes in a lent state is a state: one that breaks its form is refused by 13, and nothing can trap.
 * A refusal is told by its number, and then the lent state and the lent output are unchanged, and the length is 0.
 * Where a call takes bytes, decoding judges first (10, 12, 11), then the step in its own order, then encoding (12, 14).
 */
#ifndef DROBULETS_H
#define DROBULETS_H

#include <stddef.h>
#include <stdint.h>

/*
 * The version, as a number, major * 10000 + minor * 100 + patch, and as a text. Before 1.0 a step of the minor number asks something of a host: CHANGELOG.md
 * says what. A state that was stored under another minor number is not to be lent.
 */
#define DROBULETS_VERSION 300
#define DROBULETS_VERSION_TEXT "0.3.0"

#ifdef __cplusplus
extern "C" {
#define DROBULETS_ASSERT static_assert
#else
#define DROBULETS_ASSERT _Static_assert
#endif

enum drobulets_limit {
    DROBULETS_SHARDS = 4,
    DROBULETS_REPLICAS = 3,
    DROBULETS_SERVERS = 12, /* server = 3 * shard + replica */
    DROBULETS_NUMBERS = 64,
    DROBULETS_COORDINATORS = 8, /* the origin of T is T mod 8 */
    DROBULETS_KEYS = 16,
    DROBULETS_PIECES = 8,
    DROBULETS_LONGEST = 176, /* bytes of the longest message: an output of this size is never too short */
    DROBULETS_STACK = 8192 /* bytes of stack that are enough for every function below */
};

/* Why a call was refused. 0 is no refusal. */
enum drobulets_refusal {
    DROBULETS_NOT_REFUSED = 0,
    DROBULETS_BAD_NUMBER = 1,      /* a number, server, coordinator, ballot or promise out of its range; a Prepare at ballot 0; a Start by another than the origin */
    DROBULETS_BAD_PIECES = 2,      /* the piece rules are broken */
    DROBULETS_BAD_SET = 3,         /* a set or arrival word with its own T, or of a shard that T does not touch */
    DROBULETS_UNTOUCHED = 4,       /* PreAccept, Accept or Prepare at a server whose shard T does not touch */
    DROBULETS_OTHER_PIECES = 5,    /* other pieces than those held */
    DROBULETS_OTHER_SET = 6,       /* a Commit or Done with another set than the committed one */
    DROBULETS_UNDECIDED = 7,       /* "move on" that cannot decide */
    DROBULETS_MISPLACED = 8,       /* a reply for another T, ballot or phase, or from a server that is counted or not addressed; any event in phase 3 */
    DROBULETS_NO_BALLOT = 9,       /* no next ballot */
    DROBULETS_BYTES_SHORT = 10,    /* the bytes end inside an item */
    DROBULETS_BYTES_LEFT = 11,     /* bytes are left after the message */
    DROBULETS_NOT_TAKEN = 12,      /* an unknown code, a boolean that is not 0 or 1, a count above 8; or a code that this side does not take */
    DROBULETS_BAD_STATE = 13,      /* the lent state breaks its form */
    DROBULETS_OUTPUT_SHORT = 14    /* the output is shorter than the message */
};

/* The codes of the messages. A server takes 0 to 5 and 20, a drive 16, 17, 19, 20 and 21. */
enum drobulets_code {
    DROBULETS_PRE_ACCEPT = 0,
    DROBULETS_ACCEPT = 1,
    DROBULETS_COMMIT = 2,
    DROBULETS_PREPARE = 3,
    DROBULETS_INQUIRE = 4,
    DROBULETS_FETCH = 5,
    DROBULETS_PRE_ACCEPT_OK = 16,
    DROBULETS_ACCEPT_OK = 17,
    DROBULETS_COMMIT_OK = 18,
    DROBULETS_PREPARE_OK = 19,
    DROBULETS_DONE = 20,
    DROBULETS_BEHIND = 21,
    DROBULETS_NOT_YET = 22,
    DROBULETS_RESULTS = 23
};

/* The kinds of a piece. */
enum drobulets_kind { DROBULETS_READ = 0, DROBULETS_PUT = 1, DROBULETS_ADD = 2 };

/* ---- parts */

typedef struct drobulets_piece {
    uint32_t shard;
    uint32_t key;
    uint32_t kind;
    int32_t operand; /* of a read 0 */
} drobulets_piece;

/* The first `count` of the list; a count of 0 is no pieces. Pieces rise strictly by 16 * shard + key. */
typedef struct drobulets_pieces {
    drobulets_piece list[DROBULETS_PIECES];
    uint32_t count;
} drobulets_pieces;

/* A dependency set: a word for each shard; bit T of word k says that T came earlier in a conflict at shard k. */
typedef struct drobulets_set {
    uint64_t w0;
    uint64_t w1;
    uint64_t w2;
    uint64_t w3;
} drobulets_set;

/* What may be missing: none where `some` is 0, and the rest is then ignored. */
typedef struct drobulets_maybe_word {
    uint32_t some;
    uint64_t word;
} drobulets_maybe_word;

typedef struct drobulets_maybe_vote {
    uint32_t some;
    uint32_t ballot;
    drobulets_set set;
} drobulets_maybe_vote;

typedef struct drobulets_maybe_set {
    uint32_t some;
    drobulets_set set;
} drobulets_maybe_set;

/*
 * A result: what was read or put, or the sum. `kept` is not 0 where the value is that of a full counter, and no total: of an add whose sum would have left
 * the signed 32-bit range, of every add to a counter that was full, also one that would have fitted, and of a read of a full counter. Never of a put.
 */
typedef struct drobulets_value {
    int32_t value;
    uint32_t kept;
} drobulets_value;

typedef struct drobulets_values {
    drobulets_value list[DROBULETS_PIECES];
    uint32_t count;
} drobulets_values;

/* A message, either way. The fields that its code does not have are ignored, and 0 in every message made here. */
typedef struct drobulets_message {
    uint32_t code;
    uint32_t t;
    uint32_t server;
    uint32_t ballot;
    uint32_t promise;
    drobulets_pieces pieces;
    drobulets_set set;
    uint64_t word;
    drobulets_maybe_word arrival;
    drobulets_maybe_vote accepted;
    drobulets_values values;
    uint32_t ran; /* of a CommitOK: how many numbers ran in all as the Commit or Done was taken */
} drobulets_message;

/* ---- states, lent by the host. Keep one as it is between two calls; write it with one of the functions alone. */

/* Held per number; `values` are its results, there if `ran` is not 0. */
typedef struct drobulets_record {
    drobulets_pieces pieces;
    uint32_t promise;
    drobulets_maybe_word arrival;
    drobulets_maybe_vote accepted;
    drobulets_maybe_set committed;
    uint32_t ran;
    drobulets_values values;
} drobulets_record;

/*
 * A counter is full where `full` is not 0, and its value is then no total. An add whose sum would leave the signed 32-bit range sets the mark, to 1, and leaves
 * the value. While the mark is set, every add leaves value and mark as they are. A put stores its operand and clears the mark, to 0.
 */
typedef struct drobulets_counter {
    int32_t value;
    uint32_t full;
} drobulets_counter;

typedef struct drobulets_counters {
    drobulets_counter list[DROBULETS_KEYS];
} drobulets_counters;

/* The first `count` of the list: the numbers run, in order. */
typedef struct drobulets_log {
    uint32_t list[DROBULETS_NUMBERS];
    uint32_t count;
} drobulets_log;

typedef struct drobulets_server {
    uint32_t id;
    drobulets_record records[DROBULETS_NUMBERS];
    drobulets_counters counters;
    drobulets_log log;
} drobulets_server;

/* What a server answered in this phase; none where `counted` is 0. */
typedef struct drobulets_slot {
    uint32_t counted;
    drobulets_maybe_word arrival;
    drobulets_maybe_vote accepted;
} drobulets_slot;

/* One transaction carried for one coordinator. Phases: 0 prepare, 1 pre-accept, 2 accept, 3 commit. */
typedef struct drobulets_drive {
    uint32_t t;
    uint32_t coordinator;
    uint32_t ballot;
    uint32_t phase;
    drobulets_pieces pieces;
    drobulets_slot answers[DROBULETS_SERVERS];
    drobulets_maybe_set chosen; /* the set of phases 2 and 3 */
    uint32_t seen;              /* the highest promise seen, 0 if none */
} drobulets_drive;

/* ---- answers */

/* The refusal or 0, and how many bytes were written, 0 on a refusal. */
typedef struct drobulets_answer {
    uint32_t refusal;
    uint32_t length;
} drobulets_answer;

/* The refusal or 0, and how many numbers ran. */
typedef struct drobulets_counted {
    uint32_t refusal;
    uint32_t many;
} drobulets_counted;

/* The refusal or 0, and the wanted set: shard by shard, what committed sets name and is not committed here. */
typedef struct drobulets_wants {
    uint32_t refusal;
    drobulets_set set;
} drobulets_wants;

/* A counter, or a result; none where `some` is 0. `kept` of a counter is 1 if it is full, else 0; of a result it is as held, not 0 as drobulets_value says. */
typedef struct drobulets_reading {
    uint32_t some;
    int32_t value;
    uint32_t kept;
} drobulets_reading;

/* A number of the log; none where `some` is 0. */
typedef struct drobulets_log_entry {
    uint32_t some;
    uint32_t number;
} drobulets_log_entry;

/* The refusal or 0, the length of the message due, and the servers that it is due to: bit s for server s. */
typedef struct drobulets_due {
    uint32_t refusal;
    uint32_t length;
    uint32_t servers;
} drobulets_due;

typedef struct drobulets_ballot {
    uint32_t refusal;
    uint32_t ballot;
} drobulets_ballot;

/* The refusal or 0, and the message, which is all 0 on a refusal. */
typedef struct drobulets_decoded {
    uint32_t refusal;
    drobulets_message message;
} drobulets_decoded;

/* ---- a server */

/* Puts a fresh server `id` into the lent place, whatever stands there. Refuses 1. */
uint32_t drobulets_server_fresh(drobulets_server *server, uint32_t id);

/*
 * Takes a message and writes the reply to the front of the output; no byte behind the reply is touched.
 * A Commit and a Done run by themselves: what is said is committed, then runs happen until one runs nothing, and the CommitOK has in `ran` how many numbers
 * ran in all. A repeat with the same set changes nothing by itself, and what is ready still runs. On a refusal nothing runs.
 */
drobulets_answer drobulets_server_take(drobulets_server *server, const uint8_t *input, size_t input_length, uint8_t *output, size_t output_length);

/*
 * Runs the lowest ready number with its group, or nothing if none is ready. Refuses 13. This and the next are for start-up: in a server that was made by
 * drobulets_server_fresh and took every message by drobulets_server_take, nothing is ready after any call, and both give 0.
 */
drobulets_counted drobulets_server_run(drobulets_server *server);

/* Runs until nothing is ready, and tells how many numbers ran in all. Refuses 13. */
drobulets_counted drobulets_server_run_all(drobulets_server *server);

/* The numbers to inquire for. Refuses 13. */
drobulets_wants drobulets_server_wanted(const drobulets_server *server);

/* The counter of a key, kept if it is full; none for a key above 15. The readers judge no form: they show what is held. */
drobulets_reading drobulets_server_counter(const drobulets_server *server, uint32_t key);

/* The number at a place of the log, the first at 0; none from the log's count on. */
drobulets_log_entry drobulets_server_log(const drobulets_server *server, uint32_t place);

/* A result of the number t, in the order of its pieces on this server's shard; none where t has not run or there is no such place. */
drobulets_reading drobulets_server_result(const drobulets_server *server, uint32_t t, uint32_t place);

/* ---- a drive */

/* Begins at ballot 0, phase 1, in the lent place, whatever stands there. Refuses 12, 1, 2. */
uint32_t drobulets_drive_start(drobulets_drive *drive, uint32_t coordinator, uint32_t t, drobulets_pieces pieces);

/* Begins at the next ballot above the floor, phase 0, in the lent place, whatever stands there. Refuses 12, 1, 2, 9. */
uint32_t drobulets_drive_recover(drobulets_drive *drive, uint32_t coordinator, uint32_t t, drobulets_pieces pieces, uint32_t floor);

/* Begins again at the next ballot above its own and every promise seen, phase 0. Refuses 13, 8, 9. */
uint32_t drobulets_drive_again(drobulets_drive *drive);

/* Decides with two answers in each shard. Refuses 13, 8, 7. */
uint32_t drobulets_drive_move_on(drobulets_drive *drive);

/* Takes a reply. */
uint32_t drobulets_drive_take(drobulets_drive *drive, const uint8_t *input, size_t input_length);

/* Writes the message due to the front of the output; it is due to every server of T's shards. Refuses 13, 12, 14. */
drobulets_due drobulets_drive_due(const drobulets_drive *drive, uint8_t *output, size_t output_length);

/* ---- messages and ballots */

/* The smallest ballot above n that coordinator c recovers with. Refuses 1, 9. */
drobulets_ballot drobulets_next_ballot(uint32_t c, uint32_t n);

/* The message that the bytes say. Refuses 10, 12, 11: the first fault from the front. */
drobulets_decoded drobulets_decode(const uint8_t *input, size_t input_length);

/* Writes the message's bytes to the front of the output; no byte behind them is touched. Refuses 12, 14. */
drobulets_answer drobulets_encode(const drobulets_message *message, uint8_t *output, size_t output_length);

/* ---- the layout that the library was built with; tests/station holds it against the archive */

#define DROBULETS_AT(type, field, place) DROBULETS_ASSERT(offsetof(type, field) == (place), #type "." #field)
#define DROBULETS_SIZE(type, size) DROBULETS_ASSERT(sizeof(type) == (size), #type)

DROBULETS_SIZE(drobulets_piece, 16);
DROBULETS_SIZE(drobulets_pieces, 132);
DROBULETS_AT(drobulets_pieces, count, 128);
DROBULETS_SIZE(drobulets_set, 32);
DROBULETS_SIZE(drobulets_maybe_word, 16);
DROBULETS_AT(drobulets_maybe_word, word, 8);
DROBULETS_SIZE(drobulets_maybe_vote, 40);
DROBULETS_AT(drobulets_maybe_vote, ballot, 4);
DROBULETS_AT(drobulets_maybe_vote, set, 8);
DROBULETS_SIZE(drobulets_maybe_set, 40);
DROBULETS_AT(drobulets_maybe_set, set, 8);
DROBULETS_SIZE(drobulets_value, 8);
DROBULETS_SIZE(drobulets_values, 68);
DROBULETS_AT(drobulets_values, count, 64);

DROBULETS_SIZE(drobulets_message, 320);
DROBULETS_AT(drobulets_message, pieces, 20);
DROBULETS_AT(drobulets_message, set, 152);
DROBULETS_AT(drobulets_message, word, 184);
DROBULETS_AT(drobulets_message, arrival, 192);
DROBULETS_AT(drobulets_message, accepted, 208);
DROBULETS_AT(drobulets_message, values, 248);
DROBULETS_AT(drobulets_message, ran, 316);

DROBULETS_SIZE(drobulets_record, 304);
DROBULETS_AT(drobulets_record, promise, 132);
DROBULETS_AT(drobulets_record, arrival, 136);
DROBULETS_AT(drobulets_record, accepted, 152);
DROBULETS_AT(drobulets_record, committed, 192);
DROBULETS_AT(drobulets_record, ran, 232);
DROBULETS_AT(drobulets_record, values, 236);

DROBULETS_SIZE(drobulets_counter, 8);
DROBULETS_AT(drobulets_counter, full, 4);

DROBULETS_SIZE(drobulets_server, 19856);
DROBULETS_AT(drobulets_server, records, 8);
DROBULETS_AT(drobulets_server, counters, 19464);
DROBULETS_AT(drobulets_server, log, 19592);

DROBULETS_SIZE(drobulets_slot, 64);
DROBULETS_AT(drobulets_slot, arrival, 8);
DROBULETS_AT(drobulets_slot, accepted, 24);

DROBULETS_SIZE(drobulets_drive, 968);
DROBULETS_AT(drobulets_drive, pieces, 16);
DROBULETS_AT(drobulets_drive, answers, 152);
DROBULETS_AT(drobulets_drive, chosen, 920);
DROBULETS_AT(drobulets_drive, seen, 960);

DROBULETS_SIZE(drobulets_wants, 40);
DROBULETS_SIZE(drobulets_reading, 12);
DROBULETS_SIZE(drobulets_decoded, 328);
DROBULETS_AT(drobulets_decoded, message, 8);

#undef DROBULETS_AT
#undef DROBULETS_SIZE

#ifdef __cplusplus
}
#endif

#endif
