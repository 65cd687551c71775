/*
 * A host of six stations in memory: two shards, an engine that goes from one to the other, oil that does not fit its counter, and trunks that drop.
 * The disk is a buffer here and the trunks are a mask; the rest is what a host does. The duties are numbered as in docs/HOST.md:
 * S4 is the fourth of a server, D2 the second of a drive. bindings/rust/examples/host.rs is the same in Rust.
 *
 * gcc -Iinclude examples/host.c -Ltarget/staticlib -lstation -o host
 */
#include <drobulets.h>
#include <stdio.h>
#include <stdlib.h>
#include <string.h>

enum { STATIONS = 6, ENGINES = 0, HOURS = 1, OIL = 2 };

#define AT(s) (1u << (s))
#define ALL (AT(STATIONS) - 1)
#define DEMAND(fact) demand(fact, #fact)

static drobulets_server servers[STATIONS];
static drobulets_server disk_servers[STATIONS];
static drobulets_drive disk_drives[DROBULETS_COORDINATORS];
static uint32_t trunks; /* AT(s): the trunk to station s is up */

static void demand(int fact, const char *words)
{
    if (!fact) {
        printf("not so: %s\n", words);
        exit(1);
    }
}

/* Whether these bytes are a message of this code. */
static int says(const uint8_t *bytes, size_t length, uint32_t code)
{
    drobulets_decoded decoded = drobulets_decode(bytes, length);
    return decoded.refusal == 0 && decoded.message.code == code;
}

/* ---- the duties */

/* What the table says of a refusal: 5, 6 and 13 stop the host, and what is refused by another is dropped. */
static int dropped(uint32_t refusal)
{
    DEMAND(refusal != DROBULETS_OTHER_PIECES && refusal != DROBULETS_OTHER_SET && refusal != DROBULETS_BAD_STATE);
    return refusal != 0;
}

/* A message reaches a server, and the yard is told what it ran. Gives the length of its reply, which goes to whoever asked (S5), or 0 for none. */
static uint32_t ask(uint32_t s, const uint8_t *message, size_t length, uint8_t *reply)
{
    if (!(trunks & AT(s)))
        return 0;
    drobulets_answer answer = drobulets_server_take(&servers[s], message, length, reply, DROBULETS_LONGEST); /* S2, S3 */
    if (dropped(answer.refusal))
        return 0;
    disk_servers[s] = servers[s]; /* S4 */
    drobulets_message said = drobulets_decode(reply, answer.length).message;
    if (said.ran != 0) /* of a CommitOK alone */
        printf("station %u: committed T%u, %u ran\n", (unsigned)s, (unsigned)said.t, (unsigned)said.ran);
    return answer.length;
}

/* Sends what is due (D4) and gives the drive every reply (D5). Gives the servers that have answered a Commit (D8). */
static uint32_t send(drobulets_drive *drive)
{
    uint8_t message[DROBULETS_LONGEST], reply[DROBULETS_LONGEST];
    uint32_t told = 0;
    disk_drives[drive->coordinator] = *drive; /* D2 */
    drobulets_due due = drobulets_drive_due(drive, message, sizeof message);
    DEMAND(due.refusal == 0);
    for (uint32_t s = 0; s < STATIONS; s++) {
        uint32_t length = due.servers & AT(s) ? ask(s, message, due.length, reply) : 0;
        if (length != 0 && says(reply, length, DROBULETS_COMMIT_OK))
            told |= AT(s);
        else if (length != 0)
            dropped(drobulets_drive_take(drive, reply, length));
    }
    return told;
}

/* Carries a number until it is decided, or until there are too few answers. A host with a clock would wait before D6 and D7. */
static void carry(drobulets_drive *drive)
{
    int moved = 1;
    while (moved && drive->phase != 3) {
        uint32_t phase = drive->phase;
        send(drive);
        moved = drive->phase != phase || drobulets_drive_move_on(drive) == 0; /* D6 */
        if (!moved && drive->seen > drive->ballot)
            moved = drobulets_drive_again(drive) == 0; /* D7 */
    }
}

/* Asks the servers of its shard whether a number is committed, and gives server s what they say (S7). Answers whether one knew. */
static int learn(uint32_t s, uint32_t shard, uint32_t t)
{
    uint8_t question[DROBULETS_LONGEST], answer[DROBULETS_LONGEST], reply[DROBULETS_LONGEST];
    drobulets_message inquire = {.code = DROBULETS_INQUIRE, .t = t};
    uint32_t length = drobulets_encode(&inquire, question, sizeof question).length;
    for (uint32_t other = DROBULETS_REPLICAS * shard; other < DROBULETS_REPLICAS * (shard + 1); other++) {
        uint32_t answered = other == s ? 0 : ask(other, question, length, answer);
        if (answered != 0 && says(answer, answered, DROBULETS_DONE))
            return ask(s, answer, answered, reply) != 0;
    }
    return 0;
}

/* Learns all that a server wants (S7). Gives the numbers that nobody knew: a coordinator must recover them. */
static uint64_t learn_wanted(uint32_t s)
{
    drobulets_wants wants = drobulets_server_wanted(&servers[s]);
    uint64_t words[DROBULETS_SHARDS] = {wants.set.w0, wants.set.w1, wants.set.w2, wants.set.w3}, unknown = 0;
    DEMAND(wants.refusal == 0);
    for (uint32_t shard = 0; shard < DROBULETS_SHARDS; shard++)
        for (uint32_t t = 0; t < DROBULETS_NUMBERS; t++)
            if (words[shard] >> t & 1 && !learn(s, shard, t))
                unknown |= UINT64_C(1) << t;
    return unknown;
}

/* ---- a figure */

/* What a yard is shown before a counter's value. A full counter is no total: an add did not fit, and none was taken since. Only a sum above the range
 * leaves a value above 0, and only one below the range a value below 0. */
static const char *bound(drobulets_reading counter)
{
    return !counter.kept ? "" : counter.value > 0 ? "at least " : "at most ";
}

/* ---- the day */

static drobulets_pieces pieces_of(const drobulets_piece *list, uint32_t count)
{
    drobulets_pieces pieces = {.count = count};
    memcpy(pieces.list, list, count * sizeof *list);
    return pieces;
}

/* Prints a server's counters and log; they must be what every server of its shard has. */
static void show(uint32_t s)
{
    const drobulets_server *server = &servers[s];
    uint32_t shard = s / DROBULETS_REPLICAS;
    drobulets_reading engines = drobulets_server_counter(server, ENGINES), hours = drobulets_server_counter(server, HOURS),
                      oil = drobulets_server_counter(server, OIL);
    printf("shard %u, station %u: %s%d engines, %s%d hours, %s%d ml of oil; ran", (unsigned)shard, (unsigned)s, bound(engines), (int)engines.value,
        bound(hours), (int)hours.value, bound(oil), (int)oil.value);
    for (uint32_t place = 0; drobulets_server_log(server, place).some; place++)
        printf(" T%u", (unsigned)drobulets_server_log(server, place).number);
    printf("\n");
    DEMAND(engines.value == (shard == 0 ? 3 : 5) && hours.value == (shard == 0 ? 0 : 1200) && oil.value == (shard == 0 ? 2100000000 : 0));
    DEMAND(!engines.kept && !hours.kept && !oil.kept);
}

int main(void)
{
    /* D1: T8 is this exchange, T1 this delivery and T9 this reading of a tank, for the life of the cluster. */
    const drobulets_pieces exchange = pieces_of((const drobulets_piece[]){
        {0, ENGINES, DROBULETS_ADD, -1}, {0, OIL, DROBULETS_PUT, 2000000000}, {1, ENGINES, DROBULETS_ADD, 1}, {1, HOURS, DROBULETS_PUT, 1200}}, 4);
    const drobulets_pieces delivery = pieces_of((const drobulets_piece[]){
        {0, ENGINES, DROBULETS_ADD, 4}, {0, OIL, DROBULETS_ADD, 1000000000}, {1, ENGINES, DROBULETS_ADD, 4}}, 3);
    const drobulets_pieces tank = pieces_of(&(const drobulets_piece){0, OIL, DROBULETS_PUT, 2100000000}, 1);
    drobulets_drive first, second, rescue;

    for (uint32_t s = 0; s < STATIONS; s++) {
        DEMAND(drobulets_server_fresh(&servers[s], s) == 0); /* S1 */
        disk_servers[s] = servers[s];
    }

    DEMAND(drobulets_drive_start(&first, 0, 8, exchange) == 0); /* D3 */
    trunks = AT(0) | AT(1) | AT(3) | AT(4);
    send(&first);
    DEMAND(drobulets_drive_move_on(&first) == 0); /* D6: two of three in each shard have answered */
    trunks = AT(0) | AT(3);
    send(&first);
    printf("T8: the Accept has reached stations 0 and 3 when coordinator 0 loses its power\n");
    memset(&first, 0xFF, sizeof first);

    trunks = ALL & ~AT(5);
    DEMAND(drobulets_drive_start(&second, 1, 1, delivery) == 0); /* D3 */
    carry(&second);
    DEMAND(second.phase == 3 && send(&second) == trunks);
    DEMAND(servers[0].log.count == 0 && learn_wanted(0) == UINT64_C(1) << 8);
    printf("T1: committed at five stations, where nothing ran: it waits for T8, which nobody has committed\n");

    DEMAND(drobulets_drive_recover(&rescue, 2, 8, exchange, 0) == 0); /* D3, D1: with the pieces that it was started with */
    carry(&rescue);
    printf("T8: coordinator 2 recovers it at ballot %u; the Commit reaches stations 0 and 3\n", (unsigned)rescue.ballot);
    trunks = AT(0) | AT(3);
    DEMAND(rescue.phase == 3 && send(&rescue) == trunks);

    first = disk_drives[0]; /* D2: the drive as it was when it last sent anything */
    trunks = AT(1) | AT(2) | AT(4);
    carry(&first);
    DEMAND(first.phase == 0 && first.ballot == 16); /* D7 */
    printf("T8: coordinator 0 is back, hears of ballot %u and goes on at %u\n", (unsigned)first.seen, (unsigned)first.ballot);
    trunks = ALL & ~AT(5);
    carry(&first);
    DEMAND(first.phase == 3 && send(&first) == trunks);

    memset(&servers[2], 0xFF, sizeof servers[2]);
    servers[2] = disk_servers[2]; /* S4: it has forgotten nothing that it answered or ran */
    drobulets_counted left = drobulets_server_run_all(&servers[2]); /* S6 */
    DEMAND(left.refusal == 0 && left.many == 0);
    printf("station 2 was without power, and is back from its disk\n");

    printf("station 5 is reached, and learns of T8 from another\n");
    trunks = ALL;
    DEMAND(send(&second) == ALL); /* D8 */
    DEMAND(servers[5].log.count == 0 && learn_wanted(5) == 0);
    DEMAND(send(&first) == ALL); /* D8: the memory of both drives is free now */

    drobulets_reading oil = drobulets_server_counter(&servers[0], OIL);
    DEMAND(oil.value == 2000000000 && oil.kept && drobulets_server_result(&servers[0], 1, 1).kept);
    printf("T1: its oil did not fit: shard 0 shows %s%d ml until the tank is read\n", bound(oil), (int)oil.value);
    printf("T9: coordinator 1 puts what the tank holds, and the oil is counted again\n");
    DEMAND(drobulets_drive_start(&second, 1, 9, tank) == 0); /* D3 */
    carry(&second);
    DEMAND(second.phase == 3 && send(&second) == (AT(0) | AT(1) | AT(2)));

    for (uint32_t s = 0; s < STATIONS; s++) {
        drobulets_message fetch = {.code = DROBULETS_FETCH, .t = 1};
        uint8_t question[DROBULETS_LONGEST], answer[DROBULETS_LONGEST];
        uint32_t length = drobulets_encode(&fetch, question, sizeof question).length;
        DEMAND(says(answer, ask(s, question, length, answer), DROBULETS_RESULTS)); /* S8 */
        show(s);
    }
    return 0;
}
