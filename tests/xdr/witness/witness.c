/* An independent codec: rpcgen's, from messages.x. Each line of the input is a question, each line of the output its answer.
   "e FIELDS"  the bytes of a message, in hexadecimal
   "d BYTES"   "no" if they aren't a message; else how many bytes it has, its bytes when encoded anew, and its fields
   "f"         the bytes of the file of RFC 4506, section 7
   Fields are decimals in the order of the bytes: the code first, an array with its count, optional data with 0 or 1. */
#include <stdio.h>
#include <stdlib.h>
#include <string.h>

#include "messages.h"
#include "published.h"

enum { LONGEST = 4096 };

/* The fields of the line that aren't read yet. */
static char *rest;

static unsigned long long next(void)
{
    return strtoull(rest, &rest, 10);
}

static int next_signed(void)
{
    return (int)strtol(rest, &rest, 10);
}

static u_int read_pieces(piece **list)
{
    static piece pieces[MOST];
    u_int count = (u_int)next();
    for (u_int i = 0; i < count && i < MOST; i++) {
        pieces[i].shard = (u_int)next();
        pieces[i].key = (u_int)next();
        pieces[i].kind = (u_int)next();
        pieces[i].operand = next_signed();
    }
    *list = pieces;
    return count;
}

static void read_set(set *s)
{
    for (int k = 0; k < 4; k++)
        s->words[k] = next();
}

static void read_committed(committed *m)
{
    m->t = (u_int)next();
    m->pieces.pieces_len = read_pieces(&m->pieces.pieces_val);
    read_set(&m->chosen);
}

static void read_asked(asked *m)
{
    m->t = (u_int)next();
    m->ballot = (u_int)next();
    m->pieces.pieces_len = read_pieces(&m->pieces.pieces_val);
}

static void read_proposed(proposed *m)
{
    m->t = (u_int)next();
    m->ballot = (u_int)next();
    m->pieces.pieces_len = read_pieces(&m->pieces.pieces_val);
    read_set(&m->chosen);
}

static void read_prepared(prepared *m)
{
    static word arrival;
    static vote vote;
    m->t = (u_int)next();
    m->server = (u_int)next();
    m->ballot = (u_int)next();
    m->arrival = NULL;
    m->accepted = NULL;
    if (next()) {
        arrival = next();
        m->arrival = &arrival;
    }
    if (next()) {
        vote.ballot = (u_int)next();
        read_set(&vote.voted);
        m->accepted = &vote;
    }
}

static void read_results(results *m)
{
    static result values[MOST];
    m->t = (u_int)next();
    m->server = (u_int)next();
    m->list.list_len = (u_int)next();
    for (u_int i = 0; i < m->list.list_len && i < MOST; i++) {
        values[i].value = next_signed();
        values[i].kept = (bool_t)next();
    }
    m->list.list_val = values;
}

static void read_message(message *m)
{
    memset(m, 0, sizeof *m);
    m->code = (code)next();
    switch (m->code) {
    case PRE_ACCEPT:
    case PREPARE:
        read_asked(&m->message_u.pre_accept);
        break;
    case ACCEPT:
        read_proposed(&m->message_u.accept);
        break;
    case COMMIT:
    case DONE:
        read_committed(&m->message_u.commit);
        break;
    case INQUIRE:
    case FETCH:
        m->message_u.inquire = (u_int)next();
        break;
    case PRE_ACCEPT_OK:
        m->message_u.pre_accept_ok.t = (u_int)next();
        m->message_u.pre_accept_ok.server = (u_int)next();
        m->message_u.pre_accept_ok.ballot = (u_int)next();
        m->message_u.pre_accept_ok.arrival = next();
        break;
    case ACCEPT_OK:
        m->message_u.accept_ok.t = (u_int)next();
        m->message_u.accept_ok.server = (u_int)next();
        m->message_u.accept_ok.ballot = (u_int)next();
        break;
    case COMMIT_OK:
        m->message_u.commit_ok.t = (u_int)next();
        m->message_u.commit_ok.server = (u_int)next();
        m->message_u.commit_ok.many = (u_int)next();
        break;
    case PREPARE_OK:
        read_prepared(&m->message_u.prepare_ok);
        break;
    case BEHIND:
        m->message_u.behind.t = (u_int)next();
        m->message_u.behind.server = (u_int)next();
        m->message_u.behind.asked = (u_int)next();
        m->message_u.behind.promise = (u_int)next();
        break;
    case NOT_YET:
        m->message_u.not_yet.t = (u_int)next();
        m->message_u.not_yet.server = (u_int)next();
        break;
    case RESULTS:
        read_results(&m->message_u.results);
        break;
    }
}

static void show_pieces(u_int count, const piece *list)
{
    printf(" %u", count);
    for (u_int i = 0; i < count; i++)
        printf(" %u %u %u %d", list[i].shard, list[i].key, list[i].kind, list[i].operand);
}

static void show_set(const set *s)
{
    for (int k = 0; k < 4; k++)
        printf(" %llu", (unsigned long long)s->words[k]);
}

static void show_committed(const committed *m)
{
    printf(" %u", m->t);
    show_pieces(m->pieces.pieces_len, m->pieces.pieces_val);
    show_set(&m->chosen);
}

static void show_prepared(const prepared *m)
{
    printf(" %u %u %u %d", m->t, m->server, m->ballot, m->arrival != NULL);
    if (m->arrival)
        printf(" %llu", (unsigned long long)*m->arrival);
    printf(" %d", m->accepted != NULL);
    if (m->accepted) {
        printf(" %u", m->accepted->ballot);
        show_set(&m->accepted->voted);
    }
}

static void show_results(const results *m)
{
    printf(" %u %u %u", m->t, m->server, m->list.list_len);
    for (u_int i = 0; i < m->list.list_len; i++)
        printf(" %d %d", m->list.list_val[i].value, m->list.list_val[i].kept);
}

static void show_message(const message *m)
{
    printf(" %d", (int)m->code);
    switch (m->code) {
    case PRE_ACCEPT:
    case PREPARE:
        printf(" %u %u", m->message_u.prepare.t, m->message_u.prepare.ballot);
        show_pieces(m->message_u.prepare.pieces.pieces_len, m->message_u.prepare.pieces.pieces_val);
        break;
    case ACCEPT:
        printf(" %u %u", m->message_u.accept.t, m->message_u.accept.ballot);
        show_pieces(m->message_u.accept.pieces.pieces_len, m->message_u.accept.pieces.pieces_val);
        show_set(&m->message_u.accept.chosen);
        break;
    case COMMIT:
    case DONE:
        show_committed(&m->message_u.done);
        break;
    case INQUIRE:
    case FETCH:
        printf(" %u", m->message_u.fetch);
        break;
    case PRE_ACCEPT_OK:
        printf(" %u %u %u %llu", m->message_u.pre_accept_ok.t, m->message_u.pre_accept_ok.server,
               m->message_u.pre_accept_ok.ballot, (unsigned long long)m->message_u.pre_accept_ok.arrival);
        break;
    case ACCEPT_OK:
        printf(" %u %u %u", m->message_u.accept_ok.t, m->message_u.accept_ok.server, m->message_u.accept_ok.ballot);
        break;
    case COMMIT_OK:
        printf(" %u %u %u", m->message_u.commit_ok.t, m->message_u.commit_ok.server, m->message_u.commit_ok.many);
        break;
    case PREPARE_OK:
        show_prepared(&m->message_u.prepare_ok);
        break;
    case BEHIND:
        printf(" %u %u %u %u", m->message_u.behind.t, m->message_u.behind.server, m->message_u.behind.asked,
               m->message_u.behind.promise);
        break;
    case NOT_YET:
        printf(" %u %u", m->message_u.not_yet.t, m->message_u.not_yet.server);
        break;
    case RESULTS:
        show_results(&m->message_u.results);
        break;
    }
}

static void show_bytes(const char *bytes, u_int many)
{
    for (u_int i = 0; i < many; i++)
        printf("%02x", (unsigned char)bytes[i]);
}

/* The bytes of a thing, or "no". */
static void show_encoded(xdrproc_t proc, void *thing)
{
    static char out[LONGEST];
    XDR xdr;
    xdrmem_create(&xdr, out, sizeof out, XDR_ENCODE);
    if (proc(&xdr, thing))
        show_bytes(out, xdr_getpos(&xdr));
    else
        printf("no");
    xdr_destroy(&xdr);
}

static int digit(char c)
{
    return c >= '0' && c <= '9' ? c - '0' : c >= 'a' && c <= 'f' ? c - 'a' + 10 : -1;
}

static u_int read_bytes(char *bytes)
{
    u_int many = 0;
    while (rest[0] == ' ')
        rest++;
    for (; digit(rest[0]) >= 0 && digit(rest[1]) >= 0 && many < LONGEST; rest += 2)
        bytes[many++] = (char)(digit(rest[0]) << 4 | digit(rest[1]));
    return many;
}

static void decode(void)
{
    static char in[LONGEST];
    u_int many = read_bytes(in);
    message m;
    XDR xdr;
    memset(&m, 0, sizeof m);
    xdrmem_create(&xdr, in, many, XDR_DECODE);
    if (xdr_message(&xdr, &m)) {
        printf("%u ", xdr_getpos(&xdr));
        show_encoded((xdrproc_t)xdr_message, &m);
        show_message(&m);
    } else {
        printf("no");
    }
    xdr_free((xdrproc_t)xdr_message, (char *)&m);
    xdr_destroy(&xdr);
}

static void published(void)
{
    static char data[] = "(quit)";
    file f;
    f.filename = "sillyprog";
    f.type.kind = EXEC;
    f.type.filetype_u.interpretor = "lisp";
    f.owner = "john";
    f.data.data_len = 6;
    f.data.data_val = data;
    show_encoded((xdrproc_t)xdr_file, &f);
}

int main(void)
{
    static char line[4 * LONGEST];
    message m;
    while (fgets(line, sizeof line, stdin)) {
        rest = line + 1;
        if (line[0] == 'e') {
            read_message(&m);
            show_encoded((xdrproc_t)xdr_message, &m);
        } else if (line[0] == 'd') {
            decode();
        } else {
            published();
        }
        printf("\n");
    }
    return 0;
}
