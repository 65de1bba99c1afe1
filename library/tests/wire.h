/* A line in memory between a program and an instrument, with a clock of its own, for hostile.c, night.c and their kin in C++. Lines arrive in
 * order, each after a delay; some are lost, come twice, or lose their end; what is in flight outlives a connection. Connections can't be made,
 * break in the middle of a reply or of a write, and bring noise and sign-ons. */
#ifndef WIRE_H
#define WIRE_H

#include <stdio.h>
#include <stdlib.h>
#include <string.h>

#include "geocom.h"

#define FLIGHTS 256

/* The faults of a link, each of a thousand. */
typedef struct link {
    const char *name;
    unsigned lost, twice, cut;          /* of the lines, each way; and of the replies those whose end is cut off */
    unsigned unmade, broken, shortened; /* of the connections; of the reads; of the writes */
    unsigned started, noisy;            /* of the requests those with a sign-on; of the reads those that bring noise before anything else */
    size_t piece;                       /* how many bytes a read brings at most */
} link;

static const link links[] = {
    {"well", 0, 0, 0, 0, 0, 0, 0, 0, 256},        {"a byte at a time", 0, 0, 0, 0, 0, 0, 0, 0, 1},
    {"half lines", 0, 0, 200, 0, 0, 0, 0, 0, 7},  {"noise", 0, 0, 0, 0, 0, 0, 0, 900, 256},
    {"only noise", 0, 0, 0, 0, 0, 0, 0, 1000, 256}, {"closes", 0, 0, 0, 0, 30, 0, 0, 0, 3},
    {"sign-ons", 0, 0, 0, 0, 0, 0, 200, 0, 256},  {"only sign-ons", 0, 0, 0, 0, 0, 0, 1000, 0, 256},
    {"short writes", 0, 0, 0, 0, 0, 300, 0, 0, 256}, {"no connections", 0, 0, 0, 1000, 100, 0, 0, 0, 256},
    {"lost and repeated", 100, 100, 0, 0, 0, 0, 0, 0, 256}, {"all", 50, 50, 50, 300, 5, 20, 20, 50, 5},
};

typedef struct flight {
    uint64_t at;
    size_t length;
    char bytes[600];
} flight;

/* What is in flight one way: lines, with their CR LF but where that is cut off. */
typedef struct way {
    flight flights[FLIGHTS];
    unsigned first, count;
} way;

typedef struct wire {
    uint64_t now, chance;
    link faults;
    unsigned least, longest;               /* how many milliseconds a line takes, and how many more at most */
    void (*hear)(struct wire *, const char *request, size_t length); /* the instrument, to which a line with its CR LF comes */
    void *instrument;
    way up, down;
    char begun[600], came[4096];           /* of a line that is being written; of what has arrived, and wasn't read */
    size_t begun_length, came_length;
    int is_open, has_failed;               /* a connection that failed is for nothing but to be closed */
    uint64_t sent;                         /* when the last request was written that is no null procedure */
    unsigned long opened, requests;        /* how many connections were made, and how many such requests were written */
} wire;

static inline unsigned wire_draw(wire *w, unsigned below) {
    w->chance ^= w->chance << 13;
    w->chance ^= w->chance >> 7;
    w->chance ^= w->chance << 17;
    return (unsigned)(w->chance >> 20) % below;
}

static inline int wire_happens(wire *w, unsigned share) { return wire_draw(w, 1000) < share; }

static inline void wire_pass(wire *w, way *to, uint64_t from, const char *bytes, size_t length) {
    const int copies = wire_happens(w, w->faults.lost) ? 0 : wire_happens(w, w->faults.twice) ? 2 : 1;
    const uint64_t least = to->count > 0 ? to->flights[(to->first + to->count - 1) % FLIGHTS].at : 0;
    uint64_t at = from + w->least + wire_draw(w, (wire_draw(w, 4) > 0 && w->longest > 20 ? 20 : w->longest) + 1);
    for (int k = 0; k < copies && to->count < FLIGHTS; k++) {
        flight *f = &to->flights[(to->first + to->count++) % FLIGHTS];
        f->at = at > least ? at : least;
        f->length = length;
        memcpy(f->bytes, bytes, length);
    }
}

/* A reply with its CR LF, that goes out at the moment `from`. */
static inline void wire_reply(wire *w, uint64_t from, const char *bytes, size_t length) {
    static const char sign_on[] = "%N1,0,255,,0%T0,0,0,:\r\n";
    if (wire_happens(w, w->faults.started)) wire_pass(w, &w->down, from, sign_on, sizeof sign_on - 1);
    wire_pass(w, &w->down, from, bytes, wire_happens(w, w->faults.cut) ? wire_draw(w, (unsigned)length - 1) : length);
}

/* An instrument that answers a null procedure, and each other request with its first parameter twice, of which the first has `.0` behind it if
 * the request is no raw one. It keeps its reply to the last call of the table, in `instrument`, and repeats it for the same id. */
static inline void wire_echo(wire *w, const char *request, size_t length) {
    char *kept = (char *)w->instrument, reply[600];
    const char *comma = length > 6 ? strchr(request + 5, ',') : NULL, *colon = comma ? strchr(comma, ':') : NULL;
    if (strncmp(request, "%R1Q,", 5) != 0 || colon == NULL || colon - comma > 3) return;
    const int procedure = atoi(request + 5), id = atoi(comma + 1), number = atoi(colon + 1), is_raw = procedure == 2167;
    if (kept[0] != 0 && kept[7] == '0' + id && !is_raw) {
        wire_reply(w, w->now, kept, strlen(kept));
        return;
    }
    if (procedure == 0) snprintf(reply, sizeof reply, "%%R1P,0,%d:0\r\n", id);
    else snprintf(reply, sizeof reply, "%%R1P,0,%d:0,%d%s,%d\r\n", id, number, is_raw ? "" : ".0", number);
    if (!is_raw) strcpy(kept, reply);
    wire_reply(w, w->now, reply, strlen(reply));
}

/* The number that an item is, or 0. */
static inline unsigned wire_number_of(const char *item, size_t length) {
    char text[64], *end;
    snprintf(text, sizeof text, "%.*s", (int)length, item);
    const double number = strtod(text, &end);
    return length > 0 && end == text + length ? (unsigned)number : 0;
}

/* The number in an answer's two items, or 0 if they differ: then the line was altered, and a raw request's answer is any text. */
static inline unsigned wire_number(const char *first, size_t first_length, const char *second, size_t second_length) {
    const unsigned number = wire_number_of(first, first_length);
    return number == wire_number_of(second, second_length) ? number : 0;
}

/* Begins a line with these faults to a `wire_echo` that keeps its reply in `kept`, of 600 bytes. */
static inline void wire_be(wire *w, const link *faults, uint64_t seed, char *kept) {
    memset(w, 0, sizeof *w);
    kept[0] = 0;
    w->now = 1000;
    w->chance = seed * 2654435761u + 1;
    w->faults = *faults;
    w->longest = 2000;
    w->hear = wire_echo;
    w->instrument = kept;
}

static inline void wire_arrive(wire *w) {
    for (; w->up.count > 0 && w->up.flights[w->up.first].at <= w->now; w->up.count--) {
        flight f = w->up.flights[w->up.first];
        w->up.first = (w->up.first + 1) % FLIGHTS;
        f.bytes[f.length] = 0;
        w->hear(w, f.bytes, f.length);
    }
    for (; w->down.count > 0 && w->down.flights[w->down.first].at <= w->now; w->down.count--) {
        const flight *f = &w->down.flights[w->down.first];
        w->down.first = (w->down.first + 1) % FLIGHTS;
        if (!w->is_open || w->came_length + f->length > sizeof w->came) continue;
        memcpy(w->came + w->came_length, f->bytes, f->length);
        w->came_length += f->length;
    }
}

/* The callbacks of a port, whose context is a wire. */

static inline uint64_t wire_now(void *at) { return ((wire *)at)->now; }

static inline void wire_wait(void *at, uint64_t milliseconds) { ((wire *)at)->now += milliseconds; }

static inline void wire_close(void *at) {
    wire *w = (wire *)at;
    if (!w->is_open) abort();
    w->is_open = w->has_failed = 0;
}

static inline int wire_open(void *at) {
    wire *w = (wire *)at;
    if (w->is_open) abort();
    if (wire_happens(w, w->faults.unmade)) return -1;
    w->is_open = 1;
    w->begun_length = w->came_length = 0;
    w->opened++;
    return 0;
}

static inline int wire_write(void *at, const uint8_t *bytes, size_t length) {
    wire *w = (wire *)at;
    const int is_short = wire_happens(w, w->faults.shortened);
    const size_t written = is_short ? wire_draw(w, (unsigned)length) : length;
    if (!w->is_open || w->has_failed) abort();
    w->has_failed = is_short;
    for (size_t k = 0; k < written; k++) {
        if (w->begun_length < sizeof w->begun - 1) w->begun[w->begun_length++] = (char)bytes[k];
        if (bytes[k] != '\n') continue;
        if (w->begun_length > 1 && w->begun[w->begun_length - 2] == '\r') wire_pass(w, &w->up, w->now, w->begun, w->begun_length);
        w->begun_length = 0;
    }
    if (length > 7 && memcmp(bytes, "%R1Q,0,", 7) != 0) w->sent = w->now, w->requests++;
    return is_short ? -1 : 0;
}

static inline int wire_read(void *at, uint8_t *bytes, size_t room, uint64_t milliseconds) {
    wire *w = (wire *)at;
    const uint64_t end = w->now + milliseconds;
    if (!w->is_open || w->has_failed) abort();
    if (wire_happens(w, w->faults.broken)) {
        w->has_failed = 1;
        return -1;
    }
    if (milliseconds > 0 && wire_happens(w, w->faults.noisy)) {
        static const char *noise[] = {"x", "noise\r\n", "\n", "\r\n", "%R1P,0", "%R1P,0,9:0\r\n", "\0\xff:", "%N1", "%R1P,0,\r"};
        const char *some = noise[wire_draw(w, 9)];
        w->now += 1 + wire_draw(w, milliseconds < 50 ? (unsigned)milliseconds : 50);
        memcpy(bytes, some, strlen(some) + 1);
        return (int)(strlen(some) > 0 ? strlen(some) : 1);
    }
    for (;;) {
        wire_arrive(w);
        if (w->came_length > 0) {
            const size_t most = w->faults.piece < room ? w->faults.piece : room, piece = w->came_length < most ? w->came_length : most;
            memcpy(bytes, w->came, piece);
            w->came_length -= piece;
            memmove(w->came, w->came + piece, w->came_length);
            return (int)piece;
        }
        uint64_t next = end;
        if (w->up.count > 0 && w->up.flights[w->up.first].at < next) next = w->up.flights[w->up.first].at;
        if (w->down.count > 0 && w->down.flights[w->down.first].at < next) next = w->down.flights[w->down.first].at;
        if (next > w->now) w->now = next;
        if (next >= end) break;
    }
    wire_arrive(w);
    return 0;
}

#endif
