/* geocom_ask and geocom_ask_raw over hostile links: hostile ROUNDS. A link brings a byte at a time, half lines, noise without end, closes in the
 * middle of a reply, sign-ons, writes that are cut short, and connections that can't be made, alone and together. Each request has a number of
 * its own, which its answer has: a value has to be its own request's, and each call has to end by its deadline. Once the link is well, requests
 * are answered again. */
#include "wire.h"

static const char *not_so;
#define SEE(E) if (!(E) && not_so == NULL) not_so = #E

typedef struct counts {
    unsigned long answered, others, silent, wrong, overdue;
} counts;

static void ask(geocom_session *session, const geocom_port *port, wire *w, unsigned number, counts *told) {
    static const uint64_t timeouts[] = {1, 500, 3000, 30000};
    geocom_settlement s;
    uint8_t text[GEOCOM_TEXT_ROOM];
    char params[16];
    const uint64_t timeout = timeouts[wire_draw(w, 4)], begun = w->now;
    const int is_raw = wire_draw(w, 2) == 0;
    const unsigned long before = w->requests;
    snprintf(params, sizeof params, "%u", number);
    const int told_by = (is_raw ? geocom_ask_raw : geocom_ask)(session, port, number, is_raw ? 2167 : 2107, params, timeout, &s, text);
    const uint64_t end = (told_by == 0 ? w->sent : begun) + timeout;
    if (w->now > end || (told_by == 0 && w->sent > begun + timeout)) told->overdue++;
    if (told_by == GEOCOM_SILENT) {
        told->silent++;
        told->wrong += w->requests != before;
    } else if (told_by != 0 || s.target != number || s.procedure != (is_raw ? 2167 : 2107) || w->requests != before + 1) {
        told->wrong++;
    } else {
        const char *at = (const char *)text;
        const unsigned value = s.items == 2 ? wire_number(at + s.item_spans[0].offset, s.item_spans[0].length, at + s.item_spans[1].offset, s.item_spans[1].length) : 0;
        if (s.reading == GEOCOM_VALUE && value != 0) told->answered++;
        else told->others++;
        told->wrong += s.reading == GEOCOM_VALUE && value != 0 && value != number;
    }
}

static counts run(const link *l, uint64_t seed) {
    static wire w;
    char kept[600] = "";
    geocom_session session;
    const geocom_port port = {&w, wire_open, wire_close, wire_wait, wire_write, wire_read, wire_now};
    counts told = {0, 0, 0, 0, 0}, after = {0, 0, 0, 0, 0};
    unsigned number = 0;
    wire_be(&w, l, seed, kept);
    SEE(geocom_session_init(&session, (uint8_t)(1 + seed % 7), 2000, 500) == 0);
    while (number < 60) {
        ask(&session, &port, &w, ++number, &told);
        if (wire_draw(&w, 20) == 0) w.now += 100000;
    }
    /* The link is well again, after a minute at most. */
    w.faults = links[0];
    w.longest = 100;
    for (int k = 0; k < 12; k++) {
        geocom_settlement s;
        uint8_t text[GEOCOM_TEXT_ROOM];
        const int told_by = geocom_ask(&session, &port, ++number, 2107, "1", 30000, &s, text);
        if (k >= 4 && (told_by != 0 || s.reading != GEOCOM_VALUE)) after.wrong++;
    }
    SEE(after.wrong == 0);
    return told;
}

/* What is refused is refused at once, and nothing is sent: on a session that never connected, and on one that is ready. */
static void refusals(void) {
    static wire w;
    char kept[600] = "";
    geocom_session session, before;
    geocom_settlement s;
    uint8_t text[GEOCOM_TEXT_ROOM];
    const geocom_port port = {&w, wire_open, wire_close, wire_wait, wire_write, wire_read, wire_now};
    wire_be(&w, &links[0], 1, kept);
    geocom_session_init(&session, 1, 2000, 500);
    for (int k = 0; k < 2; k++) {
        const uint64_t now = w.now;
        const unsigned long requests = w.requests;
        before = session;
        SEE(geocom_ask(&session, &port, 1, 2167, "1", 30000, &s, text) == 21 && geocom_ask(&session, &port, 1, 2107, "x", 30000, &s, text) == 11);
        SEE(geocom_ask(&session, &port, 1, 2107, "1,1", 30000, &s, text) == 15 && geocom_ask(&session, &port, GEOCOM_OWN, 2107, "1", 30000, &s, text) == 74);
        SEE(geocom_ask_raw(&session, &port, 1, 2107, "1", 30000, &s, text) == 68 && geocom_ask_raw(&session, &port, 1, 2167, "\"", 30000, &s, text) == 13);
        SEE(memcmp(&before, &session, sizeof session) == 0 && w.now == now && w.requests == requests);
        SEE(geocom_ask(&session, &port, 7, 2107, "5", 30000, &s, text) == 0 && s.target == 7 && s.reading == GEOCOM_VALUE && w.requests == requests + 1);
        SEE(geocom_ask(&session, &port, 7, 2107, "5", 0, &s, text) == GEOCOM_SILENT && w.requests == requests + 1);
    }
    session.width = 0;
    SEE(geocom_ask(&session, &port, 7, 2107, "5", 30000, &s, text) == 63 && geocom_ask_raw(&session, &port, 7, 2167, "5", 30000, &s, text) == 63);
}

/* A read that takes a second longer than it was to. */
static int slow_read(void *at, uint8_t *bytes, size_t room, uint64_t milliseconds) {
    const int came = wire_read(at, bytes, room, milliseconds);
    if (milliseconds > 0) ((wire *)at)->now += 1000;
    return came;
}

/* What the loop owes to the session and to its caller. */
static void duties(void) {
    static wire w;
    char kept[600];
    geocom_session session;
    geocom_settlement s;
    uint8_t text[GEOCOM_TEXT_ROOM];
    static const char came[] = "noise\r\n%N1,0,255,,0%T0,0,0,:\r\n";
    geocom_port port = {&w, wire_open, wire_close, wire_wait, wire_write, wire_read, wire_now};
    wire_be(&w, &links[0], 1, kept);
    w.least = 200, w.longest = 0;
    geocom_session_init(&session, 1, 2000, 500);
    /* A request has its whole time from when it is sent: ten round trips end after 4000. */
    SEE(geocom_ask(&session, &port, 1, 2107, "1", 3900, &s, text) == 0 && s.outcome == GEOCOM_ANSWERED && w.now == 1000 + 20 * 200 && w.opened == 1);
    SEE(session.client.next == 2 && geocom_ask(&session, &port, 2, 2107, "2", 3900, &s, text) == 0 && session.client.next == 3);
    /* The time between two calls counts for no dead line. */
    w.faults.lost = 1000;
    SEE(geocom_ask(&session, &port, 3, 2107, "3", 300, &s, text) == 0 && s.outcome == GEOCOM_LOST);
    w.faults.lost = 0;
    w.now += 1000000;
    SEE(geocom_ask(&session, &port, 4, 2107, "4", 3900, &s, text) == 0 && s.outcome == GEOCOM_ANSWERED && w.opened == 1);
    /* A sign-on that came between two calls is heard before the next request is sent. */
    for (unsigned k = 1; k <= 2; k++) {
        wire_pass(&w, &w.down, w.now, came, sizeof came - 1);
        w.now += 1000;
        w.faults.piece = k == 1 ? 256 : 1;
        const uint64_t interruptions = geocom_session_status(&session).interruptions;
        SEE(geocom_ask(&session, &port, 5, 2107, "5", 9000, &s, text) == 0 && s.outcome == GEOCOM_ANSWERED);
        SEE(geocom_session_status(&session).interruptions == interruptions + 1 && geocom_session_status(&session).sign_ons == k);
    }
    /* And so is the end of a connection. */
    w.faults.broken = 1000;
    SEE(geocom_ask(&session, &port, 6, 2107, "6", 300, &s, text) == GEOCOM_SILENT && w.requests == 6);
    w.faults.broken = 0;
    SEE(geocom_ask(&session, &port, 7, 2107, "7", 9000, &s, text) == 0 && s.outcome == GEOCOM_ANSWERED && w.opened == 2);
    w.faults.piece = 256;
    /* A reply counts from the moment after the read. */
    port.read = slow_read;
    SEE(geocom_ask(&session, &port, 8, 2107, "8", 900, &s, text) == 0 && s.outcome == GEOCOM_LATE && s.target == 8);
    port.read = wire_read;
    SEE(geocom_ask(&session, &port, 9, 2107, "9", 900, &s, text) == 0 && s.outcome == GEOCOM_ANSWERED && w.requests == 9);
    /* A timeout may be of any length. */
    SEE(geocom_ask(&session, &port, 10, 2107, "10", UINT64_MAX, &s, text) == 0 && s.outcome == GEOCOM_ANSWERED);
}

int main(int count, char **words) {
    const unsigned long rounds = count > 1 ? strtoul(words[1], NULL, 10) : 100;
    counts all = {0, 0, 0, 0, 0};
    refusals();
    duties();
    for (size_t k = 0; k < sizeof links / sizeof *links; k++) {
        counts told = {0, 0, 0, 0, 0};
        for (unsigned long seed = 0; seed < rounds; seed++) {
            const counts one = run(&links[k], seed + 1);
            told.answered += one.answered, told.others += one.others, told.silent += one.silent, told.wrong += one.wrong, told.overdue += one.overdue;
        }
        if (told.wrong != 0 || told.overdue != 0 || (k == 0 && told.silent + told.others > told.answered)) {
            printf("hostile: %s: %lu answered, %lu others, %lu silent, %lu wrong, %lu overdue\n", links[k].name, told.answered, told.others, told.silent,
                   told.wrong, told.overdue);
            return 1;
        }
        all.answered += told.answered, all.others += told.others, all.silent += told.silent;
    }
    if (not_so != NULL) printf("hostile: not so: %s\n", not_so);
    else printf("hostile links in C: %lu runs of %zu kinds: %lu answered, %lu late, lost or no value, %lu times silent; none wrong, none overdue\n",
                rounds * (unsigned long)(sizeof links / sizeof *links), sizeof links / sizeof *links, all.answered, all.others, all.silent);
    return not_so != NULL;
}
