/* A session's course, step by step: what each call says, and each field where the header has it; and what is refused, so that nothing is
 * changed. */
#include <stdio.h>
#include <string.h>

#include "geocom.h"

#define SEE(E) if (!(E)) { printf("sessions: not so: %s (line %d)\n", #E, __LINE__); return 1; }

static struct { geocom_session session; uint8_t behind[64]; } room;
static geocom_session *const s = &room.session;
static geocom_settlement settled[GEOCOM_WINDOW];
static uint8_t line[GEOCOM_LINE_ROOM], text[GEOCOM_TEXT_ROOM];
static geocom_step step;
static geocom_feed_result heard;
static geocom_count sent;

static const char answers[] = "%R1P,0,6:0\r\n%R1P,0,5:0\r\n%R1P,0,4:0\r\n%R1P,0,3:0\r\n%R1P,0,2:0\r\n%R1P,0,1:0\r\n%R1P,0,0:0\r\n%R1P,0,7:0\r\n";

/* Whether the next act is this one, until this moment. */
static int is_next(uint32_t want, uint64_t now, uint32_t act, uint64_t until) {
    step = geocom_session_next(s, want, now, settled, GEOCOM_WINDOW, line, sizeof line);
    return step.fault == 0 && step.act == act && step.until == until && step.bytes == 0 && step.count == 0 && s->moment == now;
}

/* Whether these bytes are to be written next, and so many requests are lost. */
static int writes(uint32_t want, uint64_t now, const char *bytes, uint32_t count) {
    step = geocom_session_next(s, want, now, settled, GEOCOM_WINDOW, line, sizeof line);
    return step.fault == 0 && step.act == GEOCOM_WRITE && step.until == 0 && step.bytes == strlen(bytes) && memcmp(line, bytes, step.bytes) == 0 &&
           step.count == count;
}

/* Whether all bytes are used, a line at a time, the last one with this kind and count. */
static int hears(uint64_t now, const char *bytes, uint32_t kind, uint32_t count) {
    for (size_t left = strlen(bytes); left > 0; left -= heard.used, bytes += heard.used) {
        heard = geocom_session_feed(s, now, (const uint8_t *)bytes, left, settled, GEOCOM_WINDOW, text, sizeof text);
        if (heard.fault != 0 || heard.used == 0 || s->moment != now) return 0;
    }
    return heard.kind == kind && heard.count == count;
}

static int asks(uint32_t target, uint64_t timeout, uint16_t procedure, const char *params, const char *bytes) {
    sent = geocom_session_ask(s, target, timeout, procedure, (const uint8_t *)params, strlen(params), line, sizeof line);
    return sent.fault == 0 && sent.count == strlen(bytes) && memcmp(line, bytes, sent.count) == 0;
}

static int is_status(uint32_t is_up, uint32_t is_ready, uint32_t outstanding, uint32_t current, uint64_t interruptions, uint64_t sign_ons) {
    const geocom_status is = geocom_session_status(s);
    return is.fault == 0 && is.is_up == is_up && is.is_ready == is_ready && is.outstanding == outstanding && is.current == current && is.interruptions == interruptions &&
           is.sign_ons == sign_ons;
}

static int synchronizes(void) {
    uint8_t mark[64];
    memset(&room, 0xa5, sizeof room);
    memset(mark, 0xa5, sizeof mark);
    SEE(geocom_session_init(s, 0, 1, 1) == 61 && geocom_session_init(s, 8, 1, 1) == 61 && s->width == 0xa5 && s->client.width == 0xa5)
    SEE(geocom_session_init(s, 2, 1000, 200) == 0)
    SEE(s->client.width == 7 && s->client.answered == 0 && s->client.outstanding == 0 && s->client.partial_line.length == 0)
    SEE(s->timeout == 1000 && s->settle == 200 && s->moment == 0 && s->patience == 1000 && s->interruptions == 0 && s->sign_ons == 0 && s->idle_since == 0)
    SEE(s->null_deadline == 0 && s->hold_until == 0 && s->wait_since == 0 && s->no_reply_since == 0 && s->pause == 0 && s->width == 2 && s->phase == 0 && s->is_idle == 0)
    SEE(s->has_asked == 0 && s->awaits_reply == 0 && s->must_resynchronize == 0 && s->requests_since_table_call == 7 && s->last_ended == 1 && s->has_listened == 0)
    SEE(is_status(0, 0, 0, 0, 0, 0))
    SEE(is_next(GEOCOM_WANT_NOTHING, 5, GEOCOM_WAIT, UINT64_MAX) && s->is_idle == 1 && s->idle_since == 5)
    SEE(is_next(GEOCOM_WANT_ANSWERS, 9, GEOCOM_WAIT, UINT64_MAX) && is_next(GEOCOM_WANT_SEND, 10, GEOCOM_OPEN, 0) && s->is_idle == 0)
    SEE(geocom_session_opened(s, 12) == 0 && s->phase == 2 && s->moment == 12 && is_status(1, 0, 0, 0, 0, 0))
    SEE(writes(GEOCOM_WANT_SEND, 12, "\n", 0) && s->phase == 4)
    SEE(writes(GEOCOM_WANT_SEND, 12, "%R1Q,0,6:\r\n", 0) && s->null_deadline == 1012 && s->awaits_reply == 1 && s->no_reply_since == 12)
    SEE(is_next(GEOCOM_WANT_SEND, 13, GEOCOM_READ, 1012) && writes(GEOCOM_WANT_SEND, 1012, "%R1Q,0,6:\r\n", 0) && s->null_deadline == 2012)
    SEE(hears(1020, "%R1P,0,6:0\r", GEOCOM_MORE, 0) && s->client.partial_line.length == 11 && s->client.answered == 0)
    SEE(hears(1021, "\n", GEOCOM_STRAY, 0) && s->client.answered == 1 && s->null_deadline == 0 && s->awaits_reply == 0 && s->no_reply_since == 1021)
    SEE(writes(GEOCOM_WANT_SEND, 1021, "%R1Q,0,5:\r\n", 0) && hears(1022, "noise\r\n", GEOCOM_UNREAD, 0) && heard.line_fault == 1)
    SEE(hears(1030, answers + 12, GEOCOM_STRAY, 0) && s->client.answered == 8 && is_status(1, 1, 0, 0, 0, 0))
    SEE(writes(GEOCOM_WANT_SEND, 1030, "%R1Q,0,0:\r\n", 0) && is_status(1, 1, 1, 1, 0, 0) && s->client.requests[0].target == GEOCOM_OWN)
    SEE(is_next(GEOCOM_WANT_SEND, 1040, GEOCOM_READ, 2030) && hears(1050, "%R1P,0,0:0\r\n", GEOCOM_SETTLED, 1) && s->requests_since_table_call == 0)
    SEE(settled[0].target == GEOCOM_OWN && settled[0].procedure == 0 && settled[0].outcome == GEOCOM_ANSWERED && is_status(1, 1, 0, 0, 0, 0))
    SEE(memcmp(room.behind, mark, sizeof mark) == 0)
    return 0;
}

static int goes_on(void) {
    SEE(is_next(GEOCOM_WANT_SEND, 1050, GEOCOM_SEND, 0) && asks(0x01020304u, 5000, 2108, "5000,1", "%R1Q,2108,1:5000,1\r\n"))
    SEE(s->client.requests[0].target == 0x01020304u && s->client.requests[0].deadline == 6050 && s->patience == 5000 && s->has_asked == 1)
    SEE(s->requests_since_table_call == 1 && s->awaits_reply == 1 && is_status(1, 1, 1, 1, 0, 0) && is_next(GEOCOM_WANT_SEND, 1060, GEOCOM_SEND, 0))
    sent = geocom_session_ask_raw(s, 9, 100, 2167, (const uint8_t *)"1", 1, line, sizeof line);
    SEE(sent.fault == 0 && sent.count == 15 && memcmp(line, "%R1Q,2167,2:1\r\n", 15) == 0 && is_status(1, 1, 2, 2, 0, 0))
    SEE(is_next(GEOCOM_WANT_SEND, 1070, GEOCOM_READ, 1160) && is_next(GEOCOM_WANT_ANSWERS, 1160, GEOCOM_READ, 6050) && is_status(1, 1, 2, 1, 0, 0))
    SEE(hears(1170, "%R1P,0,2:0,3\r\n", GEOCOM_SETTLED, 2) && s->last_ended == 2 && s->requests_since_table_call == 2)
    SEE(settled[0].target == 0x01020304u && settled[0].outcome == GEOCOM_LOST && settled[1].target == 9 && settled[1].outcome == GEOCOM_LATE)
    SEE(is_next(GEOCOM_WANT_SEND, 1170, GEOCOM_SEND, 0) && asks(7, 5000, 2108, "5000,1", "%R1Q,2108,3:5000,1\r\n"))
    SEE(hears(1180, "%N1,0,255,,0%T0,0,0,:\r\n", GEOCOM_UNREAD, 0) && s->must_resynchronize == 1 && is_status(1, 0, 1, 1, 0, 1))
    SEE(is_next(GEOCOM_WANT_SEND, 1180, GEOCOM_READ, 6170) && hears(1190, "%R1P,0,3:0,2.25, 1.625,110.0625\r\n", GEOCOM_SETTLED, 1))
    SEE(settled[0].reading == GEOCOM_VALUE && settled[0].items == 3 && memcmp(text + settled[0].item_spans[1].offset, "1.625", 5) == 0)
    SEE(is_next(GEOCOM_WANT_NOTHING, 1200, GEOCOM_READ, UINT64_MAX) && s->is_idle == 1 && s->idle_since == 1200)
    SEE(writes(GEOCOM_WANT_SEND, 9000, "%R1Q,0,6:\r\n", 0) && is_status(1, 0, 0, 0, 1, 1) && s->must_resynchronize == 0 && s->client.answered == 0)
    SEE(hears(9010, answers, GEOCOM_STRAY, 0) && writes(GEOCOM_WANT_SEND, 9010, "%R1Q,0,0:\r\n", 0) && hears(9010, "%R1P,0,0:0\r\n", GEOCOM_SETTLED, 1))
    return 0;
}

static int reconnects(void) {
    SEE(is_next(GEOCOM_WANT_SEND, 9010, GEOCOM_SEND, 0) && asks(7, 5000, 5003, "", "%R1Q,5003,1:\r\n") && hears(9020, "%R1P,0", GEOCOM_MORE, 0))
    SEE(geocom_session_closed(s, 9020) == 0 && s->phase == 1 && s->pause == 200 && s->wait_since == 9020 && is_status(0, 0, 1, 1, 2, 1))
    SEE(is_next(GEOCOM_WANT_ANSWERS, 9030, GEOCOM_WAIT, 9220) && is_next(GEOCOM_WANT_ANSWERS, 9220, GEOCOM_OPEN, 0))
    SEE(geocom_session_closed(s, 9221) == 0 && is_next(GEOCOM_WANT_ANSWERS, 9221, GEOCOM_WAIT, 9621) && is_status(0, 0, 1, 1, 3, 1))
    SEE(is_next(GEOCOM_WANT_SEND, 9621, GEOCOM_OPEN, 0) && geocom_session_opened(s, 9700) == 0 && writes(GEOCOM_WANT_SEND, 9700, "\n", 0) && s->phase == 3)
    SEE(is_next(GEOCOM_WANT_SEND, 9710, GEOCOM_READ, 9900) && s->has_listened == 1 && hears(9800, ",1:0,5\r\n%R1P,0,1:0,5\r\n", GEOCOM_STRAY, 0))
    SEE(s->has_listened == 0 && s->wait_since == 9800)
    SEE(is_next(GEOCOM_WANT_SEND, 9900, GEOCOM_READ, 10000) && is_next(GEOCOM_WANT_ANSWERS, 10000, GEOCOM_READ, 14010) && s->phase == 4)
    SEE(is_status(1, 1, 1, 1, 3, 1) && hears(10010, "%R1P,0,1:0,71\r\n", GEOCOM_SETTLED, 1) && settled[0].target == 7 && s->pause == 0)
    return 0;
}

/* Nothing answers: six requests are sent, and then the line is dead once its patience is over; and a restart. */
static int dies(void) {
    for (uint64_t now = 27000; now < 27006; now++) {
        SEE(is_next(GEOCOM_WANT_SEND, now, GEOCOM_SEND, 0) && geocom_session_ask(s, 1, 1, 5003, line, 0, line, sizeof line).fault == 0)
    }
    SEE(writes(GEOCOM_WANT_SEND, 27006, "%R1Q,0,6:\r\n", 6) && settled[5].outcome == GEOCOM_LOST && is_status(1, 0, 0, 0, 4, 1))
    SEE(is_next(GEOCOM_WANT_SEND, 27007, GEOCOM_READ, 28006) && writes(GEOCOM_WANT_SEND, 28006, "%R1Q,0,6:\r\n", 0))
    SEE(is_next(GEOCOM_WANT_SEND, 29006, GEOCOM_CLOSE, 0) && geocom_session_closed(s, 30000) == 0)
    SEE(is_next(GEOCOM_WANT_SEND, 30200, GEOCOM_OPEN, 0) && geocom_session_opened(s, 30200) == 0 && writes(GEOCOM_WANT_SEND, 30200, "\n", 0))
    SEE(writes(GEOCOM_WANT_SEND, 30200, "%R1Q,0,6:\r\n", 0) && hears(30201, answers, GEOCOM_STRAY, 0) && writes(GEOCOM_WANT_SEND, 30201, "%R1Q,0,0:\r\n", 0))
    sent = geocom_session_restart(s, settled, GEOCOM_WINDOW);
    SEE(sent.fault == 0 && sent.count == 1 && settled[0].target == GEOCOM_OWN && settled[0].outcome == GEOCOM_LOST && is_status(1, 0, 0, 0, 6, 1))
    SEE(s->phase == 2 && writes(GEOCOM_WANT_SEND, 30202, "\n", 0) && writes(GEOCOM_WANT_SEND, 30202, "%R1Q,0,6:\r\n", 0))
    return 0;
}

static const uint8_t x[] = "x";
static geocom_session before;

static int is_kept(void) { return memcmp(s, &before, sizeof before) == 0; }

/* Whether each call refuses the state with 63. */
static int is_none(void) {
    before = *s;
    SEE(geocom_session_next(s, 0, 0, settled, GEOCOM_WINDOW, line, sizeof line).fault == 63)
    SEE(geocom_session_ask(s, 1, 1, 5003, x, 0, line, sizeof line).fault == 63 && geocom_session_ask_raw(s, 1, 1, 2167, x, 0, line, sizeof line).fault == 63)
    SEE(geocom_session_opened(s, 1) == 63 && geocom_session_closed(s, 1) == 63 && geocom_session_status(s).fault == 63)
    SEE(geocom_session_feed(s, 1, x, 1, settled, GEOCOM_WINDOW, text, sizeof text).fault == 63)
    SEE(geocom_session_restart(s, settled, GEOCOM_WINDOW).fault == 63 && is_kept())
    return 0;
}

static uint32_t refused(uint32_t target, uint16_t procedure, const char *params) {
    return geocom_session_ask(s, target, 1, procedure, (const uint8_t *)params, strlen(params), line, sizeof line).fault;
}

static uint32_t refused_raw(uint32_t target, uint16_t procedure, const char *params) {
    return geocom_session_ask_raw(s, target, 1, procedure, (const uint8_t *)params, strlen(params), line, sizeof line).fault;
}

static int refuses(void) {
    char longest[502];
    memset(longest, '7', 501);
    longest[501] = 0;
    SEE(geocom_session_init(s, 7, 1, 1) == 0)
    before = *s;
    SEE(geocom_session_next(s, 3, 5, settled, GEOCOM_WINDOW, line, sizeof line).fault == 72)
    SEE(geocom_session_next(s, 0, 5, settled, GEOCOM_WINDOW - 1, line, sizeof line).fault == 62)
    SEE(geocom_session_next(s, 0, 5, settled, GEOCOM_WINDOW, line, GEOCOM_LINE_ROOM - 1).fault == 62)
    SEE(geocom_session_ask(s, 1, 1, 5003, x, 0, line, GEOCOM_LINE_ROOM - 1).fault == 62)
    SEE(geocom_session_ask_raw(s, 1, 1, 2167, x, 0, line, GEOCOM_LINE_ROOM - 1).fault == 62)
    SEE(geocom_session_feed(s, 5, x, 1, settled, GEOCOM_WINDOW - 1, text, sizeof text).fault == 62)
    SEE(geocom_session_feed(s, 5, x, 1, settled, GEOCOM_WINDOW, text, GEOCOM_TEXT_ROOM - 1).fault == 62)
    SEE(geocom_session_restart(s, settled, GEOCOM_WINDOW - 1).fault == 62)
    SEE(refused(1, 2167, "1") == 21 && refused(1, 2108, "x,1") == 11 && refused(1, 2012, "1e14") == 12 && refused(1, 2108, "\"") == 13)
    SEE(refused(1, 2108, ",,,,,,,,,,,,,,,,") == 14 && refused(GEOCOM_OWN, 2108, "5000") == 15 && refused(GEOCOM_OWN, 5003, "") == 74)
    SEE(refused(GEOCOM_OWN - 1, 5003, "") == 73 && refused_raw(1, 2108, "\n") == 68 && refused_raw(1, 2167, "\n") == 11 && refused_raw(1, 2167, "\"") == 13)
    SEE(refused_raw(1, 2167, ",,,,,,,,,,,,,,,,") == 14 && refused_raw(1, 2167, longest) == 6 && refused_raw(GEOCOM_OWN, 2167, "1") == 74)
    SEE(refused_raw(0, 2167, "1") == 73 && is_kept())
    uint8_t *const fields[] = {&s->width, &s->phase, &s->is_idle, &s->has_asked, &s->awaits_reply, &s->must_resynchronize, &s->requests_since_table_call, &s->last_ended, &s->client.answered,
                               &s->client.width};
    static const uint8_t values[] = {0, 5, 2, 2, 2, 2, 8, 0, 9, 3};
    for (size_t k = 0; k < sizeof values; k++) {
        const uint8_t kept = *fields[k];
        *fields[k] = values[k];
        if (is_none()) return 1;
        *fields[k] = kept;
    }
    SEE(geocom_session_status(s).fault == 0)
    return 0;
}

int main(void) {
    if (synchronizes() || goes_on() || reconnects() || dies() || refuses()) return 1;
    printf("sessions: a course step by step, its fields, and 61 to 63, 72 to 74 and those of requests, which change nothing\n");
    return 0;
}
