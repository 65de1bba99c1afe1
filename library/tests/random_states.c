/* States of random bytes: every call returns, and writes nothing past its room (the compiler's sanitizers look). Half of
 * them are near a client's or a session's: a real one with some bytes changed. The seed is the first word. */
#include <stdio.h>
#include <stdlib.h>
#include <string.h>

#include "geocom.h"

static uint64_t chance;

static uint32_t draw(void) {
    chance ^= chance << 13;
    chance ^= chance >> 7;
    chance ^= chance << 17;
    return (uint32_t)(chance >> 16);
}

/* A session of random bytes, or one that some random calls were made for and some bytes of which were changed then: 1 if its calls refuse it,
 * 0 if they take it, and -1 if one does what it mustn't. */
static int session_round(int is_near) {
    geocom_session *session = malloc(sizeof *session), before;
    geocom_settlement *settlements = malloc(GEOCOM_WINDOW * sizeof *settlements);
    uint8_t *text = malloc(GEOCOM_TEXT_ROOM), *line = malloc(GEOCOM_LINE_ROOM), *bytes = malloc(600);
    int is_bad = 0, refused = 0;
    memset(session, 0, sizeof *session);
    if (!is_near) for (size_t i = 0; i < sizeof *session; i++) ((uint8_t *)session)[i] = (uint8_t)draw();
    else geocom_session_init(session, (uint8_t)(1 + draw() % 7), draw() % 100, draw() % 100);
    if (is_near && draw() % 2) session->client.answered = 8, session->phase = 4, session->requests_since_table_call = 0;
    for (int k = 0; k < 40; k++) {
        if (is_near && k == 30) for (uint32_t n = draw() % 4; n > 0; n--) ((uint8_t *)session)[draw() % sizeof *session] = (uint8_t)draw();
        const size_t length = draw() % 600;
        for (size_t i = 0; i < length; i++) bytes[i] = (uint8_t)draw();
        if (length > 14) snprintf((char *)bytes, 600, "%%R1P,0,%u:0\r\n", draw() % 8);
        uint64_t now = draw() % 8 ? session->moment + draw() % 50 : draw();
        before = *session;
        const geocom_step step = geocom_session_next(session, draw() % 4, now, settlements, GEOCOM_WINDOW, line, GEOCOM_LINE_ROOM);
        is_bad |= step.bytes > GEOCOM_LINE_ROOM || step.count > GEOCOM_WINDOW || (step.fault != 0 && memcmp(&before, session, sizeof before) != 0);
        is_bad |= (step.fault == 0) != (step.act >= GEOCOM_OPEN && step.act <= GEOCOM_CLOSE);
        before = *session;
        const geocom_count sent = draw() % 2 ? geocom_session_ask(session, draw(), draw(), 2108, (const uint8_t *)"5000,1", 6, line, GEOCOM_LINE_ROOM)
                                             : geocom_session_ask_raw(session, draw(), draw(), (uint16_t)draw(), bytes, length, line, GEOCOM_LINE_ROOM);
        is_bad |= sent.count > GEOCOM_LINE_ROOM || (sent.fault != 0 && memcmp(&before, session, sizeof before) != 0);
        if (draw() % 4 == 0) geocom_session_opened(session, now);
        if (draw() % 16 == 0) geocom_session_closed(session, now);
        const geocom_feed_result heard = geocom_session_feed(session, now, bytes, length, settlements, GEOCOM_WINDOW, text, GEOCOM_TEXT_ROOM);
        is_bad |= heard.used > length || heard.count > GEOCOM_WINDOW || (heard.fault == 0 && length > 0 && heard.used == 0);
        if (draw() % 16 == 0) is_bad |= geocom_session_restart(session, settlements, GEOCOM_WINDOW).count > GEOCOM_WINDOW;
        const geocom_status is = geocom_session_status(session);
        is_bad |= is.outstanding > GEOCOM_WINDOW || is.current > is.outstanding || is.is_up > 1 || is.is_ready > is.is_up;
        refused = is.fault == 63;
        is_bad |= refused && is_near && k < 30;
    }
    free(session), free(settlements), free(text), free(line), free(bytes);
    return is_bad ? -1 : refused;
}

int main(int count, char **words) {
    chance = count > 1 ? strtoull(words[1], NULL, 10) * 2654435761u + 1 : 1;
    unsigned refused = 0, taken = 0;
    for (int round = 0; round < 20000; round++) {
        /* On the heap, in exactly the room that is asked for, so that a byte too many is seen. */
        geocom_client *client = malloc(sizeof *client);
        geocom_settlement *settlements = malloc(GEOCOM_WINDOW * sizeof *settlements);
        uint8_t *text = malloc(GEOCOM_TEXT_ROOM), *line = malloc(GEOCOM_LINE_ROOM);
        uint32_t *targets = malloc(GEOCOM_WINDOW * sizeof *targets);
        uint8_t *bytes = malloc(600);
        if (round % 2 == 0) {
            for (size_t i = 0; i < sizeof *client; i++) ((uint8_t *)client)[i] = (uint8_t)draw();
        } else {
            memset(client, 0, sizeof *client);
            geocom_client_init(client, (uint8_t)(1 + draw() % 7));
            client->answered = (uint8_t)(draw() % 4 == 0 ? draw() % 9 : 8);
            for (uint32_t k = draw() % 8; k > 0; k--) {
                if (draw() % 2) geocom_client_send(client, draw(), draw(), 2108, (const uint8_t *)"5000,1", 6, line, GEOCOM_LINE_ROOM);
                else geocom_client_send_raw(client, draw(), draw(), 2167, (const uint8_t *)" 2,\"1\" ", 7, line, GEOCOM_LINE_ROOM);
            }
            for (uint32_t k = draw() % 4; k > 0; k--) ((uint8_t *)client)[draw() % sizeof *client] = (uint8_t)draw();
        }
        size_t length = draw() % 600;
        for (size_t i = 0; i < length; i++) bytes[i] = (uint8_t)draw();
        if (length > 14) memcpy(bytes, "%R1P,0,3:0\r\n", 12);
        geocom_client before = *client;
        geocom_count sent = geocom_client_send(client, draw(), draw(), 0, bytes, 0, line, GEOCOM_LINE_ROOM);
        if (sent.fault != 0 && memcmp(&before, client, sizeof before) != 0) return 1;
        if (sent.count > GEOCOM_LINE_ROOM) return 1;
        before = *client;
        sent = geocom_client_send_raw(client, draw(), draw(), (uint16_t)draw(), bytes, length, line, GEOCOM_LINE_ROOM);
        if (sent.fault != 0 && memcmp(&before, client, sizeof before) != 0) return 1;
        if (sent.count > GEOCOM_LINE_ROOM) return 1;
        geocom_client copy = *client;
        geocom_synchronization sync = geocom_client_synchronize(&copy, bytes, length, line, GEOCOM_LINE_ROOM);
        if (sync.count > GEOCOM_LINE_ROOM || sync.answered > 8 || (sync.fault != 0 && memcmp(&copy, client, sizeof copy) != 0)) return 1;
        geocom_feed_result heard = geocom_client_feed(client, bytes, length, settlements, GEOCOM_WINDOW, text, GEOCOM_TEXT_ROOM);
        if (heard.used > length || heard.count > GEOCOM_WINDOW) return 1;
        if (heard.fault == 0 && length > 0 && heard.used == 0) return 1;
        if (geocom_client_expire(client, draw(), targets, GEOCOM_WINDOW).count > GEOCOM_WINDOW) return 1;
        (void)geocom_client_next_deadline(client);
        if (geocom_client_restart(client, settlements, GEOCOM_WINDOW).count > GEOCOM_WINDOW) return 1;
        geocom_count outstanding = geocom_client_outstanding(client);
        if (outstanding.fault == 63) refused++;
        else if (outstanding.count != 0) return 1;
        else taken++;
        free(client), free(settlements), free(text), free(line), free(targets), free(bytes);
    }
    unsigned sessions[2] = {0, 0};
    for (int round = 0; round < 2000; round++) {
        const int told = session_round(round % 2);
        if (told < 0) return 1;
        sessions[told]++;
    }
    printf("random states: 20000, %u no client's, %u a client's; 2000, %u no session's, %u a session's\n", refused, taken, sessions[1], sessions[0]);
    return refused > 0 && taken > 0 && sessions[0] > 0 && sessions[1] > 0 ? 0 : 1;
}
