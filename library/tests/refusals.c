/* What each call refuses: a width, too little room, a state that is no client's, and a client that hasn't synchronized. It changes nothing then. */
#include <stdio.h>
#include <string.h>

#include "geocom.h"

#define SEE(E) if (!(E)) { printf("refusals: not so: %s\n", #E); return 1; }

static const uint8_t x[] = "x";

static geocom_client client;
static geocom_client before;
static geocom_settlement settlements[GEOCOM_WINDOW];
static uint8_t text[GEOCOM_TEXT_ROOM];
static uint8_t line[GEOCOM_LINE_ROOM];
static uint32_t targets[GEOCOM_WINDOW];

static int is_kept(void) { return memcmp(&client, &before, sizeof client) == 0; }

/* Whether each call refuses the state with 63. */
static int is_no_client(void) {
    memcpy(&before, &client, sizeof client);
    SEE(geocom_client_synchronize(&client, x, 0, line, sizeof line).fault == 63)
    SEE(geocom_client_outstanding(&client).fault == 63)
    SEE(geocom_client_next_deadline(&client).fault == 63)
    SEE(geocom_client_feed(&client, x, 1, settlements, GEOCOM_WINDOW, text, sizeof text).fault == 63)
    SEE(geocom_client_send(&client, 1, 1, 0, x, 0, line, sizeof line).fault == 63)
    SEE(geocom_client_send_raw(&client, 1, 1, 2167, x, 0, line, sizeof line).fault == 63)
    SEE(geocom_client_expire(&client, 0, targets, GEOCOM_WINDOW).fault == 63)
    SEE(geocom_client_restart(&client, settlements, GEOCOM_WINDOW).fault == 63)
    SEE(is_kept())
    return 0;
}

/* What a client that has synchronized doesn't send: a procedure of the table, a CR or LF, a line of 513 bytes, an open quote, 17
 * parameters. The fault is the first of these. */
static int refuses_raws(void) {
    /* The procedures of the table. */
    static const uint16_t table[] = {0, 107, 108, 110, 2008, 2009, 2010, 2011, 2012, 2026, 2107, 2108, 2117, 5003, 5004, 5007, 5008, 5011,
                                     5034, 9027, 9028, 9037, 17008, 17009, 17017};
    static const uint8_t commas[] = ",,,,,,,,,,,,,,,,", quote[] = "\"", feed[] = "1\n", back[] = "\r";
    uint8_t longest[504];
    memset(longest, '7', sizeof longest);
    client.answered = 8;
    memcpy(&before, &client, sizeof client);
    size_t at = 0;
    for (unsigned procedure = 0; procedure < 65536; procedure++) {
        unsigned is_listed = at < sizeof table / sizeof table[0] && table[at] == procedure;
        SEE(geocom_client_send_raw(&client, 1, 1, (uint16_t)procedure, quote, 1, line, sizeof line).fault == (is_listed ? 68 : 13))
        at += is_listed;
    }
    SEE(at == sizeof table / sizeof table[0])
    SEE(geocom_client_send_raw(&client, 1, 1, 2108, feed, 2, line, sizeof line).fault == 68)
    SEE(geocom_client_send_raw(&client, 1, 1, 2167, feed, 2, line, sizeof line).fault == 11)
    SEE(geocom_client_send_raw(&client, 1, 1, 2167, back, 1, line, sizeof line).fault == 11)
    SEE(geocom_client_send_raw(&client, 1, 1, 2167, commas, 16, line, sizeof line).fault == 14)
    SEE(geocom_client_send_raw(&client, 1, 1, 2167, quote, 1, line, sizeof line).fault == 13)
    /* "%R1Q,2167,0:" has 12 bytes, and "%R1Q,7,0:" 9. */
    SEE(geocom_client_send_raw(&client, 1, 1, 2167, longest, 501, line, sizeof line).fault == 6)
    SEE(geocom_client_send_raw(&client, 1, 1, 7, longest, 504, line, sizeof line).fault == 6)
    SEE(is_kept())
    SEE(geocom_client_send_raw(&client, 1, 1, 2167, longest, 500, line, sizeof line).count == 514)
    SEE(memcmp(line, "%R1Q,2167,0:", 12) == 0 && memcmp(line + 12, longest, 500) == 0 && memcmp(line + 512, "\r\n", 2) == 0)
    SEE(geocom_client_send_raw(&client, 1, 1, 7, longest, 503, line, sizeof line).count == 514)
    SEE(geocom_client_send_raw(&client, 1, 1, 65535, commas, 15, line, sizeof line).count == 30)
    SEE(geocom_client_outstanding(&client).count == 3)
    return geocom_client_init(&client, 7) != 0;
}

int main(void) {
    SEE(geocom_client_init(&client, 7) == 0)
    memcpy(&before, &client, sizeof client);
    SEE(geocom_client_init(&client, 0) == 61 && geocom_client_init(&client, 8) == 61)
    SEE(geocom_client_feed(&client, x, 1, settlements, GEOCOM_WINDOW - 1, text, sizeof text).fault == 62)
    SEE(geocom_client_feed(&client, x, 1, settlements, GEOCOM_WINDOW, text, GEOCOM_TEXT_ROOM - 1).fault == 62)
    SEE(geocom_client_restart(&client, settlements, GEOCOM_WINDOW - 1).fault == 62)
    SEE(geocom_client_expire(&client, 0, targets, GEOCOM_WINDOW - 1).fault == 62)
    SEE(geocom_client_send(&client, 1, 1, 0, x, 0, line, GEOCOM_LINE_ROOM - 1).fault == 62)
    SEE(geocom_client_send_raw(&client, 1, 1, 2167, x, 0, line, GEOCOM_LINE_ROOM - 1).fault == 62)
    SEE(geocom_client_synchronize(&client, x, 0, line, GEOCOM_LINE_ROOM - 1).fault == 62)
    SEE(geocom_client_send(&client, 1, 1, 0, x, 0, line, sizeof line).fault == 67)
    SEE(geocom_client_send_raw(&client, 1, 1, 2167, x, 0, line, sizeof line).fault == 67)
    SEE(is_kept())
    if (refuses_raws()) return 1;
    client.answered = 9;
    if (is_no_client()) return 1;
    client.answered = 0;
    client.width = 0;
    if (is_no_client()) return 1;
    client.width = 7;
    SEE(geocom_client_outstanding(&client).fault == 0)
    printf("refusals: 61, 62, 63 and 67, those of raw requests, and nothing is changed\n");
    return 0;
}
