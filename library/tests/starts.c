/* Instruments that are switched on or off: which lines have a sign-on in them, and a program over the client's calls that sends nothing
 * behind one before it has synchronized again. */
#include <stdio.h>
#include <string.h>

#include "geocom.h"

#define SEE(E) if (!(E)) { printf("starts: not so: %s (line %d)\n", #E, __LINE__); return 1; }

static geocom_client client;
static geocom_settlement settled[2 * GEOCOM_WINDOW];
static uint32_t count; /* of what was settled by the last bytes */
static int is_started; /* whether a sign-on came since the client synchronized */

static int is_sign_on(const char *line) { return (int)geocom_is_sign_on((const uint8_t *)line, strlen(line)); }

/* Feeds bytes, and notes whether a line that they end has a sign-on in it. */
static void hear(const char *bytes) {
    uint8_t line[2 * GEOCOM_LINE_ROOM], text[GEOCOM_TEXT_ROOM];
    size_t left = strlen(bytes);
    count = 0;
    while (left > 0) {
        size_t length = client.partial_line.length;
        memcpy(line, client.partial_line.bytes, length);
        geocom_feed_result heard = geocom_client_feed(&client, (const uint8_t *)bytes, left, settled + count, GEOCOM_WINDOW, text, sizeof text);
        if (heard.kind == GEOCOM_SETTLED || heard.kind == GEOCOM_STRAY || heard.kind == GEOCOM_UNREAD) {
            memcpy(line + length, bytes, heard.used);
            if (geocom_is_sign_on(line, length + heard.used - 2)) is_started = 1;
        }
        count += heard.count;
        bytes += heard.used;
        left -= heard.used;
    }
}

/* The next request, as its line without CR LF, or an empty one: behind a sign-on it waits until all that is outstanding has timed out,
 * and then for a synchronization, whose null procedures are answered at once. */
static const char *send(uint64_t now) {
    static char sent[GEOCOM_LINE_ROOM + 64];
    uint8_t line[GEOCOM_LINE_ROOM];
    uint32_t targets[GEOCOM_WINDOW];
    const char *answer = "";
    char reply[] = "%R1P,0,0:0\r\n";
    sent[0] = 0;
    geocom_client_expire(&client, now, targets, GEOCOM_WINDOW);
    if (is_started) {
        if (geocom_client_current(&client) > 0) return sent;
        count = geocom_client_restart(&client, settled, GEOCOM_WINDOW).count;
        is_started = 0;
    }
    for (geocom_synchronization sync = {0}; client.answered < 8;) {
        sync = geocom_client_synchronize(&client, (const uint8_t *)answer, strlen(answer), line, sizeof line);
        if (sync.count == 0) break;
        reply[7] = (char)line[7];
        sent[strlen(sent) + 1] = 0;
        sent[strlen(sent)] = (char)line[7]; /* its id */
        answer = reply;
    }
    geocom_count one = geocom_client_send(&client, 7, now + 10, 2107, (const uint8_t *)"1", 1, line, sizeof line);
    if (one.fault != 0) return "a fault";
    strncat(sent, (const char *)line, one.count - 2);
    return sent;
}

int main(void) {
    SEE(is_sign_on("%N1,") == 1 && is_sign_on("%N1,0,255,,0%T0,0,0,:") == 1 && is_sign_on("%R1P,0,2:0,12%N1,0") == 1)
    SEE(is_sign_on("") == 0 && is_sign_on("%N1") == 0 && is_sign_on("%N2,0") == 0 && is_sign_on("%n1,") == 0 && is_sign_on("%R1P,0,2:0") == 0)
    SEE(geocom_is_sign_on((const uint8_t *)"\0%N1,", 5) == 1 && geocom_is_sign_on((const uint8_t *)"%N1,", 3) == 0)

    SEE(geocom_client_init(&client, GEOCOM_WINDOW) == 0)
    SEE(strcmp(send(0), "65432107%R1Q,2107,0:1") == 0)
    hear("%R1P,0,0:0,1.5,0.5\r\n");
    SEE(count == 1 && settled[0].reading == GEOCOM_VALUE && !is_started)

    /* Between two requests, in two pieces. */
    hear("%N1,0,255,,0%T");
    hear("0,0,0,:\r\n");
    SEE(count == 0 && is_started && strcmp(send(20), "65432107%R1Q,2107,0:1") == 0 && count == 0)

    /* In place of a reply: until the deadline nothing is sent, and then the request is lost. */
    hear("%N1,0,255,,0%T0,0,0,:\r\n");
    SEE(count == 0 && is_started && strcmp(send(29), "") == 0)
    SEE(strcmp(send(30), "65432107%R1Q,2107,0:1") == 0 && count == 1 && settled[0].outcome == GEOCOM_LOST)

    /* In the same line as a reply that it cut off. */
    hear("%R1P,0,0:0,1.5%N1,0,255,,0%T0,0,0,:\r\n%R1P,0,0:0,9.5,9.5\r\n");
    SEE(count == 1 && settled[0].outcome == GEOCOM_ANSWERED && settled[0].reading == GEOCOM_UNREADABLE && is_started)
    SEE(strcmp(send(31), "65432107%R1Q,2107,0:1") == 0 && count == 0)
    printf("starts: lines with a sign-on are known; behind one nothing is sent before the client has synchronized\n");
    return 0;
}
