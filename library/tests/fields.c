/* That the library's fields stand where the header says: each is written by the library and read through the header, or
 * the other way round, and the bytes behind a structure stay. */
#include <stdio.h>
#include <string.h>

#include "geocom.h"

#define SEE(E) if (!(E)) { printf("fields: not so: %s\n", #E); return 1; }

int main(void) {
    struct { geocom_client client; uint8_t behind[64]; } a;
    struct { geocom_settlement settlements[GEOCOM_WINDOW]; uint8_t behind[64]; } b;
    uint8_t line[GEOCOM_LINE_ROOM], text[GEOCOM_TEXT_ROOM], mark[64];
    memset(mark, 0xa5, sizeof mark);
    memset(&a, 0xa5, sizeof a);
    memset(&b, 0xa5, sizeof b);
    SEE(geocom_version() == GEOCOM_VERSION)
    SEE(geocom_client_outstanding(&a.client).fault == 63)
    SEE(geocom_client_init(&a.client, 0) == 61 && geocom_client_init(&a.client, 8) == 61)
    SEE(a.client.width == 0xa5)
    SEE(geocom_client_init(&a.client, 5) == 0)
    SEE(a.client.width == 5 && a.client.next == 0 && a.client.outstanding == 0 && a.client.answered == 0 && a.client.partial_line.length == 0)
    SEE(geocom_client_send(&a.client, 1, 1, 0, line, 0, line, sizeof line).fault == 67)
    SEE(geocom_client_synchronize(&a.client, line, 0, line, 513).fault == 62)
    geocom_synchronization sync = geocom_client_synchronize(&a.client, line, 0, line, sizeof line);
    SEE(sync.fault == 0 && sync.count == 11 && sync.answered == 0 && sync.is_synchronized == 0 && memcmp(line, "%R1Q,0,6:\r\n", 11) == 0)
    static const uint8_t answers[] = "%R1P,0,6:0\r\n%R1P,0,5:0\r\n%R1P,0,4:0\r\n%R1P,0,3:0\r\n%R1P,0,2:0\r\n%R1P,0,1:0\r\n%R1P,0,0:0\r\n%R1P,0,7:0\r\n";
    sync = geocom_client_synchronize(&a.client, answers, 12, line, sizeof line);
    SEE(sync.count == 11 && sync.answered == 1 && a.client.answered == 1 && memcmp(line, "%R1Q,0,5:\r\n", 11) == 0)
    sync = geocom_client_synchronize(&a.client, answers + 12, sizeof answers - 1 - 12, line, sizeof line);
    SEE(sync.fault == 0 && sync.count == 0 && sync.answered == 8 && sync.is_synchronized == 1 && a.client.answered == 8)
    for (int k = 0; k < 3; k++) {
        static const uint8_t params[] = "5000,1";
        geocom_count sent = geocom_client_send(&a.client, 0x01020304u + k, 0x1112131415161718u + k, 2108, params, 6, line, sizeof line);
        SEE(sent.fault == 0 && sent.count == 20)
        SEE(a.client.requests[k].target == 0x01020304u + k && a.client.requests[k].deadline == 0x1112131415161718u + k)
        SEE(a.client.requests[k].timed_out == 0 && a.client.requests[k].length == 16)
        SEE(memcmp(a.client.requests[k].line, "%R1Q,2108:5000,1", 16) == 0)
    }
    SEE(a.client.next == 3 && a.client.outstanding == 3)
    geocom_deadline next = geocom_client_next_deadline(&a.client);
    SEE(next.fault == 0 && next.is_set == 1 && next.deadline == 0x1112131415161718u)
    uint32_t targets[GEOCOM_WINDOW];
    geocom_count due = geocom_client_expire(&a.client, 0x1112131415161718u, targets, GEOCOM_WINDOW);
    SEE(due.fault == 0 && due.count == 1 && targets[0] == 0x01020304u && a.client.requests[0].timed_out == 1)
    SEE(geocom_client_expire(&a.client, 0, targets, 6).fault == 62)
    SEE(geocom_client_feed(&a.client, (const uint8_t *)"x", 1, b.settlements, 6, text, sizeof text).fault == 62)
    SEE(geocom_client_feed(&a.client, (const uint8_t *)"x", 1, b.settlements, 7, text, 1023).fault == 62)
    SEE(geocom_client_restart(&a.client, b.settlements, 6).fault == 62)
    SEE(geocom_client_send(&a.client, 1, 1, 0, line, 0, line + 1, 513).fault == 62)
    static const uint8_t reply[] = "%R1P,0,1:0,2.25, 1.625,110.0625\r\n%R1P";
    geocom_feed_result heard = geocom_client_feed(&a.client, reply, sizeof reply - 1, b.settlements, GEOCOM_WINDOW, text, sizeof text);
    SEE(heard.fault == 0 && heard.used == 33 && heard.count == 2 && heard.kind == GEOCOM_SETTLED && heard.line_fault == 0)
    const geocom_settlement *s = b.settlements;
    SEE(s[0].target == 0x01020304u && s[0].procedure == 2108 && s[0].outcome == GEOCOM_LOST && s[0].reading == GEOCOM_NONE)
    SEE(s[1].target == 0x01020305u && s[1].outcome == GEOCOM_ANSWERED && s[1].reading == GEOCOM_VALUE && s[1].code == 0)
    SEE(s[1].line_length == 31 && memcmp(text, reply, 31) == 0 && s[1].items == 3)
    SEE(s[1].item_spans[2].length == 8 && memcmp(text + s[1].item_spans[2].offset, "110.0625", 8) == 0)
    heard = geocom_client_feed(&a.client, reply + 33, 4, b.settlements, GEOCOM_WINDOW, text, sizeof text);
    SEE(heard.kind == GEOCOM_MORE && heard.used == 4 && a.client.partial_line.length == 4 && memcmp(a.client.partial_line.bytes, "%R1P", 4) == 0)
    heard = geocom_client_feed(&a.client, (const uint8_t *)",0,8:0\r\n", 8, b.settlements, GEOCOM_WINDOW, text, sizeof text);
    SEE(heard.kind == GEOCOM_UNREAD && heard.line_fault == 3 && heard.used == 8 && a.client.partial_line.length == 0)
    geocom_count lost = geocom_client_restart(&a.client, b.settlements, GEOCOM_WINDOW);
    SEE(lost.fault == 0 && lost.count == 1 && s[0].target == 0x01020306u && s[0].outcome == GEOCOM_LOST)
    SEE(a.client.width == 5 && a.client.next == 0 && a.client.answered == 0 && geocom_client_outstanding(&a.client).count == 0)
    sync = geocom_client_synchronize(&a.client, answers, sizeof answers - 1, line, sizeof line);
    static const uint8_t raw[] = " 2, \"a,b\"";
    geocom_count sent = geocom_client_send_raw(&a.client, 0x01020304u, 0x1112131415161718u, 2167, raw, 9, line, sizeof line);
    SEE(sync.is_synchronized == 1 && sent.fault == 0 && sent.count == 23 && memcmp(line, "%R1Q,2167,0: 2, \"a,b\"\r\n", 23) == 0)
    SEE(a.client.requests[0].target == 0x01020304u && a.client.requests[0].deadline == 0x1112131415161718u && a.client.next == 1)
    SEE(a.client.requests[0].length == 19 && memcmp(a.client.requests[0].line, "%R1Q,2167: 2, \"a,b\"", 19) == 0)
    static const uint8_t tilt[] = "%R1P,0,0:0,0.0012, \"a,b\" ,\r\n";
    heard = geocom_client_feed(&a.client, tilt, sizeof tilt - 1, b.settlements, GEOCOM_WINDOW, text, sizeof text);
    SEE(heard.count == 1 && s[0].procedure == 2167 && s[0].outcome == GEOCOM_ANSWERED && s[0].reading == GEOCOM_VALUE && s[0].items == 3)
    SEE(s[0].item_spans[1].length == 5 && memcmp(text + s[0].item_spans[1].offset, "\"a,b\"", 5) == 0 && s[0].item_spans[2].length == 0)
    SEE(memcmp(a.behind, mark, 64) == 0 && memcmp(b.behind, mark, 64) == 0)
    printf("fields: all where the header has them\n");
    return 0;
}
