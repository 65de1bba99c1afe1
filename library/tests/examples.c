/* The client's worked examples through the library, in pieces of a given size: examples PIECE < STEPS. A step is a line:
 * `send TARGET DEADLINE PROCEDURE [PARAMS]`, `raw` with the same, `feed TEXT` (with CR LF behind it), `hex BYTES`, `init`, `cleared TEXT` (with LF), `expire NOW`,
 * `restart`, `next`, `new` and `synchronize [TEXT]`. For each step what came of it is written as a line. At the start, and behind `init` and
 * `restart`, the client has synchronized; `new` makes one that hasn't. */
#include <stdio.h>
#include <stdlib.h>
#include <string.h>

#include "geocom.h"

static const char *const OUTCOMES[] = {"", "answered", "late", "lost"};

static void tell(const geocom_settlement *s, uint32_t count, const uint8_t *text) {
    for (uint32_t k = 0; k < count; k++, s++) {
        printf(" [%u %u %s %u %u %.*s", s->target, s->procedure, OUTCOMES[s->outcome], s->reading, s->code, (int)s->line_length, (const char *)text);
        for (uint16_t i = 0; i < s->items; i++) printf(" <%.*s>", s->item_spans[i].length, (const char *)text + s->item_spans[i].offset);
        printf("]");
    }
}

static void feed(geocom_client *client, const uint8_t *bytes, size_t length, size_t piece) {
    geocom_settlement settlements[GEOCOM_WINDOW];
    uint8_t text[GEOCOM_TEXT_ROOM];
    for (size_t at = 0; at < length;) {
        size_t end = at + piece < length ? at + piece : length;
        while (at < end) {
            geocom_feed_result heard = geocom_client_feed(client, bytes + at, end - at, settlements, GEOCOM_WINDOW, text, sizeof text);
            if (heard.fault != 0 || heard.used == 0) { printf(" fault %u", heard.fault); return; }
            at += heard.used;
            if (heard.kind != GEOCOM_MORE) printf(" kind %u", heard.kind);
            if (heard.line_fault != 0) printf(" fault %u", heard.line_fault);
            tell(settlements, heard.count, text);
        }
    }
}

/* The line that goes out, where one does. */
static void synchronize(geocom_client *client, const uint8_t *bytes, size_t length) {
    uint8_t line[GEOCOM_LINE_ROOM];
    geocom_synchronization sync = geocom_client_synchronize(client, bytes, length, line, sizeof line);
    if (sync.fault != 0) printf(" fault %u", sync.fault);
    if (sync.count != 0) printf(" %.*s", (int)sync.count - 2, (const char *)line);
}

static int make(geocom_client *client, uint8_t width) {
    static const char answers[] = "%R1P,0,6:0\r\n%R1P,0,5:0\r\n%R1P,0,4:0\r\n%R1P,0,3:0\r\n%R1P,0,2:0\r\n%R1P,0,1:0\r\n%R1P,0,0:0\r\n%R1P,0,7:0\r\n";
    if (width != 0 && geocom_client_init(client, width) != 0) return 0;
    synchronize(client, (const uint8_t *)answers, sizeof answers - 1);
    return 1;
}

/* Settlements alone. */
static void feed_quietly(geocom_client *client, const uint8_t *bytes, size_t length) {
    geocom_settlement settlements[GEOCOM_WINDOW];
    uint8_t text[GEOCOM_TEXT_ROOM];
    for (size_t at = 0; at < length;) {
        geocom_feed_result heard = geocom_client_feed(client, bytes + at, length - at, settlements, GEOCOM_WINDOW, text, sizeof text);
        if (heard.fault != 0 || heard.used == 0) { printf(" fault %u", heard.fault); return; }
        at += heard.used;
        tell(settlements, heard.count, text);
    }
}

int main(int count, char **words) {
    size_t piece = count > 1 ? (size_t)atol(words[1]) : 4096;
    uint8_t width = count > 2 ? (uint8_t)atoi(words[2]) : GEOCOM_WINDOW;
    geocom_client client;
    geocom_settlement settlements[GEOCOM_WINDOW];
    char step[4096];
    if (!make(&client, width)) return 1;
    while (fgets(step, sizeof step, stdin) != NULL) {
        size_t length = strcspn(step, "\n");
        step[length] = '\0';
        char name[16], params[4096] = "";
        unsigned target, procedure;
        int end = 0;
        unsigned long long moment;
        if (sscanf(step, "send %u %llu %u %4095[^\n]", &target, &moment, &procedure, params) >= 3) {
            uint8_t line[GEOCOM_LINE_ROOM];
            geocom_count sent = geocom_client_send(&client, target, moment, (uint16_t)procedure, (const uint8_t *)params, strlen(params), line, sizeof line);
            if (sent.fault != 0) printf(" fault %u", sent.fault);
            else printf(" %.*s", (int)sent.count - 2, (const char *)line);
        } else if (sscanf(step, "raw %u %llu %u%n", &target, &moment, &procedure, &end) >= 3) {
            /* The parameters are all that stands behind one space. */
            uint8_t line[GEOCOM_LINE_ROOM];
            const char *given = step[end] == ' ' ? step + end + 1 : step + end;
            geocom_count sent = geocom_client_send_raw(&client, target, moment, (uint16_t)procedure, (const uint8_t *)given, strlen(given), line, sizeof line);
            if (sent.fault != 0) printf(" fault %u", sent.fault);
            else printf(" %.*s", (int)sent.count - 2, (const char *)line);
        } else if (sscanf(step, "expire %llu", &moment) == 1) {
            uint32_t targets[GEOCOM_WINDOW];
            geocom_count due = geocom_client_expire(&client, moment, targets, GEOCOM_WINDOW);
            for (uint32_t k = 0; k < due.count; k++) printf(" %u", targets[k]);
        } else if (strncmp(step, "feed ", 5) == 0) {
            memcpy(step + length, "\r\n", 2);
            feed(&client, (const uint8_t *)step + 5, length - 5 + 2, piece);
        } else if (strncmp(step, "hex ", 4) == 0) {
            uint8_t bytes[2048];
            size_t size = 0;
            for (const char *at = step + 4; at[0] != '\0' && at[1] != '\0' && sscanf(at, "%2hhx", &bytes[size]) == 1; at += 2) size++;
            feed_quietly(&client, bytes, size);
        } else if (strncmp(step, "init ", 5) == 0) {
            if (!make(&client, (uint8_t)atoi(step + 5))) return 1;
        } else if (strncmp(step, "new ", 4) == 0) {
            if (geocom_client_init(&client, (uint8_t)atoi(step + 4)) != 0) return 1;
        } else if (strcmp(step, "synchronize") == 0) {
            synchronize(&client, (const uint8_t *)step, 0);
        } else if (strncmp(step, "synchronize ", 12) == 0) {
            memcpy(step + length, "\r\n", 2);
            for (size_t at = 0; at < length - 12 + 2; at += piece)
                synchronize(&client, (const uint8_t *)step + 12 + at, at + piece < length - 12 + 2 ? piece : length - 12 + 2 - at);
        } else if (strncmp(step, "cleared ", 8) == 0) {
            step[length] = '\n';
            feed(&client, (const uint8_t *)step + 8, length - 8 + 1, piece);
        } else if (sscanf(step, "%15s", name) == 1 && strcmp(name, "restart") == 0) {
            tell(settlements, geocom_client_restart(&client, settlements, GEOCOM_WINDOW).count, NULL);
            make(&client, 0);
        } else if (strcmp(name, "next") == 0) {
            geocom_deadline next = geocom_client_next_deadline(&client);
            if (next.is_set) printf(" %llu", (unsigned long long)next.deadline);
            else printf(" none");
        } else return 2;
        printf("; %u wait\n", geocom_client_outstanding(&client).count);
    }
    return 0;
}
