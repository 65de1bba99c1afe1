/* Worked examples of whole runs: late replies and lines that are too long, cut in two at each place and in single bytes; a narrow window;
 * and synchronizations. What each step prints is compared with what is written here. */
#include <stdarg.h>
#include <stdio.h>
#include <string.h>

#include "geocom.h"

/* The replies to the null procedures of a synchronization. */
static const char answers[] = "%R1P,0,6:0\r\n%R1P,0,5:0\r\n%R1P,0,4:0\r\n%R1P,0,3:0\r\n%R1P,0,2:0\r\n%R1P,0,1:0\r\n%R1P,0,0:0\r\n%R1P,0,7:0\r\n";

static char told[4096];
static size_t told_length;

static void tell(const char *form, ...) {
    va_list values;
    va_start(values, form);
    told_length += (size_t)vsnprintf(told + told_length, sizeof told - told_length, form, values);
    va_end(values);
}

/* How bytes are cut: a first piece of this length, and the others of that one. */
typedef struct { size_t first, piece; } cut;

static size_t least(size_t a, size_t b) { return a < b ? a : b; }

/* The target, the outcome, the reading, the code, the line, and each item in angle brackets. */
static void tell_settled(const geocom_settlement *s, uint32_t count, const uint8_t *text) {
    for (uint32_t k = 0; k < count; k++, s++) {
        tell("%u %u %u %u %.*s", s->target, s->outcome, s->reading, s->code, (int)s->line_length, (const char *)text);
        for (uint16_t i = 0; i < s->items; i++) tell("<%.*s>", s->item_spans[i].length, (const char *)text + s->item_spans[i].offset);
        tell(", ");
    }
}

static void tell_waiting(const geocom_client *client) {
    tell("; %u wait, %llu\n", geocom_client_outstanding(client).count, (unsigned long long)geocom_client_next_deadline(client).deadline);
}

static void synchronize(geocom_client *client, cut way) {
    uint8_t line[GEOCOM_LINE_ROOM];
    geocom_synchronization sync = {0};
    size_t piece = way.first == 0 ? 1 : way.first;
    for (size_t at = 0; at < sizeof answers - 1; piece = way.piece) {
        size_t length = least(piece, sizeof answers - 1 - at);
        sync = geocom_client_synchronize(client, (const uint8_t *)answers + at, length, line, sizeof line);
        at += length;
    }
    tell("%u answered", sync.answered);
    tell_waiting(client);
}

static void send(geocom_client *client, uint32_t target, uint64_t deadline, uint16_t procedure, const char *params) {
    uint8_t line[GEOCOM_LINE_ROOM];
    geocom_count sent = geocom_client_send(client, target, deadline, procedure, (const uint8_t *)params, strlen(params), line, sizeof line);
    if (sent.fault != 0) tell("fault %u", sent.fault);
    else tell("%.*s", (int)sent.count - 2, (const char *)line);
    tell_waiting(client);
}

static void expire(geocom_client *client, uint64_t now) {
    uint32_t targets[GEOCOM_WINDOW];
    geocom_count due = geocom_client_expire(client, now, targets, GEOCOM_WINDOW);
    for (uint32_t k = 0; k < due.count; k++) tell("%u, ", targets[k]);
    tell_waiting(client);
}

static void restart(geocom_client *client) {
    geocom_settlement settlements[GEOCOM_WINDOW];
    geocom_count lost = geocom_client_restart(client, settlements, GEOCOM_WINDOW);
    tell_settled(settlements, lost.count, (const uint8_t *)"");
    tell_waiting(client);
}

static void feed(geocom_client *client, const uint8_t *bytes, size_t length, cut way) {
    geocom_settlement settlements[GEOCOM_WINDOW];
    uint8_t text[GEOCOM_TEXT_ROOM];
    size_t piece = way.first;
    for (size_t at = 0; at < length; piece = way.piece) {
        size_t end = least(at + piece, length);
        while (at < end) {
            geocom_feed_result heard = geocom_client_feed(client, bytes + at, end - at, settlements, GEOCOM_WINDOW, text, sizeof text);
            if (heard.fault != 0 || heard.used == 0) { tell("fault %u", heard.fault); return; }
            at += heard.used;
            if (heard.kind > GEOCOM_SETTLED) tell("kind %u, fault %u, ", heard.kind, heard.line_fault);
            tell_settled(settlements, heard.count, text);
        }
    }
    tell_waiting(client);
}

static geocom_client made(uint8_t width) {
    geocom_client client;
    told_length = 0;
    told[0] = '\0';
    tell("%u: ", geocom_client_init(&client, width));
    return client;
}

static int is_told(const char *name, size_t first, const char *want) {
    if (strcmp(told, want) == 0) return 1;
    printf("events: %s, first piece %zu:\n%s", name, first, told);
    return 0;
}

static int late_reply(cut way) {
    static const char bytes[] = "noise\n%R1P,0,0:0,123456\r\n%R1P,0,1:0, 2.25 ,1.625,110.0625\r\n%R1P,0:0\r\n%R1P,0,0:x\r\n";
    geocom_client client = made(7);
    synchronize(&client, way);
    send(&client, 1, 10, 5003, "");
    expire(&client, 10);
    send(&client, 2, 20, 2108, "5000,1");
    feed(&client, (const uint8_t *)bytes, sizeof bytes - 1, way);
    return is_told("late_reply", way.first,
        "0: 8 answered; 0 wait, 0\n%R1Q,5003,0:; 1 wait, 10\n1, ; 1 wait, 0\n%R1Q,2108,1:5000,1; 2 wait, 20\n"
        "kind 4, fault 0, 1 2 0 0 , 2 1 1 0 %R1P,0,1:0, 2.25 ,1.625,110.0625<2.25><1.625><110.0625>, kind 2, fault 0, kind 3, fault 5, ; 0 wait, 0\n");
}

/* A window of two. After the restart nothing is sent before it has synchronized again. */
static int narrow_window(cut way) {
    geocom_client client = made(2);
    synchronize(&client, way);
    send(&client, 1, 9, 0, "");
    send(&client, 2, 9, 0, "");
    send(&client, 3, 9, 0, "");
    feed(&client, (const uint8_t *)"%R1P,0,1:0\r\n", 12, way);
    restart(&client);
    send(&client, 4, 9, 0, "");
    synchronize(&client, way);
    send(&client, 4, 9, 1, "");
    send(&client, 4, 9, 2012, "1e14");
    return is_told("narrow_window", way.first,
        "0: 8 answered; 0 wait, 0\n%R1Q,0,0:; 1 wait, 9\n%R1Q,0,1:; 2 wait, 9\nfault 31; 2 wait, 9\n"
        "1 3 0 0 , 2 1 1 0 %R1P,0,1:0, ; 0 wait, 0\n; 0 wait, 0\nfault 67; 0 wait, 0\n8 answered; 0 wait, 0\nfault 21; 0 wait, 0\nfault 12; 0 wait, 0\n");
}

/* A line of more than 512 bytes is dropped whole, and the next one is read. */
static int overlong_line(cut way) {
    uint8_t bytes[540];
    memset(bytes, 'x', sizeof bytes);
    memcpy(bytes + 525, "\r\n%R1P,0,0:27\r\n", 15);
    geocom_client client = made(1);
    synchronize(&client, way);
    send(&client, 1, 9, 0, "");
    feed(&client, bytes, sizeof bytes, way);
    return is_told("overlong_line", way.first, "0: 8 answered; 0 wait, 0\n%R1Q,0,0:; 1 wait, 9\nkind 5, fault 0, 1 1 2 27 %R1P,0,0:27, ; 0 wait, 0\n");
}

/* What a synchronization answers: the line that goes out, how many null procedures are answered, and whether it has synchronized. */
static void ask(geocom_client *client, const char *bytes, size_t length) {
    uint8_t line[GEOCOM_LINE_ROOM];
    geocom_synchronization sync = geocom_client_synchronize(client, (const uint8_t *)bytes, length, line, sizeof line);
    tell("%.*s%u %u, ", (int)sync.count, (const char *)line, sync.answered, sync.is_synchronized);
}

static void ask_text(geocom_client *client, const char *text) { ask(client, text, strlen(text)); }

/* A null procedure goes out again with its id where nothing came, and the next one where it was answered; all else is dropped. */
static int synchronizes(void) {
    geocom_client client = made(7);
    ask_text(&client, "");
    ask_text(&client, "%R1P,0,0:0,654321\r\n%R1P,0,");
    ask_text(&client, "");
    ask_text(&client, "6:27,1\r\n");
    ask_text(&client, "%R1P,0,6:0\r\nnoise\n%R1P,3080,5:0\r\n");
    return is_told("synchronizes", 0, "0: %R1Q,0,6:\r\n0 0, 0 0, %R1Q,0,6:\r\n0 0, %R1Q,0,5:\r\n1 0, %R1Q,0,4:\r\n2 0, ");
}

/* After the eighth answer no line of the piece is handed on; a restart has it synchronize again, and one before the eighth answer goes on. */
static int resynchronizes(void) {
    uint8_t line[GEOCOM_LINE_ROOM];
    geocom_settlement settlements[GEOCOM_WINDOW];
    geocom_client client = made(7);
    ask(&client, answers, 84);
    tell("%u lost, ", geocom_client_restart(&client, settlements, GEOCOM_WINDOW).count);
    tell("fault %u, ", geocom_client_send(&client, 1, 9, 5003, line, 0, line, sizeof line).fault);
    ask_text(&client, "%R1P,0,7:0\r\n%R1P,0,0:0,654321\r\n%R1P,0");
    tell("fault %u, ", geocom_client_send(&client, 1, 9, 5003, (const uint8_t *)"", 0, line, sizeof line).fault);
    ask_text(&client, ",0:0,5\r\n");
    tell("%u lost, ", geocom_client_restart(&client, settlements, GEOCOM_WINDOW).count);
    ask_text(&client, "");
    return is_told("resynchronizes", 0, "0: %R1Q,0,7:\r\n7 0, 0 lost, fault 67, 8 1, fault 0, 8 1, 1 lost, %R1Q,0,6:\r\n0 0, ");
}

int main(void) {
    int are_told = synchronizes() && resynchronizes();
    for (size_t first = 0; first < 96 && are_told; first++) {
        cut way = {first, 96};
        are_told = late_reply(way) && narrow_window(way);
    }
    for (size_t first = 0; first <= 540 && are_told; first++) {
        cut way = {first, 600};
        are_told = overlong_line(way);
    }
    cut single = {1, 1};
    if (!are_told || !late_reply(single) || !narrow_window(single) || !overlong_line(single)) return 1;
    printf("events: late replies, a narrow window, lines that are too long, synchronizations: whole, in single bytes and cut in two at each place\n");
    return 0;
}
