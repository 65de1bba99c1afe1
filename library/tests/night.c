/* A night of 500 cycles of eight targets by geocom_ask, each a chain of three requests, over an instrument within the process, a line that loses,
 * delays and repeats, connections that break and a clock in memory: night [SEED]. Each request has one row, and each direction is that of its own
 * target in its own cycle. */
#include "wire.h"

enum { CYCLES = 500, TARGETS = 8, COMMANDS = 3, EVERY = 300000 };
enum end { VALUE, REFUSED, UNREADABLE, LATE, LOST, SILENT, SKIPPED, ENDS };

static const link faults = {"a night", 30, 30, 0, 300, 1, 1, 0, 0, 256};
static const uint16_t procedures[COMMANDS] = {9027, 2107, 5003};

static void hear(wire *w, const char *request, size_t length) {
    for (size_t used = 0; used < length;) {
        const geocom_reply heard = geocom_instrument_feed((geocom_instrument *)w->instrument, (const uint8_t *)request + used, length - used, w->now);
        if (heard.count > 0) wire_reply(w, heard.due, (const char *)heard.reply, heard.count);
        used += heard.used;
    }
}

static enum end end_of(const geocom_settlement *s) {
    if (s->outcome != GEOCOM_ANSWERED) return s->outcome == GEOCOM_LATE ? LATE : LOST;
    return s->reading == GEOCOM_VALUE ? VALUE : s->reading == GEOCOM_UNREADABLE ? UNREADABLE : REFUSED;
}

int main(int count, char **words) {
    static wire w;
    static unsigned long rows[ENDS];
    char params[COMMANDS][64] = {"", "1", ""}, direction[32], kept[600];
    unsigned long wrong = 0, all = 0;
    geocom_session session;
    const geocom_port port = {&w, wire_open, wire_close, wire_wait, wire_write, wire_read, wire_now};
    geocom_instrument *it = malloc(geocom_instrument_size());
    const char *scene = "serial 71\n";
    if (it == NULL || geocom_instrument_init(it, (const uint8_t *)scene, strlen(scene)).fault != 0) return 1;
    wire_be(&w, &faults, count > 1 ? strtoull(words[1], NULL, 10) : 1, kept);
    w.longest = 20000, w.hear = hear, w.instrument = it;
    geocom_session_init(&session, 1, 10000, 2000);
    for (unsigned cycle = 0; cycle < CYCLES; cycle++) {
        const uint64_t due = 1000 + (uint64_t)cycle * EVERY;
        if (w.now < due) w.now = due;
        for (unsigned target = 1; target <= TARGETS; target++) {
            enum end end = VALUE;
            uint64_t interruptions = 0; /* after the chain's first request */
            snprintf(direction, sizeof direction, "%u.%03u5", target % 6, cycle);
            snprintf(params[0], sizeof params[0], "%s,1.5,0,1,0", direction);
            for (int c = 0; c < COMMANDS; c++) {
                geocom_settlement s = {0};
                uint8_t text[GEOCOM_TEXT_ROOM];
                char item[64] = "";
                const uint64_t begun = w.now;
                const int told = end != VALUE || (c > 0 && geocom_session_status(&session).interruptions != interruptions) ? 1
                    : geocom_ask(&session, &port, target, procedures[c], params[c], 35000, &s, text);
                end = told == 1 ? SKIPPED : told == GEOCOM_SILENT ? SILENT : end_of(&s);
                if (told < GEOCOM_SILENT || told > 1 || (told == 0 && (s.target != target || s.procedure != procedures[c]))) wrong++;
                if (w.now > begun + 70000 || (told == 0 && w.now > w.sent + 35000)) wrong++;
                if (c == 0) interruptions = geocom_session_status(&session).interruptions;
                if (end == VALUE && c > 0) snprintf(item, sizeof item, "%.*s", s.item_spans[0].length, (const char *)text + s.item_spans[0].offset);
                if (end == VALUE && c == 1 && strtod(item, NULL) != strtod(direction, NULL)) wrong++;
                if (end == VALUE && c == 2 && strcmp(item, "71") != 0) wrong++;
                rows[end]++;
                all++;
            }
        }
    }
    free(it);
    unsigned long sum = 0;
    for (int end = 0; end < ENDS; end++) sum += rows[end];
    printf("a night in C: %d cycles, %lu rows: %lu values, %lu refused, %lu unreadable, %lu late, %lu lost, %lu not sent, %lu skipped; %lu wrong; %lu connections\n",
           CYCLES, all, rows[VALUE], rows[REFUSED], rows[UNREADABLE], rows[LATE], rows[LOST], rows[SILENT], rows[SKIPPED], wrong, w.opened);
    return wrong != 0 || sum != all || all != (unsigned long)CYCLES * TARGETS * COMMANDS || 10 * rows[VALUE] < 8 * all || rows[LATE] + rows[LOST] == 0;
}
