/* An instrument within the process: what it replies, wherever its bytes are cut; what it refuses; two at once; delays; and that it stays
 * within the memory that it was given. The expected replies follow from docs/PROTOCOL.md. */
#include <stdio.h>
#include <stdlib.h>
#include <string.h>

#include "geocom.h"

#define SEE(E) if (!(E)) { printf("instruments: not so: %s (line %d)\n", #E, __LINE__); exit(1); }

#define GUARD 64

/* Memory of exactly the size that an instrument takes, with guards on both sides. */
typedef struct bench {
    uint8_t *room;
    geocom_instrument *at;
} bench;

static bench make(const char *scene, uint32_t fault, uint32_t line) {
    size_t size = geocom_instrument_size();
    bench b;
    geocom_scene_fault made;
    b.room = malloc(size + 2 * GUARD);
    SEE(b.room)
    memset(b.room, 0xA5, size + 2 * GUARD);
    b.at = (geocom_instrument *)(b.room + GUARD);
    made = geocom_instrument_init(b.at, (const uint8_t *)scene, strlen(scene));
    SEE(made.fault == fault)
    SEE(made.line == line)
    return b;
}

static void end(bench b) {
    size_t k, size = geocom_instrument_size();
    for (k = 0; k < GUARD; k++) SEE(b.room[k] == 0xA5 && b.room[GUARD + size + k] == 0xA5)
    free(b.room);
}

/* Feeds bytes in pieces of this length, and compares the replies with what is expected. */
static void replies(bench b, const char *bytes, size_t piece, const char *expected) {
    char came[8192];
    size_t length = strlen(bytes), at, k = 0;
    for (at = 0; at < length; at += piece) {
        size_t left = length - at < piece ? length - at : piece, from = at;
        while (left > 0) {
            geocom_reply heard = geocom_instrument_feed(b.at, (const uint8_t *)bytes + from, left, 7);
            SEE(heard.fault == 0)
            SEE(heard.used > 0 && heard.used <= left)
            SEE(heard.count <= GEOCOM_REPLY_ROOM && k + heard.count < sizeof came)
            SEE(heard.due == (heard.count ? 7u : 0u))
            memcpy(came + k, heard.reply, heard.count);
            k += heard.count;
            from += heard.used;
            left -= heard.used;
        }
    }
    came[k] = 0;
    if (strcmp(came, expected) != 0) printf("instruments: in pieces of %zu: %s", piece, came);
    SEE(strcmp(came, expected) == 0)
}

static const char *truck = "serial 71\nname EAST\ntarget 0.5 1.5 10\nblocked 1 2 3\nfault 5003 13 after 1 for 1\n";
static const char *asked =
    "%R1Q,5003,0:\r\n" "half a line\n" "%R1Q,9027,1:0.5,1.5,0,1,0\r\n" "%R1Q,17017,2:2\r\n" "no request\r\n" "%R1Q,17017,3:2\r\n"
    "%R1Q,5003,4:\r\n" "%R1Q,17017,5:2\r\n" "%R1Q,17017,6:2\r\n" "%R1Q,5003,7:\r\n" "%R1Q,9999,0:\r\n";
static const char *told =
    "%R1P,0,0:0,71\r\n" "%R1P,0,1:0\r\n" "%R1P,0,2:0,0.5,1.5,10.0,2\r\n" "%R1P,0,3:1285\r\n"
    "%R1P,0,4:13\r\n" "%R1P,0,5:1285\r\n" "%R1P,0,6:0,0.5,1.5,10.0,2\r\n" "%R1P,0,7:0,71\r\n" "%R1P,3081,0:0\r\n";

static void cut_anywhere(void) {
    size_t piece;
    for (piece = 1; piece <= 64; piece++) {
        bench b = make(truck, 0, 0);
        replies(b, asked, piece, told);
        end(b);
    }
}

static void two_at_once(void) {
    bench a = make(truck, 0, 0), b = make("serial 72\ntarget 0.5 1.5 20\n", 0, 0);
    replies(a, "%R1Q,9027,1:0.5,1.5,0,1,0\r\n", 99, "%R1P,0,1:0\r\n");
    replies(b, "%R1Q,5003,0:\r\n%R1Q,17", 99, "%R1P,0,0:0,72\r\n");
    replies(a, "%R1Q,17017,2:2\r\n", 99, "%R1P,0,2:0,0.5,1.5,10.0,2\r\n");
    replies(b, "017,1:2\r\n", 99, "%R1P,0,1:1285\r\n");
    end(a);
    end(b);
}

static void refuses(void) {
    static char text[65537 + 1];
    static char lines[33 * 20 + 1];
    bench b;
    size_t k;
    memset(text, '\n', 65537);
    end(make("", 0, 0));
    end(make("# nothing\n\nserial 1\n", 0, 0));
    end(make("serial 1\nblocked 1 2\n", 51, 2));
    end(make("nonsense", 51, 1));
    end(make(text, 53, 0));
    for (k = 0; k < 33; k++) memcpy(lines + 20 * k, "target 1.0 1.5 10.0\n", 20);
    end(make(lines, 41, 0));
    b = make("serial x\n", 51, 1);
    SEE(geocom_instrument_feed(b.at, (const uint8_t *)"%R1Q,0,0:\r\n", 11, 0).fault == 69)
    SEE(geocom_instrument_feed(b.at, (const uint8_t *)"%R1Q,0,0:\r\n", 11, 0).used == 0)
    SEE(geocom_instrument_restart(b.at) == 69)
    end(b);
}

/* A restart drops half a line and what is kept for a repeat; the scene goes on. */
static void restarts(void) {
    bench b = make(truck, 0, 0);
    replies(b, "%R1Q,9027,1:0.5,1.5,0,1,0\r\n%R1Q,17017,2:2\r\n", 99, "%R1P,0,1:0\r\n%R1P,0,2:0,0.5,1.5,10.0,2\r\n");
    replies(b, "%R1Q,17017,2:2\r\n%R1Q,50", 99, "%R1P,0,2:0,0.5,1.5,10.0,2\r\n");
    SEE(geocom_instrument_restart(b.at) == 0)
    replies(b, "%R1Q,9027,1:0.5,1.5,0,1,0\r\n%R1Q,17017,2:2\r\n", 99, "%R1P,0,1:0\r\n%R1P,0,2:1285\r\n");
    end(b);
}

/* A delay makes its reply due later, and those behind it wait in order; with `busy drop` what comes meanwhile gets no reply. */
static void delays(void) {
    const uint8_t *slow = (const uint8_t *)"%R1Q,9027,1:0.5,1.5,0,1,0\r\n", *quick = (const uint8_t *)"%R1Q,0,2:\r\n";
    bench b = make("target 0.5 1.5 10\ndelay 9027 8000\n", 0, 0), d = make("delay 9027 8000\nbusy drop\n", 0, 0);
    SEE(geocom_instrument_feed(b.at, slow, 27, 1000).due == 9000)
    SEE(geocom_instrument_feed(b.at, quick, 11, 2000).due == 9000)
    SEE(geocom_instrument_feed(b.at, quick, 11, 9500).due == 9500)
    SEE(geocom_instrument_feed(d.at, slow, 27, 1000).due == 9000)
    SEE(geocom_instrument_feed(d.at, quick, 11, 2000).count == 0)
    SEE(geocom_instrument_feed(d.at, quick, 11, 9000).count > 0)
    end(b);
    end(d);
}

/* An instrument is bytes: it goes on where it was moved to. */
static void moves(void) {
    bench a = make(truck, 0, 0), b = make("", 0, 0);
    replies(a, "%R1Q,9027,1:0.5,1.5,0,1,0\r\n%R1Q,17017,2:", 99, "%R1P,0,1:0\r\n");
    memcpy(b.at, a.at, geocom_instrument_size());
    memset(a.at, 0, geocom_instrument_size());
    replies(b, "2\r\n", 99, "%R1P,0,2:0,0.5,1.5,10.0,2\r\n");
    end(a);
    end(b);
}

/* Random bytes: each is used once, each reply has its CR LF, and the guards stand. */
static void random_bytes(unsigned seed) {
    static const char alphabet[] = "%R1Q,0123456789:.\r\n\n\"- ";
    bench b = make(truck, 0, 0);
    uint8_t bytes[600];
    size_t round, k;
    srand(seed);
    for (round = 0; round < 2000; round++) {
        size_t length = (size_t)rand() % sizeof bytes, left = length, from = 0;
        for (k = 0; k < length; k++) bytes[k] = rand() % 8 ? (uint8_t)alphabet[(size_t)rand() % (sizeof alphabet - 1)] : (uint8_t)rand();
        if (rand() % 3 == 0 && length > 30) memcpy(bytes, "%R1Q,17017,3:2\r\n", 16);
        while (left > 0) {
            geocom_reply heard = geocom_instrument_feed(b.at, bytes + from, left, round);
            SEE(heard.fault == 0 && heard.used > 0 && heard.used <= left && heard.count <= GEOCOM_REPLY_ROOM)
            SEE(heard.count == 0 || (heard.reply[heard.count - 2] == '\r' && heard.reply[heard.count - 1] == '\n'))
            from += heard.used;
            left -= heard.used;
        }
    }
    end(b);
}

int main(void) {
    unsigned seed;
    cut_anywhere();
    two_at_once();
    refuses();
    restarts();
    delays();
    moves();
    for (seed = 1; seed <= 5; seed++) random_bytes(seed);
    printf("instruments: cut anywhere, two at once, refusals, restarts, delays, moves, random bytes; %zu bytes each\n", geocom_instrument_size());
    return 0;
}
