/* Measures each target once over a serial port that stty has set up (raw), angles in radians: station DEVICE NUMBER:HZ,V.. */
#define _POSIX_C_SOURCE 200809L
#include <errno.h>
#include <fcntl.h>
#include <poll.h>
#include <stdio.h>
#include <stdlib.h>
#include <time.h>
#include <unistd.h>
#include "geocom.h"
typedef struct serial { const char *device; int fd; } serial;
static int make(void *at) {
    serial *line = at;
    line->fd = open(line->device, O_RDWR | O_NOCTTY);
    return line->fd < 0 ? -1 : 0;
}
static void end(void *at) { close(((serial *)at)->fd); }
static int within(uint64_t milliseconds) { return milliseconds < 60000 ? (int)milliseconds : 60000; }
static void rest(void *at, uint64_t milliseconds) { (void)at, poll(NULL, 0, within(milliseconds)); }
static int put(void *at, const uint8_t *bytes, size_t length) { return write(((serial *)at)->fd, bytes, length) == (ssize_t)length ? 0 : -1; }
static int get(void *at, uint8_t *bytes, size_t room, uint64_t milliseconds) {
    struct pollfd ready = {((serial *)at)->fd, POLLIN, 0};
    int told = poll(&ready, 1, within(milliseconds));
    if (told <= 0) return told == 0 || errno == EINTR ? 0 : -1; /* a signal: nothing came yet */
    ssize_t came = read(ready.fd, bytes, room);
    return came > 0 ? (int)came : -1;
}
static uint64_t now(void *at) {
    struct timespec t;
    (void)at, clock_gettime(CLOCK_MONOTONIC, &t);
    return (uint64_t)t.tv_sec * 1000 + (uint64_t)t.tv_nsec / 1000000;
}
int main(int count, char **words) {
    serial line = {count > 2 ? words[1] : "", -1};
    const geocom_port port = {&line, make, end, rest, put, get, now};
    geocom_session session;
    if (count < 3 || geocom_session_init(&session, 1, 10000, 2000) != 0) return 1;
    for (int k = 2; k < count; k++) {
        char *angles, position[64], text[GEOCOM_TEXT_ROOM];
        uint32_t target = (uint32_t)strtoul(words[k], &angles, 10);
        snprintf(position, sizeof position, "%s,0,1,0", *angles ? angles + 1 : angles); /* mode 1: it aims at the prism */
        const struct { uint16_t procedure; const char *params; } chain[] = {{9027, position}, {2008, "1,1"}, {2108, "5000,1"}};
        geocom_settlement s = {0};
        geocom_status first = {0}, last = {0}; /* a chain goes on over the connection and the synchronization in which it began */
        for (int c = 0; c < 3 && (c == 0 || (s.reading == GEOCOM_VALUE && last.interruptions == first.interruptions && last.sign_ons == first.sign_ons)); c++) {
            if (geocom_ask(&session, &port, target, chain[c].procedure, chain[c].params, 35000, &s, (uint8_t *)text) != 0) return 1;
            last = geocom_session_status(&session);
            if (c == 0) first = last;
            printf("%u,%u,%u,%u", s.target, s.procedure, s.outcome, s.code);
            for (int i = 0; i < s.items; i++) printf(",%.*s", s.item_spans[i].length, text + s.item_spans[i].offset);
            puts("");
        }
    }
}
