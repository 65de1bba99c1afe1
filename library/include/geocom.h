/*
 * geocom: the proved GeoCOM client, from C.
 *
 * Each request is settled once, in the order of sending: answered, late or lost. The caller has the connection and the clock; the library
 * opens nothing, allocates no memory, starts no thread and keeps nothing between calls. Its whole state is the caller's: plain bytes of a
 * fixed size, which may be copied and stored. There are three ways in, each over the one below it:
 *
 *   geocom_ask           a request with its settlement, for programs that block until then; over callbacks for the connection and the clock
 *   geocom_session_..    everything between a request with its deadline and its settlement, over any number of connections, for a loop
 *                        that does what the session says
 *   geocom_client_..     requests, replies and ids alone, for a loop with rules of its own on connections
 *
 * How a session is driven: geocom_session_init, once, and then a loop, whose duties are these.
 *   1. Call geocom_session_next with what is wanted and the moment, do what it says, report what came of that, and call it again.
 *   2. GEOCOM_OPEN: make a connection, and call geocom_session_opened; or geocom_session_closed if none could be made.
 *   3. GEOCOM_WAIT: there is no connection. Wait until the moment `until` at most, or until something else is wanted.
 *   4. GEOCOM_WRITE: write the `bytes` bytes of `line` to the connection: once, whole, and in the order of the calls. If that fails or is
 *      cut short: 7.
 *   5. GEOCOM_SEND: nothing hinders a request. Call geocom_session_ask or geocom_session_ask_raw, and write its line as in 4; or, if none
 *      is to be sent, want something else.
 *   6. GEOCOM_READ: read until the moment `until` at most. If bytes came, pass all of them, in order, to geocom_session_feed, with the
 *      moment after the read. If nothing came: 1. If the connection ended or failed: 7.
 *   7. GEOCOM_CLOSE: the line is dead. Close the connection, and call geocom_session_closed. So too whenever the connection ended or failed.
 *   8. All moments are milliseconds of one clock, which never runs backwards.
 *   9. A request's end is among the settlements of geocom_session_feed, or of geocom_session_next or geocom_session_restart, which lose it:
 *      take those of geocom_session_next before its line is written. The session's own null procedures are settled there, too, with the
 *      target GEOCOM_OWN: ignore these.
 *  10. A loop that stops for a while, as between two blocking calls, calls geocom_session_next once with GEOCOM_WANT_NOTHING, and may ignore
 *      what that says, to read or to wait. When it goes on, it first reads without waiting, and feeds what came: so a sign-on, or the end of
 *      a connection, isn't overlooked.
 *  11. A deadline of the caller's own is looked at before geocom_session_next: a null procedure may be sent once all that is outstanding
 *      has timed out.
 *  12. If a duty was broken off, so that the caller can't say what was written, or fed, of a line: geocom_session_restart, before all else.
 * Whether what was asked before is still worth sending after another connection or synchronization is the caller's to say: it compares
 * `interruptions` and `sign_ons` of geocom_session_status.
 *
 * How a client is driven, without a session:
 *   1. geocom_client_init, once, with the width: how many requests may be outstanding at a time, 1 to 7.
 *   2. geocom_client_synchronize until the client has synchronized: write a line feed to the new connection, then the line of each null
 *      procedure that the call returns, and pass it the bytes that you read. If nothing came by a deadline of yours, call it without
 *      bytes: it returns the same line again. So no old reply is taken for the answer to a request.
 *   3. geocom_client_send for a request, or geocom_client_send_raw for one of a procedure that isn't in the table; write the line
 *      that it returns to the connection.
 *   4. Read, until geocom_client_next_deadline at the latest.
 *   5. geocom_client_expire with the moment after the read, then geocom_client_feed with the bytes until all are used.
 *   6. If the connection fails or is dead: close it, open a new one, send a line feed, discard what comes until nothing comes any
 *      more, and feed a line feed, which discards half a line. Before the client has synchronized, pass that line feed to
 *      geocom_client_synchronize instead, and discard nothing. Ids continue, and what is outstanding stays so.
 *   7. If as many requests are outstanding as the width allows, and all have timed out: geocom_client_restart, and 2 without the
 *      line feed. No pause is needed.
 *   8. If a line of what you read has a sign-on in it (geocom_is_sign_on), the instrument was switched on or off: send nothing more before
 *      all that is outstanding was settled or has timed out; then 7, and after it your setup, which the instrument may have forgotten.
 *
 * On a line that may damage a reply, so that it has another id, two rules keep the harm to the request that it answers, unless two lines
 * in a row that settle something are damaged. A session keeps them by itself; of a client they are the caller's. First, let the first
 * request after each synchronization be a null procedure (geocom_client_send with procedure 0), alone, again once it has timed out, and
 * send no other before a reply has settled one as answered or late. Second, hold back: send only while the outstanding requests, and those
 * that the last line settled that settled any (`count` of geocom_client_feed; 1 at first, and after each synchronization), are together
 * fewer than seven; if all have timed out and there is no room so, continue at 7. A client of width 3 or less keeps the second rule by
 * itself.
 *
 * A moment or a deadline of a client is a number of the caller's clock, which may count in any unit and never runs backwards.
 *
 * What the caller vouches for: every pointer is valid for the length after it and not null, even if the length is 0;
 * what two pointers of one call point at does not overlap; and one call at a time is made for each state. Calls for
 * different states may run in different threads. No call has a condition on the bytes of a state: whatever they are,
 * it returns and stays within bounds.
 *
 * A call writes the first `count` elements of the room that it is given, and leaves those after them as they are (except in the text of
 * a feed).
 *
 * Faults (a call of a client or a session that returns one has changed nothing, and written nothing; all else that it returns is 0):
 *   1 to 5    geocom_description_reply: the line is no reply; its first faulty field
 *   6         the line of a raw request would have more than 512 bytes; geocom_description_reply: the line has more
 *   11 to 15  the parameters can't be read: form, range, an open quote, more than 16, another count than the procedure has. Of raw
 *             parameters: 11 a CR or LF is among them, 13, 14
 *   21        no procedure has the number
 *   31        as many requests are outstanding as the width allows
 *   61        the width is not 1 to 7
 *   62        less room than the call needs
 *   63        the state is no client's, or no session's: geocom_client_init or geocom_session_init never made it, or its bytes were
 *             overwritten
 *   67        the client hasn't synchronized: geocom_client_synchronize comes first, and again after each restart
 *   68        geocom_client_send_raw, geocom_session_ask_raw, and a description: the procedure is one of the table, which
 *             geocom_client_send and geocom_session_ask request
 *   71        the text is no description of a procedure
 *   72        what is wanted of a session is none of enum geocom_want
 *   73        it isn't a request's turn in the session: what is next isn't GEOCOM_SEND. The request itself could be sent, as its number, its
 *             parameters and its target are looked at before
 *   74        the target is GEOCOM_OWN, that of a session's own requests
 * and of an instrument (after 41 and 51 to 53 none is there, and its other calls return 69):
 *   41        the scene has more targets, faults, replies, delays or restarts at a request than an instrument can have
 *   51        a line of the scene can't be read
 *   52        memory was refused
 *   53        the scene has more than 65,536 bytes
 *   69        no instrument is there: its scene was refused
 */
#ifndef GEOCOM_H
#define GEOCOM_H

#include <stddef.h>
#include <stdint.h>
#include <string.h>

#ifdef __cplusplus
extern "C" {
#endif

#define GEOCOM_VERSION 2

/* How many requests can be outstanding, and so how many records a call can write. */
#define GEOCOM_WINDOW 7
/* The room for a request line with its CR LF. */
#define GEOCOM_LINE_ROOM 514
/* The room for a reply line and its items. */
#define GEOCOM_TEXT_ROOM 1024
/* How many items an answer has at most. */
#define GEOCOM_MOST_ITEMS 16
/* The room for the name of a column. */
#define GEOCOM_NAME_ROOM 32
/* The target of a session's own null procedures. */
#define GEOCOM_OWN UINT32_MAX

/* An outstanding request. Its line has no id and no CR LF; the first `length` bytes of it are used. */
typedef struct geocom_request {
    uint64_t deadline; /* the moment at which it times out */
    uint32_t target;
    uint16_t length;
    uint8_t timed_out; /* 1 if it has timed out; else 0 */
    uint8_t line[512];
} geocom_request;

/* The bytes since the last line feed: all of them, or of more than 514 the first 513 and the last. */
typedef struct geocom_partial_line {
    uint16_t length;
    uint8_t bytes[514];
} geocom_partial_line;

/* A client. Its fields are the library's: read them for a log if you like, and write none. */
typedef struct geocom_client {
    geocom_request requests[GEOCOM_WINDOW]; /* the first `outstanding` of these, the oldest first */
    geocom_partial_line partial_line;
    uint8_t width;       /* how many requests may be outstanding, 1 to 7 */
    uint8_t next;        /* the id of the next request, 0 to 7 */
    uint8_t outstanding; /* how many requests are outstanding */
    uint8_t answered;    /* how many null procedures of the synchronization are answered, of eight */
} geocom_client;

/* Where an item is in the text of a feed, and its length, in bytes. */
typedef struct geocom_item_span {
    uint16_t offset;
    uint16_t length;
} geocom_item_span;

/* How a request ended. */
enum geocom_outcome { GEOCOM_ANSWERED = 1, GEOCOM_LATE = 2, GEOCOM_LOST = 3 };

/* What an answer says: nothing if there is none; a value; the return code of a refusal; the communication code of a
 * request that the instrument didn't accept; or parameters that can't be read as the procedure's. */
enum geocom_reading {
    GEOCOM_NONE = 0,
    GEOCOM_VALUE = 1,
    GEOCOM_REFUSED = 2,
    GEOCOM_COM_FAULT = 3,
    GEOCOM_UNREADABLE = 4
};

/* The end of a request. */
typedef struct geocom_settlement {
    uint32_t target;      /* as it was handed to the call that sent the request */
    uint16_t procedure;   /* as it was handed to the call that sent the request */
    uint16_t code;        /* the return code, the communication code, or the fault 11 to 15; 0 for a value, and without an answer */
    uint16_t line_length; /* the answer's line: this many bytes at the front of the text; 0 without an answer */
    uint16_t items;       /* how many items a value has, or the parameters of a raw request's answer; 0 for every other reading */
    geocom_item_span item_spans[GEOCOM_MOST_ITEMS]; /* where these items are in the text, as they came, without spaces around them */
    uint8_t outcome;      /* enum geocom_outcome */
    uint8_t reading;      /* enum geocom_reading */
} geocom_settlement;

/* A fault or 0, and a count, which is 0 after a fault. */
typedef struct geocom_count {
    uint32_t fault;
    uint32_t count;
} geocom_count;

/* A fault or 0, and the earliest deadline if is_set is 1; otherwise is_set and deadline are 0. */
typedef struct geocom_deadline {
    uint64_t deadline;
    uint32_t fault;
    uint32_t is_set;
} geocom_deadline;

/* What geocom_client_synchronize returns; after a fault all else is 0. */
typedef struct geocom_synchronization {
    uint32_t fault;           /* 0, 62 or 63 */
    uint32_t count;           /* how many bytes of the line are to be sent, with its CR LF; 0: none, read on */
    uint32_t answered;        /* how many null procedures are answered, of eight */
    uint32_t is_synchronized; /* 1 once all are, and the client has synchronized; else 0 */
} geocom_synchronization;

/* What the bytes of a feed ended: no line feed came yet; a line that settled requests; a reply that no request is outstanding for; a
 * line that is no reply; a line feed without a CR before it, and what was before it is discarded; a line of more than 512 bytes, which
 * is discarded. */
enum geocom_kind {
    GEOCOM_MORE = 0,
    GEOCOM_SETTLED = 1,
    GEOCOM_STRAY = 2,
    GEOCOM_UNREAD = 3,
    GEOCOM_CLEARED = 4,
    GEOCOM_OVERLONG = 5
};

/* What geocom_client_feed returns; after a fault all else is 0. */
typedef struct geocom_feed_result {
    size_t used;         /* how many bytes were used: through the first line feed, or all */
    uint32_t fault;      /* 0, 62 or 63 */
    uint32_t count;      /* how many records were written */
    uint32_t kind;       /* enum geocom_kind */
    uint32_t line_fault; /* of a line that is no reply, its first faulty field, 1 to 5; else 0 */
} geocom_feed_result;

/* The library's version of these calls and structures. If it isn't GEOCOM_VERSION, the header belongs to another library. */
uint32_t geocom_version(void);

/* Makes a client that hasn't synchronized, and has sent nothing. At most `width` requests may be outstanding, 1 to 7. Returns 0, or 61
 * for another width: then the state is as it was. */
uint32_t geocom_client_init(geocom_client *state, uint8_t width);

/* Synchronizes: takes bytes that came, all of them, and writes the line of the null procedure that is to be sent next into `line`, with
 * CR LF, `count` bytes. Eight are asked, one after the other, with ids 6, 5, 4, 3, 2, 1, 0 and 7; a reply with the id of the one that is
 * asked answers it, whatever its codes and parameters, and all else is discarded. Call it with length 0 for the first line, and again if
 * nothing came in time: it writes the same line again. If bytes came that answered nothing, count is 0: read on. Once is_synchronized is 1,
 * the call writes no line, and discards each line that ends: then bytes go to geocom_client_feed. Faults: 62 (line_room below
 * GEOCOM_LINE_ROOM), 63. */
geocom_synchronization geocom_client_synchronize(geocom_client *state, const uint8_t *bytes, size_t length, uint8_t *line, size_t line_room);

/* Sends a request of a client that has synchronized: it is outstanding from now on, and its line is written into `line`, with CR LF,
 * `count` bytes, for the caller to write to the connection. The target is any number of the caller's, which the settlement has. The
 * request times out at the deadline, a moment in the unit in which geocom_client_expire gets them. The parameters are a text with commas
 * between them, as "5000,1"; an empty one if the procedure has none. Faults: 62 (line_room below GEOCOM_LINE_ROOM), 63, 67, 21, 11 to
 * 15, 31. */
geocom_count geocom_client_send(geocom_client *state, uint32_t target, uint64_t deadline, uint16_t procedure,
                                const uint8_t *params, size_t params_length, uint8_t *line, size_t line_room);

/* Sends a request for a procedure that isn't in the table, with its parameters exactly as they are given: bytes other than CR and
 * LF, double quotes in pairs, at most 16 items with commas between them, and at most 512 bytes of line. All else is as for
 * geocom_client_send. An answer with both codes 0 is text: its reading is GEOCOM_VALUE, with the items of its parameters, at most 16;
 * or GEOCOM_UNREADABLE with the code 13 or 14.
 *
 * An instrument that doesn't know a procedure may refuse it and still retain its reply to an earlier request. Ids repeat after eight
 * requests, so that old reply could answer a later request. With such an instrument let one of the seven requests before each request be
 * a call of the table that was answered: after six raw requests in a row send a null procedure (geocom_client_send with procedure 0),
 * continue once it, or another one after it, is answered, and ignore its value.
 *
 * Faults: 62 (line_room below GEOCOM_LINE_ROOM), 63, 67, 68, 11, 13, 14, 6, 31. */
geocom_count geocom_client_send_raw(geocom_client *state, uint32_t target, uint64_t deadline, uint16_t procedure,
                                    const uint8_t *params, size_t params_length, uint8_t *line, size_t line_room);

/* Takes bytes as they come from a port, in any pieces, through the first line feed; call again with what is left until all
 * are used. A line settles at most GEOCOM_WINDOW requests: `count` records are written, the oldest request's first, and the
 * line and its items into `text`. If it settles none, neither is written. While the client synchronizes, pass bytes to
 * geocom_client_synchronize instead. Faults: 62 (settlements_room below GEOCOM_WINDOW, or text_room below GEOCOM_TEXT_ROOM), 63. */
geocom_feed_result geocom_client_feed(geocom_client *state, const uint8_t *bytes, size_t length,
                                geocom_settlement *settlements, size_t settlements_room, uint8_t *text, size_t text_room);

/* Times out each request whose deadline is at most `now`, and writes the targets of those that hadn't timed out before, `count` of
 * them, the oldest request's first. They stay outstanding: a reply settles them as late. Faults: 62 (targets_room below GEOCOM_WINDOW),
 * 63. */
geocom_count geocom_client_expire(geocom_client *state, uint64_t now, uint32_t *targets, size_t targets_room);

/* The earliest deadline of the outstanding requests that haven't timed out. Fault: 63. */
geocom_deadline geocom_client_next_deadline(const geocom_client *state);

/* Settles all outstanding requests as lost, and discards half a line; ids start at 0 again, and the width stays. A client that had
 * synchronized has to synchronize again: geocom_client_synchronize comes next. One that hadn't continues with the null procedure that it was
 * at. Requests and replies may still be in flight: the caller vouches for nothing. For another instrument or line make a new client.
 * Writes `count` records, the oldest request's first. Faults: 62 (settlements_room below GEOCOM_WINDOW), 63. */
geocom_count geocom_client_restart(geocom_client *state, geocom_settlement *settlements, size_t settlements_room);

/* How many requests are outstanding, those that timed out included. Fault: 63. */
geocom_count geocom_client_outstanding(const geocom_client *state);

/* Whether a line has a sign-on in it, `%N1,` at its beginning or later, which an instrument sends when it is switched on or off: 1 or 0. The
 * line is the bytes between two line feeds, without the CR at their end; a reply that was cut off may stand before the sign-on. */
uint32_t geocom_is_sign_on(const uint8_t *line, size_t length);

/* Sessions: everything between a request with its deadline and its settlement, over any number of connections. A session synchronizes,
 * sends null procedures where a rule asks for one, holds back, times requests out, resynchronizes when too many are lost, when a sign-on
 * came, or when a stray shows that a line was altered, and says when the line is dead, and for how long to pause before the next connection.
 * Its loop's duties are listed at the top. All times are milliseconds. */

/* What the caller wants of a session: nothing, so that what comes is heard, nothing is written and no connection is made; the ends of the
 * outstanding requests (without one: nothing); or to send a request. The time in which nothing is wanted counts for no dead line. */
enum geocom_want { GEOCOM_WANT_NOTHING = 0, GEOCOM_WANT_ANSWERS = 1, GEOCOM_WANT_SEND = 2 };

/* What the caller does next (see the duties at the top). */
enum geocom_act {
    GEOCOM_OPEN = 1,
    GEOCOM_WAIT = 2,
    GEOCOM_WRITE = 3,
    GEOCOM_SEND = 4,
    GEOCOM_READ = 5,
    GEOCOM_CLOSE = 6
};

/* A session. Its fields are the library's: read them for a log if you like, and write none. */
typedef struct geocom_session {
    geocom_client client;   /* of width 7: the outstanding requests, and how far the synchronization is */
    uint64_t timeout;       /* milliseconds: as it was handed to geocom_session_init, and at least 1 */
    uint64_t settle;        /* milliseconds: as it was handed to geocom_session_init */
    uint64_t moment;        /* the last moment that a call was given, in milliseconds of the caller's clock, as are all moments here */
    uint64_t patience;      /* milliseconds: the longest timeout since nothing was outstanding; after twice this time without a reply the line
                               is dead */
    uint64_t interruptions; /* as in geocom_status */
    uint64_t sign_ons;      /* as in geocom_status */
    uint64_t idle_since;    /* the moment since which nothing is wanted, if is_idle; else 0 */
    uint64_t null_deadline; /* the moment at which the null procedure of the synchronization times out, and is sent again; 0: one is sent at once */
    uint64_t hold_until;    /* the moment until which nothing is sent; 0: there is none, as no call here sets one */
    uint64_t wait_since;    /* the moment from which a pause, or `settle`, counts */
    uint64_t no_reply_since; /* the moment from which the time without a reply counts, after which the line is dead */
    uint64_t pause;         /* milliseconds: how long the current pause is, or the last one was; 0: the next one is as long as `settle` */
    uint8_t width;        /* how many requests that haven't timed out may be in flight, 1 to 7 */
    uint8_t phase;        /* 0 without a connection, 1 pausing, 2 a line feed is to be written, 3 discarding input until none comes for
                             `settle`, 4 ready */
    uint8_t is_idle;      /* 1 if nothing is wanted; else 0 */
    uint8_t has_asked;    /* 1 once a request was sent by geocom_session_ask or geocom_session_ask_raw; else 0 */
    uint8_t awaits_reply; /* 1 if something was sent over this connection, and no reply came after it; else 0 */
    uint8_t must_resynchronize; /* 1 if nothing is sent before the next synchronization; else 0 */
    uint8_t requests_since_table_call; /* how many requests were sent after the last one of the table that a reply ended, 0 to 7 */
    uint8_t last_ended;   /* how many requests the last line settled that settled any, 1 to 7 */
    uint8_t has_listened; /* 1 if the caller was to read since what came last over this connection; else 0 */
} geocom_session;

/* What geocom_session_next returns; after a fault all else is 0. */
typedef struct geocom_step {
    uint64_t until; /* GEOCOM_WAIT, GEOCOM_READ: until this moment at most, UINT64_MAX for any length of time; else 0 */
    uint32_t fault; /* 0, 62, 63 or 72 */
    uint32_t act;   /* enum geocom_act */
    uint32_t bytes; /* GEOCOM_WRITE: how many bytes of `line` are to be written; else 0 */
    uint32_t count; /* how many records were written: if the session resynchronizes, all that was outstanding is lost; else 0 */
} geocom_step;

/* What geocom_session_status returns; after a fault all else is 0. */
typedef struct geocom_status {
    uint64_t interruptions; /* grows when a connection ends or can't be made, and when the session resynchronizes: what was sent at one number,
                               and is sent at the same one, goes over one connection after one synchronization */
    uint64_t sign_ons;      /* how many sign-ons came since the first request was sent by geocom_session_ask or geocom_session_ask_raw */
    uint32_t fault;         /* 0 or 63 */
    uint32_t is_up;         /* 1 if there is a connection; else 0 */
    uint32_t is_ready;      /* 1 if it has synchronized, the connection is quiet, and nothing called for another synchronization; else 0 */
    uint32_t outstanding;   /* how many requests are outstanding, those that timed out included */
    uint32_t current;       /* how many of these haven't timed out */
} geocom_status;

/* Makes a session without a connection, which has sent nothing. At most `width` requests that haven't timed out are in flight, 1 to 7; 1 is
 * right for an instrument that handles one at a time. A null procedure times out after `timeout`, at least 1; the line is dead once all that
 * is outstanding has timed out, and no reply came for twice this time, or twice the longest timeout of a request since nothing was
 * outstanding. After a connection the session pauses for `settle` before the next one, twice as long at each further failure, up to a minute;
 * and on a new connection, once it has synchronized, it sends nothing until nothing came for `settle`. Returns 0, or 61 for another width:
 * then the session is as it was. */
uint32_t geocom_session_init(geocom_session *session, uint8_t width, uint64_t timeout, uint64_t settle);

/* What the caller does next, if `want` (enum geocom_want) is wanted at the moment `now`. Each request whose deadline has come by then times
 * out; it stays outstanding, and a reply settles it as late. If there is something to write, it is in `line`, with CR LF where it is a
 * request; it counts as sent from now on. If the session resynchronizes, all that is outstanding is lost, `count` records, the oldest
 * request's first. Faults: 62 (settlements_room below GEOCOM_WINDOW, or line_room below GEOCOM_LINE_ROOM), 63, 72. */
geocom_step geocom_session_next(geocom_session *session, uint32_t want, uint64_t now,
                                geocom_settlement *settlements, size_t settlements_room, uint8_t *line, size_t line_room);

/* Sends a request of a procedure of the table, if it is a request's turn: if GEOCOM_SEND is next, as geocom_session_next says. Its line is
 * written into `line`, with CR LF, `count` bytes, for the caller to write to the connection. It times out `timeout` after the last moment
 * that a call was given. Target and parameters are as for geocom_client_send. Faults: 62 (line_room below GEOCOM_LINE_ROOM), 63, 21, 11 to
 * 15, 74, 73, the first of them that there is. So 73 says that the request can be sent; to check one at any time, ask a copy of the session. */
geocom_count geocom_session_ask(geocom_session *session, uint32_t target, uint64_t timeout, uint16_t procedure,
                                const uint8_t *params, size_t params_length, uint8_t *line, size_t line_room);

/* The same for a procedure that isn't in the table, with its parameters exactly as they are given, as geocom_client_send_raw. Its rule on
 * null procedures is the session's to keep. Faults: 62 (line_room below GEOCOM_LINE_ROOM), 63, 68, 11, 13, 14, 6, 74, 73. */
geocom_count geocom_session_ask_raw(geocom_session *session, uint32_t target, uint64_t timeout, uint16_t procedure,
                                    const uint8_t *params, size_t params_length, uint8_t *line, size_t line_room);

/* Reports that a connection was made, by the moment `now`: a line feed comes first. Half a line is discarded. Returns 0, or 63. */
uint32_t geocom_session_opened(geocom_session *session, uint64_t now);

/* Reports that the connection ended, failed or was closed, or that none could be made, by the moment `now`. What is outstanding stays so, and
 * half a line is discarded. Returns 0, or 63. */
uint32_t geocom_session_closed(geocom_session *session, uint64_t now);

/* Takes bytes that came by the moment `now`, in any pieces, through the first line feed; call again with what is left until all are used.
 * First each request whose deadline has come by then times out. All else is as for geocom_client_feed: `count` records of what a line
 * settles, and the line and its items in `text`. But a line settles nothing while the session synchronizes, before a new connection is quiet,
 * and if it has a sign-on in it: then a reply is GEOCOM_STRAY, another line GEOCOM_UNREAD. With length 0 nothing happens. Faults: 62
 * (settlements_room below GEOCOM_WINDOW, or text_room below GEOCOM_TEXT_ROOM), 63. */
geocom_feed_result geocom_session_feed(geocom_session *session, uint64_t now, const uint8_t *bytes, size_t length,
                                 geocom_settlement *settlements, size_t settlements_room, uint8_t *text, size_t text_room);

/* Settles all that is outstanding as lost, and starts over: with a line feed first, if there is a connection; and if the session had
 * synchronized, it synchronizes again. For a caller that can't say any more what became of a line that it was to write, or of bytes that it
 * read. Writes `count` records, the oldest request's first. Faults: 62 (settlements_room below GEOCOM_WINDOW), 63. */
geocom_count geocom_session_restart(geocom_session *session, geocom_settlement *settlements, size_t settlements_room);

/* How a session is. Fault: 63. */
geocom_status geocom_session_status(const geocom_session *session);

/* Procedures that aren't in the table, described by a text: `RPC NAME KIND .. -> COLUMN KIND ..`, as
 *
 *   2167 wait Long mode Long -> hz_rad Double v_rad Double ..
 *
 * with one space between two words; of at most 16 parameters, and of at most 16 values of an answer, a name and a kind: Double, Long, Short,
 * Byte, Boolean or String (docs/PROTOCOL.md, "Parameters"). A name is a small letter and then small letters, digits and `_`, at most 32 bytes;
 * the columns of the table's quantities have their kinds, and some names are taken (docs/LIBRARY.md, "Described procedures"). After a last
 * word `..` an answer may have further values. Requests go through geocom_client_send_raw, whose rules stay. */

/* The kind of a column's values. */
enum geocom_item_kind { GEOCOM_DOUBLE = 1, GEOCOM_LONG = 2, GEOCOM_SHORT = 3, GEOCOM_BYTE = 4, GEOCOM_BOOLEAN = 5, GEOCOM_STRING = 6 };

/* A column: the first `length` bytes of `name` are its name. */
typedef struct geocom_column {
    uint8_t name[GEOCOM_NAME_ROOM];
    uint8_t length;
    uint8_t kind; /* enum geocom_item_kind */
} geocom_column;

/* What geocom_description_read returns; after a fault all else is 0. */
typedef struct geocom_description {
    uint32_t fault;      /* 0, 62, 68 or 71 */
    uint32_t procedure;  /* its number */
    uint32_t parameters; /* how many it has */
    uint32_t columns;    /* how many columns were written */
    uint32_t more;       /* 1 if an answer may have further values; else 0 */
} geocom_description;

/* What geocom_description_reply returns; after a fault all else is 0. */
typedef struct geocom_answer {
    uint32_t fault;   /* 0, 1 to 6, 62, 68 or 71 */
    uint16_t code;    /* the return code, the communication code, or the fault 11 to 15; 0 for a value */
    uint16_t items;   /* how many items a value has; 0 for every other reading */
    uint16_t columns; /* how many of these, the first ones, are the values of the description's columns; 0 for every other reading */
    geocom_item_span item_spans[GEOCOM_MOST_ITEMS]; /* where these items are in the text, as they came, without spaces around them */
    uint8_t reading;  /* enum geocom_reading, from GEOCOM_VALUE on */
} geocom_answer;

/* Reads a description, and writes its columns, in order, and nothing after them. Faults: 62 (columns_room below GEOCOM_MOST_ITEMS), 68 (the
 * text begins with the number of a procedure of the table), 71. */
geocom_description geocom_description_read(const uint8_t *description, size_t length, geocom_column *columns, size_t columns_room);

/* Checks a request's parameters by a description, as geocom_client_send does those of a procedure of the table. Returns 0, 68, 71, or 11 to
 * 15. */
uint32_t geocom_description_params(const uint8_t *description, size_t length, const uint8_t *params, size_t params_length);

/* Reads a reply's line, without its CR LF, by a description, as the settlement of a procedure of the table is read: the first
 * `line_length` bytes of a feed's text, of a settlement with an answer. Writes the line and its items into `text`, which is not that of the
 * feed. The fault 15 of a code is that of an answer with another number of items than columns, or with fewer, if further values may follow.
 * Faults: 62 (text_room below GEOCOM_TEXT_ROOM), 68, 71, 6, 1 to 5. */
geocom_answer geocom_description_reply(const uint8_t *description, size_t length, const uint8_t *line, size_t line_length,
                                       uint8_t *text, size_t text_room);

/* How many outstanding requests haven't timed out; 0 if the state is no client's. */
static inline uint32_t geocom_client_current(const geocom_client *state) {
    uint32_t outstanding = geocom_client_outstanding(state).count, current = 0, k;
    for (k = 0; k < outstanding; k++) current += state->requests[k].timed_out == 0;
    return current;
}

/* An instrument within the process, for tests: that of a scene (docs/SIMULATOR.md, "Scenes" and "Rules of a scene"). Its requests and
 * replies are bytes; it waits for nothing and reads no clock.
 *
 *   geocom_instrument *it = malloc(geocom_instrument_size());
 *   if (geocom_instrument_init(it, scene, strlen(scene)).fault == 0) ..
 *   free(it);
 *
 * What the caller vouches for besides: for geocom_instrument_init `at` points to geocom_instrument_size() bytes, aligned to 16 bytes, as
 * those that malloc returns are; for the other calls, to an instrument that geocom_instrument_init wrote there, and that nothing else
 * changed. It may be moved as bytes. Nothing has to be closed: an instrument has no memory but these bytes. Only geocom_instrument_init
 * allocates memory, by malloc, while it reads the scene, and frees it. */
typedef struct geocom_instrument geocom_instrument;

/* The room for a reply with its CR LF. */
#define GEOCOM_REPLY_ROOM 514

/* What geocom_instrument_init returns: a fault or 0, and, if the fault is 51, the number of the scene's faulty line, from 1 on; else 0. */
typedef struct geocom_scene_fault {
    uint32_t fault;
    uint32_t line;
} geocom_scene_fault;

/* What geocom_instrument_feed returns; after a fault all else is 0. */
typedef struct geocom_reply {
    size_t used;                      /* how many bytes were used: through the first line feed, or all */
    uint64_t due;                     /* the moment at which the reply goes out, in milliseconds of the caller's clock; 0 if none */
    uint32_t fault;                   /* 0 or 69 */
    uint32_t count;                   /* how many bytes the reply has, with CR LF; 0: there is none */
    uint8_t reply[GEOCOM_REPLY_ROOM]; /* the first `count` bytes are the reply, or a sign-on in its place */
} geocom_reply;

/* How many bytes an instrument takes. */
size_t geocom_instrument_size(void);

/* Sets up the instrument of a scene's text, in its opening state. Faults: 41, 51, 52, 53; after these no instrument is there. */
geocom_scene_fault geocom_instrument_init(geocom_instrument *at, const uint8_t *scene, size_t length);

/* Takes bytes as they come from a port, in any pieces, through the first line feed, and returns the reply to the line that it ends; call
 * again with what is left until all are used. `now` is the moment at which they came, in milliseconds of the caller's clock, which never
 * runs backwards. A reply with a delay in the scene is due later; the next ones aren't due before it. Fault: 69. */
geocom_reply geocom_instrument_feed(geocom_instrument *at, const uint8_t *bytes, size_t length, uint64_t now);

/* Restarts the instrument, as a new connection to `geocom serve` does: half a line is discarded. The scene goes on, with its counts, its
 * targets and its noise. Returns 0, or 69. */
uint32_t geocom_instrument_restart(geocom_instrument *at);

/* What follows is a loop over a session, for programs that block until a request is settled. It does what the session says, and has no rule
 * of its own.
 *
 * A port is what the loop does it with, each passed `context`. `open` makes a connection, and returns 0, or a negative number if none can be
 * made. `close` closes it, as it ended or failed, or its line is dead. `wait` returns after so many milliseconds, without a connection.
 * `write` writes all of the bytes, and returns 0. `read` waits for so many milliseconds at most, and returns how many bytes came, 0 if none
 * did. `write` and `read` return a negative number if the connection ended or failed, or not all was written. `now` returns a count of
 * milliseconds that never runs backwards. */
typedef struct geocom_port {
    void *context;
    int (*open)(void *context);
    void (*close)(void *context);
    void (*wait)(void *context, uint64_t milliseconds);
    int (*write)(void *context, const uint8_t *bytes, size_t length);
    int (*read)(void *context, uint8_t *bytes, size_t room, uint64_t milliseconds);
    uint64_t (*now)(void *context);
} geocom_port;

/* What geocom_ask returns besides 0 and a fault: the request couldn't be sent in time, and wasn't. */
enum geocom_trouble { GEOCOM_SILENT = -2 };

/* What begins with geocom_detail_ is of geocom_ask and geocom_ask_raw alone, and may change: don't call it.
 *
 * geocom_session_ask or geocom_session_ask_raw. */
typedef geocom_count geocom_detail_ask_call(geocom_session *session, uint32_t target, uint64_t timeout, uint16_t procedure,
                                            const uint8_t *params, size_t params_length, uint8_t *line, size_t line_room);

/* Closes the connection. */
static inline void geocom_detail_close(geocom_session *session, const geocom_port *port) {
    port->close(port->context);
    geocom_session_closed(session, port->now(port->context));
}

/* Writes a line, or closes the connection. */
static inline void geocom_detail_write(geocom_session *session, const geocom_port *port, const uint8_t *line, size_t length) {
    if (port->write(port->context, line, length) < 0) geocom_detail_close(session, port);
}

/* Reads for so many milliseconds at most, and returns how many bytes came, or closes the connection. Of what they settle, `last` becomes the
 * settlement of the request that was sent last. */
static inline int geocom_detail_read(geocom_session *session, const geocom_port *port, uint64_t milliseconds, geocom_settlement *last,
                                     uint8_t *text) {
    uint8_t bytes[256];
    geocom_settlement records[GEOCOM_WINDOW];
    const int came = port->read(port->context, bytes, sizeof bytes, milliseconds);
    const uint64_t now = port->now(port->context);
    geocom_feed_result heard = {0, 0, 0, 0, 0};
    size_t used;
    if (came < 0) geocom_detail_close(session, port);
    for (used = 0; came > 0 && used < (size_t)came && heard.fault == 0; used += heard.used) {
        heard = geocom_session_feed(session, now, bytes + used, (size_t)came - used, records, GEOCOM_WINDOW, text, GEOCOM_TEXT_ROOM);
        if (heard.count > 0) *last = records[heard.count - 1];
    }
    return came;
}

/* Does what is next at the moment `now`, until the moment `end` at most, and returns it. GEOCOM_SEND is left to the caller. */
static inline geocom_step geocom_detail_step(geocom_session *session, const geocom_port *port, uint32_t want, uint64_t now, uint64_t end,
                                             geocom_settlement *last, uint8_t *text) {
    geocom_settlement lost[GEOCOM_WINDOW];
    uint8_t line[GEOCOM_LINE_ROOM];
    const geocom_step step = geocom_session_next(session, want, now, lost, GEOCOM_WINDOW, line, sizeof line);
    const uint64_t until = step.until < end ? step.until : end, rest = until > now ? until - now : 0;
    if (step.act == GEOCOM_WRITE) geocom_detail_write(session, port, line, step.bytes);
    if (step.act == GEOCOM_CLOSE) geocom_detail_close(session, port);
    if (step.act == GEOCOM_READ && now < end) geocom_detail_read(session, port, rest, last, text);
    if (step.act == GEOCOM_WAIT && now < end) port->wait(port->context, rest);
    if (step.act == GEOCOM_OPEN) {
        if (port->open(port->context) < 0) geocom_session_closed(session, port->now(port->context));
        else geocom_session_opened(session, port->now(port->context));
    }
    return step;
}

/* The loop of geocom_ask and geocom_ask_raw. */
static inline int geocom_detail_ask(geocom_detail_ask_call *ask_call, geocom_session *session, const geocom_port *port, uint32_t target,
                                    uint16_t procedure, const char *params, uint64_t timeout, geocom_settlement *settlement, uint8_t *text) {
    const geocom_settlement lost = {target, procedure, 0, 0, 0, {{0, 0}}, GEOCOM_LOST, GEOCOM_NONE};
    const size_t length = strlen(params);
    uint8_t line[GEOCOM_LINE_ROOM];
    uint64_t now = port->now(port->context), end = now + (timeout < UINT64_MAX - now ? timeout : UINT64_MAX - now);
    uint32_t want = GEOCOM_WANT_SEND, is_settled = 0;
    geocom_session tried = *session; /* a copy: if it is a request's turn, nothing is sent yet */
    geocom_settlement last = lost;
    geocom_step step;
    geocom_count sent = ask_call(&tried, target, timeout, procedure, (const uint8_t *)params, length, line, sizeof line);
    if (sent.fault != 0 && sent.fault != 73) return (int)sent.fault;
    while (now < end && geocom_session_status(session).is_up && geocom_detail_read(session, port, 0, &last, text) > 0)
        now = port->now(port->context);
    for (; now < end && !is_settled; now = port->now(port->context)) {
        step = geocom_detail_step(session, port, want, now, end, &last, text);
        if (step.fault != 0) return (int)step.fault;
        if (step.act == GEOCOM_SEND) {
            sent = ask_call(session, target, timeout, procedure, (const uint8_t *)params, length, line, sizeof line);
            if (sent.fault != 0) return (int)sent.fault;
            want = GEOCOM_WANT_ANSWERS;
            end = now + (timeout < UINT64_MAX - now ? timeout : UINT64_MAX - now);
            geocom_detail_write(session, port, line, sent.count);
        }
        /* It was sent last: so it is settled once none is outstanding. */
        is_settled = want == GEOCOM_WANT_ANSWERS && geocom_session_status(session).outstanding == 0;
    }
    geocom_detail_step(session, port, GEOCOM_WANT_NOTHING, now, 0, &last, text);
    if (want == GEOCOM_WANT_SEND) return GEOCOM_SILENT;
    *settlement = is_settled ? last : lost;
    return 0;
}

/* Requests a procedure of the table as soon as the session lets it, and reads until the request is settled, or until its deadline, `timeout`
 * milliseconds after it was sent: one that isn't settled by then is reported as lost, as no answer will be taken for it. Before that the
 * session connects, synchronizes and whatever else it has to; what comes between two calls is heard first. `text` has room for
 * GEOCOM_TEXT_ROOM bytes. A program that blocks has one request at a time in flight, so width 1 is right for its session. Returns 0 with the
 * settlement; GEOCOM_SILENT if the request couldn't be sent within `timeout` milliseconds of the call: then it wasn't, and the next call
 * continues; or a fault, at once: a request that can't be sent, as geocom_session_ask refuses it, or 63. The time that `open`, `write` and
 * `close` take comes on top. If `interruptions` or `sign_ons` of geocom_session_status changes during a call, the request may have gone over
 * another connection than the one before it, or to an instrument that forgot its setup. */
static inline int geocom_ask(geocom_session *session, const geocom_port *port, uint32_t target, uint16_t procedure, const char *params,
                             uint64_t timeout, geocom_settlement *settlement, uint8_t *text) {
    return geocom_detail_ask(geocom_session_ask, session, port, target, procedure, params, timeout, settlement, text);
}

/* The same for a procedure that isn't in the table: as geocom_session_ask_raw. */
static inline int geocom_ask_raw(geocom_session *session, const geocom_port *port, uint32_t target, uint16_t procedure, const char *params,
                                 uint64_t timeout, geocom_settlement *settlement, uint8_t *text) {
    return geocom_detail_ask(geocom_session_ask_raw, session, port, target, procedure, params, timeout, settlement, text);
}

#ifdef __cplusplus
}
#endif

#endif
