/* The sizes and offsets that the header gives, a line each: layout. */
#include <stdio.h>

#include "geocom.h"

#define SIZE(T) printf(#T " %zu\n", sizeof(T));
#define AT(T, F) printf(#T "." #F " %zu %zu\n", offsetof(T, F), sizeof(((T *)0)->F));

int main(void) {
    SIZE(geocom_request) AT(geocom_request, deadline) AT(geocom_request, target) AT(geocom_request, length)
    AT(geocom_request, timed_out) AT(geocom_request, line)
    SIZE(geocom_partial_line) AT(geocom_partial_line, length) AT(geocom_partial_line, bytes)
    SIZE(geocom_client) AT(geocom_client, requests) AT(geocom_client, partial_line) AT(geocom_client, width) AT(geocom_client, next)
    AT(geocom_client, outstanding) AT(geocom_client, answered)
    SIZE(geocom_item_span) AT(geocom_item_span, offset) AT(geocom_item_span, length)
    SIZE(geocom_settlement) AT(geocom_settlement, target) AT(geocom_settlement, procedure) AT(geocom_settlement, code)
    AT(geocom_settlement, line_length) AT(geocom_settlement, items) AT(geocom_settlement, item_spans) AT(geocom_settlement, outcome)
    AT(geocom_settlement, reading)
    SIZE(geocom_count) AT(geocom_count, fault) AT(geocom_count, count)
    SIZE(geocom_deadline) AT(geocom_deadline, deadline) AT(geocom_deadline, fault) AT(geocom_deadline, is_set)
    SIZE(geocom_synchronization) AT(geocom_synchronization, fault) AT(geocom_synchronization, count) AT(geocom_synchronization, answered)
    AT(geocom_synchronization, is_synchronized)
    SIZE(geocom_feed_result) AT(geocom_feed_result, used) AT(geocom_feed_result, fault) AT(geocom_feed_result, count) AT(geocom_feed_result, kind)
    AT(geocom_feed_result, line_fault)
    SIZE(geocom_session) AT(geocom_session, client) AT(geocom_session, timeout) AT(geocom_session, settle) AT(geocom_session, moment)
    AT(geocom_session, patience) AT(geocom_session, interruptions) AT(geocom_session, sign_ons) AT(geocom_session, idle_since)
    AT(geocom_session, null_deadline) AT(geocom_session, hold_until) AT(geocom_session, wait_since) AT(geocom_session, no_reply_since) AT(geocom_session, pause)
    AT(geocom_session, width) AT(geocom_session, phase) AT(geocom_session, is_idle) AT(geocom_session, has_asked)
    AT(geocom_session, awaits_reply) AT(geocom_session, must_resynchronize) AT(geocom_session, requests_since_table_call) AT(geocom_session, last_ended)
    AT(geocom_session, has_listened)
    SIZE(geocom_step) AT(geocom_step, until) AT(geocom_step, fault) AT(geocom_step, act) AT(geocom_step, bytes) AT(geocom_step, count)
    SIZE(geocom_status) AT(geocom_status, interruptions) AT(geocom_status, sign_ons) AT(geocom_status, fault) AT(geocom_status, is_up)
    AT(geocom_status, is_ready) AT(geocom_status, outstanding) AT(geocom_status, current)
    SIZE(geocom_column) AT(geocom_column, name) AT(geocom_column, length) AT(geocom_column, kind)
    SIZE(geocom_description) AT(geocom_description, fault) AT(geocom_description, procedure) AT(geocom_description, parameters)
    AT(geocom_description, columns) AT(geocom_description, more)
    SIZE(geocom_answer) AT(geocom_answer, fault) AT(geocom_answer, code) AT(geocom_answer, items) AT(geocom_answer, columns)
    AT(geocom_answer, item_spans) AT(geocom_answer, reading)
    SIZE(geocom_scene_fault) AT(geocom_scene_fault, fault) AT(geocom_scene_fault, line)
    SIZE(geocom_reply) AT(geocom_reply, used) AT(geocom_reply, due) AT(geocom_reply, fault) AT(geocom_reply, count)
    AT(geocom_reply, reply)
    return 0;
}
