/* Procedures that a text describes: what is read of it, and what is refused; parameters; and replies by it, read from the settlements of raw
 * requests. */
#include <stdio.h>
#include <string.h>

#include "geocom.h"

#define SEE(E) if (!(E)) { printf("described: not so: %s (line %d)\n", #E, __LINE__); return 1; }

static const char tilt[] = "2167 mode Long -> hz_rad Double v_rad Double";
static const char further[] = "2167 mode Long -> hz_rad Double v_rad Double ..";
static const char all_kinds[] = "11003 -> cross_rad Double counts Long level Short flags Byte is_on Boolean title String";

static geocom_column columns[GEOCOM_MOST_ITEMS];
static uint8_t text[GEOCOM_TEXT_ROOM];
static geocom_answer answer;

static geocom_description read(const char *description) {
    return geocom_description_read((const uint8_t *)description, strlen(description), columns, GEOCOM_MOST_ITEMS);
}

static uint32_t params(const char *description, const char *given) {
    return geocom_description_params((const uint8_t *)description, strlen(description), (const uint8_t *)given, strlen(given));
}

static uint32_t reply(const char *description, const char *line) {
    answer = geocom_description_reply((const uint8_t *)description, strlen(description), (const uint8_t *)line, strlen(line), text, sizeof text);
    return answer.fault;
}

static int is_column(int k, const char *name, int kind) {
    return columns[k].length == strlen(name) && memcmp(columns[k].name, name, columns[k].length) == 0 && columns[k].kind == kind;
}

static int is_item(int k, const char *item) {
    return answer.item_spans[k].length == strlen(item) && memcmp(text + answer.item_spans[k].offset, item, strlen(item)) == 0;
}

/* The reply's line says this, and has no items. */
static int is_none(int reading, int code) {
    return answer.fault == 0 && answer.reading == reading && answer.code == code && answer.items == 0 && answer.columns == 0;
}

int main(void) {
    geocom_description said = read(tilt);
    SEE(said.fault == 0 && said.procedure == 2167 && said.parameters == 1 && said.columns == 2 && said.more == 0)
    SEE(is_column(0, "hz_rad", GEOCOM_DOUBLE) && is_column(1, "v_rad", GEOCOM_DOUBLE) && columns[2].length == 0)
    SEE(read(further).fault == 0 && read(further).more == 1)
    said = read(all_kinds);
    SEE(said.procedure == 11003 && said.parameters == 0 && said.columns == 6 && is_column(1, "counts", GEOCOM_LONG))
    SEE(is_column(2, "level", GEOCOM_SHORT) && is_column(3, "flags", GEOCOM_BYTE) && is_column(4, "is_on", GEOCOM_BOOLEAN) && is_column(5, "title", GEOCOM_STRING))
    said = read("50000 ->");
    SEE(said.fault == 0 && said.procedure == 50000 && said.parameters == 0 && said.columns == 0)

    /* No description: no number, no arrow, a kind in small letters, two spaces, a name with a hyphen, a column twice, a column with another
     * kind than the table's, a name that is taken, words behind `..`. */
    static const char *bad[] = {"", "x -> a_m Double", "70000 -> a_m Double", "2167 mode Long", "2167 mode long -> a_m Double", "2167  mode Long -> a_m Double",
                                "2167 -> a-m Double", "2167 -> a_m Double a_m Double", "2167 -> hz_rad Long", "2167 -> time String", "2167 -> .. a_m Double"};
    for (size_t k = 0; k < sizeof bad / sizeof *bad; k++) {
        said = read(bad[k]);
        SEE(said.fault == 71 && said.procedure == 0 && said.columns == 0 && params(bad[k], "1") == 71 && reply(bad[k], "%R1P,0,0:0") == 71)
    }
    SEE(read("2107 mode Long -> hz_rad Double v_rad Double").fault == 68 && read("5003").fault == 68 && params("0 ->", "") == 68)
    SEE(geocom_description_read((const uint8_t *)tilt, strlen(tilt), columns, 15).fault == 62)
    SEE(geocom_description_reply((const uint8_t *)tilt, strlen(tilt), text, 0, text, 1023).fault == 62)

    /* Parameters, as those of a procedure of the table. */
    SEE(params(tilt, "1") == 0 && params(tilt, " -2 ") == 0 && params("50000 ->", "  ") == 0 && params("2167 a Byte b String ->", "'0c',\"a,b\"") == 0)
    SEE(params(tilt, "1.5") == 11 && params(tilt, "2147483648") == 12 && params(tilt, "\"") == 13 && params(tilt, "1,2") == 15 && params(tilt, "") == 15)
    SEE(params(tilt, ",,,,,,,,,,,,,,,,") == 14 && params(further, "1,2") == 15)

    /* Replies. */
    SEE(reply(tilt, "%R1P,0,3:0,0.25, 1.5") == 0 && answer.reading == GEOCOM_VALUE && answer.code == 0 && answer.items == 2 && answer.columns == 2)
    SEE(is_item(0, "0.25") && is_item(1, "1.5") && memcmp(text, "%R1P,0,3:0,0.25, 1.5", 20) == 0)
    SEE(reply(tilt, "%R1P,0,3:0,0.25,1.5,7") == 0 && is_none(GEOCOM_UNREADABLE, 15) && reply(tilt, "%R1P,0,3:0,0.25") == 0 && is_none(GEOCOM_UNREADABLE, 15))
    SEE(reply(tilt, "%R1P,0,3:0,0.25,x") == 0 && is_none(GEOCOM_UNREADABLE, 11) && reply(tilt, "%R1P,0,3:0,\"") == 0 && is_none(GEOCOM_UNREADABLE, 13))
    SEE(reply(further, "%R1P,0,3:0,0.25,1.5,7,\"a,b\"") == 0 && answer.reading == GEOCOM_VALUE && answer.items == 4 && answer.columns == 2)
    SEE(is_item(1, "1.5") && is_item(3, "\"a,b\"") && reply(further, "%R1P,0,3:0,0.25,1.5") == 0 && answer.items == 2)
    SEE(reply(further, "%R1P,0,3:0,0.25") == 0 && is_none(GEOCOM_UNREADABLE, 15))
    SEE(reply(all_kinds, "%R1P,0,0:0,1,-2,3,'0C',1,\"x\"") == 0 && answer.items == 6 && is_item(3, "'0C'"))
    SEE(reply(tilt, "%R1P,0,3:1285,x") == 0 && is_none(GEOCOM_REFUSED, 1285) && reply(tilt, "%R1P,3081,3:0") == 0 && is_none(GEOCOM_COM_FAULT, 3081))
    SEE(reply("50000 ->", "%R1P,0,3:0") == 0 && answer.reading == GEOCOM_VALUE && answer.items == 0)
    memset(text, 0x5a, sizeof text);
    SEE(reply(tilt, "") == 1 && reply(tilt, "%R1P,x") == 2 && reply(tilt, "%R1P,0,8:0") == 3 && reply(tilt, "%R1P,0,3;") == 4 && reply(tilt, "%R1P,0,3:x") == 5)
    char long_line[514] = "%R1P,0,3:0,";
    memset(long_line + 11, ' ', 502);
    SEE(reply(tilt, long_line) == 6 && answer.reading == 0 && answer.items == 0 && text[0] == 0x5a)

    /* The settlement of a raw request has the line. */
    geocom_client client;
    geocom_settlement settled[GEOCOM_WINDOW];
    uint8_t line[GEOCOM_LINE_ROOM], fed[GEOCOM_TEXT_ROOM];
    static const uint8_t answers[] = "%R1P,0,6:0\r\n%R1P,0,5:0\r\n%R1P,0,4:0\r\n%R1P,0,3:0\r\n%R1P,0,2:0\r\n%R1P,0,1:0\r\n%R1P,0,0:0\r\n%R1P,0,7:0\r\n";
    geocom_client_init(&client, GEOCOM_WINDOW);
    SEE(geocom_client_synchronize(&client, answers, sizeof answers - 1, line, sizeof line).is_synchronized == 1)
    SEE(geocom_client_send_raw(&client, 7, 10, 2167, (const uint8_t *)"1", 1, line, sizeof line).fault == 0)
    SEE(geocom_client_feed(&client, (const uint8_t *)"%R1P,0,0:0,0.25,1.5\r\n", 21, settled, GEOCOM_WINDOW, fed, sizeof fed).count == 1)
    answer = geocom_description_reply((const uint8_t *)tilt, strlen(tilt), fed, settled[0].line_length, text, sizeof text);
    SEE(answer.fault == 0 && answer.reading == GEOCOM_VALUE && is_item(1, "1.5"))
    printf("described procedures: texts, parameters and replies, as they are described\n");
    return 0;
}
