/* Records: their offsets, how they print, and which octets are whole entries. */
#define TESTS "tests/entries.c"
#include "expect.h"

static struct dnstext_zone zone;
static struct dnstext_record record;
static struct dnstext_outcome outcome;

/* A zone is all octets of DNSTEXT_ZONE_INIT, but for those between its fields. */
static void begin(void) {
    static const struct dnstext_zone start = DNSTEXT_ZONE_INIT;
    memset(&zone, 'z', sizeof zone);
    EXPECT(dnstext_zone_init(&zone) == DNSTEXT_OK);
    EXPECT(zone.class_code == start.class_code && zone.default_ttl == 0 && zone.last_ttl == 0 &&
           zone.at == 0);
    EXPECT(memcmp(&zone.has_default_ttl, &start.has_default_ttl, sizeof(bool)) == 0);
    EXPECT(memcmp(&zone.has_last_ttl, &start.has_last_ttl, sizeof(bool)) == 0);
    EXPECT(memcmp(&zone.origin, &start.origin, offsetof(struct dnstext_kept_name, octets) + 255) == 0);
    EXPECT(memcmp(&zone.owner, &start.owner, offsetof(struct dnstext_kept_name, octets) + 255) == 0);
    EXPECT(dnstext_zone_origin(&zone, BYTES("\7example\0"), &outcome) == DNSTEXT_OK);
}

static bool named(const struct dnstext_kept_name *name, const uint8_t *wire, size_t length) {
    return name->length == length && !name->is_refused && memcmp(name->octets, wire, length) == 0;
}

/* The result of the next call, and its offsets. */
static void next(const uint8_t *text, size_t length, uint32_t status, const uint8_t *given, size_t given_len,
                 int line) {
    uint8_t octets[60];
    memset(&record, 7, sizeof record);
    expect(dnstext_record_next(text, length, &zone, &record, octets, sizeof octets, &outcome) == status,
           "status", line);
    expect(outcome.length == given_len && memcmp(octets, given, given_len) == 0, "octets", line);
}
#define NEXT(text, status, given) next(BYTES(text), status, BYTES(given), __LINE__)

static void offsets(size_t place, size_t data, size_t end, int line) {
    expect(record.place == place && record.data == data && record.end == end, "offsets", line);
}
#define OFFSETS(place, data, end) offsets(place, data, end, __LINE__)

/* Offsets of an entry's tokens: on one line and on several, without RDATA, and of directives. */
static void offsets_of_entries(void) {
    static const char text[] = " ; none\n"
                               "$TTL 5 ; five\n"
                               "  $INCLUDE IN A 192.0.2.1\n"
                               "w IN 1 TXT \"a b\"\t; c\n"
                               "w TXT ( a\n b ) ; d\r\n"
                               "w APL\n"
                               " ( APL ) ;\n"
                               "\n; e\n"
                               "$INCLUDE \"a file\" ; f\n"
                               "( $INCLUDE\n f.\n sub ) \n"
                               "( $GENERATE 1-2\n a$ A ) 192.0.2.$ ; g\n"
                               "w TXT\ta";
    begin();
    NEXT(text, DNSTEXT_NO_OWNER, "no owner");
    EXPECT(outcome.place == 24 && record.place != 24);
    NEXT(text, DNSTEXT_OK, "\3a b");
    OFFSETS(48, 59, 64);
    NEXT(text, DNSTEXT_OK, "\1a\1b");
    OFFSETS(69, 77, 81);
    NEXT(text, DNSTEXT_OK, "");
    OFFSETS(89, 94, 94);
    NEXT(text, DNSTEXT_OK, "");
    OFFSETS(98, 101, 101);
    NEXT(text, DNSTEXT_INCLUDE, "a file");
    OFFSETS(111, 128, 128);
    NEXT(text, DNSTEXT_INCLUDE, "f.");
    OFFSETS(135, 152, 152);
    NEXT(text, DNSTEXT_GENERATE, "");
    OFFSETS(158, 189, 189);
    NEXT(text, DNSTEXT_OK, "\1a");
    OFFSETS(194, 200, 201);
    NEXT(text, DNSTEXT_END, "");
}

/* Prints the last record, with buffers from none to ample, and reads it back. */
static void prints(const uint8_t *data, size_t data_len, const char *line_of, int line) {
    struct dnstext_zone start = DNSTEXT_ZONE_INIT;
    const struct dnstext_record was = record;
    struct dnstext_record found;
    size_t length = strlen(line_of), room, i;
    char printed[300];
    uint8_t made[300];
    for (room = 0; room <= length + 2; room++) {
        memset(printed, '-', sizeof printed);
        expect(dnstext_record_print(&record, data, data_len, (uint8_t *)printed, room, &outcome) ==
                   (room < length ? DNSTEXT_NO_ROOM : DNSTEXT_OK),
               "status", line);
        expect(outcome.length == length && outcome.place == 0, "length", line);
        expect(room < length || memcmp(printed, line_of, length) == 0, "text", line);
        for (i = room < length ? 0 : length; i < sizeof printed; i++)
            expect(printed[i] == '-', "what follows", line);
    }
    expect(memcmp(&record, &was, sizeof was) == 0, "the record stays", line);
    printed[length] = '\n';
    memset(&found, 0, sizeof found);
    expect(dnstext_record_next((const uint8_t *)printed, length + 1, &start, &found, made, sizeof made,
                               &outcome) == DNSTEXT_OK,
           "read back", line);
    expect(outcome.length == data_len && memcmp(made, data, data_len) == 0, "data", line);
    expect(found.ttl == record.ttl && found.class_code == record.class_code, "TTL and class", line);
    expect(found.type_code == record.type_code && found.place == 0, "type", line);
    expect(named(&found.name, record.name.octets, record.name.length), "owner", line);
    expect(found.end == length, "end", line);
}
#define PRINTS(data, line_of) prints(BYTES(data), line_of, __LINE__)

/* A record that does not print, with its error, for every buffer. */
static void prints_none(const uint8_t *data, size_t data_len, uint32_t status, size_t place, int line) {
    uint8_t octets[64];
    size_t room;
    for (room = 0; room < 60; room++) {
        memset(octets, '-', 64);
        outcome.length = 7;
        expect(dnstext_record_print(&record, data, data_len, octets, room, &outcome) == status, "status",
               line);
        expect(outcome.length == 0 && outcome.place == place && octets[0] == '-' && octets[59] == '-',
               "nothing", line);
    }
}
#define PRINTS_NONE(data, status) prints_none(BYTES(data), status, 0, __LINE__)

static void printed_records(void) {
    static const uint8_t many[65536] = {0};
    begin();
    NEXT("a\\032$.B 1h IN MX 10 M", DNSTEXT_OK, "\0\12\1M\7example\0");
    PRINTS("\0\12\1M\7example\0", "a\\032\\$.B.example. 3600 IN MX 10 M.example.");
    record.type_code = 731, record.class_code = 65535, record.ttl = 2147483647;
    PRINTS("\253\315\357", "a\\032\\$.B.example. 2147483647 CLASS65535 TYPE731 \\# 3 ABCDEF");
    record.type_code = 29, record.ttl = 0, record.class_code = 0;
    PRINTS("\1ab", "a\\032\\$.B.example. 0 CLASS0 LOC \\# 3 016162");
    record.name.length = 1, record.name.octets[0] = 0, record.type_code = 16;
    PRINTS("\1;", ". 0 CLASS0 TXT \";\"");
    PRINTS_NONE("\2;", DNSTEXT_BAD_DATA);
    prints_none(many, sizeof many, DNSTEXT_TOO_LONG, 65535, __LINE__);
    record.type_code = 255;
    PRINTS_NONE("", DNSTEXT_BAD_DATA);
    record.ttl = UINT32_C(2147483648);
    PRINTS_NONE("", DNSTEXT_BAD_TTL);
    record.name.length = 2, record.name.octets[0] = 1;
    PRINTS_NONE("", DNSTEXT_RELATIVE_NAME);
    record.name.length = 1;
    PRINTS_NONE("", DNSTEXT_SHORT_INPUT);
    record.name.length = 256;
    PRINTS_NONE("", DNSTEXT_TOO_LONG);
    record.name.length = SIZE_MAX;
    PRINTS_NONE("", DNSTEXT_TOO_LONG);
    record.name.length = 0;
    PRINTS_NONE("", DNSTEXT_NO_OWNER);
    memset(&record.name.is_refused, 2, 1);
    PRINTS_NONE("", DNSTEXT_REFUSED_OWNER);
}

static void whole(const uint8_t *text, size_t length, size_t count, int line) {
    uint8_t *input = length != 0 ? (uint8_t *)malloc(length) : NULL;
    size_t found = 9;
    if (length != 0)
        memcpy(input, text, length);
    expect(dnstext_entries_len(input, length, &found) == DNSTEXT_OK, "status", line);
    expect(found == count, "whole entries", line);
    free(input);
}
#define WHOLE(text, count) whole(BYTES(text), count, __LINE__)

static void whole_entries(void) {
    WHOLE("", 0);
    WHOLE("a A 192.0.2.1", 0);
    WHOLE("a A 192.0.2.1\r", 0);
    WHOLE("a A 192.0.2.1\r\n", 15);
    WHOLE("a A 192.0.2.1\nb A", 14);
    WHOLE("a TXT ( b\n c", 0);
    WHOLE("a TXT ( b\n c )\n\n ", 16);
    WHOLE("a TXT \"b", 0);
    WHOLE("a TXT \"b\nc A", 9);
    WHOLE("\n;\na ) b", 3);
    WHOLE("\n;\na ) b\n", 9);
    WHOLE("a ) b\nc ( ) d\ne (", 14);
    WHOLE("a\\", 0);
    WHOLE("a\\25", 0);
    WHOLE("a\\2x\n\\", 5);
    WHOLE("a\rb\n", 4);
}

int main(void) {
    offsets_of_entries();
    printed_records();
    whole_entries();
    return failures != 0;
}
