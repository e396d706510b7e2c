/* The parser of records: its results, each error, and zones that no call returned. With the rows of `data`
 * and of zones on standard input, in the format of crates/test_support. */
#include "table.h"
#include <dnstext.h>

enum { LONGEST = 65535 };

#define TEXT(text) text, sizeof(text) - 1
#define TEXT_OCTETS(text) (const uint8_t *)(text), sizeof(text) - 1

static int failures;
static uint8_t octets[LONGEST + 16];
static struct dnstext_zone zone;
static struct dnstext_record record;
static struct dnstext_outcome outcome;

static void expect(int is_so, const char *what, int line) {
    if (!is_so) {
        fprintf(stderr, "tests/zones.c:%d: %s\n", line, what);
        failures++;
    }
}
#define EXPECT(is_so) expect((is_so), #is_so, __LINE__)

static void begin(void) {
    static const struct dnstext_zone start = DNSTEXT_ZONE_INIT;
    zone = start;
    EXPECT(dnstext_zone_origin(&zone, (const uint8_t *)"\7example", 9, &outcome) == DNSTEXT_OK);
}

/* A call on memory of the exact lengths, so that a sanitizer detects accesses beyond them. */
static uint32_t next(const char *text, size_t length, size_t room) {
    uint8_t *input = length != 0 ? (uint8_t *)malloc(length) : NULL;
    uint8_t *output = room != 0 ? (uint8_t *)malloc(room) : NULL;
    uint32_t status;
    if (length != 0)
        memcpy(input, text, length);
    memset(octets, '-', sizeof octets);
    if (room != 0)
        memcpy(output, octets, room);
    status = dnstext_record_next(input, length, &zone, &record, output, room, &outcome);
    if (room != 0)
        memcpy(octets, output, room);
    free(input);
    free(output);
    return status;
}

static bool named(const struct dnstext_kept_name *name, const char *wire, size_t length) {
    return name->length == length && !name->is_refused && memcmp(name->octets, wire, length) == 0;
}

/* The result of the next call, with a buffer of the exact size; and that it fails with a smaller one. */
static void gives(const char *text, size_t length, uint32_t status, const char *given, size_t given_len,
                  int line) {
    struct dnstext_zone before = zone;
    struct dnstext_record was;
    size_t i;
    memset(&record, 7, sizeof record);
    was = record;
    if (given_len != 0) {
        expect(next(text, length, given_len - 1) == DNSTEXT_NO_ROOM, "no room", line);
        expect(outcome.length == given_len && outcome.place == 0, "length", line);
        expect(memcmp(&zone, &before, sizeof zone) == 0, "the zone stays", line);
        expect(memcmp(&record, &was, sizeof was) == 0, "the record stays", line);
        for (i = 0; i < given_len; i++)
            expect(octets[i] == '-', "memory", line);
    }
    expect(next(text, length, given_len + 3) == status, "status", line);
    expect(outcome.length == given_len && outcome.place == 0, "length", line);
    expect(memcmp(octets, given, given_len) == 0, "octets", line);
    expect(memcmp(octets + given_len, "---", 3) == 0, "what follows", line);
}
#define GIVES(text, given) gives(TEXT(text), DNSTEXT_OK, TEXT(given), __LINE__)

static void is(size_t place, uint32_t ttl, uint16_t class_code, uint16_t type_code, const char *owner,
               size_t length, int line) {
    expect(record.place == place, "place", line);
    expect(record.ttl == ttl, "TTL", line);
    expect(record.class_code == class_code, "class", line);
    expect(record.type_code == type_code, "type", line);
    expect(named(&record.name, owner, length), "owner", line);
}
#define IS(place, ttl, class_code, type_code, owner) \
    is(place, ttl, class_code, type_code, TEXT(owner), __LINE__)

/* An error with its place and the part of its message that fits. */
static void refuses(const char *text, size_t length, uint32_t status, size_t place, const char *why,
                    int line) {
    struct dnstext_zone before = zone;
    struct dnstext_record was;
    size_t rooms[3], i;
    memset(&record, 7, sizeof record);
    was = record;
    rooms[0] = strlen(why), rooms[1] = rooms[0] + 9, rooms[2] = rooms[0] != 0 ? rooms[0] - 1 : 0;
    for (i = 0; i < 3; i++) {
        size_t given = rooms[i] < strlen(why) ? rooms[i] : strlen(why);
        zone = before;
        expect(next(text, length, rooms[i]) == status, "status", line);
        expect(outcome.place == place, "place", line);
        expect(outcome.length == given, "length", line);
        expect(memcmp(octets, why, given) == 0, "text", line);
        expect(octets[given] == '-', "what follows", line);
        expect(memcmp(&record, &was, sizeof was) == 0, "the record stays", line);
    }
}
#define REFUSES(text, status, place, why) refuses(TEXT(text), status, place, why, __LINE__)

static void ends(const char *text, size_t length, int line) {
    int again;
    for (again = 0; again < 2; again++) {
        expect(next(text, length, 9) == DNSTEXT_END, "end", line);
        expect(outcome.length == 0 && outcome.place == 0, "length and place", line);
        expect(octets[0] == '-', "memory", line);
    }
}
#define ENDS(text) ends(TEXT(text), __LINE__)

/* RFC 1035 sections 3.3 and 5.1, RFC 2308 section 4. */
static void records(void) {
    static const char text[] = "$TTL 1h\n"
                               "$ORIGIN test.\n"
                               "a 60 IN A 192.0.2.1\n"
                               "  MX 10 b ; mail\n"
                               "\n"
                               "b.example. CH TXT ( \"x y\"\n"
                               " z )\n";
    begin();
    GIVES(text, "\300\0\2\1");
    IS(22, 60, 1, 1, "\1a\4test\0");
    GIVES(text, "\0\12\1b\4test\0");
    IS(44, 3600, 1, 15, "\1a\4test\0");
    GIVES(text, "\3x y\1z");
    IS(60, 3600, 3, 16, "\1b\7example\0");
    EXPECT(zone.has_default_ttl && zone.default_ttl == 3600);
    EXPECT(zone.has_last_ttl && zone.last_ttl == 60);
    EXPECT(zone.class_code == 1 && zone.at == sizeof text - 1);
    EXPECT(named(&zone.origin, TEXT("\4test\0")));
    ENDS(text);
    begin();
    ENDS("");
    ends(NULL, 0, __LINE__);
    ENDS("\n ; nothing\n");
    /* The minimum of an SOA, RFC 3597 section 5, and a copy of an earlier state. */
    {
        static const char soa[] = "@ SOA . . 1 2 3 4 5\n@ TYPE731 \\# 3 abcd ef\n";
        struct dnstext_zone first;
        begin();
        GIVES(soa, "\0\0\0\0\0\1\0\0\0\2\0\0\0\3\0\0\0\4\0\0\0\5");
        IS(0, 5, 1, 6, "\7example\0");
        first = zone;
        GIVES(soa, "\253\315\357");
        IS(20, 5, 1, 731, "\7example\0");
        zone = first;
        GIVES(soa, "\253\315\357");
        begin();
        GIVES("@ 1 TXT \"\"", "\0");
    }
}

/* Character strings of `left` octets including their lengths, as text and in wire format. */
static size_t strings(size_t left, char *text, char *wire) {
    char *at = text + sprintf(text, "a 1 TXT");
    while (left != 0) {
        size_t count = (left < 256 ? left : 256) - 1;
        *wire = (char)count;
        memset(wire + 1, 'x', count);
        *at++ = ' ';
        *at++ = '"';
        memset(at, 'x', count);
        at += count;
        *at++ = '"';
        wire += 1 + count;
        left -= 1 + count;
    }
    return (size_t)(at - text);
}

/* RDATA of the greatest length that 16 bits allow (RFC 1035 section 3.2.1), and of one octet more: as a
 * record, and both ways alone. */
static void long_data(void) {
    static const char reason[] = "TXT: RDATA exceeds 65535 octets";
    static const size_t lengths[] = {255, 1023, 1024, 1025, 1281, 4096, LONGEST - 1, LONGEST};
    static char spelled[LONGEST + 1024], wire[LONGEST + 1];
    static uint8_t printed[LONGEST + 1024];
    size_t i, length;
    for (i = 0; i < sizeof lengths / sizeof *lengths; i++) {
        begin();
        length = strings(lengths[i], spelled, wire);
        gives(spelled, length, DNSTEXT_OK, wire, lengths[i], __LINE__);
        ends(spelled, length, __LINE__);
        EXPECT(dnstext_data_read(16, (const uint8_t *)spelled + 8, length - 8, NULL, 0, octets, LONGEST,
                                 &outcome) == DNSTEXT_OK);
        EXPECT(outcome.length == lengths[i] && memcmp(octets, wire, lengths[i]) == 0);
        EXPECT(dnstext_data_print(16, (const uint8_t *)wire, lengths[i], printed, sizeof printed, &outcome) ==
               DNSTEXT_OK);
        EXPECT(outcome.length == length - 8 && memcmp(printed, spelled + 8, length - 8) == 0);
    }
    begin();
    length = strings(LONGEST + 1, spelled, wire);
    EXPECT(next(spelled, length, LONGEST) == DNSTEXT_BAD_DATA);
    EXPECT(outcome.length < 255 && octets[outcome.length] == '-' && zone.at == length);
    EXPECT(outcome.length == sizeof reason - 1 && memcmp(octets, reason, outcome.length) == 0);
    EXPECT(dnstext_data_read(16, (const uint8_t *)spelled + 8, length - 8, NULL, 0, octets, LONGEST,
                             &outcome) == DNSTEXT_BAD_DATA);
    EXPECT(outcome.length == sizeof reason - 1 && memcmp(octets, reason, outcome.length) == 0);
    ends(spelled, length, __LINE__);
}

static void files(void) {
    static const char text[] = "$INCLUDE \"a file\"\n$INCLUDE b sub\nw 5 A 192.0.2.1";
    begin();
    gives(TEXT(text), DNSTEXT_INCLUDE, TEXT("a file"), __LINE__);
    is(0, 0, 0, 0, "", 0, __LINE__);
    gives(TEXT(text), DNSTEXT_INCLUDE, TEXT("b"), __LINE__);
    IS(18, 0, 0, 0, "\3sub\7example\0");
    GIVES(text, "\300\0\2\1");
    ENDS(text);
}

/* The name of a file with its origin has at most as many octets as RDATA. */
static void long_files(void) {
    static const char reason[] = "file name exceeds 65535 octets";
    static char spelled[LONGEST + 64] = "$INCLUDE ";
    memset(spelled + 9, 'f', LONGEST + 1);
    begin();
    EXPECT(next(spelled, 9 + LONGEST, LONGEST) == DNSTEXT_INCLUDE && outcome.length == LONGEST);
    begin();
    EXPECT(next(spelled, 9 + LONGEST + 1, LONGEST) == DNSTEXT_BAD_HEAD && outcome.place == 9);
    EXPECT(outcome.length == sizeof reason - 1 && memcmp(octets, reason, outcome.length) == 0);
    ends(spelled, 9 + LONGEST + 1, __LINE__);
}

/* The entry of a number, with a buffer of the exact size; and that it doesn't fit a smaller one. */
static void generates(const char *text, uint64_t index, uint32_t number, const char *entry, int line) {
    size_t length = strlen(entry), room;
    uint32_t of = 7;
    for (room = length - 1; room <= length; room++) {
        uint32_t status;
        memset(octets, '-', sizeof octets);
        status =
            dnstext_generate_entry((const uint8_t *)text, strlen(text), index, &of, octets, room, &outcome);
        expect(status == (room < length ? DNSTEXT_NO_ROOM : DNSTEXT_OK), "status", line);
        expect(outcome.length == length && outcome.place == 0, "length and place", line);
        expect(of == (room < length ? 7 : number), "number", line);
        expect(room < length || memcmp(octets, entry, length) == 0, "text", line);
        expect(octets[room < length ? 0 : length] == '-', "what follows", line);
    }
}
#define GENERATES(text, index, number, entry) generates(text, index, number, entry, __LINE__)

/* Why a directive is rejected, and the place. */
static void rejects(const char *text, size_t place, const char *why, int line) {
    uint32_t of = 7, status;
    size_t room;
    for (room = 0; room < 99; room += 9) {
        size_t given = strlen(why) < room ? strlen(why) : room;
        memset(octets, '-', sizeof octets);
        status = dnstext_generate_entry((const uint8_t *)text, strlen(text), 0, &of, octets, room, &outcome);
        expect(status == DNSTEXT_BAD_GENERATE && of == 7, "status and number", line);
        expect(outcome.place == place && outcome.length == given, "place and length", line);
        expect(memcmp(octets, why, given) == 0 && octets[given] == '-', "text", line);
    }
}
#define REJECTS(text, place, why) rejects(text, place, why, __LINE__)

/* $GENERATE: an entry of its own, and the texts of its entries. */
static void directives(void) {
    static const char text[] = "w 60 A 192.0.2.1\n$GENERATE 1-2 h$ 77 A 192.0.2.$ ; two\n TXT x\n";
    static const char wide[] = "$GENERATE 0-0 a TXT \"${0,127}${0,127}\"";
    static char long_text[LONGEST + 100];
    struct dnstext_zone inner;
    uint32_t of;
    size_t i;
    begin();
    GIVES(text, "\300\0\2\1");
    gives(TEXT(text), DNSTEXT_GENERATE, "", 0, __LINE__);
    is(17, 0, 0, 0, "", 0, __LINE__);
    EXPECT(zone.at == 55);
    inner = zone;
    inner.at = 0;
    EXPECT(dnstext_generate_entry((const uint8_t *)text + record.place, zone.at - record.place, 1, &of,
                                  octets, sizeof octets, &outcome) == DNSTEXT_OK);
    EXPECT(of == 2 && outcome.length == 18 && memcmp(octets, "h2 77 A 192.0.2.2\n", 18) == 0);
    EXPECT(dnstext_generate_entry((const uint8_t *)text + record.place, zone.at - record.place, 2, &of,
                                  octets, sizeof octets, &outcome) == DNSTEXT_END);
    EXPECT(of == 2 && outcome.length == 0 && outcome.place == 0);
    {
        struct dnstext_zone outer = zone;
        zone = inner;
        GIVES("h2 77 A 192.0.2.2\n", "\300\0\2\2");
        IS(0, 77, 1, 1, "\2h2\7example\0");
        outer.has_last_ttl = zone.has_last_ttl;
        outer.last_ttl = zone.last_ttl;
        zone = outer;
    }
    /* The owner is that before the directive, and the TTL that of its entries. */
    GIVES(text, "\1x");
    IS(56, 77, 1, 16, "\1w\7example\0");
    ENDS(text);
    GENERATES("$GENERATE 0-9/3 s$ A 192.0.2.$", 3, 9, "s9 A 192.0.2.9\n");
    GENERATES("$generate 1-1 m$ MX \"10 m$\"\n", 0, 1, "m1 MX 10 m1\n");
    GENERATES("$GENERATE 1-1 n${4659,7,N}.rev PTR ${0,3}n", 0, 1, "n4.3.2.1.rev PTR 001n\n");
    GENERATES("$GENERATE 2147483647-2147483647 $ 1 IN TXT x", 0, 2147483647, "2147483647 1 IN TXT x\n");
    REJECTS("$GENERATE 3-1 a A 192.0.2.1", 10, "start of the range exceeds its stop");
    REJECTS("$GENERATE 1-2/0 a A 192.0.2.1", 10, "step of the range is 0");
    REJECTS("$GENERATE 1-2 a${1,2,z} A 192.0.2.1", 14, "base in braces is not d, o, x, X, n or N");
    REJECTS("$GENERATE 1-2 a (A 192.0.2.1)", 16, "parenthesis in $GENERATE");
    REJECTS("$GENERATE 1-2 \"a\" A 192.0.2.1", 14, "expected word without quotes");
    REJECTS("$GENERATE 1-2 a MX 10 m", 22, "RDATA of several tokens: quote them as one");
    REJECTS("$GENERATE 1-2 a A", 17, "range, owner, type or RDATA is missing");
    REJECTS("a A 192.0.2.1", 0, "expected $GENERATE");
    REJECTS("", 0, "expected $GENERATE");
    REJECTS("$GENERATE 1-2 a TXT \"b", 22, "quoted text is not closed");
    /* The longest text of an entry, and one octet more. */
    for (i = 0; i < 2; i++) {
        size_t length = (size_t)sprintf(long_text, "$GENERATE 1-1 a TXT ");
        memset(long_text + length, 'x', LONGEST - 7 + i);
        length += LONGEST - 7 + i;
        EXPECT(dnstext_generate_entry((const uint8_t *)long_text, length, 0, &of, octets, sizeof octets,
                                      &outcome) == (i == 0 ? DNSTEXT_OK : DNSTEXT_TOO_LONG));
        EXPECT(outcome.length == (i == 0 ? LONGEST : 0) && outcome.place == 0);
    }
    EXPECT(dnstext_generate_entry(TEXT_OCTETS(wide), 0, &of, octets, sizeof octets, &outcome) == DNSTEXT_OK);
    EXPECT(outcome.length == 6 + 254 + 1);
}

/* A TTL of 2^31 or more is 0, also for the records after it (RFC 2181 section 8). */
static void long_ttls(void) {
    static const char text[] = "$TTL 2147483648\n"
                               "a A 192.0.2.1\n"
                               "b 4294967295 A 192.0.2.2\n";
    static const char minimum[] = "@ SOA . . 1 2 3 4 4294967295\n"
                                  "a A 192.0.2.1\n";
    begin();
    GIVES(text, "\300\0\2\1");
    IS(16, 0, 1, 1, "\1a\7example\0");
    EXPECT(zone.has_default_ttl && zone.default_ttl == 0);
    GIVES(text, "\300\0\2\2");
    IS(30, 0, 1, 1, "\1b\7example\0");
    EXPECT(zone.has_last_ttl && zone.last_ttl == 0);
    ENDS(text);
    begin();
    GIVES(minimum, "\0\0\0\0\0\1\0\0\0\2\0\0\0\3\0\0\0\4\377\377\377\377");
    IS(0, 0, 1, 6, "\7example\0");
    EXPECT(zone.has_default_ttl && zone.default_ttl == 0);
    GIVES(minimum, "\300\0\2\1");
    IS(29, 0, 1, 1, "\1a\7example\0");
    ENDS(minimum);
    begin();
    REFUSES("a 4294967296 A 192.0.2.1", DNSTEXT_BAD_HEAD, 2, "expected TTL");
    begin();
    zone.has_default_ttl = true;
    zone.default_ttl = UINT32_C(2147483648);
    GIVES("a A 192.0.2.1", "\300\0\2\1");
    IS(0, 0, 1, 1, "\1a\7example\0");
    EXPECT(zone.has_default_ttl && zone.default_ttl == UINT32_C(2147483648));
    begin();
    zone.has_default_ttl = true;
    zone.default_ttl = 2147483647;
    GIVES("a A 192.0.2.1", "\300\0\2\1");
    IS(0, 2147483647, 1, 1, "\1a\7example\0");
    begin();
    zone.has_last_ttl = true;
    zone.last_ttl = UINT32_MAX;
    GIVES("( a A\n 192.0.2.1 )", "\300\0\2\1");
    IS(2, 0, 1, 1, "\1a\7example\0");
}

static bool is_one(const bool *flag) {
    return *(const uint8_t *)flag == 1;
}

/* A flag may have any octet, and is written as 0 or 1. */
static void flags(void) {
    begin();
    memset(&zone.has_default_ttl, 255, 1);
    memset(&zone.has_last_ttl, 2, 1);
    zone.default_ttl = 60;
    GIVES("a A 192.0.2.1", "\300\0\2\1");
    IS(0, 60, 1, 1, "\1a\7example\0");
    EXPECT(is_one(&zone.has_default_ttl) && is_one(&zone.has_last_ttl));
}

/* An origin or an owner that is rejected has no octets. */
static void rejected_names(void) {
    begin();
    REFUSES("$ORIGIN test.\n$ORIGIN a..b\n", DNSTEXT_BAD_NAME, 22, "empty label");
    EXPECT(is_one(&zone.origin.is_refused) && zone.origin.length == 0);
    begin();
    GIVES("c 1 A 192.0.2.1\nc..d 1 A 192.0.2.1\n", "\300\0\2\1");
    EXPECT(named(&zone.owner, "\1c\7example\0", 11));
    REFUSES("c 1 A 192.0.2.1\nc..d 1 A 192.0.2.1\n", DNSTEXT_BAD_NAME, 16, "empty label");
    EXPECT(is_one(&zone.owner.is_refused) && zone.owner.length == 0);
}

static void refusals(void) {
    static const char text[] = "a 1 MX 65536 m\n"
                               "b 1 A 192.0.2.1\n";
    begin();
    REFUSES(text, DNSTEXT_BAD_DATA, 7, "MX: preference: decimal number overflow");
    GIVES(text, "\300\0\2\1");
    ENDS(text);
    begin();
    REFUSES("  1 A 192.0.2.1", DNSTEXT_NO_OWNER, 2, "no owner");
    begin();
    REFUSES("a A 192.0.2.1", DNSTEXT_NO_TTL, 0, "no TTL");
    begin();
    REFUSES("a..b 1 A 192.0.2.1\n 1 A 192.0.2.1", DNSTEXT_BAD_NAME, 0, "empty label");
    REFUSES("a..b 1 A 192.0.2.1\n 1 A 192.0.2.1", DNSTEXT_REFUSED_OWNER, 20, "the owner before is refused");
    begin();
    REFUSES("\"a\" 1 A 192.0.2.1", DNSTEXT_BAD_NAME, 0, "expected word without quotes");
    begin();
    REFUSES("$ORIGIN \"a\"", DNSTEXT_BAD_NAME, 8, "expected word without quotes");
    begin();
    REFUSES("$TTL \"60\"", DNSTEXT_BAD_HEAD, 5, "expected word without quotes");
    begin();
    REFUSES("a 1 \"A\" 192.0.2.1", DNSTEXT_BAD_HEAD, 4, "expected word without quotes");
    begin();
    REFUSES("a 1 MX 10 \"m\"", DNSTEXT_BAD_DATA, 10, "MX: exchange: expected word without quotes");
    begin();
    REFUSES("$NOSUCH", DNSTEXT_BAD_HEAD, 0, "unknown directive");
    begin();
    zone.origin.length = 0;
    REFUSES("a 1 A 192.0.2.1", DNSTEXT_NO_ORIGIN, 0, "relative name, and no origin");
    begin();
    zone.origin.length = 0;
    REFUSES("a. 1 NS b", DNSTEXT_NO_ORIGIN, 8, "NS: name server: relative name, and no origin");
    begin();
    REFUSES("a 1 A 192.0.2.1 (", DNSTEXT_OPEN_PARENTHESIS, 17, "");
    begin();
    REFUSES("a 1 TXT \"b\nc 1 A 192.0.2.1", DNSTEXT_OPEN_QUOTE, 10, "");
    GIVES("a 1 TXT \"b\nc 1 A 192.0.2.1", "\300\0\2\1");
    begin();
    REFUSES(")", DNSTEXT_CLOSING, 0, "");
    begin();
    REFUSES("a\r", DNSTEXT_LONE_RETURN, 2, "");
    begin();
    REFUSES("a\\25", DNSTEXT_BAD_ESCAPE, 4, "");
}

static void origins(void) {
    struct dnstext_zone before;
    begin();
    before = zone;
    EXPECT(dnstext_zone_origin(&zone, (const uint8_t *)"\1a", 2, &outcome) == DNSTEXT_RELATIVE_NAME);
    EXPECT(dnstext_zone_origin(&zone, (const uint8_t *)"\2a", 2, &outcome) == DNSTEXT_SHORT_INPUT);
    EXPECT(dnstext_zone_origin(&zone, (const uint8_t *)"\1a\0", 4, &outcome) == DNSTEXT_TRAILING_OCTETS);
    EXPECT(dnstext_zone_origin(&zone, (const uint8_t *)"\300\0", 2, &outcome) == DNSTEXT_POINTER);
    EXPECT(dnstext_zone_origin(&zone, (const uint8_t *)"\200", 2, &outcome) == DNSTEXT_BAD_LABEL);
    EXPECT(dnstext_zone_origin(&zone, octets, 256, &outcome) == DNSTEXT_TOO_LONG);
    EXPECT(memcmp(&zone, &before, sizeof zone) == 0);
    EXPECT(dnstext_zone_origin(&zone, (const uint8_t *)"", 1, &outcome) == DNSTEXT_OK);
    EXPECT(named(&zone.origin, "", 1) && outcome.length == 0 && outcome.place == 0);
    EXPECT(dnstext_zone_origin(&zone, NULL, 0, &outcome) == DNSTEXT_OK);
    EXPECT(named(&zone.origin, "", 0) && outcome.length == 0 && outcome.place == 0);
    REFUSES("a 1 A 192.0.2.1", DNSTEXT_NO_ORIGIN, 0, "relative name, and no origin");
}

static void no_zone(int line) {
    struct dnstext_zone before = zone;
    refuses(TEXT("a 1 A 192.0.2.1"), DNSTEXT_BAD_CURSOR, 0, "", line);
    expect(memcmp(&zone, &before, sizeof zone) == 0, "the zone stays", line);
}

static void zones_that_no_call_left(void) {
    unsigned octet;
    begin();
    zone.at = 16;
    no_zone(__LINE__);
    zone.at = SIZE_MAX;
    no_zone(__LINE__);
    begin();
    zone.origin.length = 256;
    no_zone(__LINE__);
    zone.origin.length = SIZE_MAX;
    no_zone(__LINE__);
    zone.origin.length = 8;
    no_zone(__LINE__);
    begin();
    zone.owner.length = 255;
    zone.owner.octets[0] = 64;
    no_zone(__LINE__);
    for (octet = 0; octet < 256; octet++) {
        uint32_t status;
        memset(&zone, (int)octet, sizeof zone);
        zone.at = 0;
        status = next(TEXT("a.example. 1 A 192.0.2.1"), 9);
        EXPECT(status == DNSTEXT_OK || status == DNSTEXT_BAD_CURSOR);
    }
}

/* Each prefix of a text is parsed to its end. */
static void cut_texts(void) {
    static const char text[] = "$TTL 1\n$ORIGIN a.\n@ SOA @ \\@ 1 2 3 4 (5)\n  TXT \"b\\\"\\008\" ;\r\n"
                               "x NSEC @ A TYPE731\ny LOC 1 N 2 E 3m\nz HTTPS 1 . alpn=h2,h3\n$INCLUDE y\n";
    size_t length;
    for (length = 0; length < sizeof text; length++) {
        unsigned calls = 0;
        begin();
        while (next(text, length, 99) != DNSTEXT_END)
            EXPECT(++calls <= 8 && zone.at <= length);
    }
}

static uint8_t text[MOST];

/* The next entry of a row. Sets `note` if a smaller buffer suffices, or changes the zone or the record: each
 * size is tried, or of large ones 256. */
static uint32_t next_of_row(size_t length, const char **note) {
    struct dnstext_zone before = zone;
    struct dnstext_record was = record;
    uint32_t status = next((char *)text, length, LONGEST);
    size_t needed = status == DNSTEXT_OK || status == DNSTEXT_INCLUDE ? outcome.length : 0, room;
    for (room = 0; room < needed; room += 1 + needed / 256) {
        struct dnstext_zone tried = before;
        struct dnstext_record given = was;
        struct dnstext_outcome lacks;
        uint8_t *output = (uint8_t *)malloc(room != 0 ? room : 1);
        if (dnstext_record_next(text, length, &tried, &given, output, room, &lacks) != DNSTEXT_NO_ROOM ||
            lacks.length != needed || memcmp(&tried, &before, sizeof tried) != 0 ||
            memcmp(&given, &was, sizeof given) != 0)
            *note = "a smaller buffer suffices, or changes something";
        free(output);
    }
    return status;
}

/* A row of `data`: a type, a text, and the RDATA or an error. */
static void data_row(void) {
    const char *note = NULL;
    size_t length = (size_t)sprintf((char *)text, "a 1 %s ", row_fields[1]);
    uint32_t status;
    length += spell_octets(row_fields[2], text + length);
    begin();
    status = next_of_row(length, &note);
    if (status != DNSTEXT_OK && status != DNSTEXT_END)
        refuse();
    else
        add_octets(octets, outcome.length);
    judge_row(status == DNSTEXT_END ? "no record" : note);
}

/* Removes from an expected result what the library does not report: `$ORIGIN`, `$TTL`, and the source of
 * TTLs. */
static void leave_out(char *wanted) {
    static const struct {
        const char *text;
        size_t kept; /* number of its characters that are kept */
    } removed[] = {{"directive;", 0}, {"|own ", 1}, {"|default ", 1}, {"|last ", 1}, {"|minimum ", 1}};
    size_t i;
    for (i = 0; i < sizeof removed / sizeof *removed; i++) {
        char *at = wanted;
        while ((at = strstr(at, removed[i].text)) != NULL) {
            char *rest = at + strlen(removed[i].text);
            memmove(at + removed[i].kept, rest, strlen(rest) + 1);
        }
    }
}

static const char *fault_of(uint32_t status) {
    switch (status) {
    case DNSTEXT_CLOSING: return "closing";
    case DNSTEXT_OPEN_PARENTHESIS: return "open parenthesis";
    case DNSTEXT_OPEN_QUOTE: return "open quote";
    case DNSTEXT_LONE_RETURN: return "lone return";
    case DNSTEXT_BAD_ESCAPE: return "bad escape";
    default: return "";
    }
}

static void add_barred(size_t number) {
    add_number(number);
    add_text("|");
}

/* A record, a file to include, or an error. */
static void add_given(uint32_t status) {
    if (status == DNSTEXT_OK) {
        add_barred(record.place);
        add_octets(record.name.octets, record.name.length);
        add_text("|");
        add_barred(record.ttl);
        add_barred(record.class_code);
        add_barred(record.type_code);
        add_octets(octets, outcome.length);
    } else if (status == DNSTEXT_GENERATE) {
        add_text("generate ");
        add_number(record.place);
    } else if (status == DNSTEXT_INCLUDE) {
        add_text("include ");
        add_octets(octets, outcome.length);
        add_text(record.name.length != 0 ? " " : "");
        add_octets(record.name.octets, record.name.length);
    } else {
        add_text("!");
        add_text(fault_of(status));
        add_octets(octets, outcome.length);
        add_text("|");
        add_number(outcome.place);
    }
    add_text(";");
}

/* A row of a zone file and perhaps an origin, with the entries. */
static void zone_row(void) {
    static const struct dnstext_zone start = DNSTEXT_ZONE_INIT;
    static uint8_t made[256];
    const char *note = NULL;
    char *wanted = row_fields[row_count - 1];
    size_t length = spell_octets(row_fields[1], text);
    uint32_t status;
    zone = start;
    if (row_count == 4 &&
        dnstext_zone_origin(&zone, made, spell_octets(row_fields[2], made), &outcome) != DNSTEXT_OK)
        note = "the origin is refused";
    while ((status = next_of_row(length, &note)) != DNSTEXT_END)
        add_given(status);
    leave_out(wanted);
    /* The first entry can be an error. */
    if (*wanted == '!' && came_len != 0 && came[0] == '!') {
        memmove(came, came + 1, --came_len);
        is_refused = has_reason = true;
    }
    judge_row(note);
}

/* A row of `head.read` about `$GENERATE`. Returns false for other rows. */
static bool directive_row(void) {
    static const struct dnstext_zone start = DNSTEXT_ZONE_INIT;
    size_t length = spell_octets(row_fields[1], text);
    if (strcmp(row_fields[0], "head.read") != 0 || strcmp(row_fields[2], "generate") != 0)
        return false;
    zone = start;
    add_text(next((char *)text, length, LONGEST) == DNSTEXT_GENERATE ? "generate" : "another status");
    judge_row(outcome.length != 0 ? "a length" : NULL);
    return true;
}

/* A row of `generate.texts`: a directive, and the texts of its entries; or the error, the place of its token and
 * the offset in that, which the library doesn't return. Returns false if that isn't 0, or for the error of a
 * range with too many numbers, which the library hasn't. */
static bool texts_row(void) {
    const char *wanted = row_fields[2];
    size_t length = spell_octets(row_fields[1], text);
    uint64_t index;
    uint32_t number, status = DNSTEXT_OK;
    if (strcmp(row_fields[0], "generate.texts") != 0 || strstr(wanted, "too many numbers") != NULL ||
        (*wanted == '!' && strcmp(strrchr(wanted, '|'), "|0") != 0))
        return false;
    for (index = 0; status == DNSTEXT_OK && index < 2000; index++) {
        status = dnstext_generate_entry(text, length, index, &number, octets, sizeof octets, &outcome);
        if (status == DNSTEXT_OK) {
            add_octets(octets, outcome.length);
        } else if (status != DNSTEXT_END) {
            refuse_for("");
            add_octets(octets, outcome.length);
            add_text("|");
            add_number(outcome.place);
            add_text("|0");
        }
    }
    judge_row(NULL);
    return true;
}

/* Returns whether the library can answer a call about zones. */
static bool lists_entries(const char *call) {
    return strcmp(call, "zone.entries") == 0 || strcmp(call, "zone.records") == 0 ||
           strcmp(call, "zone.pieces") == 0 || strcmp(call, "zone.blocks") == 0;
}

static void rows(void) {
    unsigned long rows_of_data = 0, rows_of_zones = 0;
    while (next_row()) {
        begin_answer();
        if (row_count == 4 && strcmp(row_fields[0], "data") == 0) {
            data_row();
            rows_of_data++;
        } else if ((row_count == 3 || row_count == 4) && lists_entries(row_fields[0])) {
            zone_row();
            rows_of_zones++;
        } else if (row_count == 3 && (directive_row() || texts_row())) {
            rows_of_zones++;
        }
    }
    fprintf(lists_rows ? stderr : stdout, "zones: %lu rows of data, %lu of zones, %lu differ\n", rows_of_data,
            rows_of_zones, rows_differ);
    EXPECT(rows_of_data + rows_of_zones > 0);
}

int main(int count, char **words) {
    read_words(count, words);
    records();
    long_data();
    files();
    long_files();
    directives();
    long_ttls();
    flags();
    rejected_names();
    refusals();
    origins();
    zones_that_no_call_left();
    cut_texts();
    rows();
    return failures != 0 || rows_differ != 0;
}
