/* The stack that a call uses: at most 16 KB, also if it reports an error; but up to 80 KB for RDATA of
 * more than 1,024 octets. */
#define _XOPEN_SOURCE 600
#define TESTS "tests/stack.c"
#include "expect.h"
#include <pthread.h>

enum { STACK = 1 << 18, MOST = 16 * 1024, MOST_LONG = 80 * 1024, LONG = 1200, LONGEST = 65535, PAINT = 0xA5 };

/* The text of RDATA of a type; or of an entry, if the type is 0; and the status of parsing it. */
struct row {
    uint16_t type;
    uint32_t status;
    const char *text;
};

static const struct row ROWS[] = {
    {0, DNSTEXT_OK, "a. 60 IN A 192.0.2.1\n"},
    {0, DNSTEXT_OK, "a. 60 IN SVCB ( 1 .\n alpn=h2 )\n"},
    {0, DNSTEXT_OK, "$TTL 60\n$ORIGIN example.\n@ SOA ns admin ( 1 2 3\n 4 5 )\n"},
    {0, DNSTEXT_OK, "( a. 60 IN TXT x )\n"},
    {0, DNSTEXT_END, "; a comment\n"},
    {0, DNSTEXT_INCLUDE, "$INCLUDE file example.\n"},
    {0, DNSTEXT_GENERATE, "$GENERATE 1-2 h$ A 192.0.2.$\n"},
    {0, DNSTEXT_BAD_DATA, "a. 60 IN A 192.0.2\n"},
    {0, DNSTEXT_BAD_DATA, "a. 60 IN SVCB 1 . alpn=h2 alpn=h3\n"},
    {0, DNSTEXT_BAD_DATA, "a. 60 IN NSEC b. A NOSUCH\n"},
    {0, DNSTEXT_BAD_HEAD, "a. 60 IN NOSUCH x\n"},
    {0, DNSTEXT_BAD_HEAD, "$INCLUDE\n"},
    {0, DNSTEXT_NO_OWNER, " 60 IN A 192.0.2.1\n"},
    {0, DNSTEXT_NO_ORIGIN, "a 60 IN A 192.0.2.1\n"},
    {0, DNSTEXT_NO_TTL, "a. IN A 192.0.2.1\n"},
    {0, DNSTEXT_OPEN_QUOTE, "\"a"},
    {0, DNSTEXT_OPEN_QUOTE, "a. 60 IN TXT \"x\n"},
    {0, DNSTEXT_OPEN_QUOTE, "a. 60 IN SVCB 1 . alpn=\"h2\n"},
    {0, DNSTEXT_OPEN_QUOTE, "$INCLUDE \"file\n"},
    {0, DNSTEXT_BAD_ESCAPE, "a. 60 IN TXT \\25x\n"},
    {0, DNSTEXT_BAD_ESCAPE, "$ORIGIN \\256.\n"},
    {0, DNSTEXT_LONE_RETURN, "a. 60 IN TXT x\ry\n"},
    {0, DNSTEXT_CLOSING, "a. 60 IN A 192.0.2.1 )\n"},
    {0, DNSTEXT_CLOSING, "a. 60 IN NOSUCH x )\n"},
    {0, DNSTEXT_CLOSING, "60 IN A 192.0.2.1 )\n"},
    {0, DNSTEXT_OPEN_PARENTHESIS, "a. 60 IN A ( 192.0.2.1\n"},
    {0, DNSTEXT_OPEN_PARENTHESIS, "a. 60 IN SOA ( ns. admin. 1 2 3 4 5\n"},
    {0, DNSTEXT_OPEN_PARENTHESIS, "a. 60 IN SVCB ( 1 . alpn=h2 ipv6hint=2001:db8::1\n"},
    {0, DNSTEXT_OPEN_PARENTHESIS, "a. 60 IN SVCB ( 1 . no-default-alpn alpn=h2\n"},
    {0, DNSTEXT_OPEN_PARENTHESIS, "a. 60 IN LOC ( 42 21 54 N 71 06 18 W -24m\n"},
    {1, DNSTEXT_OK, "192.0.2.1"},
    {64, DNSTEXT_OK, "1 . no-default-alpn alpn=h2"},
    {1, DNSTEXT_BAD_DATA, "192.0.2"},
    {1, DNSTEXT_OPEN_PARENTHESIS, "( 192.0.2.1"},
    {1, DNSTEXT_CLOSING, ")"},
    {16, DNSTEXT_OPEN_QUOTE, "\"x"},
    {64, DNSTEXT_CLOSING, "1 . alpn=h2 )"},
};

static uint8_t *stack;
static struct row row;
static uint32_t status;

static void *nothing(void *unused) {
    return unused;
}

static void *parse(void *unused) {
    static struct dnstext_record found;
    static uint8_t octets[1024];
    static const struct dnstext_zone start = DNSTEXT_ZONE_INIT;
    static struct dnstext_zone zone;
    static struct dnstext_outcome outcome;
    const uint8_t *text = (const uint8_t *)row.text;
    size_t length = strlen(row.text);
    zone = start;
    if (row.type == 0)
        status = dnstext_record_next(text, length, &zone, &found, octets, sizeof octets, &outcome);
    else
        status = dnstext_data_read(row.type, text, length, NULL, 0, octets, sizeof octets, &outcome);
    return unused;
}

/* The octets of its stack that a thread writes. */
static size_t written(void *(*body)(void *)) {
    pthread_attr_t attributes;
    pthread_t thread;
    size_t left = 0;
    memset(stack, PAINT, STACK);
    if (pthread_attr_init(&attributes) != 0 || pthread_attr_setstack(&attributes, stack, STACK) != 0 ||
        pthread_create(&thread, &attributes, body, NULL) != 0 || pthread_join(thread, NULL) != 0)
        return STACK;
    while (left < STACK && stack[left] == PAINT)
        left++;
    return STACK - left;
}

static size_t least;
static int is_shown;

/* Parses the row, with the expected status and at most this many octets of stack. */
static void check(size_t most) {
    size_t used = written(parse) - least;
    if (is_shown)
        printf("%6zu octets, status %2u: %.60s\n", used, (unsigned)status, row.text);
    if (status == row.status && used <= most)
        return;
    fprintf(stderr, "%s: status %u, %zu octets of stack: %.60s\n", TESTS, (unsigned)status, used, row.text);
    failures++;
}

/* Parses a record with service parameters out of order. */
static void check_unsorted(const char *text) {
    row.type = 0;
    row.status = DNSTEXT_OK;
    row.text = text;
    check(MOST);
}

/* Parses RDATA of more than 1,024 octets. */
static void check_long(const char *before, const char *after, uint32_t expected) {
    static char text[2 * LONG + 100];
    size_t length = strlen(before);
    memcpy(text, before, length);
    memset(text + length, '0', 2 * LONG);
    strcpy(text + length + 2 * LONG, after);
    row.type = 0;
    row.status = expected;
    row.text = text;
    check(MOST_LONG);
}

/* ---- the other calls */

static uint8_t data[LONGEST], printed[1 << 20];
static size_t data_len;
static struct dnstext_record record;
static struct dnstext_outcome outcome;
static uint32_t (*other)(void);

static void *call_other(void *unused) {
    status = other();
    return unused;
}

static uint32_t print_record(void) {
    return dnstext_record_print(&record, data, data_len, printed, sizeof printed, &outcome);
}

static uint32_t print_data(void) {
    return dnstext_data_print(record.type_code, data, data_len, printed, sizeof printed, &outcome);
}

static uint32_t make_canonical(void) {
    return dnstext_data_canonical(record.type_code, data, data_len, printed, sizeof printed, &outcome);
}

static uint32_t make_text_data(void) {
    return dnstext_text_data(data, data_len < 65279 ? data_len : 65279, printed, sizeof printed, &outcome);
}

static uint32_t print_name(void) {
    return dnstext_name_print_zone(record.name.octets, record.name.length, printed, sizeof printed, &outcome);
}

static uint32_t read_name(void) {
    return dnstext_name_read_octets((const uint8_t *)"a\\.b", 4, record.name.octets, record.name.length,
                                    printed, sizeof printed, &outcome);
}

static uint32_t lower_name(void) {
    return dnstext_name_canonical(record.name.octets, record.name.length, printed, sizeof printed, &outcome);
}

static uint32_t compare_names(void) {
    int32_t order;
    return dnstext_name_compare(record.name.octets, record.name.length, record.name.octets,
                                record.name.length, &order, &outcome);
}

static uint32_t is_below(void) {
    bool does;
    return dnstext_name_ends_with(record.name.octets, record.name.length, record.name.octets,
                                  record.name.length, &does, &outcome);
}

static uint32_t find_entries(void) {
    size_t whole;
    return dnstext_entries_len((const uint8_t *)"a (\n) b\nc", 9, &whole);
}

static uint32_t generate(void) {
    static const char text[] = "$GENERATE 1-9/3 h${-1,5,x} 60 CNAME \"a$.example.\"";
    uint32_t number;
    return dnstext_generate_entry((const uint8_t *)text, sizeof text - 1, 1, &number, printed, sizeof printed,
                                  &outcome);
}

/* Makes each other call, of the RDATA in `data`. */
static void check_others(size_t most) {
    static const struct {
        const char *name;
        uint32_t (*call)(void);
    } calls[] = {
        {"dnstext_record_print", print_record},     {"dnstext_data_print", print_data},
        {"dnstext_data_canonical", make_canonical}, {"dnstext_text_data", make_text_data},
        {"dnstext_name_print_zone", print_name},    {"dnstext_name_read_octets", read_name},
        {"dnstext_name_canonical", lower_name},     {"dnstext_name_compare", compare_names},
        {"dnstext_name_ends_with", is_below},       {"dnstext_entries_len", find_entries},
        {"dnstext_generate_entry", generate},
    };
    size_t i, used;
    for (i = 0; i < sizeof calls / sizeof *calls; i++) {
        other = calls[i].call;
        used = written(call_other) - least;
        if (is_shown)
            printf("%6zu octets, status %2u: %s, type %u\n", used, (unsigned)status, calls[i].name,
                   (unsigned)record.type_code);
        if (status == DNSTEXT_OK && used <= most)
            continue;
        fprintf(stderr, "%s: status %u, %zu octets of stack: %s, type %u\n", TESTS, (unsigned)status, used,
                calls[i].name, (unsigned)record.type_code);
        failures++;
    }
}

/* The other calls, of a record; and then of the longest RDATA. */
static void check_record(const char *text) {
    struct dnstext_zone zone = DNSTEXT_ZONE_INIT;
    status =
        dnstext_record_next((const uint8_t *)text, strlen(text), &zone, &record, data, sizeof data, &outcome);
    data_len = outcome.length;
    if (status != DNSTEXT_OK) {
        fprintf(stderr, "%s: status %u: %s\n", TESTS, (unsigned)status, text);
        failures++;
        return;
    }
    check_others(MOST);
}

int main(int count, char **arguments) {
    size_t at;
    void *memory;
    (void)arguments;
    if (posix_memalign(&memory, 4096, STACK) != 0)
        return 1;
    stack = (uint8_t *)memory;
    is_shown = count > 1;
    row = ROWS[0];
    written(parse); /* the first call finds the symbols of the C library */
    least = written(nothing);
    for (at = 0; at < sizeof ROWS / sizeof *ROWS; at++) {
        row = ROWS[at];
        check(MOST);
    }
    check_unsorted("a. 60 IN SVCB 1 . no-default-alpn alpn=h2\n");
    check_unsorted("a. 60 IN SVCB ( 1 .\n no-default-alpn alpn=h2 )\n");
    check_long("a. 60 IN TYPE65280 \\# 1200 ", "\n", DNSTEXT_NO_ROOM);
    check_long("a. 60 IN TYPE65280 \\# 1200 ", " )\n", DNSTEXT_CLOSING);
    check_record("a. 60 IN A 192.0.2.1\n");
    check_record("a. 60 IN SVCB 1 . mandatory=alpn alpn=\"h2,h3\" port=1 ipv6hint=2001:db8::1 key65000=x\n");
    check_record("a. 60 IN NSEC b. A MX RRSIG NSEC TYPE65280\n");
    check_record("a. 60 IN LOC 42 21 54 N 71 06 18 W -24m 30m\n");
    check_record("a. 60 IN HIP 2 200100107B1A74DF365639CC39F1D578 AwEAAbdx s. r.\n");
    record.type_code = 65280;
    data_len = sizeof data;
    check_others(MOST_LONG);
    free(stack);
    return failures != 0;
}
