/* Makes every call with inputs and outputs that end, or begin, at a page without access: an access outside them
 * ends this program, which then names the call. Outputs have from 0 to 65,535 octets, and states are also of
 * random octets. Inputs are the fields of rows on standard input (crates/test_support), such fields changed and
 * joined, and random octets:
 *     guards SECONDS SEED < ROWS */
#define _DEFAULT_SOURCE
#include <dnstext.h>
#include <signal.h>
#include <stdio.h>
#include <stdlib.h>
#include <string.h>
#include <sys/mman.h>
#include <time.h>
#include <unistd.h>

enum { PAGE = 4096, SIZE = 20 * PAGE, STATUSES = DNSTEXT_BAD_GENERATE + 1 };

static uint32_t seed;

static uint32_t chance(uint32_t below) {
    seed ^= seed << 13;
    seed ^= seed >> 17;
    seed ^= seed << 5;
    return seed % below;
}

/* ---- memory between pages without access */

/* Each argument of a call is in an area of its own. */
enum { TEXT, NAME, OUTPUT, STATE, ITEM, NUMBER, OUTCOME, AREAS };
static uint8_t *areas[AREAS];

static void make_areas(void) {
    int i;
    for (i = 0; i < AREAS; i++) {
        uint8_t *all = (uint8_t *)mmap(NULL, SIZE + 2 * PAGE, PROT_NONE, MAP_PRIVATE | MAP_ANONYMOUS, -1, 0);
        if ((void *)all == MAP_FAILED || mprotect(all + PAGE, SIZE, PROT_READ | PROT_WRITE) != 0) {
            fputs("guards: no memory\n", stderr);
            exit(1);
        }
        areas[i] = all + PAGE;
    }
}

/* Memory that ends, or more rarely begins, at a page without access. */
static uint8_t *edge(int area, size_t size) {
    return areas[area] + (chance(4) != 0 ? SIZE - size : 0);
}

static void fill(uint8_t *octets, size_t size) {
    size_t i;
    for (i = 0; i < size; i++)
        octets[i] = (uint8_t)chance(256);
}

/* ---- inputs */

enum { FIELDS = 1 << 16, POOL = 1 << 22, ROOM = SIZE - PAGE };
static uint8_t pool[POOL]; /* the fields of all rows, decoded */
static size_t pool_len;
static struct {
    const uint8_t *octets;
    size_t length;
} fields[FIELDS];
static size_t fields_len, types[FIELDS], types_len; /* the fields that name a type, before another field */

static unsigned digit(int c) {
    return c <= '9' ? (unsigned)(c - '0') : (unsigned)(c - 'A') + 10;
}

static void read_rows(void) {
    struct dnstext_outcome outcome;
    uint16_t code;
    size_t start = 0;
    int c;
    while ((c = getchar()) != EOF && pool_len < POOL && fields_len < FIELDS) {
        if (c == '%') {
            unsigned high = digit(getchar());
            pool[pool_len++] = (uint8_t)(16 * high + digit(getchar()));
        } else if (c != '\t' && c != '\n') {
            pool[pool_len++] = (uint8_t)c;
        } else {
            fields[fields_len].octets = pool + start;
            fields[fields_len].length = pool_len - start;
            if (c == '\t' && dnstext_type_read(pool + start, pool_len - start, &code, &outcome) == DNSTEXT_OK)
                types[types_len++] = fields_len;
            fields_len++;
            start = pool_len;
        }
    }
    if (types_len == 0 || types[types_len - 1] + 1 == fields_len) {
        fputs("guards: no rows\n", stderr);
        exit(1);
    }
}

static uint8_t made[ROOM];
static size_t made_len;

static void append(const void *octets, size_t length) {
    if (length > ROOM - made_len)
        length = ROOM - made_len;
    memcpy(made + made_len, octets, length);
    made_len += length;
}

static void append_field(size_t field) {
    append(fields[field].octets, fields[field].length);
}

/* Makes an input of random octets, of a field, of many, or of records. */
static void make_input(void) {
    static const char often[] = "\n \t()\";\\$@.*\r\xFF";
    size_t changes = chance(3), field = chance((uint32_t)fields_len), most;
    made_len = 0;
    switch (chance(16)) {
    case 0: changes = 0; break;
    case 1:
        made_len = chance(8) != 0 ? chance(300) : chance(ROOM + 1);
        fill(made, made_len);
        break;
    case 2:
        most = chance(8) != 0 ? chance(2000) : chance(ROOM + 1);
        while (made_len < most && fields[field].length != 0)
            append_field(field);
        break;
    case 3:
    case 4:
    case 5:
    case 6:
        most = 1 + chance(4);
        while (most-- > 0) {
            size_t type = types[chance((uint32_t)types_len)];
            append("a. 60 IN ", 9);
            append_field(type);
            append(" ", 1);
            append_field(type + 1);
            append("\n", 1);
        }
        break;
    default: append_field(field); break;
    }
    while (changes-- > 0 && made_len != 0)
        made[chance((uint32_t)made_len)] =
            chance(2) != 0 ? (uint8_t)often[chance(sizeof often)] : (uint8_t)chance(256);
}

/* An input in an area. */
static const uint8_t *input(int area, size_t *length) {
    uint8_t *octets;
    make_input();
    octets = edge(area, made_len);
    memcpy(octets, made, made_len);
    *length = made_len;
    return octets;
}

/* ---- calls */

static const uint8_t *text, *name;
static size_t text_len, name_len, room;
static uint8_t *output;
static uint16_t code;
static struct dnstext_outcome *outcome;

/* A state of random octets, or one that is begun, at any offset. */
static void *state(const void *begun, size_t size) {
    uint8_t *octets = edge(STATE, size);
    if (chance(4) == 0)
        fill(octets, size);
    else
        memcpy(octets, begun, size);
    return octets;
}

static const struct dnstext_zone ZONE = DNSTEXT_ZONE_INIT;
static const struct dnstext_cursor CURSOR = DNSTEXT_CURSOR_INIT;
static const struct dnstext_lexer LEXER = DNSTEXT_LEXER_INIT;
static const struct dnstext_position POSITION = DNSTEXT_POSITION_INIT;

static struct dnstext_zone *zone_state(void) {
    struct dnstext_zone *zone = (struct dnstext_zone *)state(&ZONE, sizeof ZONE);
    if (chance(2) == 0) {
        zone->at = chance(2) != 0 ? 0 : chance((uint32_t)text_len + 2);
        zone->origin.length = name_len < 255 ? name_len : 255;
        memcpy(zone->origin.octets, name, zone->origin.length);
        zone->origin.is_refused = false;
    }
    return zone;
}

#define NUMBER_OF(type) ((type *)(void *)edge(NUMBER, sizeof(type)))
#define TO_OUTPUT output, room, outcome

static uint32_t next_entry(void) {
    struct dnstext_cursor *cursor = (struct dnstext_cursor *)state(&CURSOR, sizeof CURSOR);
    if (chance(2) == 0)
        cursor->at = chance((uint32_t)text_len + 2);
    room /= sizeof(struct dnstext_token);
    return dnstext_entry_next(text, text_len, cursor,
                              (struct dnstext_token *)(void *)edge(ITEM, room * sizeof(struct dnstext_token)),
                              room, outcome);
}

static uint32_t next_piece(void) {
    struct dnstext_lexer *lexer = (struct dnstext_lexer *)state(&LEXER, sizeof LEXER);
    if (chance(2) == 0)
        lexer->at = lexer->began = chance((uint32_t)text_len + 2);
    return dnstext_tokens_next(text, text_len, lexer,
                               (struct dnstext_piece *)(void *)edge(ITEM, sizeof(struct dnstext_piece)),
                               outcome);
}

static uint32_t next_record(void) {
    return dnstext_record_next(text, text_len, zone_state(),
                               (struct dnstext_record *)(void *)edge(ITEM, sizeof(struct dnstext_record)),
                               TO_OUTPUT);
}

/* Prints a record of random octets; or one that a call returned, whose RDATA are then in the output of that. */
static uint32_t print_record(void) {
    static uint8_t data[65535];
    struct dnstext_zone zone = ZONE;
    struct dnstext_record found, *record = (struct dnstext_record *)(void *)edge(ITEM, sizeof found);
    size_t length;
    uint8_t *octets;
    memset(&found, 0, sizeof found);
    if (chance(3) == 0)
        fill((uint8_t *)&found, sizeof found);
    if (chance(3) == 0 ||
        dnstext_record_next(text, text_len, &zone, &found, data, sizeof data, outcome) != DNSTEXT_OK) {
        found.name.length = name_len < 300 ? name_len : chance(300);
        memcpy(found.name.octets, name, found.name.length < 255 ? found.name.length : 255);
        length = chance(20);
        fill(data, length);
    } else {
        length = outcome->length;
    }
    octets = edge(NAME, length);
    memcpy(octets, data, length);
    memcpy(record, &found, sizeof found);
    return dnstext_record_print(record, octets, length, TO_OUTPUT);
}

static uint32_t find_position(void) {
    return dnstext_position(text, text_len, chance((uint32_t)text_len + 2), NUMBER_OF(size_t),
                            (size_t *)(void *)edge(ITEM, sizeof(size_t)));
}

static uint32_t move_position(void) {
    return dnstext_position_move(text, text_len, (struct dnstext_position *)state(&POSITION, sizeof POSITION),
                                 chance((uint32_t)text_len + 2));
}

static const char *what = "no call";

/* Makes the call of this number, and returns its status; or STATUSES if there are fewer. */
static uint32_t make_call(unsigned number) {
#define CALL(call) \
    if (number-- == 0) { \
        what = #call; \
        return call; \
    }
    CALL(dnstext_charstr_read(text, text_len, TO_OUTPUT))
    CALL(dnstext_charstr_read_octets(text, text_len, TO_OUTPUT))
    CALL(dnstext_charstr_print(text, text_len, TO_OUTPUT))
    CALL(dnstext_charstr_print_quoted(text, text_len, TO_OUTPUT))
    CALL(dnstext_charstr_print_unquoted(text, text_len, TO_OUTPUT))
    CALL(dnstext_name_read(text, text_len, output, room, NUMBER_OF(bool), outcome))
    CALL(dnstext_name_read_octets(text, text_len, name, name_len, TO_OUTPUT))
    CALL(dnstext_name_print(text, text_len, TO_OUTPUT))
    CALL(dnstext_name_print_dotted(text, text_len, TO_OUTPUT))
    CALL(dnstext_name_print_zone(text, text_len, TO_OUTPUT))
    CALL(dnstext_name_canonical(text, text_len, TO_OUTPUT))
    CALL(dnstext_name_compare(text, text_len, name, name_len, NUMBER_OF(int32_t), outcome))
    CALL(dnstext_name_ends_with(text, text_len, name, name_len, NUMBER_OF(bool), outcome))
    CALL(dnstext_number_read(text, text_len, chance(2) ? UINT64_MAX : chance(70000), NUMBER_OF(uint64_t),
                             outcome))
    CALL(dnstext_ttl_read(text, text_len, NUMBER_OF(uint32_t), outcome))
    CALL(dnstext_type_read(text, text_len, NUMBER_OF(uint16_t), outcome))
    CALL(dnstext_type_print(code, TO_OUTPUT))
    CALL(dnstext_class_read(text, text_len, NUMBER_OF(uint16_t), outcome))
    CALL(dnstext_class_print(code, TO_OUTPUT))
    CALL(dnstext_data_read(code, text, text_len, name, name_len, TO_OUTPUT))
    CALL(dnstext_data_read(code, text, text_len, NULL, 0, TO_OUTPUT))
    CALL(dnstext_data_print(code, text, text_len, TO_OUTPUT))
    CALL(dnstext_data_canonical(code, text, text_len, TO_OUTPUT))
    CALL(dnstext_text_data(text, text_len, TO_OUTPUT))
    CALL(dnstext_base16_print(text, text_len, TO_OUTPUT))
    CALL(dnstext_base32hex_print(text, text_len, TO_OUTPUT))
    CALL(dnstext_base64_print(text, text_len, TO_OUTPUT))
    CALL(dnstext_base16_read(text, text_len, TO_OUTPUT))
    CALL(dnstext_base32hex_read(text, text_len, TO_OUTPUT))
    CALL(dnstext_base64_read(text, text_len, TO_OUTPUT))
    CALL(next_entry())
    CALL(next_piece())
    CALL(dnstext_zone_init((struct dnstext_zone *)state(&ZONE, sizeof ZONE)))
    CALL(dnstext_zone_origin(zone_state(), text, text_len, outcome))
    CALL(next_record())
    CALL(next_record())
    CALL(print_record())
    CALL(print_record())
    CALL(dnstext_entries_len(text, text_len, NUMBER_OF(size_t)))
    CALL(dnstext_generate_entry(text, text_len, chance(3) ? chance(4) : UINT64_MAX, NUMBER_OF(uint32_t),
                                TO_OUTPUT))
    CALL(find_position())
    CALL(move_position())
    CALL(dnstext_status_text(code, TO_OUTPUT))
    return STATUSES;
}

static void report(int number) {
    static const char before[] = "guards: an access outside of memory, or a stop: ";
    (void)number;
    if (write(2, before, sizeof before - 1) < 0 || write(2, what, strlen(what)) < 0 || write(2, "\n", 1) < 0)
        _exit(3);
    _exit(1);
}

int main(int argc, char **argv) {
    static const size_t rooms[] = {0, 1, 5, 60, 255, 65535};
    static const int signals[] = {SIGSEGV, SIGBUS, SIGILL, SIGFPE, SIGABRT};
    unsigned calls = 0;
    unsigned long count;
    clock_t end;
    size_t i;
    if (argc != 3)
        return 2;
    for (i = 0; i < sizeof signals / sizeof *signals; i++)
        signal(signals[i], report);
    seed = (uint32_t)strtoul(argv[2], NULL, 10) | 1;
    make_areas();
    read_rows();
    outcome = (struct dnstext_outcome *)(void *)edge(OUTCOME, sizeof *outcome);
    output = edge(OUTPUT, room);
    while (make_call(calls) != STATUSES)
        calls++;
    end = clock() + (clock_t)strtoul(argv[1], NULL, 10) * CLOCKS_PER_SEC;
    for (count = 0; clock() < end; count++) {
        uint32_t status;
        size_t type = types[chance((uint32_t)types_len)];
        text = input(TEXT, &text_len);
        name = input(NAME, &name_len);
        room = rooms[chance(sizeof rooms / sizeof *rooms)];
        output = edge(OUTPUT, room);
        outcome = (struct dnstext_outcome *)(void *)edge(OUTCOME, sizeof *outcome);
        outcome->length = 0;
        if (chance(4) == 0 ||
            dnstext_type_read(fields[type].octets, fields[type].length, &code, outcome) != DNSTEXT_OK)
            code = (uint16_t)chance(65536);
        status = make_call(chance(calls));
        if (status >= STATUSES ||
            (status == DNSTEXT_NO_ROOM ? outcome->length <= room : outcome->length > room)) {
            fprintf(stderr, "guards: status %lu, length %lu of %lu: %s\n", (unsigned long)status,
                    (unsigned long)outcome->length, (unsigned long)room, what);
            return 1;
        }
    }
    printf("guards: %lu calls of %u, and no access outside of memory\n", count, calls);
    return 0;
}
