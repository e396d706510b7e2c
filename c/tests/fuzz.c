/* Fuzzes every call: checks its status, and that it writes only what the header allows. Inputs are copied
 * into memory of their exact length, and outputs are between guards.
 *
 * With -DLIBFUZZER this is an entry for libFuzzer. Otherwise it is a program: `fuzz SECONDS COUNT SEED`
 * mutates the rows on standard input; `fuzz seeds FOLDER` writes some of them as files for libFuzzer. */
#include <dnstext.h>
#include <stdio.h>
#include <stdlib.h>
#include <string.h>
#include <time.h>

enum { GUARD = 16, FILL = 0xA5, MOST = 4096, STATUSES = DNSTEXT_BAD_GENERATE + 1 };

#define CHECK(is_so) \
    do { \
        if (!(is_so)) { \
            fprintf(stderr, "tests/fuzz.c:%d: %s\n", __LINE__, #is_so); \
            abort(); \
        } \
    } while (0)

/* The parts of an input: a type, another number, and the text. */
static uint16_t code;
static size_t number;
static const uint8_t *text;
static size_t text_len;

/* Returns memory between guards, filled. */
static uint8_t *guarded(size_t room) {
    uint8_t *all = (uint8_t *)malloc(room + 2 * GUARD);
    CHECK(all != NULL);
    memset(all, FILL, room + 2 * GUARD);
    return all + GUARD;
}

static int is_filled(const uint8_t *from, size_t length) {
    size_t i;
    for (i = 0; i < length; i++)
        if (from[i] != FILL)
            return 0;
    return 1;
}

/* Checks that only `written` octets at the beginning were written, and frees the memory. */
static void release(uint8_t *memory, size_t room, size_t written) {
    CHECK(is_filled(memory - GUARD, GUARD));
    CHECK(is_filled(memory + written, room - written + GUARD));
    free(memory - GUARD);
}

/* ---- calls that write octets */

typedef uint32_t (*call)(const uint8_t *, size_t, uint8_t *, size_t, struct dnstext_outcome *);

static uint32_t name_read(const uint8_t *from, size_t from_len, uint8_t *to, size_t to_len,
                          struct dnstext_outcome *outcome) {
    bool is_absolute;
    return dnstext_name_read(from, from_len, to, to_len, &is_absolute, outcome);
}

static uint32_t data_print(const uint8_t *from, size_t from_len, uint8_t *to, size_t to_len,
                           struct dnstext_outcome *outcome) {
    return dnstext_data_print(code, from, from_len, to, to_len, outcome);
}

static uint32_t data_canonical(const uint8_t *from, size_t from_len, uint8_t *to, size_t to_len,
                               struct dnstext_outcome *outcome) {
    return dnstext_data_canonical(code, from, from_len, to, to_len, outcome);
}

static uint32_t status_text(const uint8_t *from, size_t from_len, uint8_t *to, size_t to_len,
                            struct dnstext_outcome *outcome) {
    (void)from, (void)from_len;
    return dnstext_status_text((uint32_t)number, to, to_len, outcome);
}

static uint32_t type_print(const uint8_t *from, size_t from_len, uint8_t *to, size_t to_len,
                           struct dnstext_outcome *outcome) {
    (void)from, (void)from_len;
    return dnstext_type_print(code, to, to_len, outcome);
}

static uint32_t class_print(const uint8_t *from, size_t from_len, uint8_t *to, size_t to_len,
                            struct dnstext_outcome *outcome) {
    (void)from, (void)from_len;
    return dnstext_class_print(code, to, to_len, outcome);
}

/* If an encoding rejects a text, the octets of the buffer are unspecified. */
static const struct {
    call f;
    int is_encoding;
} calls[] = {
    {dnstext_charstr_read, 0},
    {dnstext_charstr_read_octets, 0},
    {dnstext_charstr_print, 0},
    {dnstext_charstr_print_quoted, 0},
    {dnstext_charstr_print_unquoted, 0},
    {name_read, 0},
    {dnstext_name_print, 0},
    {dnstext_name_print_dotted, 0},
    {dnstext_name_print_zone, 0},
    {dnstext_base16_print, 0},
    {dnstext_base32hex_print, 0},
    {dnstext_base64_print, 0},
    {dnstext_base16_read, 1},
    {dnstext_base32hex_read, 1},
    {dnstext_base64_read, 1},
    {data_print, 0},
    {status_text, 0},
    {type_print, 0},
    {class_print, 0},
    {data_canonical, 0},
};

/* Makes a call with a buffer of `room` octets, and returns its status and its output. */
static uint32_t give(call f, int is_encoding, size_t room, struct dnstext_outcome *outcome) {
    uint8_t *to = guarded(room);
    uint32_t status;
    size_t written = 0;
    memset(outcome, FILL, sizeof *outcome);
    status = f(text, text_len, to, room, outcome);
    CHECK(status < STATUSES && status != DNSTEXT_END);
    if (status == DNSTEXT_OK)
        written = outcome->length;
    else if (status == DNSTEXT_NO_ROOM)
        CHECK(room < outcome->length && outcome->place == 0);
    else if (is_encoding)
        written = room;
    else
        CHECK(outcome->length == 0);
    CHECK(written <= room);
    release(to, room, written);
    return status;
}

static void try_call(call f, int is_encoding) {
    struct dnstext_outcome outcome, again;
    uint32_t status = f(text, text_len, NULL, 0, &outcome);
    CHECK(status < STATUSES);
    if (status == DNSTEXT_NO_ROOM) {
        size_t needed = outcome.length;
        CHECK(needed > 0);
        CHECK(give(f, is_encoding, needed - 1, &again) == DNSTEXT_NO_ROOM && again.length == needed);
        status = give(f, is_encoding, needed, &again);
        CHECK(status == DNSTEXT_OK ? again.length == needed : is_encoding);
        CHECK(give(f, is_encoding, needed + 7, &again) == status);
    } else {
        CHECK(give(f, is_encoding, 9, &again) == status);
        CHECK(again.length == outcome.length && again.place == outcome.place);
    }
}

/* ---- RDATA: what is parsed prints, and parses again */

static uint32_t read_data(const uint8_t *from, size_t from_len, const uint8_t *origin, size_t origin_len,
                          size_t room, uint8_t **to, struct dnstext_outcome *outcome) {
    uint32_t status;
    *to = guarded(room);
    status = dnstext_data_read(code, from, from_len, origin, origin_len, *to, room, outcome);
    CHECK(status < STATUSES && status != DNSTEXT_END);
    CHECK(status == DNSTEXT_OK || outcome->place <= from_len);
    CHECK(status == DNSTEXT_NO_ROOM ? outcome->length > room : outcome->length <= room);
    CHECK(is_filled(*to - GUARD, GUARD) && is_filled(*to + room, GUARD));
    CHECK(is_filled(*to + (status != DNSTEXT_NO_ROOM ? outcome->length : 0),
                    room - (status != DNSTEXT_NO_ROOM ? outcome->length : 0)));
    return status;
}

static void try_data(const uint8_t *origin, size_t origin_len) {
    struct dnstext_outcome outcome, printed, again;
    uint8_t *octets, *shown, *back;
    uint32_t status = read_data(text, text_len, origin, origin_len, 0, &octets, &outcome);
    size_t needed = status == DNSTEXT_NO_ROOM ? outcome.length : 0;
    free(octets - GUARD);
    if (needed != 0) {
        uint32_t short_of = read_data(text, text_len, origin, origin_len, needed - 1, &octets, &again);
        CHECK(short_of == DNSTEXT_NO_ROOM && again.length == needed);
        free(octets - GUARD);
    }
    status = read_data(text, text_len, origin, origin_len, needed, &octets, &outcome);
    CHECK(status != DNSTEXT_NO_ROOM && outcome.length == (status == DNSTEXT_OK ? needed : 0));
    if (status != DNSTEXT_OK) {
        free(octets - GUARD);
        CHECK(read_data(text, text_len, origin, origin_len, 255, &octets, &again) == status);
        CHECK(again.place == outcome.place);
    } else {
        status = dnstext_data_print(code, octets, needed, NULL, 0, &printed);
        CHECK(status == DNSTEXT_NO_ROOM || (status == DNSTEXT_OK && printed.length == 0));
        shown = guarded(printed.length);
        CHECK(dnstext_data_print(code, octets, needed, shown, printed.length, &printed) == DNSTEXT_OK);
        CHECK(read_data(shown, printed.length, NULL, 0, needed, &back, &again) == DNSTEXT_OK);
        CHECK(again.length == needed && memcmp(back, octets, needed) == 0);
        release(shown, printed.length, printed.length);
        release(back, needed, needed);
    }
    free(octets - GUARD);
}

/* ---- words */

/* The position of an offset is the same from each other offset; and one of any numbers is safe. */
static void try_position(size_t line, size_t column) {
    struct dnstext_position position = DNSTEXT_POSITION_INIT;
    size_t i;
    for (i = 0; i <= text_len; i++) {
        struct dnstext_position moved;
        CHECK(dnstext_position_move(text, text_len, &position, i) == DNSTEXT_OK && position.offset == i);
        moved = position;
        if (number > text_len)
            CHECK(dnstext_position_move(text, text_len, &moved, number) == DNSTEXT_BAD_PLACE &&
                  memcmp(&moved, &position, sizeof moved) == 0);
        else
            CHECK(dnstext_position_move(text, text_len, &moved, number) == DNSTEXT_OK &&
                  moved.offset == number && moved.line == line && moved.column == column);
    }
    memset(&position, FILL, sizeof position);
    if (text_len != 0)
        memcpy(&position, text, text_len < sizeof position ? text_len : sizeof position);
    CHECK(dnstext_position_move(text, text_len, &position, text_len) == DNSTEXT_OK);
}

static void try_words(void) {
    struct dnstext_outcome outcome;
    uint64_t read = 7;
    uint32_t seconds = 7;
    uint16_t word = 7;
    size_t line = 7, column = 7;
    uint32_t status = dnstext_number_read(text, text_len, number, &read, &outcome);
    CHECK(status < STATUSES && (status == DNSTEXT_OK ? read <= number : read == 7));
    CHECK(outcome.length == 0 && outcome.place <= text_len);
    status = dnstext_ttl_read(text, text_len, &seconds, &outcome);
    CHECK(status == DNSTEXT_OK ? seconds < 0x80000000 : status == DNSTEXT_BAD_TTL && seconds == 7);
    status = dnstext_type_read(text, text_len, &word, &outcome);
    CHECK(status == DNSTEXT_OK || (status == DNSTEXT_UNKNOWN_TYPE && word == 7));
    word = 7;
    status = dnstext_class_read(text, text_len, &word, &outcome);
    CHECK(status == DNSTEXT_OK || (status == DNSTEXT_UNKNOWN_CLASS && word == 7));
    status = dnstext_position(text, text_len, number, &line, &column);
    CHECK(number <= text_len ? status == DNSTEXT_OK && line > 0 && column > 0
                             : status == DNSTEXT_BAD_PLACE && line == 7 && column == 7);
    try_position(line, column);
    CHECK(dnstext_status_message((uint32_t)number) != NULL && dnstext_status_name((uint32_t)number) != NULL);
}

/* ---- tokens */

static void try_entries(struct dnstext_cursor cursor) {
    struct dnstext_token tokens[3];
    struct dnstext_outcome outcome;
    uint32_t status;
    size_t calls_left = text_len + 2, i;
    do {
        size_t room = number % 3;
        memset(tokens, FILL, sizeof tokens);
        status = dnstext_entry_next(text, text_len, &cursor, tokens, room, &outcome);
        CHECK(status < STATUSES && (status == DNSTEXT_NO_ROOM || outcome.length <= room));
        for (i = 0; i < 3; i++) {
            if (i < room && i < outcome.length)
                CHECK(tokens[i].start < tokens[i].end && tokens[i].end <= text_len);
            else
                CHECK(is_filled((const uint8_t *)&tokens[i], sizeof *tokens));
        }
        if (status == DNSTEXT_NO_ROOM) {
            struct dnstext_token *all = (struct dnstext_token *)malloc(outcome.length * sizeof *all);
            CHECK(room < outcome.length);
            status = dnstext_entry_next(text, text_len, &cursor, all, outcome.length, &outcome);
            free(all);
            CHECK(status == DNSTEXT_OK);
        }
        CHECK(calls_left-- > 0);
    } while (status == DNSTEXT_OK && cursor.at <= text_len);
    CHECK(status == DNSTEXT_BAD_CURSOR || status == DNSTEXT_END || outcome.place <= text_len);
}

static void try_pieces(struct dnstext_lexer lexer) {
    struct dnstext_piece piece;
    struct dnstext_outcome outcome;
    uint32_t status;
    size_t calls_left = 2 * text_len + 3;
    do {
        memset(&piece, FILL, sizeof piece);
        status = dnstext_tokens_next(text, text_len, &lexer, &piece, &outcome);
        CHECK(status < STATUSES && status != DNSTEXT_NO_ROOM && outcome.length == 0);
        if (status == DNSTEXT_OK)
            CHECK(piece.kind <= DNSTEXT_ENTRY_END && piece.start <= piece.end && piece.end <= text_len);
        else
            CHECK(is_filled((const uint8_t *)&piece, sizeof piece));
        CHECK(calls_left-- > 0);
    } while (status == DNSTEXT_OK);
}

/* ---- records */

static void try_records(struct dnstext_zone *zone) {
    struct dnstext_record record;
    struct dnstext_outcome outcome;
    uint32_t status;
    size_t calls_left = 2 * text_len + 4, room = number % 7;
    do {
        uint8_t *octets = guarded(room);
        size_t written = 0;
        memset(&record, FILL, sizeof record);
        status = dnstext_record_next(text, text_len, zone, &record, octets, room, &outcome);
        CHECK(status < STATUSES);
        CHECK(outcome.place <= text_len);
        if (status == DNSTEXT_OK || status == DNSTEXT_INCLUDE || status == DNSTEXT_GENERATE) {
            CHECK(outcome.length <= room && record.place <= text_len && record.name.length <= 255);
            written = outcome.length;
        } else {
            CHECK(is_filled((const uint8_t *)&record, sizeof record));
            CHECK(status == DNSTEXT_NO_ROOM || outcome.length <= room);
            if (status != DNSTEXT_NO_ROOM)
                written = outcome.length;
        }
        CHECK(status == DNSTEXT_BAD_CURSOR || zone->at <= text_len);
        release(octets, room, written);
        room = status == DNSTEXT_NO_ROOM ? outcome.length : number % 7;
        CHECK(calls_left-- > 0);
    } while (status != DNSTEXT_END && status != DNSTEXT_BAD_CURSOR);
}

/* The text as a directive: its first entries, and one beyond any. */
static void try_directive(void) {
    static const uint64_t indexes[] = {0, 1, 2, UINT64_MAX};
    struct dnstext_outcome outcome;
    size_t i;
    for (i = 0; i < sizeof indexes / sizeof *indexes; i++) {
        size_t room = number % 97, written = 0;
        uint8_t *octets = guarded(room);
        uint32_t of = FILL;
        uint32_t status = dnstext_generate_entry(text, text_len, indexes[i], &of, octets, room, &outcome);
        CHECK(status < STATUSES && outcome.place <= text_len);
        CHECK(status == DNSTEXT_OK || of == FILL);
        if (status == DNSTEXT_OK || status == DNSTEXT_BAD_GENERATE) {
            CHECK(outcome.length <= room);
            written = outcome.length;
        }
        release(octets, room, written);
    }
}

/* States that no call returned, made of the octets of the input. */
static void try_states(void) {
    struct dnstext_cursor cursor;
    struct dnstext_lexer lexer;
    struct dnstext_zone zone;
    struct dnstext_token token;
    struct dnstext_piece piece;
    struct dnstext_record record;
    struct dnstext_outcome outcome;
    uint8_t *octets = guarded(9);
    size_t i;
    for (i = 0; i < 2; i++) {
        memset(&cursor, FILL, sizeof cursor);
        memset(&lexer, FILL, sizeof lexer);
        memset(&zone, 0, sizeof zone);
        memcpy(&cursor, text, text_len < sizeof cursor ? text_len : sizeof cursor);
        memcpy(&lexer, text, text_len < sizeof lexer ? text_len : sizeof lexer);
        memcpy(&zone, text, text_len < sizeof zone ? text_len : sizeof zone);
        if (i == 1)
            cursor.at = lexer.at = lexer.depth = zone.at = number % (text_len + 2);
        CHECK(dnstext_entry_next(text, text_len, &cursor, &token, 1, &outcome) < STATUSES);
        CHECK(dnstext_tokens_next(text, text_len, &lexer, &piece, &outcome) < STATUSES);
        CHECK(dnstext_record_next(text, text_len, &zone, &record, octets, 9, &outcome) < STATUSES);
        CHECK(dnstext_zone_origin(&zone, text, text_len, &outcome) < STATUSES && outcome.length == 0);
    }
    release(octets, 9, 9);
}

static void try_input(const uint8_t *from, size_t length) {
    static const struct dnstext_cursor cursor = DNSTEXT_CURSOR_INIT;
    static const struct dnstext_lexer lexer = DNSTEXT_LEXER_INIT;
    static const struct dnstext_zone empty = DNSTEXT_ZONE_INIT;
    static const uint8_t origin[] = "\7example";
    struct dnstext_cursor inside = cursor;
    struct dnstext_lexer at = lexer;
    struct dnstext_zone zone = empty;
    struct dnstext_outcome outcome;
    uint8_t *copy;
    size_t i;
    if (length < 3)
        return;
    code = (uint16_t)(from[0] | from[1] << 8);
    number = from[2];
    text_len = length - 3;
    copy = text_len != 0 ? (uint8_t *)malloc(text_len) : NULL;
    if (text_len != 0)
        memcpy(copy, from + 3, text_len);
    text = copy;
    for (i = 0; i < sizeof calls / sizeof *calls; i++)
        try_call(calls[i].f, calls[i].is_encoding);
    try_data(origin, sizeof origin);
    try_data(text, text_len);
    try_words();
    inside.at = at.at = at.began = number;
    try_entries(cursor);
    try_entries(inside);
    try_pieces(lexer);
    try_pieces(at);
    CHECK(dnstext_zone_origin(&zone, origin, sizeof origin, &outcome) == DNSTEXT_OK);
    try_records(&zone);
    zone = empty;
    zone.at = number;
    try_records(&zone);
    if (text_len != 0)
        try_states();
    try_directive();
    free(copy);
}

#ifdef LIBFUZZER

#ifdef __cplusplus
extern "C"
#endif
    int
    LLVMFuzzerTestOneInput(const uint8_t *from, size_t length);
int LLVMFuzzerTestOneInput(const uint8_t *from, size_t length) {
    if (length <= MOST)
        try_input(from, length);
    return 0;
}

#else

/* ---- inputs of rows */

enum { ROWS = 20000, LINE = 1 << 20 };

static struct {
    uint8_t *octets;
    size_t length;
} seeds[ROWS];
static size_t seeds_len;

static uint32_t state;

static uint32_t next_random(uint32_t below) {
    state ^= state << 13;
    state ^= state >> 17;
    state ^= state << 5;
    return state % below;
}

static unsigned digit(char c) {
    return c <= '9' ? (unsigned)(c - '0') : (unsigned)(c - 'A') + 10;
}

/* Stores an input of a field, and of the type that the field before names. */
static void keep(const char *type, const char *field) {
    uint8_t *octets;
    size_t count = 3, type_len = strcspn(type, "\t");
    uint16_t kind = 0;
    struct dnstext_outcome outcome;
    if (seeds_len == ROWS || strlen(field) > MOST - 3)
        return;
    octets = (uint8_t *)malloc(strlen(field) + 3);
    dnstext_type_read((const uint8_t *)type, type_len, &kind, &outcome);
    octets[0] = (uint8_t)kind;
    octets[1] = (uint8_t)(kind >> 8);
    octets[2] = (uint8_t)seeds_len;
    while (*field != '\0' && *field != '\t') {
        if (*field == '%') {
            octets[count++] = (uint8_t)(16 * digit(field[1]) + digit(field[2]));
            field += 3;
        } else {
            octets[count++] = (uint8_t)*field++;
        }
    }
    seeds[seeds_len].octets = octets;
    seeds[seeds_len++].length = count;
}

static void read_rows(void) {
    static char line[LINE];
    while (fgets(line, sizeof line, stdin) != NULL) {
        char *field = line;
        line[strcspn(line, "\n")] = '\0';
        if (*line == '\0' || *line == '#')
            continue;
        while ((field = strchr(field, '\t')) != NULL) {
            char *before = field;
            while (before > line && before[-1] != '\t')
                before--;
            keep(before, ++field);
        }
    }
}

/* Makes one change: an octet set, some removed, one inserted, the rest cut off, or that of another input. */
static size_t mutate(uint8_t *octets, size_t length) {
    static const char often[] = "\"\\()\n\r;$@. \t0#-\0\377";
    size_t at = length != 0 ? next_random((uint32_t)length) : 0, other, count;
    switch (next_random(5)) {
    case 0:
        if (length != 0)
            octets[at] =
                next_random(2) ? (uint8_t)next_random(256) : (uint8_t)often[next_random(sizeof often)];
        return length;
    case 1:
        count = length - at < 4 ? length - at : next_random(4);
        memmove(octets + at, octets + at + count, length - at - count);
        return length - count;
    case 2:
        if (length == MOST)
            return length;
        memmove(octets + at + 1, octets + at, length - at);
        octets[at] = (uint8_t)often[next_random(sizeof often)];
        return length + 1;
    case 3: return at;
    default:
        other = next_random((uint32_t)seeds_len);
        count = seeds[other].length - 3 < MOST - at ? seeds[other].length - 3 : MOST - at;
        memcpy(octets + at, seeds[other].octets + 3, count);
        return at + count;
    }
}

static int write_seeds(const char *folder) {
    size_t i;
    for (i = 0; i < seeds_len; i += 7) {
        char path[512];
        FILE *file;
        if (snprintf(path, sizeof path, "%s/%lu", folder, (unsigned long)i) >= (int)sizeof path)
            return 1;
        file = fopen(path, "wb");
        if (file == NULL)
            return 1;
        fwrite(seeds[i].octets, 1, seeds[i].length, file);
        fclose(file);
    }
    return 0;
}

int main(int argc, char **argv) {
    static uint8_t octets[MOST];
    clock_t end;
    unsigned long count, most;
    size_t i;
    read_rows();
    if (seeds_len == 0)
        return 1;
    if (argc == 3 && strcmp(argv[1], "seeds") == 0)
        return write_seeds(argv[2]);
    if (argc != 4)
        return 2;
    end = clock() + (clock_t)strtoul(argv[1], NULL, 10) * CLOCKS_PER_SEC;
    most = strtoul(argv[2], NULL, 10);
    state = (uint32_t)strtoul(argv[3], NULL, 10) | 1;
    for (count = 0; count < most && clock() < end; count++) {
        size_t from = next_random((uint32_t)seeds_len), length = seeds[from].length, changes = next_random(4);
        memcpy(octets, seeds[from].octets, length);
        if (next_random(4) == 0)
            octets[next_random(2)] = (uint8_t)next_random(256);
        octets[2] = (uint8_t)next_random(256);
        while (changes-- > 0)
            length = mutate(octets, length);
        try_input(octets, length);
    }
    for (i = 0; i < seeds_len; i++)
        free(seeds[i].octets);
    printf("fuzz: %lu inputs of %lu rows' fields\n", count, (unsigned long)seeds_len);
    return 0;
}

#endif
