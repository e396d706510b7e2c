/* Rows of crates/test_rows and crates/test_records that the library can answer, as they are or converted to
 * rows about RDATA by as_data.py of test_support. Most calls run with buffers of each smaller size, and with the exact
 * one. Prints the names of the calls that the library does not have. Rows about zones are in zones.c. */
#include "texts.h"

enum { CALLS = 200 };

typedef uint32_t (*call)(const uint8_t *, size_t, uint8_t *, size_t, struct dnstext_outcome *);

static uint32_t name_read(const uint8_t *text, size_t text_len, uint8_t *name, size_t name_len,
                          struct dnstext_outcome *outcome) {
    bool is_absolute;
    return dnstext_name_read(text, text_len, name, name_len, &is_absolute, outcome);
}

static const struct {
    const char *name;
    call f;
    size_t longest; /* the greatest length of an input for which the library's call is equivalent */
} known[] = {
    {"charstr.read", dnstext_charstr_read, MOST},
    {"charstr.octets", dnstext_charstr_read_octets, MOST},
    {"charstr.plain", dnstext_charstr_print, 255},
    {"charstr.quoted", dnstext_charstr_print_quoted, 255},
    {"charstr.unquoted", dnstext_charstr_print_unquoted, 255},
    {"symbol.plain", dnstext_charstr_print, 255},
    {"symbol.unquoted", dnstext_charstr_print_unquoted, 255},
    {"name.read", name_read, MOST},
    {"name.plain", dnstext_name_print_dotted, MOST},
    {"name.zone", dnstext_name_print_zone, MOST},
    {"base16.print", dnstext_base16_print, MOST},
    {"base16.read", dnstext_base16_read, MOST},
    {"base32.print", dnstext_base32hex_print, MOST},
    {"base32.read", dnstext_base32hex_read, MOST},
    {"base64.print", dnstext_base64_print, MOST},
    {"base64.read", dnstext_base64_read, MOST},
    {"octets.print", dnstext_charstr_print_quoted, 255},
    {"digits.hex", dnstext_base16_read, MOST},
};

static char unknown[CALLS][40];
static size_t unknowns;

/* Whether a call fails with each buffer smaller than the `needed` octets: of a long output with 256 of
 * them, down from the largest. */
static bool fails_with_less(call f, const uint8_t *from, size_t from_len, size_t needed) {
    size_t step = 1 + needed / 256, room;
    bool fails = true;
    for (room = needed - 1; fails; room -= step) {
        struct dnstext_outcome outcome;
        uint8_t *to = (uint8_t *)malloc(room != 0 ? room : 1);
        fails = f(from, from_len, to, room, &outcome) == DNSTEXT_NO_ROOM && outcome.length == needed;
        free(to);
        if (room < step)
            break;
    }
    return fails;
}

/* Returns the output of a call, in memory of the exact size. Sets `note` if the call succeeds with less, or
 * fails with the size that it asked for. */
static uint8_t *sized_output_of(call f, const uint8_t *from, size_t from_len, uint32_t *status,
                                size_t *length, const char **note) {
    struct dnstext_outcome outcome = {0, 0};
    size_t needed;
    uint8_t *to;
    *status = f(from, from_len, NULL, 0, &outcome);
    needed = *status == DNSTEXT_NO_ROOM ? outcome.length : 0;
    to = (uint8_t *)malloc(needed != 0 ? needed : 1);
    if (needed != 0 && !fails_with_less(f, from, from_len, needed))
        *note = "the call succeeds in a smaller buffer, or needs another length there";
    *status = f(from, from_len, to, needed, &outcome);
    *length = outcome.length;
    if (*status == DNSTEXT_NO_ROOM || outcome.length != (*status == DNSTEXT_OK ? needed : 0))
        *note = "the call fails with the size that it asked for";
    return to;
}

static void answer_by(call f, const char *input) {
    const char *note = NULL;
    size_t from_len, length;
    uint32_t status;
    uint8_t *from = octets_of(input, &from_len);
    uint8_t *to = sized_output_of(f, from, from_len, &status, &length, &note);
    if (status != DNSTEXT_OK)
        refuse();
    else
        add_octets(to, length);
    free(from);
    free(to);
    judge_row(note);
}

/* Calls that parse a number. */
typedef uint32_t (*number_call)(const uint8_t *, size_t, uint32_t *, struct dnstext_outcome *);

static uint32_t type_read(const uint8_t *text, size_t text_len, uint32_t *number,
                          struct dnstext_outcome *outcome) {
    uint16_t code = 0;
    uint32_t status = dnstext_type_read(text, text_len, &code, outcome);
    *number = code;
    return status;
}

static uint32_t class_read(const uint8_t *text, size_t text_len, uint32_t *number,
                           struct dnstext_outcome *outcome) {
    uint16_t code = 0;
    uint32_t status = dnstext_class_read(text, text_len, &code, outcome);
    *number = code;
    return status;
}

static const struct {
    const char *name;
    number_call f;
} numbers[] = {
    {"kinds.ttl", dnstext_ttl_read},
    {"kinds.type", type_read},
    {"kinds.class", class_read},
};

/* The number, or the message of the error. */
static void answer_number(number_call f, const char *input) {
    struct dnstext_outcome outcome = {7, 7};
    size_t length;
    uint32_t number = 0;
    uint8_t *text = octets_of(input, &length);
    uint32_t status = f(text, length, &number, &outcome);
    free(text);
    if (status != DNSTEXT_OK)
        refuse_for(dnstext_status_message(status));
    else
        add_number(number);
    judge_row(outcome.length != 0 || outcome.place != 0 ? "a length or an offset is not 0" : NULL);
}

/* Line and column of an offset. */
static void answer_position(const char *input, const char *place) {
    size_t length, line_number = 0, column = 0;
    uint8_t *text = octets_of(input, &length);
    uint32_t status = dnstext_position(text, length, strtoul(place, NULL, 10), &line_number, &column);
    free(text);
    if (status != DNSTEXT_OK) {
        refuse();
    } else {
        add_number(line_number);
        add_text(":");
        add_number(column);
    }
    judge_row(NULL);
}

/* ---- Symbols, by calls that parse and print character strings. */

/* The kind and the text of the first symbol, and the number of its octets: the shortest prefix that is
 * complete. Or an error. */
static void add_symbol(const uint8_t *octets, size_t length, size_t *taken) {
    static const char *const kinds[] = {"character ", "simple ", "decimal "};
    uint32_t status = DNSTEXT_SHORT_INPUT;
    struct dnstext_outcome outcome = {0, 0};
    uint8_t octet;
    for (*taken = 1; *taken <= length; ++*taken) {
        uint8_t *part = copy_of(octets, *taken);
        status = dnstext_charstr_read(part, *taken, &octet, 1, &outcome);
        free(part);
        if (status != DNSTEXT_SHORT_INPUT)
            break;
    }
    if (status != DNSTEXT_OK && status != DNSTEXT_BAD_SYMBOL) {
        refuse_for(dnstext_status_message(status));
        return;
    }
    add_text(kinds[octets[0] != '\\' ? 0 : *taken == 2 ? 1 : 2]);
    add_octets(octets, *taken);
}

/* The symbol at an offset, and the offset after it; none at the end and after it. */
static void answer_symbol_at(const char *input, const char *place) {
    size_t length, at = strtoul(place, NULL, 10), taken;
    uint8_t *octets = octets_of(input, &length);
    if (at < length) {
        add_symbol(octets + at, length - at, &taken);
        if (!is_refused) {
            add_text(" ");
            add_number(at + taken);
        }
    } else {
        struct dnstext_outcome outcome = {7, 7};
        bool is_empty = dnstext_charstr_read(octets + length, 0, NULL, 0, &outcome) == DNSTEXT_OK;
        add_text(is_empty && outcome.length == 0 ? "none" : "a symbol of no octets");
    }
    free(octets);
    judge_row(NULL);
}

/* The first symbol, and the text after it. Errors of `symbol.first` have other messages, and skip other
 * octets. */
static bool answer_first(const char *input) {
    size_t length, taken;
    uint8_t *octets = octets_of(input, &length);
    bool is_there = length != 0 && *row_wanted() != '!';
    if (is_there) {
        add_symbol(octets, length, &taken);
        add_text("|");
        add_octets(octets + taken, taken <= length ? length - taken : 0);
        judge_row(NULL);
    }
    free(octets);
    return is_there;
}

/* The octet of a symbol, or an error if it has none. */
static void answer_symbol_octet(const char *input) {
    struct dnstext_outcome outcome = {0, 0};
    size_t length;
    uint8_t *text = octets_of(input, &length), octet = 0;
    if (dnstext_charstr_read(text, length, &octet, 1, &outcome) != DNSTEXT_OK)
        refuse();
    else
        add_number(octet);
    free(text);
    judge_row(NULL);
}

/* The content of a quoted string. */
static const char *add_quoted(const uint8_t *octets, size_t length) {
    const char *note = NULL;
    size_t printed_len;
    uint32_t status;
    uint8_t *printed =
        sized_output_of(dnstext_charstr_print_quoted, octets, length, &status, &printed_len, &note);
    if (status != DNSTEXT_OK || printed_len < 2 || printed[0] != '"' || printed[printed_len - 1] != '"')
        note = "no double quotes";
    else
        add_octets(printed + 1, printed_len - 2);
    free(printed);
    return note;
}

static bool answer_quoted(const char *input) {
    size_t length;
    uint8_t *octets = octets_of(input, &length);
    bool is_short = length <= 255;
    if (is_short)
        judge_row(add_quoted(octets, length));
    free(octets);
    return is_short;
}

static void add_printed(call f, const uint8_t *octets, size_t length, const char **note) {
    size_t printed_len;
    uint32_t status;
    uint8_t *printed = sized_output_of(f, octets, length, &status, &printed_len, note);
    add_octets(printed, status == DNSTEXT_OK ? printed_len : 0);
    free(printed);
}

/* An octet as a plain, a quoted and an unquoted symbol. */
static void answer_from_octet(const char *input) {
    const char *note = NULL;
    size_t length;
    uint8_t *octets = octets_of(input, &length);
    add_printed(dnstext_charstr_print, octets, length, &note);
    add_text("|");
    note = note != NULL ? note : add_quoted(octets, length);
    add_text("|");
    add_printed(dnstext_charstr_print_unquoted, octets, length, &note);
    free(octets);
    judge_row(note);
}

/* A label, as a relative name. */
static void answer_label(const char *input) {
    const char *note = NULL;
    size_t length;
    uint8_t name[256], *octets = octets_of(input, &length);
    if (length > 63) {
        note = "a long label";
    } else if (length != 0) {
        name[0] = (uint8_t)length;
        memcpy(name + 1, octets, length);
        add_printed(dnstext_name_print, name, length + 1, &note);
    }
    free(octets);
    judge_row(note);
}

/* ---- RDATA. */

static uint16_t code_of(const char *name) {
    uint16_t code = 0;
    struct dnstext_outcome outcome;
    size_t length;
    uint8_t *text = octets_of(name, &length);
    dnstext_type_read(text, length, &code, &outcome);
    free(text);
    return code;
}

static uint16_t data_code;
static const uint8_t *data_origin;
static size_t data_origin_len;

static uint32_t data_read(const uint8_t *text, size_t text_len, uint8_t *octets, size_t octets_len,
                          struct dnstext_outcome *outcome) {
    return dnstext_data_read(data_code, text, text_len, data_origin, data_origin_len, octets, octets_len,
                             outcome);
}

static uint32_t data_print(const uint8_t *octets, size_t octets_len, uint8_t *text, size_t text_len,
                           struct dnstext_outcome *outcome) {
    return dnstext_data_print(data_code, octets, octets_len, text, text_len, outcome);
}

/* The most characters of a message. */
enum { MESSAGE = 255 };

/* Returns the output of a call in memory of the exact size, or its message. Sets `note` if the call succeeds
 * with less. */
static uint8_t *output_of(call f, const uint8_t *from, size_t from_len, uint32_t *status,
                          struct dnstext_outcome *outcome, const char **note) {
    size_t room = MESSAGE;
    uint8_t *to;
    *status = f(from, from_len, NULL, 0, outcome);
    if (*status == DNSTEXT_NO_ROOM || *status == DNSTEXT_OK)
        room = outcome->length;
    to = (uint8_t *)malloc(room != 0 ? room : 1);
    if (*status == DNSTEXT_NO_ROOM && !fails_with_less(f, from, from_len, room))
        *note = "the call succeeds in a smaller buffer, or needs another length there";
    *status = f(from, from_len, to, room, outcome);
    return to;
}

/* Returns the text of RDATA, or NULL. Sets `note` if the text parses to other RDATA. */
static uint8_t *text_of(const uint8_t *octets, size_t length, size_t *text_len, const char **note) {
    struct dnstext_outcome printed, read;
    uint32_t status, again;
    uint8_t *text = output_of(data_print, octets, length, &status, &printed, note), *back;
    if (status != DNSTEXT_OK) {
        free(text);
        return NULL;
    }
    *text_len = printed.length;
    back = output_of(data_read, text, printed.length, &again, &read, note);
    if (again != DNSTEXT_OK || read.length != length || memcmp(back, octets, length) != 0)
        *note = "the text parses to other RDATA";
    free(back);
    return text;
}

/* A row of `data`, `data.why` or `data.print`: a type, a text, an origin, and the RDATA, the error with its
 * offset, or the text of the RDATA. The default origin is `example.`; an empty field means without origin. */
static void answer_data(const char *name) {
    static const char example[] = "%07example%00";
    const char *note = NULL;
    struct dnstext_outcome outcome;
    size_t text_len, origin_len, shown_len = 0;
    uint8_t *text = octets_of(row_fields[2], &text_len), *given, *shown;
    uint8_t *origin = octets_of(row_count == 5 ? row_fields[3] : example, &origin_len);
    uint32_t status;
    data_code = code_of(row_fields[1]);
    data_origin = origin;
    data_origin_len = origin_len;
    given = output_of(data_read, text, text_len, &status, &outcome, &note);
    if (status != DNSTEXT_OK && strcmp(name, "data.why") == 0) {
        /* message and offset */
        refuse_for("");
        add_octets(given, outcome.length);
        add_text("|");
        add_number(outcome.place);
    } else if (status != DNSTEXT_OK) {
        refuse();
    } else {
        shown = text_of(given, outcome.length, &shown_len, &note);
        if (shown == NULL)
            note = "the RDATA cannot be printed";
        else if (strcmp(name, "data.print") == 0)
            add_octets(shown, shown_len);
        else
            add_octets(given, outcome.length);
        free(shown);
    }
    free(text);
    free(origin);
    free(given);
    judge_row(note);
}

/* A row of `record.wire`: a type and octets, and the same octets or an error. */
static void answer_wire(void) {
    const char *note = NULL;
    size_t length, shown_len;
    uint8_t *octets = octets_of(row_fields[2], &length), *shown;
    data_code = code_of(row_fields[1]);
    data_origin = NULL;
    data_origin_len = 0;
    shown = text_of(octets, length, &shown_len, &note);
    if (shown == NULL)
        refuse();
    else
        add_octets(octets, length);
    free(shown);
    free(octets);
    judge_row(note);
}

static uint32_t data_canonical(const uint8_t *octets, size_t octets_len, uint8_t *form, size_t form_len,
                               struct dnstext_outcome *outcome) {
    return dnstext_data_canonical(data_code, octets, octets_len, form, form_len, outcome);
}

/* Returns RDATA of the type and the text in two fields, in canonical form. The origin is `example.`. */
static uint8_t *canonical_of(char **fields, uint32_t *status, size_t *form_len, const char **note) {
    static const uint8_t example[] = "\7example";
    struct dnstext_outcome outcome;
    size_t text_len;
    uint8_t *text = octets_of(fields[1], &text_len), *octets, *form = NULL;
    data_code = code_of(fields[0]);
    data_origin = example;
    data_origin_len = sizeof example;
    octets = output_of(data_read, text, text_len, status, &outcome, note);
    if (*status == DNSTEXT_OK)
        form = sized_output_of(data_canonical, octets, outcome.length, status, form_len, note);
    free(text);
    free(octets);
    return form;
}

/* Returns a name in lower case: PTR has one. */
static uint8_t *lowered_name(const char *field, uint32_t *status, size_t *length, const char **note) {
    uint8_t *name = octets_of(field, length), *form;
    data_code = 12;
    form = sized_output_of(data_canonical, name, *length, status, length, note);
    free(name);
    return form;
}

static void add_big_endian(size_t number, unsigned octets) {
    while (octets-- != 0) {
        uint8_t octet = (uint8_t)(number >> 8 * octets);
        add_octets(&octet, 1);
    }
}

/* A row of `record.canonical`: owner, TTL, class, type and text of the RDATA, and the record in canonical
 * form (RFC 4034 section 6.2). */
static void answer_canonical(void) {
    const char *note = NULL;
    size_t owner_len, form_len = 0;
    uint32_t status, of_owner;
    uint8_t *owner = lowered_name(row_fields[1], &of_owner, &owner_len, &note);
    uint8_t *form = canonical_of(row_fields + 4, &status, &form_len, &note);
    if (status != DNSTEXT_OK || of_owner != DNSTEXT_OK) {
        refuse();
    } else {
        add_octets(owner, owner_len);
        add_big_endian(data_code, 2);
        add_big_endian(strtoul(row_fields[3], NULL, 10), 2);
        add_big_endian(strtoul(row_fields[2], NULL, 10), 4);
        add_big_endian(form_len, 2);
        add_octets(form, form_len);
    }
    free(owner);
    free(form);
    judge_row(note);
}

/* The order of octets as unsigned numbers: the beginning of others is less than they are. */
static int order_of(const uint8_t *left, size_t left_len, const uint8_t *right, size_t right_len) {
    int order = memcmp(left, right, left_len < right_len ? left_len : right_len);
    return order != 0 ? order : (left_len > right_len) - (left_len < right_len);
}

/* A row of `record.compare`: two records, and their order (RFC 4034 section 6.3). Returns false if their
 * owners differ, whose order the library does not tell. */
static bool answer_compare(void) {
    const char *note = NULL;
    size_t lengths[4];
    uint32_t statuses[4];
    uint16_t codes[2];
    uint8_t *octets[4];
    unsigned long classes[2];
    size_t i;
    bool is_answered;
    for (i = 0; i < 2; i++) {
        char **fields = row_fields + 1 + 5 * i;
        octets[i] = lowered_name(fields[0], &statuses[i], &lengths[i], &note);
        octets[2 + i] = canonical_of(fields + 3, &statuses[2 + i], &lengths[2 + i], &note);
        codes[i] = data_code;
        classes[i] = strtoul(fields[2], NULL, 10);
    }
    is_answered = order_of(octets[0], lengths[0], octets[1], lengths[1]) == 0;
    if (is_answered) {
        int order = (classes[0] > classes[1]) - (classes[0] < classes[1]);
        if (order == 0)
            order = (codes[0] > codes[1]) - (codes[0] < codes[1]);
        if (order == 0)
            order = order_of(octets[2], lengths[2], octets[3], lengths[3]);
        add_text(order < 0 ? "less" : order > 0 ? "greater" : "equal");
        for (i = 0; i < 4; i++)
            if (statuses[i] != DNSTEXT_OK)
                note = "a name or RDATA is refused";
        judge_row(note);
    }
    for (i = 0; i < 4; i++)
        free(octets[i]);
    return is_answered;
}

/* A row of `class.print`: a class and its text. */
static void answer_class(const char *number) {
    uint8_t printed[16];
    struct dnstext_outcome outcome;
    if (dnstext_class_print((uint16_t)strtoul(number, NULL, 10), printed, sizeof printed, &outcome) !=
        DNSTEXT_OK)
        refuse();
    else
        add_octets(printed, outcome.length);
    judge_row(NULL);
}

static void remember(const char *name) {
    size_t i;
    for (i = 0; i < unknowns; i++)
        if (strcmp(unknown[i], name) == 0)
            return;
    if (unknowns < CALLS && strlen(name) < sizeof *unknown)
        strcpy(unknown[unknowns++], name);
}

/* Answers a row of one input. Returns false if the library has no equivalent call. */
static bool answer_one(const char *name, const char *input) {
    static const struct {
        const char *name;
        void (*f)(const char *);
    } calls[] = {
        {"symbol.octet", answer_symbol_octet},
        {"symbol.from_octet", answer_from_octet},
        {"symbol.is_word_char", answer_is_token},
        {"label.plain", answer_label},
        {"zone.is_token", answer_is_token},
        {"zone.split", answer_split},
        {"class.print", answer_class},
        {"tape.fill", answer_tape},
    };
    size_t i;
    for (i = 0; i < sizeof known / sizeof *known; i++)
        if (strcmp(known[i].name, name) == 0) {
            size_t length;
            free(octets_of(input, &length));
            if (length > known[i].longest)
                return false;
            answer_by(known[i].f, input);
            return true;
        }
    for (i = 0; i < sizeof numbers / sizeof *numbers; i++)
        if (strcmp(numbers[i].name, name) == 0) {
            answer_number(numbers[i].f, input);
            return true;
        }
    for (i = 0; i < sizeof calls / sizeof *calls; i++)
        if (strcmp(calls[i].name, name) == 0) {
            calls[i].f(input);
            return true;
        }
    return false;
}

/* Answers the last row that was read. Returns false if the library has no equivalent call. */
static bool answer_row(void) {
    char **fields = row_fields;
    const char *name = fields[0];
    begin_answer();
    if (strcmp(name, "symbol.quoted") == 0 && row_count == 3)
        return answer_quoted(fields[1]);
    if (strcmp(name, "symbol.first") == 0 && row_count == 3)
        return answer_first(fields[1]);
    /* A plain backslash is not possible in a text. */
    if (strcmp(name, "symbol.is_plain_word_char") == 0 && row_count == 3 && strcmp(fields[1], "\\") != 0) {
        answer_is_token(fields[1]);
        return true;
    }
    /* test_records has another call with this name. */
    if (strcmp(name, "zone.pieces") == 0 && row_count == 3 && strstr(row_file, "test_rows") != NULL) {
        answer_pieces(fields[1]);
        return true;
    }
    /* A text that ends in a CR has a syntax error of its own. */
    if (strcmp(name, "zone.open") == 0 && row_count == 3 && strstr(fields[1], "%0D") == NULL) {
        answer_open(fields[1]);
        return true;
    }
    if (row_count == 3 && answer_one(name, fields[1]))
        return true;
    if (row_count == 4 && strcmp(name, "symbol.at") == 0) {
        answer_symbol_at(fields[1], fields[2]);
        return true;
    }
    if (row_count >= 4 && row_count % 2 == 0 && strcmp(name, "zone.tally") == 0) {
        answer_tally(fields + 1, row_count - 2);
        return true;
    }
    if (row_count == 4 && strcmp(name, "zone.position") == 0) {
        answer_position(fields[1], fields[2]);
        return true;
    }
    if (row_count == 6 && strcmp(name, "zone.next") == 0) {
        answer_next(fields);
        return true;
    }
    if ((row_count == 4 || row_count == 5) &&
        (strcmp(name, "data") == 0 || strcmp(name, "data.why") == 0 || strcmp(name, "data.print") == 0)) {
        answer_data(name);
        return true;
    }
    if (row_count == 7 && strcmp(name, "record.canonical") == 0) {
        answer_canonical();
        return true;
    }
    if (row_count == 12 && strcmp(name, "record.compare") == 0)
        return answer_compare();
    if (row_count == 4 && strcmp(name, "record.wire") == 0) {
        answer_wire();
        return true;
    }
    return false;
}

int main(int count, char **words) {
    size_t i;
    read_words(count, words);
    while (next_row())
        if (!answer_row())
            remember(row_fields[0]);
    fprintf(lists_rows ? stderr : stdout,
            "rows: %lu agree, %lu differ; calls that are not answered, or not for all inputs:",
            rows_answered - rows_differ, rows_differ);
    for (i = 0; i < unknowns; i++)
        fprintf(lists_rows ? stderr : stdout, " %s", unknown[i]);
    fprintf(lists_rows ? stderr : stdout, "\n");
    return rows_differ != 0 || rows_answered == 0;
}
