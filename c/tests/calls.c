/* Each call with buffers from none to ample, and each status; data.c has the calls for RDATA. */
#define TESTS "tests/calls.c"
#include "expect.h"

static void strings(void) {
    uint8_t long_string[256], zeros[256], zeros_text[1022];
    size_t i;
    memset(long_string, 'x', sizeof long_string);
    memset(zeros, 0, sizeof zeros);
    for (i = 0; i < 255; i++)
        memcpy(zeros_text + 1 + 4 * i, "\\000", 4);
    zeros_text[0] = zeros_text[1021] = '"';
    GIVES(dnstext_charstr_read, "foo\\112", "foop");
    GIVES(dnstext_charstr_read, "f\\o\\o\\;", "foo;");
    GIVES(dnstext_charstr_read, "a", "a");
    GIVES(dnstext_charstr_read, "f\\;\\\"", "f;\"");
    GIVES(dnstext_charstr_read, "", "");
    gives(dnstext_charstr_read, long_string, 255, long_string, 255, __LINE__);
    REFUSES(dnstext_charstr_read, "a\\25x", DNSTEXT_BAD_ESCAPE, 1);
    REFUSES(dnstext_charstr_read, "a\\256", DNSTEXT_BAD_ESCAPE, 1);
    REFUSES(dnstext_charstr_read, "ab\\25", DNSTEXT_SHORT_INPUT, 2);
    REFUSES(dnstext_charstr_read, "abc\xC3", DNSTEXT_SHORT_INPUT, 3);
    /* clang-format off */
    REFUSES(dnstext_charstr_read, "\xFF" "abc", DNSTEXT_BAD_UTF8, 0);
    /* clang-format on */
    REFUSES(dnstext_charstr_read, "abc\xFFz", DNSTEXT_BAD_UTF8, 3);
    REFUSES(dnstext_charstr_read, "ab\xC3\xA9", DNSTEXT_BAD_SYMBOL, 2);
    REFUSES(dnstext_charstr_read, "a\tb", DNSTEXT_BAD_SYMBOL, 1);
    REFUSES(dnstext_charstr_read, "abcd\xC3\xA9", DNSTEXT_BAD_SYMBOL, 4);
    refuses(dnstext_charstr_read, long_string, 256, DNSTEXT_TOO_LONG, 255, __LINE__);
    GIVES(dnstext_charstr_read_octets, "a\tb", "a\tb");
    /* clang-format off */
    GIVES(dnstext_charstr_read_octets, "\x80" "abc\xC3\xFF", "\x80" "abc\xC3\xFF");
    GIVES(dnstext_charstr_read_octets, "\\\tb\\\xFF" "\\\\\\\"\\255\\0097", "\tb\xFF" "\\\"\xFF\t" "7");
    /* clang-format on */
    GIVES(dnstext_charstr_read_octets, "\n\r\0", "\n\r\0");
    GIVES(dnstext_charstr_read_octets, "", "");
    gives(dnstext_charstr_read_octets, zeros, 255, zeros, 255, __LINE__);
    gives(dnstext_charstr_read_octets, zeros_text + 1, 1020, zeros, 255, __LINE__);
    REFUSES(dnstext_charstr_read_octets, "\tb\\25x", DNSTEXT_BAD_ESCAPE, 2);
    REFUSES(dnstext_charstr_read_octets, "\xFF\\256", DNSTEXT_BAD_ESCAPE, 1);
    /* clang-format off */
    REFUSES(dnstext_charstr_read_octets, "a\\2\xFF" "1", DNSTEXT_BAD_ESCAPE, 1);
    /* clang-format on */
    REFUSES(dnstext_charstr_read_octets, "ab\\25", DNSTEXT_SHORT_INPUT, 2);
    REFUSES(dnstext_charstr_read_octets, "ab\\", DNSTEXT_SHORT_INPUT, 2);
    refuses(dnstext_charstr_read_octets, zeros, 256, DNSTEXT_TOO_LONG, 255, __LINE__);
    GIVES(dnstext_charstr_print, "f\"o;\\\n", "f\"o;\\\\\\010");
    GIVES(dnstext_charstr_print, "a\\", "a\\\\");
    GIVES(dnstext_charstr_print_quoted, "f\"o;", "\"f\\\"o;\"");
    GIVES(dnstext_charstr_print_quoted, "f\"o;\\", "\"f\\\"o;\\\\\"");
    GIVES(dnstext_charstr_print_quoted, "", "\"\"");
    gives(dnstext_charstr_print_quoted, zeros, 255, zeros_text, 1022, __LINE__);
    GIVES(dnstext_charstr_print_unquoted, "f\"o;", "f\\\"o\\;");
    GIVES(dnstext_charstr_print_unquoted, "f\"o;(", "f\\\"o\\;\\(");
    GIVES(dnstext_charstr_print_unquoted, " ", "\\ ");
    refuses(dnstext_charstr_print, zeros, 256, DNSTEXT_TOO_LONG, 255, __LINE__);
    refuses(dnstext_charstr_print, long_string, 256, DNSTEXT_TOO_LONG, 255, __LINE__);
    refuses(dnstext_charstr_print_quoted, long_string, 256, DNSTEXT_TOO_LONG, 255, __LINE__);
    refuses(dnstext_charstr_print_unquoted, long_string, 256, DNSTEXT_TOO_LONG, 255, __LINE__);
}

/* Whether dnstext_name_read must report an absolute name, a relative one or nothing; and the line of the
 * row that expects it. */
enum { RELATIVE, ABSOLUTE, UNTOLD };
static int absolute;
static int row;

static uint32_t read_name(const uint8_t *text, size_t text_len, uint8_t *name, size_t name_len,
                          struct dnstext_outcome *outcome) {
    bool is_absolute = absolute == RELATIVE, was = is_absolute;
    uint32_t status = dnstext_name_read(text, text_len, name, name_len, &is_absolute, outcome);
    expect(is_absolute == (absolute == UNTOLD ? was : absolute == ABSOLUTE), "is_absolute", row);
    was = is_absolute = absolute != RELATIVE;
    dnstext_name_read(text, text_len, name, name_len, &is_absolute, outcome);
    expect(is_absolute == (absolute == UNTOLD ? was : absolute == ABSOLUTE), "is_absolute", row);
    return status;
}

static void named(const uint8_t *text, size_t text_len, const uint8_t *name, size_t name_len, int is_absolute,
                  int line) {
    absolute = is_absolute;
    row = line;
    gives(read_name, text, text_len, name, name_len, line);
}
#define NAMED(text, name, is_absolute) named(BYTES(text), BYTES(name), is_absolute, __LINE__)

static void unnamed(const uint8_t *text, size_t text_len, uint32_t status, size_t place, int line) {
    absolute = UNTOLD;
    row = line;
    refuses(read_name, text, text_len, status, place, line);
}
#define UNNAMED(text, status, place) unnamed(BYTES(text), status, place, __LINE__)

static void names(void) {
    uint8_t long_text[256], long_name[255], longest[254], zeros[256];
    size_t i;
    NAMED("F.ISI.ARPA.", "\1F\3ISI\4ARPA\0", 1);
    NAMED("F.ISI.ARPA", "\1F\3ISI\4ARPA", 0);
    NAMED("a", "\1a", 0);
    NAMED("", "", 0);
    NAMED(".", "\0", 1);
    NAMED("Action\\.domains", "\16Action.domains", 0);
    NAMED("Donald\\032E\\.\\032Eastlake\\0323rd.example.", "\26Donald E. Eastlake 3rd\7example\0", 1);
    UNNAMED("..a", DNSTEXT_EMPTY_LABEL, 0);
    UNNAMED("a..b", DNSTEXT_EMPTY_LABEL, 2);
    UNNAMED("a.\\[b", DNSTEXT_BINARY_LABEL, 2);
    UNNAMED("ab\xC3\xA9", DNSTEXT_BAD_SYMBOL, 2);
    UNNAMED("ab\xFFz", DNSTEXT_BAD_UTF8, 2);
    UNNAMED("a.\\25x", DNSTEXT_BAD_ESCAPE, 2);
    UNNAMED("a.\\25", DNSTEXT_SHORT_INPUT, 2);
    memset(long_text, 'a', sizeof long_text);
    unnamed(long_text, 64, DNSTEXT_LONG_LABEL, 63, __LINE__);
    for (i = 0; i < 128; i++) {
        long_text[2 * i + 1] = '.';
        if (i < 127) {
            long_name[2 * i] = longest[2 * i] = 1;
            long_name[2 * i + 1] = longest[2 * i + 1] = 'a';
        }
    }
    long_name[254] = 0;
    named(long_text, 254, long_name, 255, 1, __LINE__);
    named(long_text, 253, longest, 254, 0, __LINE__);
    unnamed(long_text, 256, DNSTEXT_TOO_LONG, 254, __LINE__);
    gives(dnstext_name_print_dotted, long_name, 255, long_text, 254, __LINE__);
    gives(dnstext_name_print, longest, 254, long_text, 253, __LINE__);

    GIVES(dnstext_name_print, "\1F\3ISI\4ARPA\0", "F.ISI.ARPA");
    GIVES(dnstext_name_print_dotted, "\1F\3ISI\4ARPA\0", "F.ISI.ARPA.");
    GIVES(dnstext_name_print_zone, "\1F\3ISI\4ARPA\0", "F.ISI.ARPA.");
    GIVES(dnstext_name_print_dotted, "\1F\3ISI\4ARPA", "F.ISI.ARPA");
    GIVES(dnstext_name_print, "\0", ".");
    GIVES(dnstext_name_print_dotted, "\0", ".");
    GIVES(dnstext_name_print_zone, "\0", ".");
    GIVES(dnstext_name_print, "", "");
    GIVES(dnstext_name_print_dotted, "", "");
    GIVES(dnstext_name_print_zone, "", "");
    GIVES(dnstext_name_print, "\5a;(.\n", "a;(\\.\\010");
    GIVES(dnstext_name_print_zone, "\5a;(.\n", "a\\;\\(\\.\\010");
    GIVES(dnstext_name_print_zone, "\4\"$)@\2\\/\3 \xC3\xA9\0", "\\\"\\$\\)\\@.\\\\/.\\032\\195\\169.");
    REFUSES(dnstext_name_print, "\2a", DNSTEXT_SHORT_INPUT, 0);
    /* clang-format off */
    REFUSES(dnstext_name_print_dotted, "\1a\0" "b", DNSTEXT_TRAILING_OCTETS, 0);
    REFUSES(dnstext_name_print_zone, "\1a\xC0\x0C", DNSTEXT_POINTER, 0);
    REFUSES(dnstext_name_print_zone, "\x80" "a", DNSTEXT_BAD_LABEL, 0);
    /* clang-format on */
    refuses(dnstext_name_print, long_text, 256, DNSTEXT_TOO_LONG, 0, __LINE__);
    memset(zeros, 0, sizeof zeros);
    refuses(dnstext_name_print_zone, zeros, 256, DNSTEXT_TOO_LONG, 0, __LINE__);
}

/* A word with the origin. */
static const uint8_t *word_origin;
static size_t word_origin_len;

static uint32_t read_word(const uint8_t *text, size_t text_len, uint8_t *name, size_t name_len,
                          struct dnstext_outcome *outcome) {
    return dnstext_name_read_octets(text, text_len, word_origin, word_origin_len, name, name_len, outcome);
}

static void words(void) {
    uint8_t label[64], long_text[256], long_name[255];
    size_t i;
    word_origin = (const uint8_t *)"\7Example", word_origin_len = 9;
    GIVES(read_word, "@", "\7Example\0");
    GIVES(read_word, ".", "\0");
    GIVES(read_word, "w", "\1w\7Example\0");
    GIVES(read_word, "w.A.", "\1w\1A\0");
    GIVES(read_word, "\xC3\xA9.\\.\\032\x01", "\2\xC3\xA9\3. \1\7Example\0");
    GIVES(read_word, "\\@.\\;\\ \\\"", "\1@\3; \"\7Example\0");
    GIVES(read_word, "$a", "\2$a\7Example\0");
    REFUSES(read_word, "", DNSTEXT_BAD_NAME, 0);
    REFUSES(read_word, " ", DNSTEXT_BAD_NAME, 0);
    REFUSES(read_word, " w", DNSTEXT_BAD_NAME, 0);
    REFUSES(read_word, "w ", DNSTEXT_BAD_NAME, 0);
    REFUSES(read_word, "w\n", DNSTEXT_BAD_NAME, 0);
    REFUSES(read_word, "a b", DNSTEXT_BAD_NAME, 0);
    REFUSES(read_word, "\"w\"", DNSTEXT_BAD_NAME, 0);
    REFUSES(read_word, "w;", DNSTEXT_BAD_NAME, 0);
    REFUSES(read_word, ";", DNSTEXT_BAD_NAME, 0);
    REFUSES(read_word, "(w)", DNSTEXT_BAD_NAME, 0);
    REFUSES(read_word, ")", DNSTEXT_BAD_NAME, 0);
    REFUSES(read_word, "w\\", DNSTEXT_BAD_ESCAPE, 0);
    REFUSES(read_word, "w\\25", DNSTEXT_BAD_ESCAPE, 0);
    REFUSES(read_word, "w\\2x.", DNSTEXT_BAD_ESCAPE, 0);
    REFUSES(read_word, "w\\256.", DNSTEXT_BAD_ESCAPE, 0);
    REFUSES(read_word, ".w", DNSTEXT_EMPTY_LABEL, 0);
    REFUSES(read_word, "a..b", DNSTEXT_EMPTY_LABEL, 0);
    memset(label, 'a', sizeof label);
    refuses(read_word, label, 64, DNSTEXT_LONG_LABEL, 0, __LINE__);
    for (i = 0; i < 128; i++)
        long_text[2 * i] = 'a', long_text[2 * i + 1] = '.';
    for (i = 0; i < 123; i++)
        long_name[2 * i] = 1, long_name[2 * i + 1] = 'a';
    memcpy(long_name + 246, "\7Example", 9);
    gives(read_word, long_text, 245, long_name, 255, __LINE__);
    refuses(read_word, long_text, 247, DNSTEXT_TOO_LONG, 0, __LINE__);
    refuses(read_word, long_text, 256, DNSTEXT_TOO_LONG, 0, __LINE__);
    word_origin_len = 0;
    GIVES(read_word, "w.", "\1w\0");
    REFUSES(read_word, "w", DNSTEXT_NO_ORIGIN, 0);
    REFUSES(read_word, "@", DNSTEXT_NO_ORIGIN, 0);
    word_origin_len = 8;
    REFUSES(read_word, "w.", DNSTEXT_RELATIVE_NAME, 0);
    word_origin_len = 7;
    REFUSES(read_word, "", DNSTEXT_SHORT_INPUT, 0);
}

static void forms(void) {
    uint8_t zeros[256];
    memset(zeros, 0, sizeof zeros);
    /* 'A' and 'Z' are also lengths: of 65 octets and more, which no label has. */
    GIVES(dnstext_name_canonical, "\4A@[Z\3az\xC4\0", "\4a@[z\3az\xC4\0");
    GIVES(dnstext_name_canonical, "\1A", "\1a");
    GIVES(dnstext_name_canonical, "\0", "\0");
    GIVES(dnstext_name_canonical, "", "");
    REFUSES(dnstext_name_canonical, "\2A", DNSTEXT_SHORT_INPUT, 0);
    REFUSES(dnstext_name_canonical, "\1A\xC0\0", DNSTEXT_POINTER, 0);
    REFUSES(dnstext_name_canonical, "AA", DNSTEXT_BAD_LABEL, 0);
    refuses(dnstext_name_canonical, zeros, 256, DNSTEXT_TOO_LONG, 0, __LINE__);
}

static void compares(const uint8_t *a, size_t a_len, const uint8_t *b, size_t b_len, uint32_t status,
                     int32_t wanted, int line) {
    struct dnstext_outcome outcome = {7, 7};
    int32_t order = 9;
    expect(dnstext_name_compare(a, a_len, b, b_len, &order, &outcome) == status, "status", line);
    expect(tells(outcome, 0, 0) && order == wanted, "order", line);
}
#define COMPARES(a, b, order) \
    compares(BYTES(a), BYTES(b), DNSTEXT_OK, order, __LINE__), \
        compares(BYTES(b), BYTES(a), DNSTEXT_OK, -(order), __LINE__)
#define COMPARES_NONE(a, b, status) compares(BYTES(a), BYTES(b), status, 9, __LINE__)

static void ends(const uint8_t *name, size_t name_len, const uint8_t *zone, size_t zone_len, uint32_t status,
                 bool wanted, int line) {
    struct dnstext_outcome outcome = {7, 7};
    bool does = !wanted;
    expect(dnstext_name_ends_with(name, name_len, zone, zone_len, &does, &outcome) == status, "status", line);
    expect(tells(outcome, 0, 0) && does == (status == DNSTEXT_OK ? wanted : !wanted), "does", line);
}
#define ENDS(name, zone, does) ends(BYTES(name), BYTES(zone), DNSTEXT_OK, does, __LINE__)
#define ENDS_NONE(name, zone, status) ends(BYTES(name), BYTES(zone), status, true, __LINE__)

/* RFC 4034 section 6.1 has the first eight names, in order. */
static void orders(void) {
    COMPARES("\7example\0", "\1a\7example\0", -1);
    COMPARES("\1a\7example\0", "\10yljkjljk\1a\7example\0", -1);
    COMPARES("\10yljkjljk\1a\7example\0", "\1Z\1a\7example\0", -1);
    COMPARES("\1Z\1a\7example\0", "\4zABC\1a\7EXAMPLE\0", -1);
    COMPARES("\4zABC\1a\7EXAMPLE\0", "\1z\7example\0", -1);
    COMPARES("\1z\7example\0", "\1\1\1z\7example\0", -1);
    COMPARES("\1\1\1z\7example\0", "\1*\1z\7example\0", -1);
    COMPARES("\1*\1z\7example\0", "\1\310\1z\7example\0", -1);
    COMPARES("\0", "\1a\0", -1);
    COMPARES("\1A\7example\0", "\1a\7EXAMPLE\0", 0);
    COMPARES("\0", "\0", 0);
    COMPARES_NONE("", "\0", DNSTEXT_RELATIVE_NAME);
    COMPARES_NONE("\0", "\1a", DNSTEXT_RELATIVE_NAME);
    COMPARES_NONE("\1", "\1a", DNSTEXT_SHORT_INPUT);
    COMPARES_NONE("\0", "\1a\xC0\x0C", DNSTEXT_POINTER);
    ENDS("\1w\7eXample\0", "\7Example\0", true);
    ENDS("\7example\0", "\7Example\0", true);
    ENDS("\7example\0", "\0", true);
    ENDS("\7example\0", "\1w\7example\0", false);
    ENDS("\1w\7examplf\0", "\7example\0", false);
    ENDS("\11w\7example\0", "\7example\0", false);
    ENDS("\1a\7example", "\7example", true);
    ENDS("\1a\7example\0", "\7example", false);
    ENDS("\7example", "\0", false);
    ENDS("\7example", "", true);
    ENDS("\7example\0", "", true);
    ENDS("\0", "", true);
    ENDS("", "", true);
    ENDS("", "\0", false);
    ENDS("", "\1a", false);
    ENDS_NONE("\1", "\xC0\x0C", DNSTEXT_SHORT_INPUT);
    ENDS_NONE("", "\1a\xC0\x0C", DNSTEXT_POINTER);
}

static void number(const uint8_t *text, size_t length, uint64_t greatest, uint32_t status, uint64_t value,
                   size_t place, int line) {
    struct dnstext_outcome outcome = {7, 7};
    uint64_t found = 7;
    expect(dnstext_number_read(text, length, greatest, &found, &outcome) == status, "status", line);
    expect(found == (status == DNSTEXT_OK ? value : 7), "number", line);
    expect(outcome.length == 0 && outcome.place == place, "length and place", line);
}
#define NUMBER(text, greatest, value) number(BYTES(text), greatest, DNSTEXT_OK, value, 0, __LINE__)
#define UNNUMBERED(text, greatest, status, place) number(BYTES(text), greatest, status, 0, place, __LINE__)

static void numbers(void) {
    number(NULL, 0, 255, DNSTEXT_OK, 0, 0, __LINE__);
    NUMBER("", 255, 0);
    NUMBER("00255", 255, 255);
    NUMBER("65535", 65535, 65535);
    NUMBER("4294967295", UINT32_MAX, UINT32_MAX);
    NUMBER("18446744073709551615", UINT64_MAX, UINT64_MAX);
    NUMBER("0", 0, 0);
    UNNUMBERED("256", 255, DNSTEXT_TOO_GREAT, 2);
    UNNUMBERED("2550", 255, DNSTEXT_TOO_GREAT, 3);
    UNNUMBERED("255x", 255, DNSTEXT_TOO_GREAT, 3);
    UNNUMBERED("1", 0, DNSTEXT_TOO_GREAT, 0);
    UNNUMBERED("18446744073709551616", UINT64_MAX, DNSTEXT_TOO_GREAT, 19);
    UNNUMBERED("12x", 255, DNSTEXT_NO_DIGIT, 2);
    UNNUMBERED("-1", 255, DNSTEXT_NO_DIGIT, 0);
    UNNUMBERED("1\\050", 255, DNSTEXT_NO_DIGIT, 1);
    UNNUMBERED("1\xC3\xA9", 255, DNSTEXT_NO_DIGIT, 1);
    UNNUMBERED("1\\25", 255, DNSTEXT_SHORT_INPUT, 1);
    UNNUMBERED("1\\25x", 255, DNSTEXT_BAD_ESCAPE, 1);
    UNNUMBERED("1\xFFx", 255, DNSTEXT_BAD_UTF8, 1);
}

/* A text that isn't of the encoding. The buffer for its number of characters is required first, and the
 * octets after it are unchanged. */
static void no_text(call f, const uint8_t *from, size_t from_len, size_t wanted, int line) {
    uint8_t memory[32];
    size_t room, i;
    for (room = 0; room <= wanted + 4; room++) {
        struct dnstext_outcome outcome = {7, 7};
        uint32_t status;
        memset(memory, '-', sizeof memory);
        status = run(f, from, from_len, memory, room, &outcome);
        expect(status == (room < wanted ? DNSTEXT_NO_ROOM : DNSTEXT_BAD_ENCODING), "status", line);
        expect(outcome.length == (room < wanted ? wanted : 0), "length", line);
        expect(outcome.place == 0, "place", line);
        for (i = room < wanted ? 0 : wanted; i < sizeof memory; i++)
            expect(memory[i] == '-', "memory", line);
    }
}
#define NO_TEXT(f, text, wanted) no_text(f, BYTES(text), wanted, __LINE__)

/* Many rows are from RFC 4648 section 10. */
static void encodings(void) {
    GIVES(dnstext_base16_print, "foob", "666F6F62");
    GIVES(dnstext_base16_print, "foobar", "666F6F626172");
    GIVES(dnstext_base16_read, "666f6F62", "foob");
    GIVES(dnstext_base16_read, "666F6f626172", "foobar");
    GIVES(dnstext_base16_print, "", "");
    GIVES(dnstext_base16_read, "", "");
    NO_TEXT(dnstext_base16_read, "666", 1);
    NO_TEXT(dnstext_base16_read, "6x", 1);
    GIVES(dnstext_base32hex_print, "foobar", "CPNMUOJ1E8");
    GIVES(dnstext_base32hex_print, "foob", "CPNMUOG");
    GIVES(dnstext_base32hex_read, "cpnmuoj1e8", "foobar");
    GIVES(dnstext_base32hex_read, "cpnmuoj1E8", "foobar");
    GIVES(dnstext_base32hex_read, "CO", "f");
    NO_TEXT(dnstext_base32hex_read, "C", 0);
    NO_TEXT(dnstext_base32hex_read, "CPNMUOJ1E8======", 10);
    GIVES(dnstext_base64_print, "f", "Zg==");
    GIVES(dnstext_base64_print, "fo", "Zm8=");
    GIVES(dnstext_base64_print, "foob", "Zm9vYg==");
    GIVES(dnstext_base64_print, "foobar", "Zm9vYmFy");
    GIVES(dnstext_base64_print, "foobarf", "Zm9vYmFyZg==");
    GIVES(dnstext_base64_read, "Zg==", "f");
    GIVES(dnstext_base64_read, "Zm8=", "fo");
    GIVES(dnstext_base64_read, "Zm9vYmFy", "foobar");
    NO_TEXT(dnstext_base64_read, "Zg=", 1);
    NO_TEXT(dnstext_base64_read, "=Zg=", 1);
    NO_TEXT(dnstext_base64_read, "=g==", 0);
    NO_TEXT(dnstext_base64_read, "Zm9vYmF!", 6);
}

static void ttl(const uint8_t *text, size_t length, uint32_t status, uint32_t seconds, int line) {
    struct dnstext_outcome outcome = {7, 7};
    uint32_t found = 7;
    expect(dnstext_ttl_read(text, length, &found, &outcome) == status, "status", line);
    expect(found == (status == DNSTEXT_OK ? seconds : 7), "seconds", line);
    expect(outcome.length == 0 && outcome.place == 0, "length and place", line);
}
#define TTL(text, seconds) ttl(BYTES(text), DNSTEXT_OK, seconds, __LINE__)
#define NO_TTL(text) ttl(BYTES(text), DNSTEXT_BAD_TTL, 0, __LINE__)

typedef uint32_t (*code_read)(const uint8_t *, size_t, uint16_t *, struct dnstext_outcome *);

static void code(code_read f, const uint8_t *text, size_t length, uint32_t status, uint16_t wanted,
                 int line) {
    struct dnstext_outcome outcome = {7, 7};
    uint16_t found = 7;
    expect(f(text, length, &found, &outcome) == status, "status", line);
    expect(found == (status == DNSTEXT_OK ? wanted : 7), "code", line);
    expect(outcome.length == 0 && outcome.place == 0, "length and place", line);
}
#define TYPE(text, wanted) code(dnstext_type_read, BYTES(text), DNSTEXT_OK, wanted, __LINE__)
#define NO_TYPE(text) code(dnstext_type_read, BYTES(text), DNSTEXT_UNKNOWN_TYPE, 0, __LINE__)
#define CLASS(text, wanted) code(dnstext_class_read, BYTES(text), DNSTEXT_OK, wanted, __LINE__)
#define NO_CLASS(text) code(dnstext_class_read, BYTES(text), DNSTEXT_UNKNOWN_CLASS, 0, __LINE__)

/* The type's number is the two octets of the input, the more significant one first. */
static uint32_t type_print(const uint8_t *octets, size_t octets_len, uint8_t *text, size_t text_len,
                           struct dnstext_outcome *outcome) {
    uint16_t type = (uint16_t)(octets[0] * 256 + octets[octets_len - 1]);
    return dnstext_type_print(type, text, text_len, outcome);
}

static uint32_t class_print(const uint8_t *octets, size_t octets_len, uint8_t *text, size_t text_len,
                            struct dnstext_outcome *outcome) {
    uint16_t type = (uint16_t)(octets[0] * 256 + octets[octets_len - 1]);
    return dnstext_class_print(type, text, text_len, outcome);
}

/* Types and classes of RFC 1035 section 3.2, RFC 3597 section 5 and IANA's registry. */
static void kinds(void) {
    unsigned number;
    TTL("0", 0);
    TTL("3600", 3600);
    TTL("1h30m", 5400);
    TTL("1W2D", 777600);
    TTL("2147483647", 2147483647);
    NO_TTL("2147483648");
    NO_TTL("");
    NO_TTL("1h30");
    NO_TTL("-1");
    NO_TTL("\\049");
    ttl(NULL, 0, DNSTEXT_BAD_TTL, 0, __LINE__);
    TYPE("A", 1);
    TYPE("mx", 15);
    TYPE("NSEC3PARAM", 51);
    TYPE("TYPE65535", 65535);
    TYPE("type1", 1);
    NO_TYPE("TYPE65536");
    NO_TYPE("CNMAE");
    NO_TYPE("");
    code(dnstext_type_read, NULL, 0, DNSTEXT_UNKNOWN_TYPE, 0, __LINE__);
    CLASS("IN", 1);
    CLASS("ch", 3);
    CLASS("CLASS65535", 65535);
    NO_CLASS("CLASS65536");
    NO_CLASS("CHAOS");
    NO_CLASS("IN\0");
    code(dnstext_class_read, NULL, 0, DNSTEXT_UNKNOWN_CLASS, 0, __LINE__);
    GIVES(type_print, "\0\1", "A");
    GIVES(type_print, "\0\x3D", "OPENPGPKEY");
    GIVES(type_print, "\1\1", "CAA");
    GIVES(type_print, "\0\0", "TYPE0");
    GIVES(type_print, "\xFF\0", "TYPE65280");
    GIVES(type_print, "\xFF\xFF", "TYPE65535");
    GIVES(class_print, "\0\1", "IN");
    GIVES(class_print, "\0\4", "HS");
    GIVES(class_print, "\0\xFE", "CLASS254");
    GIVES(class_print, "\xFF\xFF", "CLASS65535");
    for (number = 0; number < 65536; number++) {
        uint8_t text[10];
        struct dnstext_outcome outcome;
        EXPECT(dnstext_type_print((uint16_t)number, text, sizeof text, &outcome) == DNSTEXT_OK);
        code(dnstext_type_read, text, outcome.length, DNSTEXT_OK, (uint16_t)number, __LINE__);
        EXPECT(dnstext_class_print((uint16_t)number, text, sizeof text, &outcome) == DNSTEXT_OK);
        code(dnstext_class_read, text, outcome.length, DNSTEXT_OK, (uint16_t)number, __LINE__);
    }
}

/* The position of an offset, computed directly and from each other offset. */
static void position(const uint8_t *text, size_t length, size_t place, uint32_t status, size_t line,
                     size_t column, int here) {
    size_t found_line = 7, found_column = 7, from;
    expect(dnstext_position(text, length, place, &found_line, &found_column) == status, "status", here);
    expect(found_line == (status == DNSTEXT_OK ? line : 7), "line", here);
    expect(found_column == (status == DNSTEXT_OK ? column : 7), "column", here);
    for (from = 0; from <= length; from++) {
        struct dnstext_position moved = DNSTEXT_POSITION_INIT, was;
        expect(dnstext_position_move(text, length, &moved, from) == DNSTEXT_OK, "status from the start",
               here);
        was = moved;
        expect(dnstext_position_move(text, length, &moved, place) == status, "status from there", here);
        expect(moved.offset == (status == DNSTEXT_OK ? place : from), "offset", here);
        expect(moved.line == (status == DNSTEXT_OK ? line : was.line), "line from there", here);
        expect(moved.column == (status == DNSTEXT_OK ? column : was.column), "column from there", here);
    }
}
#define POSITION(text, place, line, column) position(BYTES(text), place, DNSTEXT_OK, line, column, __LINE__)
#define NO_POSITION(text, place) position(BYTES(text), place, DNSTEXT_BAD_PLACE, 0, 0, __LINE__)

static void positions(void) {
    POSITION("", 0, 1, 1);
    position(NULL, 0, 0, DNSTEXT_OK, 1, 1, __LINE__);
    position(NULL, 0, 1, DNSTEXT_BAD_PLACE, 0, 0, __LINE__);
    POSITION("a\n\nbc\r\n", 1, 1, 2);
    POSITION("a\n\nbc\r\n", 2, 2, 1);
    POSITION("a\n\nbc\r\n", 3, 3, 1);
    POSITION("a\n\nbc\r\n", 6, 3, 4);
    POSITION("a\n\nbc\r\n", 7, 4, 1);
    /* clang-format off */
    POSITION("\xC3\xA9" "b", 2, 1, 3);
    /* clang-format on */
    NO_POSITION("a\n\nbc\r\n", 8);
    NO_POSITION("a", SIZE_MAX);
    {
        /* A position that no call returned may have any numbers. */
        struct dnstext_position any = {1, SIZE_MAX, SIZE_MAX};
        EXPECT(dnstext_position_move(BYTES("a\nb"), &any, 3) == DNSTEXT_OK && any.offset == 3);
        any.offset = SIZE_MAX;
        EXPECT(dnstext_position_move(BYTES("a\nb"), &any, 3) == DNSTEXT_OK);
        EXPECT(any.offset == 3 && any.line == 2 && any.column == 2);
    }
}

static void wrong(const uint8_t *text, size_t length, uint32_t status, size_t place, size_t tokens,
                  int line) {
    size_t room;
    for (room = 0; room <= 4; room++) {
        struct dnstext_token memory[4];
        struct dnstext_cursor cursor = {0, false, false, 5};
        struct dnstext_outcome outcome = {7, 7};
        size_t opened = status == DNSTEXT_OPEN_QUOTE || status == DNSTEXT_OPEN_PARENTHESIS ? 2 : 5;
        expect(dnstext_entry_next(text, length, &cursor, memory, room, &outcome) == status, "status", line);
        expect(outcome.place == place, "place", line);
        expect(outcome.length == (tokens < room ? tokens : room), "length", line);
        expect(cursor.is_done == 1, "cursor", line);
        expect(cursor.opened == opened, "where it was opened", line);
        expect(dnstext_entry_next(text, length, &cursor, memory, room, &outcome) == DNSTEXT_END, "end", line);
        expect(outcome.place == 0 && outcome.length == 0, "place and length of the end", line);
    }
}
#define WRONG(text, status, place, tokens) wrong(BYTES(text), status, place, tokens, __LINE__)

static int is_token(struct dnstext_token token, size_t start, size_t end, bool is_quoted) {
    return token.start == start && token.end == end && token.is_quoted == is_quoted;
}

static void entries(void) {
    static const char whole[] = " one ( \"two\"\n; comment\n) three\n\nlast";
    static const char open[] = "\351\n\351 (b) ( c (d";
    struct dnstext_token tokens[4] = {{9, 9, true}, {9, 9, true}, {9, 9, true}, {9, 9, true}};
    struct dnstext_cursor cursor = DNSTEXT_CURSOR_INIT, past = {3, false, false, 0},
                          next = DNSTEXT_CURSOR_INIT;
    struct dnstext_outcome outcome = {7, 7};
    EXPECT(dnstext_entry_next(BYTES(whole), &cursor, NULL, 0, &outcome) == DNSTEXT_NO_ROOM);
    EXPECT(outcome.length == 3 && cursor.at == 0 && cursor.is_done == 0);
    EXPECT(dnstext_entry_next(BYTES(whole), &cursor, tokens, 2, &outcome) == DNSTEXT_NO_ROOM);
    EXPECT(outcome.length == 3 && cursor.at == 0);
    EXPECT(tokens[0].start == 1 && tokens[0].end == 4 && tokens[1].start == 7);
    EXPECT(is_token(tokens[2], 9, 9, true));
    EXPECT(dnstext_entry_next(BYTES(whole), &cursor, tokens, 3, &outcome) == DNSTEXT_OK);
    EXPECT(outcome.length == 3 && outcome.place == 0);
    EXPECT(tokens[0].is_quoted == 0 && tokens[1].is_quoted == 1 && tokens[1].end == 12);
    EXPECT(tokens[2].start == 25 && tokens[2].end == 30);
    EXPECT(is_token(tokens[3], 9, 9, true));
    EXPECT(cursor.at == 31 && cursor.begins_blank == 1 && cursor.is_done == 0);
    EXPECT(dnstext_entry_next(BYTES(whole), &cursor, NULL, 0, &outcome) == DNSTEXT_OK);
    EXPECT(outcome.length == 0 && cursor.at == 32 && cursor.begins_blank == 0);
    EXPECT(dnstext_entry_next(BYTES(whole), &cursor, tokens, 4, &outcome) == DNSTEXT_OK);
    EXPECT(outcome.length == 1 && cursor.is_done == 1);
    EXPECT(tokens[0].start == 32 && tokens[0].end == 36);
    EXPECT(dnstext_entry_next(BYTES(whole), &cursor, tokens, 4, &outcome) == DNSTEXT_END);
    EXPECT(dnstext_entry_next(BYTES("ab"), &past, tokens, 4, &outcome) == DNSTEXT_BAD_CURSOR);
    EXPECT(past.at == 3 && past.is_done == 0 && outcome.place == 0);
    EXPECT(dnstext_entry_next(BYTES(open), &next, tokens, 4, &outcome) == DNSTEXT_OK && next.at == 2);
    EXPECT(dnstext_entry_next(BYTES(open), &next, tokens, 4, &outcome) == DNSTEXT_OPEN_PARENTHESIS);
    EXPECT(next.opened == 8 && outcome.place == 14 && outcome.length == 3);
    WRONG("a b)", DNSTEXT_CLOSING, 3, 1);
    WRONG("a ( b", DNSTEXT_OPEN_PARENTHESIS, 5, 1);
    WRONG("a \"b\n", DNSTEXT_OPEN_QUOTE, 4, 1);
    WRONG("a \rb", DNSTEXT_LONE_RETURN, 3, 1);
    WRONG("a b\\256", DNSTEXT_BAD_ESCAPE, 6, 1);
}

static int is_cursor(struct dnstext_cursor cursor, size_t at, bool begins_blank, bool is_done,
                     size_t opened) {
    return cursor.at == at && cursor.begins_blank == begins_blank && cursor.is_done == is_done &&
           cursor.opened == opened;
}

/* Each call, with the whole state of its cursor after it. */
static void cursors(void) {
    static const char whole[] = " a ( \"b\"\n;c\n) \351\n\nd";
    static const char quote[] = "a\nb \"c\nd";
    static const char parenthesis[] = "\351\n\351 (b) ( c (d) \"(\" ; (\n";
    struct dnstext_token tokens[4] = {{9, 9, true}, {9, 9, true}, {9, 9, true}, {9, 9, true}};
    struct dnstext_cursor cursor = {0, false, false, 5}, quoted = cursor, inside = cursor;
    struct dnstext_cursor past = {2, false, false, 5};
    struct dnstext_outcome outcome = {7, 7};
    EXPECT(dnstext_entry_next(BYTES(whole), &cursor, tokens, 2, &outcome) == DNSTEXT_NO_ROOM);
    EXPECT(tells(outcome, 3, 0) && is_cursor(cursor, 0, 0, 0, 5));
    EXPECT(is_token(tokens[0], 1, 2, 0) && is_token(tokens[1], 5, 8, 1));
    EXPECT(is_token(tokens[2], 9, 9, true) && is_token(tokens[3], 9, 9, true));
    EXPECT(dnstext_entry_next(BYTES(whole), &cursor, tokens, 3, &outcome) == DNSTEXT_OK);
    EXPECT(tells(outcome, 3, 0) && is_cursor(cursor, 16, 1, 0, 5));
    EXPECT(is_token(tokens[0], 1, 2, 0) && is_token(tokens[1], 5, 8, 1));
    EXPECT(is_token(tokens[2], 14, 15, 0) && is_token(tokens[3], 9, 9, true));
    EXPECT(dnstext_entry_next(BYTES(whole), &cursor, NULL, 0, &outcome) == DNSTEXT_OK);
    EXPECT(tells(outcome, 0, 0) && is_cursor(cursor, 17, 0, 0, 5));
    EXPECT(dnstext_entry_next(BYTES(whole), &cursor, tokens, 4, &outcome) == DNSTEXT_OK);
    EXPECT(tells(outcome, 1, 0) && is_cursor(cursor, 18, 0, 1, 5));
    EXPECT(is_token(tokens[0], 17, 18, 0));
    EXPECT(dnstext_entry_next(BYTES(whole), &cursor, tokens, 4, &outcome) == DNSTEXT_END);
    EXPECT(tells(outcome, 0, 0));

    EXPECT(dnstext_entry_next(BYTES(quote), &quoted, NULL, 0, &outcome) == DNSTEXT_NO_ROOM);
    EXPECT(dnstext_entry_next(BYTES(quote), &quoted, tokens, 1, &outcome) == DNSTEXT_OK);
    EXPECT(quoted.opened == 5);
    EXPECT(dnstext_entry_next(BYTES(quote), &quoted, NULL, 0, &outcome) == DNSTEXT_OPEN_QUOTE);
    EXPECT(outcome.place == 6 && quoted.opened == 4 && quoted.is_done == 1);

    EXPECT(dnstext_entry_next(BYTES(parenthesis), &inside, tokens, 1, &outcome) == DNSTEXT_OK);
    EXPECT(inside.at == 2 && inside.opened == 5);
    EXPECT(dnstext_entry_next(BYTES(parenthesis), &inside, NULL, 0, &outcome) == DNSTEXT_OPEN_PARENTHESIS);
    EXPECT(tells(outcome, 0, 24) && inside.opened == 8 && inside.is_done == 1);
    inside.is_done = false;
    EXPECT(dnstext_entry_next(BYTES(parenthesis), &inside, tokens, 3, &outcome) == DNSTEXT_OPEN_PARENTHESIS);
    EXPECT(tells(outcome, 3, 24) && is_token(tokens[2], 10, 11, 0));

    EXPECT(dnstext_entry_next(BYTES("a"), &past, NULL, 0, &outcome) == DNSTEXT_BAD_CURSOR);
    EXPECT(tells(outcome, 0, 0) && past.is_done == 0);
}

static void next(const uint8_t *text, size_t length, struct dnstext_lexer *lexer, uint32_t status,
                 size_t place, struct dnstext_piece wanted, int line) {
    struct dnstext_piece piece = {9, 9, 9, true};
    struct dnstext_outcome outcome = {7, 7};
    expect(dnstext_tokens_next(text, length, lexer, &piece, &outcome) == status, "status", line);
    expect(outcome.length == 0 && outcome.place == place, "length and place", line);
    expect(piece.kind == wanted.kind && piece.start == wanted.start && piece.end == wanted.end &&
               piece.begins_blank == wanted.begins_blank,
           "piece", line);
}

static const struct dnstext_piece no_piece = {9, 9, 9, true};

static int is_lexer(struct dnstext_lexer lexer, size_t at, size_t depth, size_t began, bool is_done) {
    return lexer.at == at && lexer.depth == depth && lexer.began == began && lexer.is_done == is_done;
}

static void piece(const uint8_t *text, size_t length, struct dnstext_lexer *lexer, size_t kind, size_t start,
                  size_t end, bool begins_blank, int line) {
    struct dnstext_piece wanted;
    wanted.kind = kind;
    wanted.start = start;
    wanted.end = end;
    wanted.begins_blank = begins_blank;
    next(text, length, lexer, DNSTEXT_OK, 0, wanted, line);
}
#define PIECE(text, lexer, kind, start, end, blank) \
    piece(BYTES(text), lexer, kind, start, end, blank, __LINE__)
#define NO_PIECE(text, lexer, status, place) next(BYTES(text), lexer, status, place, no_piece, __LINE__)

static void wrong_piece(const uint8_t *text, size_t length, uint32_t status, size_t place, int line) {
    struct dnstext_lexer lexer = DNSTEXT_LEXER_INIT;
    struct dnstext_cursor cursor = DNSTEXT_CURSOR_INIT;
    struct dnstext_outcome outcome;
    piece(text, length, &lexer, DNSTEXT_WORD, 0, 1, 0, line);
    next(text, length, &lexer, status, place, no_piece, line);
    expect(lexer.is_done == 1 && lexer.began == 0, "lexer", line);
    next(text, length, &lexer, DNSTEXT_END, 0, no_piece, line);
    cursor.at = lexer.began;
    expect(dnstext_entry_next(text, length, &cursor, NULL, 0, &outcome) == status, "entry", line);
    expect(cursor.opened == (status == DNSTEXT_OPEN_QUOTE || status == DNSTEXT_OPEN_PARENTHESIS ? 2 : 0),
           "where it was opened", line);
}
#define WRONG_PIECE(text, status, place) wrong_piece(BYTES(text), status, place, __LINE__)

static void pieces(void) {
    static const char whole[] = " a (b ;c\n\"d\") \351\n\ne";
    struct dnstext_lexer lexer = DNSTEXT_LEXER_INIT, inside, done;
    struct dnstext_lexer past = {3, 0, 0, false}, deep = {1, 2, 0, false};
    struct dnstext_lexer empty = DNSTEXT_LEXER_INIT, first = empty, second = empty;
    PIECE(whole, &lexer, DNSTEXT_WORD, 1, 2, 1);
    PIECE(whole, &lexer, DNSTEXT_WORD, 4, 5, 1);
    EXPECT(lexer.depth == 1 && lexer.began == 0);
    inside = lexer;
    PIECE(whole, &lexer, DNSTEXT_COMMENT, 6, 8, 1);
    PIECE(whole, &lexer, DNSTEXT_QUOTED, 9, 12, 1);
    PIECE(whole, &lexer, DNSTEXT_WORD, 14, 15, 1);
    PIECE(whole, &lexer, DNSTEXT_ENTRY_END, 16, 16, 1);
    EXPECT(lexer.at == 16 && lexer.began == 16 && lexer.depth == 0);
    PIECE(whole, &lexer, DNSTEXT_ENTRY_END, 17, 17, 0);
    PIECE(whole, &lexer, DNSTEXT_WORD, 17, 18, 0);
    EXPECT(lexer.is_done == 0);
    PIECE(whole, &lexer, DNSTEXT_ENTRY_END, 18, 18, 0);
    EXPECT(lexer.is_done == 1);
    done = lexer;
    NO_PIECE(whole, &lexer, DNSTEXT_END, 0);
    EXPECT(is_lexer(lexer, done.at, done.depth, done.began, true));
    PIECE(whole, &inside, DNSTEXT_COMMENT, 6, 8, 1);
    piece(NULL, 0, &empty, DNSTEXT_ENTRY_END, 0, 0, 0, __LINE__);
    PIECE("", &first, DNSTEXT_ENTRY_END, 0, 0, 0);
    PIECE("a b )", &second, DNSTEXT_WORD, 0, 1, 0);
    PIECE("a b )", &second, DNSTEXT_WORD, 2, 3, 0);
    NO_PIECE("a b )", &second, DNSTEXT_CLOSING, 4);
    NO_PIECE("ab", &past, DNSTEXT_BAD_CURSOR, 0);
    EXPECT(past.at == 3 && past.is_done == 0);
    NO_PIECE("ab", &deep, DNSTEXT_BAD_CURSOR, 0);
    EXPECT(deep.at == 1 && deep.depth == 2 && deep.is_done == 0);
    WRONG_PIECE("a b)", DNSTEXT_CLOSING, 3);
    WRONG_PIECE("a ( b", DNSTEXT_OPEN_PARENTHESIS, 5);
    WRONG_PIECE("a \"b\n", DNSTEXT_OPEN_QUOTE, 4);
    WRONG_PIECE("a \rb", DNSTEXT_LONE_RETURN, 3);
    WRONG_PIECE("a b\\256", DNSTEXT_BAD_ESCAPE, 6);
}

static void lexers_outside_the_text(void) {
    struct dnstext_lexer past = {2, 0, 0, false}, deep = {0, 1, 0, false}, done = {2, 0, 0, true};
    struct dnstext_lexer elsewhere = {1, 0, 99, false};
    NO_PIECE("a", &past, DNSTEXT_BAD_CURSOR, 0);
    EXPECT(is_lexer(past, 2, 0, 0, 0));
    NO_PIECE("a", &deep, DNSTEXT_BAD_CURSOR, 0);
    EXPECT(is_lexer(deep, 0, 1, 0, 0));
    /* The other fields are ignored if it is done. */
    NO_PIECE("a", &done, DNSTEXT_END, 0);
    /* The beginning of the entry may have any offset. */
    PIECE("a", &elsewhere, DNSTEXT_ENTRY_END, 1, 1, 0);
}

/* States of any octets that no call returned: a flag other than 0 and 1 counts as 1. */
static void states_of_any_octets(void) {
    struct dnstext_lexer lexer;
    struct dnstext_cursor cursor;
    struct dnstext_outcome outcome;
    unsigned octet;
    for (octet = 0; octet < 256; octet++) {
        if (octet != 0) {
            memset(&lexer, (int)octet, sizeof lexer);
            NO_PIECE("", &lexer, DNSTEXT_END, 0);
            memset(&cursor, (int)octet, sizeof cursor);
            EXPECT(dnstext_entry_next(NULL, 0, &cursor, NULL, 0, &outcome) == DNSTEXT_END);
            EXPECT(tells(outcome, 0, 0));
        }
        memset(&cursor, (int)octet, sizeof cursor);
        cursor.is_done = false;
        EXPECT(dnstext_entry_next(NULL, 0, &cursor, NULL, 0, &outcome) ==
               (octet == 0 ? DNSTEXT_OK : DNSTEXT_BAD_CURSOR));
    }
}

static void texts(void) {
    uint8_t memory[64];
    struct dnstext_outcome outcome;
    uint32_t status;
    for (status = 0; status <= DNSTEXT_BAD_GENERATE + 1; status++) {
        const char *message = dnstext_status_message(status);
        size_t length;
        EXPECT(dnstext_status_text(status, NULL, 0, &outcome) == DNSTEXT_NO_ROOM);
        length = outcome.length;
        EXPECT(dnstext_status_text(status, memory, length - 1, &outcome) == DNSTEXT_NO_ROOM);
        EXPECT(dnstext_status_text(status, memory, length, &outcome) == DNSTEXT_OK);
        EXPECT(outcome.length == length && length < sizeof memory);
        EXPECT(strlen(message) == length && memcmp(message, memory, length) == 0);
    }
    EXPECT(outcome.length == 14 && memcmp(memory, "unknown status", 14) == 0);
    /* as `zonetext check` reports these */
    EXPECT(strcmp(dnstext_status_message(DNSTEXT_CLOSING), "closing parenthesis, and none is open") == 0);
    EXPECT(strcmp(dnstext_status_message(DNSTEXT_OPEN_PARENTHESIS), "parenthesis is not closed") == 0);
    EXPECT(strcmp(dnstext_status_message(DNSTEXT_OPEN_QUOTE), "quoted text is not closed") == 0);
    EXPECT(strcmp(dnstext_status_message(DNSTEXT_LONE_RETURN), "CR without LF") == 0);
    EXPECT(strcmp(dnstext_status_message(DNSTEXT_BAD_ESCAPE), "illegal escape sequence") == 0);
    EXPECT(strcmp(dnstext_status_message(DNSTEXT_NOT_SUPPORTED), "not supported: expand it first") == 0);
    memset(memory, '-', sizeof memory);
    EXPECT(dnstext_status_text(DNSTEXT_NO_ROOM, memory, 8, &outcome) == DNSTEXT_OK);
    EXPECT(tells(outcome, 7, 0) && memcmp(memory, "no room-", 8) == 0);
    EXPECT(dnstext_status_text(DNSTEXT_NO_ROOM, memory, 6, &outcome) == DNSTEXT_NO_ROOM);
    EXPECT(dnstext_status_text(DNSTEXT_BAD_SYMBOL, memory, 64, &outcome) == DNSTEXT_OK);
    EXPECT(tells(outcome, 29, 0) && memcmp(memory, "octet outside printable ASCII", 29) == 0);
    EXPECT(dnstext_status_text(99, NULL, 0, &outcome) == DNSTEXT_NO_ROOM);
    EXPECT(tells(outcome, 14, 0));
    EXPECT(strcmp(dnstext_status_name(DNSTEXT_OK), "DNSTEXT_OK") == 0);
    EXPECT(strcmp(dnstext_status_name(DNSTEXT_BAD_ESCAPE), "DNSTEXT_BAD_ESCAPE") == 0);
    EXPECT(strcmp(dnstext_status_name(DNSTEXT_BAD_GENERATE), "DNSTEXT_BAD_GENERATE") == 0);
    EXPECT(strcmp(dnstext_status_name(DNSTEXT_BAD_GENERATE + 1), "unknown") == 0);
    EXPECT(strcmp(dnstext_status_name(UINT32_MAX), "unknown") == 0);
    EXPECT(strcmp(dnstext_status_message(UINT32_MAX), "unknown status") == 0);
}

static void version(void) {
    unsigned first, second, third;
    EXPECT(strcmp(dnstext_version(), DNSTEXT_VERSION) == 0);
    EXPECT(sscanf(dnstext_version(), "%u.%u.%u", &first, &second, &third) == 3);
    EXPECT(DNSTEXT_VERSION_NUMBER == 1000000 * first + 1000 * second + third);
}

int main(void) {
    strings();
    names();
    words();
    forms();
    orders();
    numbers();
    kinds();
    positions();
    encodings();
    entries();
    cursors();
    pieces();
    lexers_outside_the_text();
    states_of_any_octets();
    texts();
    version();
    return failures != 0;
}
