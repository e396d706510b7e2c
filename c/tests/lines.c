/* A zone file of 200,000 lines, written from known tokens, returns just these tokens. */
#include <dnstext.h>
#include <stdio.h>
#include <stdlib.h>
#include <string.h>

enum { LINES = 200000, ROOM = 16 * 1024 * 1024 };

static uint8_t *text;
static size_t length;
static uint32_t seed = 1;

static uint32_t chance(uint32_t below) {
    seed = seed * 1664525u + 1013904223u;
    return (seed >> 8) % below;
}

static void put(const char *characters) {
    size_t n = strlen(characters);
    memcpy(text + length, characters, n);
    length += n;
}

/* The known tokens: their offsets and kinds. */
static struct dnstext_token *known;
static size_t count;

static void put_token(void) {
    static const char *const words[] = {"a",   "example.com.", "3600", "IN",
                                        "\\;", "x\\032y",      "@",    "caf\xC3\xA9"};
    static const char *const quoted[] = {"\"\"", "\"a b\"", "\"( ; )\"", "\"\\\"\""};
    known[count].start = length;
    known[count].is_quoted = chance(4) == 0;
    put(known[count].is_quoted ? quoted[chance(4)] : words[chance(8)]);
    known[count].end = length;
    count++;
}

static void fail(const char *what, size_t line) {
    fprintf(stderr, "tests/lines.c: %s at line %lu\n", what, (unsigned long)line);
    exit(1);
}

static int is_same(struct dnstext_token token, struct dnstext_token other) {
    return token.start == other.start && token.end == other.end && token.is_quoted == other.is_quoted;
}

/* Parses the text piece by piece: the tokens, and each line end with its flag. */
static void read_pieces(const size_t *ends, const uint8_t *blanks) {
    struct dnstext_lexer lexer = DNSTEXT_LEXER_INIT;
    struct dnstext_piece piece;
    struct dnstext_outcome outcome;
    size_t line = 0, at = 0;
    while (dnstext_tokens_next(text, length, &lexer, &piece, &outcome) == DNSTEXT_OK) {
        if (line == LINES || piece.begins_blank != blanks[line])
            fail("another flag", line);
        if (piece.kind == DNSTEXT_ENTRY_END) {
            if (at != ends[line])
                fail("another number of tokens", line);
            line++;
        } else if (piece.kind != DNSTEXT_COMMENT) {
            if (at == count || piece.start != known[at].start || piece.end != known[at].end)
                fail("another piece", line);
            if (piece.kind != (known[at].is_quoted ? DNSTEXT_QUOTED : DNSTEXT_WORD))
                fail("another kind", line);
            at++;
        }
    }
    if (!lexer.is_done || line != LINES || at != count)
        fail("another number of pieces", line);
}

int main(void) {
    size_t *ends = (size_t *)malloc(LINES * sizeof *ends);
    uint8_t *blanks = (uint8_t *)malloc(LINES);
    struct dnstext_token tokens[16];
    struct dnstext_cursor cursor = DNSTEXT_CURSOR_INIT;
    struct dnstext_outcome outcome;
    size_t line, at = 0, i;
    text = (uint8_t *)malloc(ROOM);
    known = (struct dnstext_token *)malloc(LINES * 8 * sizeof *known);
    if (ends == NULL || blanks == NULL || text == NULL || known == NULL)
        return 2;
    for (line = 0; line < LINES; line++) {
        uint32_t n = chance(7), inside = chance(5) == 0;
        blanks[line] = chance(4) == 0;
        if (blanks[line])
            put(chance(2) ? " " : "\t");
        if (inside)
            put("(");
        for (i = 0; i < n; i++) {
            if (i != 0)
                put(inside && chance(3) == 0 ? " ; \xE9 (\"\n " : " ");
            put_token();
        }
        if (inside)
            put("\r\n)");
        if (chance(6) == 0)
            put(n == 0 && !inside ? "; a comment" : " ; a comment: \" ( )");
        ends[line] = count;
        if (line + 1 < LINES)
            put(chance(5) == 0 ? "\r\n" : "\n");
    }
    for (line = 0; line < LINES; line++) {
        size_t from = at;
        at = ends[line];
        if (dnstext_entry_next(text, length, &cursor, tokens, 16, &outcome) != DNSTEXT_OK)
            fail("no entry", line);
        if (outcome.length != at - from || cursor.begins_blank != blanks[line])
            fail("another entry", line);
        for (i = 0; i < outcome.length; i++)
            if (!is_same(tokens[i], known[from + i]))
                fail("another token", line);
    }
    if (dnstext_entry_next(text, length, &cursor, tokens, 16, &outcome) != DNSTEXT_END)
        fail("more entries", line);
    read_pieces(ends, blanks);
    free(ends);
    free(blanks);
    free(text);
    free(known);
    return 0;
}
