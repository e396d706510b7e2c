/* Rows about zone files as text: pieces, entries and offsets. */
#ifndef TEXTS_H
#define TEXTS_H

#include "table.h"
#include <dnstext.h>

static const char *fault_of(uint32_t status) {
    switch (status) {
    case DNSTEXT_CLOSING: return "closing";
    case DNSTEXT_OPEN_PARENTHESIS: return "open parenthesis";
    case DNSTEXT_OPEN_QUOTE: return "open quote";
    case DNSTEXT_LONE_RETURN: return "lone return";
    case DNSTEXT_BAD_ESCAPE: return "bad escape";
    default: return "no fault";
    }
}

/* Reads the next entry, with its tokens in memory of the exact size. */
static uint32_t next_entry(const uint8_t *text, size_t length, struct dnstext_cursor *cursor,
                           struct dnstext_token **tokens, size_t *count) {
    struct dnstext_outcome outcome;
    uint32_t status = dnstext_entry_next(text, length, cursor, NULL, 0, &outcome);
    *count = status == DNSTEXT_NO_ROOM ? outcome.length : 0;
    *tokens = (struct dnstext_token *)malloc(*count != 0 ? *count * sizeof **tokens : 1);
    if (status == DNSTEXT_NO_ROOM)
        status = dnstext_entry_next(text, length, cursor, *tokens, *count, &outcome);
    return status;
}

static void add_fault(const uint8_t *text, size_t length, uint32_t status, size_t place, size_t began) {
    add_text(fault_of(status));
    if (status == DNSTEXT_OPEN_QUOTE) {
        struct dnstext_outcome outcome;
        struct dnstext_cursor cursor = DNSTEXT_CURSOR_INIT;
        cursor.at = began;
        dnstext_entry_next(text, length, &cursor, NULL, 0, &outcome);
        add_text(" from ");
        add_number(cursor.opened);
    }
    add_text(" at ");
    add_number(place);
}

static void add_piece(const uint8_t *text, size_t length, uint32_t status, const struct dnstext_piece *piece,
                      size_t place, size_t began) {
    static const char *const names[] = {"word ", "quote ", "comment "};
    if (status != DNSTEXT_OK) {
        add_fault(text, length, status, place, began);
    } else if (piece->kind == DNSTEXT_ENTRY_END) {
        add_text(piece->begins_blank ? "blank " : "end ");
        add_number(piece->start);
    } else {
        add_text(names[piece->kind]);
        add_number(piece->start);
        add_text(" ");
        add_number(piece->end);
    }
    add_text("|");
}

static bool is_blank_at(const uint8_t *text, size_t length, size_t place) {
    return place < length && (text[place] == ' ' || text[place] == '\t');
}

/* The next piece, and the lexer after it. */
static void answer_next(char **fields) {
    size_t length;
    uint8_t *text = octets_of(fields[1], &length);
    struct dnstext_lexer lexer = DNSTEXT_LEXER_INIT;
    struct dnstext_piece piece = {0, 0, 0, false};
    struct dnstext_outcome outcome;
    uint32_t status;
    size_t began;
    lexer.at = strtoul(fields[2], NULL, 10);
    lexer.depth = strtoul(fields[3], NULL, 10);
    lexer.began = began = strtoul(fields[4], NULL, 10);
    status = dnstext_tokens_next(text, length, &lexer, &piece, &outcome);
    add_piece(text, length, status, &piece, outcome.place, began);
    if (lexer.is_done)
        add_text("done, began ");
    else if (lexer.at == lexer.began && lexer.depth == 0)
        add_text("entry at ");
    else {
        add_text("depth ");
        add_number(lexer.depth);
        add_text(", began ");
    }
    add_number(lexer.began);
    add_text(!lexer.is_done && is_blank_at(text, length, lexer.began) ? ", blank" : "");
    free(text);
    judge_row(NULL);
}

/* A piece, or a syntax error with its offset, and the offset of its entry. */
struct found {
    uint32_t status;
    struct dnstext_piece piece;
    size_t place, began;
};

/* Returns all pieces from the entry at an offset on, and the syntax error. */
static struct found *list_pieces(const uint8_t *text, size_t length, size_t at, size_t *count) {
    struct found *list = (struct found *)malloc((2 * length + 3) * sizeof *list);
    struct dnstext_lexer lexer = DNSTEXT_LEXER_INIT;
    struct dnstext_outcome outcome;
    lexer.at = lexer.began = at;
    for (*count = 0; *count < 2 * length + 3; ++*count) {
        struct found *it = list + *count;
        memset(it, 0, sizeof *it);
        it->began = lexer.began;
        it->status = dnstext_tokens_next(text, length, &lexer, &it->piece, &outcome);
        it->place = outcome.place;
        if (it->status == DNSTEXT_END)
            break;
    }
    return list;
}

static bool are_alike(const struct found *one, const struct found *other, size_t count) {
    size_t i;
    for (i = 0; i < count; i++) {
        const struct dnstext_piece *a = &one[i].piece, *b = &other[i].piece;
        if (one[i].status != other[i].status || one[i].place != other[i].place)
            return false;
        if (one[i].status == DNSTEXT_OK && (a->kind != b->kind || a->start != b->start || a->end != b->end ||
                                            a->begins_blank != b->begins_blank))
            return false;
    }
    return true;
}

/* Whether the entry at an offset begins the rest of the pieces. */
static bool continues(const uint8_t *text, size_t length, size_t at, const struct found *rest, size_t count) {
    size_t found;
    struct found *list = list_pieces(text, length, at, &found);
    bool is_so = found == count && are_alike(list, rest, count);
    free(list);
    return is_so;
}

static bool is_end(const struct found *it) {
    return it->status == DNSTEXT_OK && it->piece.kind == DNSTEXT_ENTRY_END;
}

/* Whether a part of the text, cut off at an offset, has the entries of the text that end in it, and a syntax
 * error before its end only if that is the text's; and the rest begins after these entries. */
static bool agrees_if_cut(const uint8_t *text, size_t length, size_t cut, const struct found *whole,
                          size_t count) {
    size_t found, ended = 0, i;
    uint8_t *part = copy_of(text, cut);
    struct found *list = list_pieces(part, cut, 0, &found);
    const struct found *last = found != 0 ? list + found - 1 : NULL;
    bool is_so;
    for (i = 0; i + 1 < found; i++)
        if (is_end(list + i))
            ended = i + 1;
    is_so =
        ended <= count && are_alike(list, whole, ended) &&
        continues(text, length, ended != 0 ? list[ended - 1].piece.start : 0, whole + ended, count - ended);
    if (is_so && last != NULL && last->status != DNSTEXT_OK && last->place < cut)
        is_so = are_alike(last, whole + count - 1, 1);
    free(list);
    free(part);
    return is_so;
}

/* All pieces, and the syntax error. From each entry on the rest is the same, and so is the text in two parts,
 * cut at each offset. */
static void answer_pieces(const char *input) {
    const char *note = NULL;
    size_t length, count, i;
    uint8_t *text = octets_of(input, &length);
    struct found *whole = list_pieces(text, length, 0, &count);
    for (i = 0; i < count; i++) {
        const struct found *it = whole + i;
        add_piece(text, length, it->status, &it->piece, it->place, it->began);
        if (is_end(it) && i + 1 < count &&
            !continues(text, length, it->piece.start, whole + i + 1, count - i - 1))
            note = "from the end of an entry on there are other pieces";
    }
    for (i = 0; i <= length; i++)
        if (!agrees_if_cut(text, length, i, whole, count))
            note = "a part of the text has other pieces";
    free(whole);
    free(text);
    judge_row(note);
}

static void add_count(size_t count, const char *name) {
    add_number(count);
    add_text(name);
}

/* The number of pieces of each kind, of the octets in them, and the syntax error. */
static void tally(const uint8_t *text, size_t length) {
    size_t counts[4] = {0, 0, 0, 0}, octets = 0, began = 0;
    struct dnstext_lexer lexer = DNSTEXT_LEXER_INIT;
    struct dnstext_piece piece;
    struct dnstext_outcome outcome;
    uint32_t status;
    while ((status = dnstext_tokens_next(text, length, &lexer, &piece, &outcome)) == DNSTEXT_OK) {
        counts[piece.kind]++;
        octets += piece.end - piece.start;
        began = lexer.began;
    }
    add_count(counts[DNSTEXT_WORD], " words, ");
    add_count(counts[DNSTEXT_QUOTED], " quoted, ");
    add_count(counts[DNSTEXT_COMMENT], " comments, ");
    add_count(counts[DNSTEXT_ENTRY_END], " ends, ");
    add_count(octets, " octets");
    if (status != DNSTEXT_END) {
        add_text("|");
        add_fault(text, length, status, outcome.place, began);
    }
    if (status == DNSTEXT_OPEN_PARENTHESIS) {
        struct dnstext_cursor cursor = DNSTEXT_CURSOR_INIT;
        cursor.at = began;
        dnstext_entry_next(text, length, &cursor, NULL, 0, &outcome);
        add_text(", ");
        add_count(cursor.opened, " is open");
    }
}

/* The same of parts, each repeated as often as the number after it. */
static void answer_tally(char **fields, size_t count) {
    size_t length = 0, part_len, i, times;
    uint8_t *text = NULL;
    for (i = 0; i + 1 < count; i += 2) {
        uint8_t *part = octets_of(fields[i], &part_len);
        times = strtoul(fields[i + 1], NULL, 10);
        text = (uint8_t *)realloc(text, length + times * part_len + 1);
        for (; times != 0; times--, length += part_len)
            memcpy(text + length, part, part_len);
        free(part);
    }
    tally(text, length);
    free(text);
    judge_row(NULL);
}

/* The tokens of the first entry with their offsets, with a plus if one is adjacent to the one before, and the
 * offset of the entry's end: what a tape has by its contract. None if a syntax error comes before the end, or
 * there are more tokens than a tape holds. */
static void answer_tape(const char *input) {
    enum { CAPACITY = 64 };
    size_t length, count = 0, end = 0;
    uint8_t *text = octets_of(input, &length);
    struct dnstext_lexer lexer = DNSTEXT_LEXER_INIT;
    struct dnstext_piece piece = {0, 0, 0, false};
    struct dnstext_outcome outcome;
    uint32_t status;
    while ((status = dnstext_tokens_next(text, length, &lexer, &piece, &outcome)) == DNSTEXT_OK &&
           piece.kind != DNSTEXT_ENTRY_END) {
        if (piece.kind == DNSTEXT_COMMENT)
            continue;
        add_number(piece.start);
        add_text(count++ != 0 && piece.start == end ? "+" : ":");
        add_octets(text + piece.start, piece.end - piece.start);
        add_text("|");
        end = piece.end;
    }
    if (status == DNSTEXT_OK && count <= CAPACITY) {
        add_number(piece.start);
    } else {
        came_len = 0;
        add_text("none");
    }
    free(text);
    judge_row(NULL);
}

/* The tokens of each entry. */
static void answer_split(const char *input) {
    size_t length, count, i;
    uint8_t *text = octets_of(input, &length);
    struct dnstext_cursor cursor = DNSTEXT_CURSOR_INIT;
    struct dnstext_token *tokens;
    uint32_t status;
    while ((status = next_entry(text, length, &cursor, &tokens, &count)) == DNSTEXT_OK) {
        for (i = 0; i < count; i++) {
            add_octets(text + tokens[i].start, tokens[i].end - tokens[i].start);
            add_text("|");
        }
        add_text("/");
        free(tokens);
    }
    free(tokens);
    free(text);
    if (status != DNSTEXT_END) {
        came_len = 0;
        refuse();
    }
    judge_row(NULL);
}

/* Whether a text is one token. */
static void answer_is_token(const char *input) {
    size_t length;
    uint8_t *text = octets_of(input, &length);
    struct dnstext_lexer lexer = DNSTEXT_LEXER_INIT;
    struct dnstext_piece piece = {0, 0, 0, false};
    struct dnstext_outcome outcome;
    bool is_token = dnstext_tokens_next(text, length, &lexer, &piece, &outcome) == DNSTEXT_OK &&
                    piece.kind <= DNSTEXT_QUOTED && piece.start == 0 && piece.end == length;
    free(text);
    add_text(is_token ? "true" : "false");
    judge_row(NULL);
}

/* Offset of the outermost parenthesis that is not closed. */
static void answer_open(const char *input) {
    size_t length, count;
    uint8_t *text = octets_of(input, &length);
    struct dnstext_cursor cursor = DNSTEXT_CURSOR_INIT;
    struct dnstext_token *tokens;
    uint32_t status;
    while ((status = next_entry(text, length, &cursor, &tokens, &count)) == DNSTEXT_OK)
        free(tokens);
    free(tokens);
    free(text);
    if (status == DNSTEXT_OPEN_PARENTHESIS)
        add_number(cursor.opened);
    else
        add_text("none");
    judge_row(NULL);
}

#endif
