/* Prints the strings of each TXT record of a zone file on standard input, one a line, and the line and
 * column of a syntax error, and of the unclosed opener, on standard error. */
#include <dnstext.h>
#include <stdio.h>
#include <stdlib.h>
#include <string.h>

static uint8_t *text;
static size_t text_len;

static void *grown(void *memory, size_t size) {
    void *more = realloc(memory, size);
    if (more == NULL) {
        fputs("zone: out of memory\n", stderr);
        exit(2);
    }
    return more;
}

static void read_all(FILE *file) {
    size_t room = 0, got;
    do {
        if (text_len == room) {
            room = room * 2 + 4096;
            text = (uint8_t *)grown(text, room);
        }
        got = fread(text + text_len, 1, room - text_len, file);
        text_len += got;
    } while (got != 0);
}

static int is_txt(struct dnstext_token token) {
    return token.end - token.start == 3 && !token.is_quoted && memcmp(text + token.start, "TXT", 3) == 0;
}

static void tell(size_t place, const char *what) {
    size_t line = 1, column = 1;
    dnstext_position(text, text_len, place, &line, &column);
    fprintf(stderr, "%lu:%lu: %s\n", (unsigned long)line, (unsigned long)column, what);
}

static int fail(uint32_t status, size_t place) {
    tell(place, dnstext_status_message(status));
    return 1;
}

/* Prints the octets of a token, between double quotes. */
static int print_string(struct dnstext_token token) {
    struct dnstext_outcome outcome;
    uint8_t octets[255], shown[1022];
    size_t start = token.start + token.is_quoted;
    size_t end = token.end - token.is_quoted;
    uint32_t status = dnstext_charstr_read(text + start, end - start, octets, sizeof octets, &outcome);
    if (status != DNSTEXT_OK)
        return fail(status, start + outcome.place);
    dnstext_charstr_print_quoted(octets, outcome.length, shown, sizeof shown, &outcome);
    printf("%.*s\n", (int)outcome.length, (const char *)shown);
    return 0;
}

/* Prints the strings after the first word TXT of an entry. */
static int print_strings(const struct dnstext_token *tokens, size_t count) {
    size_t i, type = 0;
    while (type < count && !is_txt(tokens[type]))
        type++;
    for (i = type + 1; i < count; i++)
        if (print_string(tokens[i]) != 0)
            return 1;
    return 0;
}

int main(void) {
    struct dnstext_cursor cursor = DNSTEXT_CURSOR_INIT;
    struct dnstext_token *tokens = NULL;
    size_t room = 0;
    int failed = 0;
    read_all(stdin);
    while (!failed) {
        struct dnstext_outcome outcome;
        uint32_t status = dnstext_entry_next(text, text_len, &cursor, tokens, room, &outcome);
        if (status == DNSTEXT_END)
            break;
        if (status == DNSTEXT_OK) {
            failed = print_strings(tokens, outcome.length);
        } else if (status == DNSTEXT_NO_ROOM) {
            room = outcome.length;
            tokens = (struct dnstext_token *)grown(tokens, room * sizeof *tokens);
        } else {
            failed = fail(status, outcome.place);
            if (status == DNSTEXT_OPEN_QUOTE || status == DNSTEXT_OPEN_PARENTHESIS)
                tell(cursor.opened, "opened here");
        }
    }
    free(tokens);
    free(text);
    return failed;
}
