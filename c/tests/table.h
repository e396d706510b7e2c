/* Test rows on standard input: a call, its inputs and the expected result, separated by tabs
 * (crates/test_support). `%` and two hexadecimal digits are an octet; `!` begins an error. A line number can
 * precede a row; otherwise lines are counted.
 *
 *     PROGRAM [--list] FILE < ROWS
 *
 * FILE is the name of the row file in messages. --list prints file and line of each row that agrees. */
#ifndef TABLE_H
#define TABLE_H

#include <stdbool.h>
#include <stddef.h>
#include <stdint.h>
#include <stdio.h>
#include <stdlib.h>
#include <string.h>

enum { MOST = 1 << 20, FIELDS = 64 };

/* The last row that was read. */
static char row_text[MOST], row_parts[MOST];
static const char *row_file = "standard input";
static unsigned long row_line;
static char *row_fields[FIELDS];
static size_t row_count;

/* The result of a call: octets, or an error, with its message if the call has one. */
static uint8_t came[MOST];
static size_t came_len;
static bool is_refused, has_reason;

static bool lists_rows;
static unsigned long rows_answered, rows_differ;

static inline unsigned digit_of(char c) {
    return c <= '9' ? (unsigned)(c - '0') : (unsigned)(c - 'A') + 10;
}

/* Decodes a field, into memory for as many octets as it has characters. */
static inline size_t spell_octets(const char *field, uint8_t *octets) {
    size_t count = 0;
    while (*field != '\0') {
        if (*field == '%') {
            octets[count++] = (uint8_t)(16 * digit_of(field[1]) + digit_of(field[2]));
            field += 3;
        } else {
            octets[count++] = (uint8_t)*field++;
        }
    }
    return count;
}

/* Decodes a field into memory of the exact size, so that sanitizers detect accesses outside. */
static inline uint8_t *octets_of(const char *field, size_t *length) {
    uint8_t *octets = (uint8_t *)malloc(strlen(field) + 1);
    *length = spell_octets(field, octets);
    return (uint8_t *)realloc(octets, *length != 0 ? *length : 1);
}

/* Copies octets into memory of the exact size. */
static inline uint8_t *copy_of(const uint8_t *octets, size_t length) {
    uint8_t *copy = (uint8_t *)malloc(length != 0 ? length : 1);
    if (length != 0)
        memcpy(copy, octets, length);
    return copy;
}

static inline void begin_answer(void) {
    came_len = 0;
    is_refused = has_reason = false;
}

static inline void add_octets(const void *octets, size_t length) {
    if (length != 0)
        memcpy(came + came_len, octets, length);
    came_len += length;
}

static inline void add_text(const char *text) {
    add_octets(text, strlen(text));
}

static inline void add_number(size_t number) {
    char digits[24];
    sprintf(digits, "%lu", (unsigned long)number);
    add_text(digits);
}

/* An error without a message. */
static inline void refuse(void) {
    is_refused = true;
}

/* An error with its message. */
static inline void refuse_for(const char *reason) {
    is_refused = has_reason = true;
    add_text(reason);
}

static inline void print_octets(FILE *to, const uint8_t *octets, size_t length) {
    size_t i;
    for (i = 0; i < length && i < 400; i++) {
        if (octets[i] < 0x20 || octets[i] > 0x7e || octets[i] == '%')
            fprintf(to, "%%%02X", octets[i]);
        else
            fputc(octets[i], to);
    }
}

/* Reads the next row, and splits it into fields. */
static inline bool next_row(void) {
    while (fgets(row_text, sizeof row_text, stdin) != NULL) {
        char *at = row_parts, *end;
        row_text[strcspn(row_text, "\n")] = '\0';
        row_line++;
        if (*row_text == '\0' || *row_text == '#')
            continue;
        strcpy(row_parts, row_text);
        row_count = 0;
        while (at != NULL && row_count < FIELDS) {
            row_fields[row_count++] = at;
            at = strchr(at, '\t');
            if (at != NULL)
                *at++ = '\0';
        }
        row_line =
            *row_fields[0] >= '0' && *row_fields[0] <= '9' ? strtoul(row_fields[0], &end, 10) : row_line;
        if (*row_fields[0] >= '0' && *row_fields[0] <= '9') {
            size_t i;
            for (i = 1; i < row_count; i++)
                row_fields[i - 1] = row_fields[i];
            row_count--;
        }
        if (at == NULL && row_count >= 2)
            return true;
    }
    return false;
}

/* The expected result. */
static inline const char *row_wanted(void) {
    return row_fields[row_count - 1];
}

/* Compares the result with the expected one. Messages are compared if the call has them. */
static inline bool is_wanted(void) {
    static uint8_t wanted[MOST];
    const char *field = row_wanted();
    size_t length;
    if ((*field == '!') != is_refused)
        return false;
    if (is_refused && !has_reason)
        return true;
    length = spell_octets(is_refused ? field + 1 : field, wanted);
    return length == came_len && memcmp(wanted, came, length) == 0;
}

/* Compares and counts a row, and reports a difference. `note` is NULL, or another reason why the row fails. */
static inline void judge_row(const char *note) {
    rows_answered++;
    if (note == NULL && is_wanted()) {
        if (lists_rows)
            printf("%s:%lu\n", row_file, row_line);
        return;
    }
    rows_differ++;
    fprintf(stderr, "differs: %s:%lu\n  row:    %.400s\n  wanted: %.400s\n  came:   %s", row_file, row_line,
            row_text, row_wanted(), is_refused ? "!" : "");
    print_octets(stderr, came, came_len);
    fprintf(stderr, "\n%s%s%s", note != NULL ? "  but:    " : "", note != NULL ? note : "",
            note != NULL ? "\n" : "");
}

static inline void read_words(int count, char **words) {
    int i;
    for (i = 1; i < count; i++) {
        if (strcmp(words[i], "--list") == 0)
            lists_rows = true;
        else
            row_file = words[i];
    }
}

#endif
