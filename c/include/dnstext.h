/* DNS presentation format, for C and C++.
 *
 * Octets and texts are passed as a pointer and a length. The pointer may be NULL if the length is 0. A
 * text is its characters, one octet each, without a terminator. The caller owns all memory: the
 * functions store no pointer, and don't allocate. During a call no other thread may write what the call
 * reads, or read or write what the call writes. What a call writes must not overlap any other argument.
 * Octets need no alignment; structs and numbers are aligned as in C, and a pointer to one struct or to
 * one number must not be NULL. What a call only writes need not be initialized.
 *
 * A call returns one of the statuses below and writes a struct dnstext_outcome. Output is at the
 * beginning of the buffer; the rest of the buffer is unchanged. If the output doesn't fit, the status
 * is DNSTEXT_NO_ROOM and the length is the number that is needed: so a call with a buffer of length 0
 * returns the length. A second call with the same input, and a buffer of that length or longer, never
 * returns DNSTEXT_NO_ROOM. With every other status the length is the number written, which never
 * exceeds the buffer. The functions may be called from several threads at once. */
#ifndef DNSTEXT_H
#define DNSTEXT_H

#include <stddef.h>
#include <stdint.h>
#ifndef __cplusplus
#include <stdbool.h>
#endif

#ifdef __cplusplus
extern "C" {
#endif

/* The version of this header; dnstext_version() returns that of the library. The number is the first
 * component times a million, plus the second times a thousand, plus the third. */
#define DNSTEXT_VERSION "0.3.0"
#define DNSTEXT_VERSION_NUMBER 3000

enum dnstext_status {
    DNSTEXT_OK = 0,
    DNSTEXT_END = 1,               /* no item is left */
    DNSTEXT_NO_ROOM = 2,           /* the buffer is too small; the length is what is needed */
    DNSTEXT_BAD_ESCAPE = 3,        /* a backslash that begins no escape */
    DNSTEXT_SHORT_INPUT = 4,       /* the text ends inside an escape or a character */
    DNSTEXT_BAD_UTF8 = 5,          /* not UTF-8 */
    DNSTEXT_BAD_SYMBOL = 6,        /* a plain octet or character outside printable ASCII, which has
                                      no octet */
    DNSTEXT_TOO_LONG = 7,          /* more than 255 octets, 65535 of RDATA, or 2^60 for the encodings; in a
                                      name, more than 254 before the root */
    DNSTEXT_BAD_ENCODING = 8,      /* not a text of the encoding; the place is 0 */
    DNSTEXT_CLOSING = 9,           /* a closing parenthesis without an open one */
    DNSTEXT_OPEN_PARENTHESIS = 10, /* the text ends inside parentheses */
    DNSTEXT_OPEN_QUOTE = 11,       /* the text or a line ends inside a quoted string */
    DNSTEXT_LONE_RETURN = 12,      /* a CR that LF doesn't follow */
    DNSTEXT_BAD_CURSOR = 13,       /* a cursor, a lexer or a zone after the end of the text; a lexer
                                      with more open parentheses than octets before it; a zone with octets
                                      of a name that aren't a name */
    DNSTEXT_EMPTY_LABEL = 14,      /* a plain dot after an empty label */
    DNSTEXT_LONG_LABEL = 15,       /* more than 63 octets in a label */
    DNSTEXT_BINARY_LABEL = 16,     /* a label that begins with an escaped opening bracket (RFC 2673) */
    DNSTEXT_BAD_LABEL = 17,        /* a lead octet of no known label type */
    DNSTEXT_POINTER = 18,          /* a compression pointer in the place of a label */
    DNSTEXT_TRAILING_OCTETS = 19,  /* octets after the root */
    DNSTEXT_NO_DIGIT = 20,         /* a symbol that isn't a plain decimal digit */
    DNSTEXT_TOO_GREAT = 21,        /* a number that exceeds the greatest one */
    DNSTEXT_BAD_PLACE = 22,        /* a place after the end of the text */
    DNSTEXT_BAD_TTL = 23,          /* not a TTL */
    DNSTEXT_UNKNOWN_TYPE = 24,     /* not a record type */
    DNSTEXT_UNKNOWN_CLASS = 25,    /* not a class */
    DNSTEXT_INCLUDE = 26,          /* an $INCLUDE directive, whose file name is returned */
    DNSTEXT_BAD_HEAD = 27,         /* an unknown directive, one with wrong arguments, or a wrong header of a
                                      record */
    DNSTEXT_NOT_SUPPORTED = 28,    /* a directive that isn't supported: returned by no call of this version */
    DNSTEXT_BAD_NAME = 29,         /* a token that isn't a name, as owner or origin */
    DNSTEXT_NO_ORIGIN = 30,        /* a relative name without an origin, also in RDATA */
    DNSTEXT_NO_OWNER = 31,         /* a record that begins with a blank, without an owner before it */
    DNSTEXT_REFUSED_OWNER = 32,    /* the same, after an owner that was rejected */
    DNSTEXT_BAD_DATA = 33,         /* tokens or octets that aren't RDATA of their type */
    DNSTEXT_NO_TTL = 34,           /* a record without a TTL, and no other is known */
    DNSTEXT_RELATIVE_NAME = 35,    /* octets of a name that doesn't end in the root */
    DNSTEXT_GENERATE = 36,         /* a $GENERATE directive, whose entries dnstext_generate_entry writes */
    DNSTEXT_BAD_GENERATE = 37      /* a $GENERATE directive that is rejected */
};

struct dnstext_outcome {
    size_t length; /* number of octets, characters or tokens: written, or with DNSTEXT_NO_ROOM needed */
    size_t place;  /* offset of an error in octets, or 0 */
};

/* ---- Character strings (RFC 1035 section 5.1): at most 255 octets.
 *
 * Parses a text as the octets of its symbols. Symbols are handled in order, and the first error is
 * returned. For each symbol these errors are checked in order: text that isn't a symbol, a symbol after
 * 255 octets, a symbol without an octet. */
uint32_t dnstext_charstr_read(const uint8_t *text, size_t text_len, uint8_t *octets, size_t octets_len,
                              struct dnstext_outcome *outcome);
/* Parses a text as name servers do: every octet but the backslash denotes itself, also a tab and 0x80
 * to 0xFF. A backslash and three digits denote the octet of that number, at most 255. A backslash and
 * an octet that isn't a digit denote that octet, whichever it is. The only errors are
 * DNSTEXT_BAD_ESCAPE and DNSTEXT_SHORT_INPUT, which are checked first, and DNSTEXT_TOO_LONG, for an
 * octet after 255 others. A text of printable ASCII is parsed as by dnstext_charstr_read. */
uint32_t dnstext_charstr_read_octets(const uint8_t *text, size_t text_len, uint8_t *octets, size_t octets_len,
                                     struct dnstext_outcome *outcome);
/* Prints octets in plain form: of printable ASCII only the backslash is escaped, and all else by its
 * decimal value. */
uint32_t dnstext_charstr_print(const uint8_t *octets, size_t octets_len, uint8_t *text, size_t text_len,
                               struct dnstext_outcome *outcome);
/* Prints octets between double quotes. */
uint32_t dnstext_charstr_print_quoted(const uint8_t *octets, size_t octets_len, uint8_t *text,
                                      size_t text_len, struct dnstext_outcome *outcome);
/* Prints octets as a word of a zone file. No octets print nothing, which isn't a word. */
uint32_t dnstext_charstr_print_unquoted(const uint8_t *octets, size_t octets_len, uint8_t *text,
                                        size_t text_len, struct dnstext_outcome *outcome);

/* ---- Names (RFC 1035 sections 3.1 and 5.1): at most 255 octets.
 *
 * The octets of a name are its wire format: each label's length and its octets, with the root last if
 * the name is absolute. No octets are the relative name without labels.
 *
 * Parses the labels between plain dots. The empty text is the relative name without labels, and a dot
 * alone is the root; any other name is absolute if a plain dot ends it. Symbols are handled in order,
 * and the first error is returned. For each symbol these errors are checked in order: text that isn't a
 * symbol, a plain dot after an empty label, an escaped opening bracket that begins a label, a symbol
 * without an octet, more than 254 octets before the root, more than 63 in a label. `is_absolute` must
 * not be NULL; it is written only with DNSTEXT_OK and DNSTEXT_NO_ROOM. */
uint32_t dnstext_name_read(const uint8_t *text, size_t text_len, uint8_t *name, size_t name_len,
                           bool *is_absolute, struct dnstext_outcome *outcome);
/* Prints the labels joined by dots, without a dot at the end; the root alone is one dot. The space, the
 * dot and the backslash are escaped by a backslash, and all else but printable ASCII by its decimal
 * value, as in `domain`. Fails for octets that aren't a name, with DNSTEXT_TOO_LONG,
 * DNSTEXT_SHORT_INPUT, DNSTEXT_BAD_LABEL, DNSTEXT_POINTER or DNSTEXT_TRAILING_OCTETS and the place 0. */
uint32_t dnstext_name_print(const uint8_t *name, size_t name_len, uint8_t *text, size_t text_len,
                            struct dnstext_outcome *outcome);
/* Does the same, with a dot at the end of an absolute name. */
uint32_t dnstext_name_print_dotted(const uint8_t *name, size_t name_len, uint8_t *text, size_t text_len,
                                   struct dnstext_outcome *outcome);
/* Prints a name as in zone files, with a dot at the end of an absolute name. A backslash precedes '"',
 * '$', '(', ')', '.', ';', '@' and the backslash. Other octets from 0x21 to 0x7E are plain, and the
 * rest are printed by their decimal value. So a name of one label or more is one word, which parses as
 * that name; dnstext_data_print prints names in the same way. */
uint32_t dnstext_name_print_zone(const uint8_t *name, size_t name_len, uint8_t *text, size_t text_len,
                                 struct dnstext_outcome *outcome);
/* Parses a word of a zone file as a name, as dnstext_record_next parses an owner: '@' is the origin, which
 * is appended to relative names, and each octet but the dot and the backslash denotes itself, also 0x80
 * to 0xFF. The name is absolute. The origin is an absolute name in wire format, or no octets; another
 * one is rejected as by dnstext_zone_origin. Fails with DNSTEXT_BAD_NAME for a text that isn't one word,
 * such as the empty one, or one with a blank, a line end, a quote, a parenthesis or a semicolon, none
 * of which is escaped, but with DNSTEXT_BAD_ESCAPE if an escape before that is wrong or is cut short;
 * then for the first error in the word with DNSTEXT_EMPTY_LABEL, DNSTEXT_LONG_LABEL or DNSTEXT_TOO_LONG,
 * or with DNSTEXT_NO_ORIGIN at its end. Every error has the place 0. */
uint32_t dnstext_name_read_octets(const uint8_t *text, size_t text_len, const uint8_t *origin,
                                  size_t origin_len, uint8_t *name, size_t name_len,
                                  struct dnstext_outcome *outcome);
/* Returns a name in canonical form (RFC 4034 section 6.2): the ASCII letters of its labels in lower case,
 * and all other octets as they are. The number of octets is the same. Fails as dnstext_name_print does
 * for octets that aren't a name. */
uint32_t dnstext_name_canonical(const uint8_t *name, size_t name_len, uint8_t *form, size_t form_len,
                                struct dnstext_outcome *outcome);
/* Compares two absolute names in canonical order (RFC 4034 section 6.1): the order is -1 if `a` is before
 * `b`, 0 if they differ at most in the case of letters, and 1 if it is after `b`. Other octets are
 * rejected as by dnstext_zone_origin, those of `a` first, also if there are none. `order` must not be
 * NULL; after an error it is unchanged. The length is 0. */
uint32_t dnstext_name_compare(const uint8_t *a, size_t a_len, const uint8_t *b, size_t b_len, int32_t *order,
                              struct dnstext_outcome *outcome);
/* Returns whether the last labels of a name are those of another one, without regard to case: so whether
 * an absolute name is below an absolute name, or the same. A relative name can only end with a relative
 * one, and each name ends with the one without labels. Fails as dnstext_name_print does for octets that
 * aren't a name, those of `name` first. `does` must not be NULL; after an error it is unchanged. The
 * length is 0. */
uint32_t dnstext_name_ends_with(const uint8_t *name, size_t name_len, const uint8_t *zone, size_t zone_len,
                                bool *does, struct dnstext_outcome *outcome);

/* ---- Decimal numbers: a token's plain digits. The empty text is 0.
 *
 * A greatest number of 255, 65535, UINT32_MAX or UINT64_MAX parses a number of 8, 16, 32 or 64 bits.
 * Symbols are handled in order, and the first error is returned. For each symbol these errors are
 * checked in order: text that isn't a symbol, any symbol once ten times the value exceeds the greatest
 * number, a symbol that isn't a plain digit, a digit with which the value exceeds the greatest number.
 * `number` must not be NULL; after an error it is unchanged. The length is 0. */
uint32_t dnstext_number_read(const uint8_t *text, size_t text_len, uint64_t greatest, uint64_t *number,
                             struct dnstext_outcome *outcome);

/* ---- TTLs, types and classes of records: each is a word of a zone file, without escapes. Any other
 * word is rejected as a whole, with the place 0. The pointer to the number must not be NULL; after an
 * error the number is unchanged. The length of parsing is 0.
 *
 * A TTL is a number of seconds below 2^31 (RFC 2181 section 8), in decimal or as periods such as 1h30m
 * or 1w2d: the units are w, d, h, m and s in either case, in any order, and repeated units are added.
 * Fails with DNSTEXT_BAD_TTL. */
uint32_t dnstext_ttl_read(const uint8_t *text, size_t text_len, uint32_t *seconds,
                          struct dnstext_outcome *outcome);
/* Parses a type by its name in IANA's registry, or as TYPE and its number (RFC 3597 section 5), in
 * either case of letters. Fails with DNSTEXT_UNKNOWN_TYPE. */
uint32_t dnstext_type_read(const uint8_t *text, size_t text_len, uint16_t *code,
                           struct dnstext_outcome *outcome);
/* Prints the name of a type, or without a name TYPE and its number: at most 10 characters. */
uint32_t dnstext_type_print(uint16_t code, uint8_t *text, size_t text_len, struct dnstext_outcome *outcome);
/* Parses a class: IN, CH, HS, or CLASS and its number, in either case of letters. Fails with
 * DNSTEXT_UNKNOWN_CLASS. */
uint32_t dnstext_class_read(const uint8_t *text, size_t text_len, uint16_t *code,
                            struct dnstext_outcome *outcome);
/* Prints the name of a class, or without a name CLASS and its number: at most 10 characters. */
uint32_t dnstext_class_print(uint16_t code, uint8_t *text, size_t text_len, struct dnstext_outcome *outcome);

/* ---- RDATA of a type (RFC 1035 section 3.2.1, RFC 3597).
 *
 * The octets are in wire format, at most 65535, without compressed names. Prints them on one line, with
 * a space between tokens: in the type's presentation format, or without one as \#, the number of
 * octets, and these in hexadecimal. Names are absolute. Fails with DNSTEXT_BAD_DATA and the place 0 for
 * a type without records in zones, and for octets that aren't RDATA of the type; with DNSTEXT_TOO_LONG
 * and the place 65535 for more octets. DNSTEXT_TOO_LONG with the place 0 would report that printing
 * failed, which no test has seen; octets of the text may then have been written. */
uint32_t dnstext_data_print(uint16_t code, const uint8_t *octets, size_t octets_len, uint8_t *text,
                            size_t text_len, struct dnstext_outcome *outcome);
/* Parses RDATA in either form: one entry of a zone file, which may have parentheses and comments. The
 * origin is an absolute name in wire format, which is appended to relative names, or no octets. An
 * origin that isn't such a name is rejected as by dnstext_zone_origin, with the place 0.
 *
 * Fails with DNSTEXT_BAD_DATA or DNSTEXT_NO_ORIGIN and the place of the error for text that isn't such
 * RDATA; the octets are then the error's text, as dnstext_record_next returns it: at most 255
 * characters, truncated to the buffer. It is a text of its own if another line with tokens follows the
 * entry. A syntax error has its place and the length 0. A call uses at most 16 KB of stack, but up to
 * 80 KB for RDATA of more than 1,024 octets. */
uint32_t dnstext_data_read(uint16_t code, const uint8_t *text, size_t text_len, const uint8_t *origin,
                           size_t origin_len, uint8_t *octets, size_t octets_len,
                           struct dnstext_outcome *outcome);

/* Returns RDATA of TXT with these octets, which may be any: the character strings have 255 octets, and
 * the last one the rest. No octets are one empty string. For a value that isn't in presentation format,
 * such as a key of DKIM: in it a semicolon would begin a comment. Fails with DNSTEXT_TOO_LONG and the
 * place 65279 for more octets than that, whose strings exceed 65535 octets. */
uint32_t dnstext_text_data(const uint8_t *octets, size_t octets_len, uint8_t *data, size_t data_len,
                           struct dnstext_outcome *outcome);

/* Returns RDATA in canonical form (RFC 4034 section 6.2, RFC 6840 section 5.1): the names in it in
 * lower case if the type requires that, and all other octets as they are. The number of octets is the
 * same. So RDATA of one type is equal if these octets are, and its canonical order is the order of
 * these octets (RFC 4034 section 6.3). Fails as dnstext_data_print does for octets that aren't RDATA. A
 * call uses at most 16 KB of stack, but up to 80 KB for RDATA of more than 1,024 octets. */
uint32_t dnstext_data_canonical(uint16_t code, const uint8_t *octets, size_t octets_len, uint8_t *form,
                                size_t form_len, struct dnstext_outcome *outcome);

/* ---- The encodings of RFC 4648 sections 8, 7 and 4.
 *
 * Printing writes upper case, and padding in base 64 alone. Parsing accepts either case in base 16 and
 * base32hex. It returns DNSTEXT_NO_ROOM by the number of characters, before the text is checked. After
 * DNSTEXT_BAD_ENCODING the octets of the buffer, up to the number that it would need, are unspecified. */
uint32_t dnstext_base16_print(const uint8_t *octets, size_t octets_len, uint8_t *text, size_t text_len,
                              struct dnstext_outcome *outcome);
uint32_t dnstext_base32hex_print(const uint8_t *octets, size_t octets_len, uint8_t *text, size_t text_len,
                                 struct dnstext_outcome *outcome);
uint32_t dnstext_base64_print(const uint8_t *octets, size_t octets_len, uint8_t *text, size_t text_len,
                              struct dnstext_outcome *outcome);
uint32_t dnstext_base16_read(const uint8_t *text, size_t text_len, uint8_t *octets, size_t octets_len,
                             struct dnstext_outcome *outcome);
uint32_t dnstext_base32hex_read(const uint8_t *text, size_t text_len, uint8_t *octets, size_t octets_len,
                                struct dnstext_outcome *outcome);
uint32_t dnstext_base64_read(const uint8_t *text, size_t text_len, uint8_t *octets, size_t octets_len,
                             struct dnstext_outcome *outcome);

/* ---- Zone files, entry by entry (RFC 1035 section 5.1).
 *
 * An octet of 0x80 or more counts as one character, so that comments needn't be UTF-8. */
struct dnstext_token {
    size_t start;   /* offset of its first octet */
    size_t end;     /* offset after its last octet */
    bool is_quoted; /* whether it is a quoted string, which includes its double quotes, or a word */
};

/* Initialized to DNSTEXT_CURSOR_INIT, all zeros. */
struct dnstext_cursor {
    size_t at;         /* offset of the next entry */
    bool begins_blank; /* whether the last returned entry began with a blank */
    bool is_done;      /* whether no entry is left */
    size_t opened;     /* offset of the unclosed opener: after DNSTEXT_OPEN_QUOTE the double quote,
                          after DNSTEXT_OPEN_PARENTHESIS the outermost parenthesis */
};
/* clang-format off */
#define DNSTEXT_CURSOR_INIT {0, false, false, 0}
/* clang-format on */

/* Returns the offsets of the next entry's tokens, and advances the cursor. The length is the number of
 * tokens. If they don't all fit, the first ones are returned with DNSTEXT_NO_ROOM, and the cursor is
 * unchanged: call again with a larger array. A syntax error has its place, and comes after the tokens
 * before it that fit; then the text is done. If these fill the array there may be more, for a call with
 * a larger array and the cursor as it was. Once no entry is left the status is DNSTEXT_END. */
uint32_t dnstext_entry_next(const uint8_t *text, size_t text_len, struct dnstext_cursor *cursor,
                            struct dnstext_token *tokens, size_t tokens_len, struct dnstext_outcome *outcome);

/* ---- Zone files, piece by piece: an entry of any length is parsed without memory for its tokens.
 *
 * A lexer holds all state between two calls. It may be copied, stored and used again. */
enum dnstext_piece_kind {
    DNSTEXT_WORD = 0,
    DNSTEXT_QUOTED = 1,   /* a quoted string, which includes its double quotes */
    DNSTEXT_COMMENT = 2,  /* a comment with its semicolon, without the line end */
    DNSTEXT_ENTRY_END = 3 /* the end of an entry: no octets, at the offset of the next entry */
};

struct dnstext_piece {
    size_t kind;       /* an enum dnstext_piece_kind */
    size_t start;      /* offset of its first octet */
    size_t end;        /* offset after its last octet */
    bool begins_blank; /* whether the piece's entry begins with a blank */
};

/* Initialized to DNSTEXT_LEXER_INIT, all zeros; or `at` and `began` are both the offset of an entry. */
struct dnstext_lexer {
    size_t at;    /* offset at which parsing continues, where no piece is open */
    size_t depth; /* number of open parentheses */
    size_t began; /* offset of the beginning of the open entry */
    bool is_done; /* whether no piece is left */
};
/* clang-format off */
#define DNSTEXT_LEXER_INIT {0, 0, 0, false}
/* clang-format on */

/* Returns the next piece, and advances the lexer. The last piece is an end. A syntax error has its
 * place, and comes after the pieces before it; then the text is done. dnstext_entry_next from `began`,
 * with an array of length 0, reports the offset of the unclosed opener. Once no piece is left the
 * status is DNSTEXT_END. The piece is written only with DNSTEXT_OK, and the length is 0. With
 * DNSTEXT_BAD_CURSOR the lexer is unchanged. */
uint32_t dnstext_tokens_next(const uint8_t *text, size_t text_len, struct dnstext_lexer *lexer,
                             struct dnstext_piece *piece, struct dnstext_outcome *outcome);

/* ---- Zone files, record by record (RFC 1035 section 5.1, RFC 2308 section 4).
 *
 * A zone holds all state between two calls. It may be copied, stored and used again, and its fields may
 * be set. There is no other state, and no call allocates. A call uses at most 16 KB of stack, but up to
 * 80 KB for RDATA of more than 1,024 octets. */
struct dnstext_kept_name {
    size_t length;       /* its length in octets, at most 255; 0 if there is no name */
    bool is_refused;     /* whether the last such name was rejected */
    uint8_t octets[255]; /* an absolute name in wire format; the octets after it are unspecified */
};

/* Initialized to DNSTEXT_ZONE_INIT: the class IN, and all else zeros. */
struct dnstext_zone {
    uint16_t class_code;             /* class of records that omit it */
    bool has_default_ttl;            /* whether there is a default TTL */
    bool has_last_ttl;               /* whether a record had a TTL */
    uint32_t default_ttl;            /* in seconds, by $TTL, or by an SOA before which none was known */
    uint32_t last_ttl;               /* in seconds, of the last record that had one */
    size_t at;                       /* offset of the next entry */
    struct dnstext_kept_name origin; /* appended to relative names */
    struct dnstext_kept_name owner;  /* owner of records that omit it */
};
/* clang-format off */
#define DNSTEXT_ZONE_INIT {1, false, false, 0, 0, 0, {0, false, {0}}, {0, false, {0}}}
/* clang-format on */

struct dnstext_record {
    size_t place; /* offset of the first token of the record or of the directive */
    size_t data;  /* offset of the first token of its RDATA, or `end` if there is none */
    size_t end;   /* offset after the last token of the entry */
    uint32_t ttl; /* in seconds: its own; else the default; else that of the last record that had one;
                                  else, of an SOA, its minimum. A TTL of 2^31 or more is returned as 0
                                  (RFC 2181 section 8) */
    uint16_t class_code;
    uint16_t type_code;
    struct dnstext_kept_name name; /* the owner */
};

/* Sets a zone to DNSTEXT_ZONE_INIT. Always returns DNSTEXT_OK. */
uint32_t dnstext_zone_init(struct dnstext_zone *zone);

/* Sets the origin to an absolute name in wire format, or to none if there are no octets. Other octets
 * are rejected as by printing a name, or with DNSTEXT_RELATIVE_NAME, with the place 0; the zone is then
 * unchanged. The length is 0. */
uint32_t dnstext_zone_origin(struct dnstext_zone *zone, const uint8_t *name, size_t name_len,
                             struct dnstext_outcome *outcome);

/* Returns the next record: the octets are its RDATA in wire format, at most 65535, without compressed
 * names. It handles $ORIGIN and $TTL before it. Once no record is left the status is DNSTEXT_END.
 *
 * For $INCLUDE the status is DNSTEXT_INCLUDE, and the octets are the name of the file, as in the text
 * without quotes. The record has the offsets of the directive, of which `data` is `end`, and the origin
 * for the file, or a name of length 0, and otherwise zeros. To read the file: store the zone; in a copy
 * set `at` to 0 and, if there is one, set that origin; read the file with the copy; then copy its TTLs
 * back into the stored zone.
 *
 * For $GENERATE the status is DNSTEXT_GENERATE, and the length is 0. The record has the offsets of the
 * directive, of which `data` is `end`, and otherwise a name of length 0 and zeros. The octets of the
 * directive are those of the text from its place up to the zone's `at`. dnstext_generate_entry writes
 * the text of each of its entries; read each as a file that is included, without an origin of its own.
 *
 * The error of an entry has its place, and so does a syntax error; the record is then unchanged.
 * Parsing continues at the next entry, or after the line of a syntax error. For the error of an entry
 * the octets are its text, such as "MX: preference: decimal number overflow": the type and the field of
 * RDATA, and what is wrong, as zonetext(1) reports it. They are at most 255 characters, truncated to
 * the buffer, and the length is the number written. For a syntax error the length is 0, and the text is
 * that of the status. The owner and the TTL of a rejected record apply to the entries that follow, if
 * they are valid.
 *
 * With DNSTEXT_NO_ROOM the zone and the record are unchanged: call again with a larger buffer. They are
 * also unchanged with DNSTEXT_BAD_CURSOR. */
uint32_t dnstext_record_next(const uint8_t *text, size_t text_len, struct dnstext_zone *zone,
                             struct dnstext_record *record, uint8_t *octets, size_t octets_len,
                             struct dnstext_outcome *outcome);

/* Prints a record on one line, without a line feed: its owner as by dnstext_name_print_zone, its TTL, its
 * class, its type and its RDATA as by dnstext_data_print, with a space between. With a line feed after
 * it dnstext_record_next returns this record, in whichever state. The offsets of the record are not
 * read. The type has its name if the RDATA is printed in the format of the type; before \# only if each
 * name server knows that name, and otherwise TYPE and its number (RFC 3597 section 5).
 *
 * Errors are checked in this order, and all but one have the place 0: DNSTEXT_REFUSED_OWNER for a name
 * that is refused; DNSTEXT_NO_OWNER for a name of length 0; for octets that aren't an absolute name the
 * statuses of dnstext_zone_origin, with DNSTEXT_TOO_LONG for a length of more than 255;
 * DNSTEXT_BAD_TTL for a TTL of 2^31 or more; those of dnstext_data_print. A call uses at most 16 KB of
 * stack. */
uint32_t dnstext_record_print(const struct dnstext_record *record, const uint8_t *data, size_t data_len,
                              uint8_t *text, size_t text_len, struct dnstext_outcome *outcome);

/* Returns how many octets of a text are whole entries, whatever follows it: up to the last line end that
 * ends an entry, or a line that is skipped because of a syntax error. So a zone file is read in chunks:
 * dnstext_record_next reads the whole entries as it reads them in the file, and the rest is moved before
 * the next chunk. At the end of the file all octets are read. `whole` must not be NULL. Always returns
 * DNSTEXT_OK. The time is linear in the length. */
uint32_t dnstext_entries_len(const uint8_t *text, size_t text_len, size_t *whole);

/* Writes the text of an entry of a $GENERATE directive of BIND, with a line feed at its end, and stores
 * its number. Entries are counted from 0; after the last one the status is DNSTEXT_END. The octets are
 * those of the directive in a zone file, from its first token on. `number` must not be NULL; it is
 * written only with DNSTEXT_OK.
 *
 * A directive that is rejected has the status DNSTEXT_BAD_GENERATE and the place of the rejected token
 * in it; the text is then that of the error, truncated to the buffer. So is one with parentheses, or
 * with RDATA of several tokens that aren't one quoted string. A range may have 2^31 numbers: the caller
 * decides how many it reads. DNSTEXT_TOO_LONG reports a text of more than 65,535 octets. A call uses at
 * most 16 KB of stack, but up to 80 KB for a text of more than 1,024 octets. */
uint32_t dnstext_generate_entry(const uint8_t *directive, size_t directive_len, uint64_t index,
                                uint32_t *number, uint8_t *text, size_t text_len,
                                struct dnstext_outcome *outcome);

/* ---- Lines and columns.
 *
 * Both are counted from 1. An LF ends a line, and each octet counts as one character. The place may be
 * the text's length; after it the status is DNSTEXT_BAD_PLACE. `line` and `column` must not be NULL;
 * they are written only with DNSTEXT_OK. The time is linear in the place. */
uint32_t dnstext_position(const uint8_t *text, size_t text_len, size_t place, size_t *line, size_t *column);

/* An offset with its line and column, from which others are computed. Initialized to
 * DNSTEXT_POSITION_INIT. */
struct dnstext_position {
    size_t offset; /* in octets */
    size_t line;
    size_t column;
};
/* clang-format off */
#define DNSTEXT_POSITION_INIT {0, 1, 1}
/* clang-format on */

/* Moves a position to another offset of the text. After the text's length the status is
 * DNSTEXT_BAD_PLACE, and the position is unchanged. The time is linear in the octets between, or in the
 * offset if that is before the position: so the positions of all errors of a file, in order, take the
 * time of one pass. */
uint32_t dnstext_position_move(const uint8_t *text, size_t text_len, struct dnstext_position *position,
                               size_t offset);

/* ---- Statuses: prints the text of a status, also of an unknown one. */
uint32_t dnstext_status_text(uint32_t status, uint8_t *text, size_t text_len,
                             struct dnstext_outcome *outcome);
/* Return the same text as a C string, and the name, such as "DNSTEXT_BAD_ESCAPE", or "unknown". The
 * strings are static; the caller must not free or write them. */
const char *dnstext_status_message(uint32_t status);
const char *dnstext_status_name(uint32_t status);

/* Returns the version of the library, such as "0.2.0": a static string. */
const char *dnstext_version(void);

#ifdef __cplusplus
}
#endif

#endif
