/* The size of each struct, the offset of each field, and the numbers of enums: bindings in other languages
 * have them too. Each is checked at compile time against the number that is written here. A change of one
 * is a new minor version. */
#include <dnstext.h>

#define JOIN_AGAIN(a, b) a##b
#define JOIN(a, b) JOIN_AGAIN(a, b)
#define IS(a, b) typedef char JOIN(is_so_in_line_, __LINE__)[(a) == (b) ? 1 : -1]
#define SIZE(type, size) IS(sizeof(type), size)
#define FIELD(type, field, offset) IS(offsetof(type, field), offset)

/* A flag is an octet. */
SIZE(bool, 1);
SIZE(size_t, 8);

SIZE(struct dnstext_outcome, 16);
FIELD(struct dnstext_outcome, length, 0);
FIELD(struct dnstext_outcome, place, 8);

SIZE(struct dnstext_token, 24);
FIELD(struct dnstext_token, start, 0);
FIELD(struct dnstext_token, end, 8);
FIELD(struct dnstext_token, is_quoted, 16);

SIZE(struct dnstext_cursor, 24);
FIELD(struct dnstext_cursor, at, 0);
FIELD(struct dnstext_cursor, begins_blank, 8);
FIELD(struct dnstext_cursor, is_done, 9);
FIELD(struct dnstext_cursor, opened, 16);

SIZE(struct dnstext_piece, 32);
FIELD(struct dnstext_piece, kind, 0);
FIELD(struct dnstext_piece, start, 8);
FIELD(struct dnstext_piece, end, 16);
FIELD(struct dnstext_piece, begins_blank, 24);

SIZE(struct dnstext_lexer, 32);
FIELD(struct dnstext_lexer, at, 0);
FIELD(struct dnstext_lexer, depth, 8);
FIELD(struct dnstext_lexer, began, 16);
FIELD(struct dnstext_lexer, is_done, 24);

SIZE(struct dnstext_kept_name, 264);
FIELD(struct dnstext_kept_name, length, 0);
FIELD(struct dnstext_kept_name, is_refused, 8);
FIELD(struct dnstext_kept_name, octets, 9);
SIZE(((struct dnstext_kept_name *)0)->octets, 255);

SIZE(struct dnstext_zone, 552);
FIELD(struct dnstext_zone, class_code, 0);
FIELD(struct dnstext_zone, has_default_ttl, 2);
FIELD(struct dnstext_zone, has_last_ttl, 3);
FIELD(struct dnstext_zone, default_ttl, 4);
FIELD(struct dnstext_zone, last_ttl, 8);
FIELD(struct dnstext_zone, at, 16);
FIELD(struct dnstext_zone, origin, 24);
FIELD(struct dnstext_zone, owner, 288);

SIZE(struct dnstext_record, 296);
FIELD(struct dnstext_record, place, 0);
FIELD(struct dnstext_record, data, 8);
FIELD(struct dnstext_record, end, 16);
FIELD(struct dnstext_record, ttl, 24);
FIELD(struct dnstext_record, class_code, 28);
FIELD(struct dnstext_record, type_code, 30);
FIELD(struct dnstext_record, name, 32);

SIZE(struct dnstext_position, 24);
FIELD(struct dnstext_position, offset, 0);
FIELD(struct dnstext_position, line, 8);
FIELD(struct dnstext_position, column, 16);

/* The last status, and the last kind of piece. */
IS(DNSTEXT_BAD_GENERATE, 37);
IS(DNSTEXT_ENTRY_END, 3);
