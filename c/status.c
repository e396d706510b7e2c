/* The names and the texts of statuses, and the version, as static strings. `signatures.py` compares both
 * tables with the header and with crates/dns_text_c. */
#include <dnstext.h>

/* The library writes flags as one octet, 0 or 1. */
typedef char a_bool_is_an_octet[sizeof(bool) == 1 ? 1 : -1];

#define STATUS(name, message) [name] = {#name, message}

static const struct {
    const char *name;
    const char *message;
} statuses[] = {
    STATUS(DNSTEXT_OK, "well"),
    STATUS(DNSTEXT_END, "nothing is left"),
    STATUS(DNSTEXT_NO_ROOM, "no room"),
    STATUS(DNSTEXT_BAD_ESCAPE, "illegal escape sequence"),
    STATUS(DNSTEXT_SHORT_INPUT, "unexpected end of data"),
    STATUS(DNSTEXT_BAD_UTF8, "illegal UTF-8 sequence"),
    STATUS(DNSTEXT_BAD_SYMBOL, "octet outside printable ASCII"),
    STATUS(DNSTEXT_TOO_LONG, "too many octets"),
    STATUS(DNSTEXT_BAD_ENCODING, "not of the encoding"),
    STATUS(DNSTEXT_CLOSING, "closing parenthesis, and none is open"),
    STATUS(DNSTEXT_OPEN_PARENTHESIS, "parenthesis is not closed"),
    STATUS(DNSTEXT_OPEN_QUOTE, "quoted text is not closed"),
    STATUS(DNSTEXT_LONE_RETURN, "CR without LF"),
    STATUS(DNSTEXT_BAD_CURSOR, "cursor past the end"),
    STATUS(DNSTEXT_EMPTY_LABEL, "label without octets"),
    STATUS(DNSTEXT_LONG_LABEL, "more than 63 octets in a label"),
    STATUS(DNSTEXT_BINARY_LABEL, "binary label"),
    STATUS(DNSTEXT_BAD_LABEL, "unknown type of label"),
    STATUS(DNSTEXT_POINTER, "pointer in place of a label"),
    STATUS(DNSTEXT_TRAILING_OCTETS, "octets after the root"),
    STATUS(DNSTEXT_NO_DIGIT, "no decimal digit"),
    STATUS(DNSTEXT_TOO_GREAT, "number too great"),
    STATUS(DNSTEXT_BAD_PLACE, "place past the end"),
    STATUS(DNSTEXT_BAD_TTL, "expected TTL"),
    STATUS(DNSTEXT_UNKNOWN_TYPE, "unknown record type"),
    STATUS(DNSTEXT_UNKNOWN_CLASS, "unknown class"),
    STATUS(DNSTEXT_INCLUDE, "a file to include"),
    STATUS(DNSTEXT_BAD_HEAD, "directive, or words in front of data, refused"),
    STATUS(DNSTEXT_NOT_SUPPORTED, "not supported: expand it first"),
    STATUS(DNSTEXT_BAD_NAME, "name refused"),
    STATUS(DNSTEXT_NO_ORIGIN, "relative name, and no origin"),
    STATUS(DNSTEXT_NO_OWNER, "no owner"),
    STATUS(DNSTEXT_REFUSED_OWNER, "the owner before is refused"),
    STATUS(DNSTEXT_BAD_DATA, "data refused"),
    STATUS(DNSTEXT_NO_TTL, "no TTL"),
    STATUS(DNSTEXT_RELATIVE_NAME, "name without the root at its end"),
    STATUS(DNSTEXT_GENERATE, "a $GENERATE directive"),
    STATUS(DNSTEXT_BAD_GENERATE, "$GENERATE refused"),
};

enum { KNOWN = sizeof statuses / sizeof *statuses };

const char *dnstext_status_name(uint32_t status) {
    return status < KNOWN ? statuses[status].name : "unknown";
}

const char *dnstext_status_message(uint32_t status) {
    return status < KNOWN ? statuses[status].message : "unknown status";
}

const char *dnstext_version(void) {
    return DNSTEXT_VERSION;
}
