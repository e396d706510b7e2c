/* RDATA: parsed, printed and in canonical form, with buffers from none to ample, and each error. */
#define TESTS "tests/data.c"
#include "expect.h"

/* The type and the origin of the RDATA. */
static uint16_t data_code;
static const uint8_t *data_origin;
static size_t data_origin_len;

static uint32_t read_data(const uint8_t *text, size_t text_len, uint8_t *octets, size_t octets_len,
                          struct dnstext_outcome *outcome) {
    return dnstext_data_read(data_code, text, text_len, data_origin, data_origin_len, octets, octets_len,
                             outcome);
}

static uint32_t print_data(const uint8_t *octets, size_t octets_len, uint8_t *text, size_t text_len,
                           struct dnstext_outcome *outcome) {
    return dnstext_data_print(data_code, octets, octets_len, text, text_len, outcome);
}

static uint32_t canonical_data(const uint8_t *octets, size_t octets_len, uint8_t *form, size_t form_len,
                               struct dnstext_outcome *outcome) {
    return dnstext_data_canonical(data_code, octets, octets_len, form, form_len, outcome);
}

/* An error of a text, with the part of its message that fits, and the memory after it unchanged. */
static void refuses_data(const uint8_t *text, size_t text_len, uint32_t status, size_t place, const char *why,
                         int line) {
    uint8_t memory[300];
    size_t room, i;
    for (room = 0; room <= strlen(why) + 1; room++) {
        struct dnstext_outcome outcome = {7, 7};
        size_t length = room < strlen(why) ? room : strlen(why);
        memset(memory, '-', sizeof memory);
        expect(run(read_data, text, text_len, memory, room, &outcome) == status, "status", line);
        expect(outcome.length == length && outcome.place == place, "length and place", line);
        for (i = 0; i < sizeof memory; i++)
            expect(memory[i] == (i < length ? (uint8_t)why[i] : '-'), "memory", line);
    }
}
#define REFUSES_DATA(text, status, place, why) refuses_data(BYTES(text), status, place, why, __LINE__)

/* RFC 1035 sections 3.3 and 5.1, RFC 3597 section 5, RFC 3123. */
static void record_data(void) {
    static uint8_t many[65536];
    struct dnstext_outcome outcome = {7, 7};
    data_code = 15;
    data_origin = (const uint8_t *)"\7example";
    data_origin_len = 9;
    GIVES(read_data, "10 mail", "\0\12\4mail\7example\0");
    GIVES(read_data, "( 10 ; first\n mail. )\n\n", "\0\12\4mail\0");
    data_code = 731;
    GIVES(read_data, "\\# 3 abcd ef", "\253\315\357");
    GIVES(print_data, "\253\315\357", "\\# 3 ABCDEF");
    GIVES(print_data, "", "\\# 0");
    REFUSES_DATA("abcdef", DNSTEXT_BAD_DATA, 0, "TYPE731: give its data as \\#");
    data_code = 15;
    GIVES(print_data, "\0\12\4mail\0", "10 mail.");
    REFUSES_DATA("65536 mail", DNSTEXT_BAD_DATA, 0, "MX: preference: decimal number overflow");
    REFUSES_DATA("10 mail 5", DNSTEXT_BAD_DATA, 8, "MX: unexpected token behind the data");
    REFUSES_DATA("( 10 mail\n5 )", DNSTEXT_BAD_DATA, 10, "MX: unexpected token behind the data");
    REFUSES_DATA("10 mail\n5", DNSTEXT_BAD_DATA, 8, "MX: the data end at the end of the line");
    REFUSES_DATA("\n(10\nmail) ; first\n\n\"5\"", DNSTEXT_BAD_DATA, 20,
                 "MX: the data end at the end of the line");
    REFUSES_DATA("10 (mail", DNSTEXT_OPEN_PARENTHESIS, 8, "");
    REFUSES_DATA("10 mail\n)", DNSTEXT_CLOSING, 8, "");
    REFUSES(print_data, "\0\12\4mail", DNSTEXT_BAD_DATA, 0);
    REFUSES(print_data, "\0\12\300\14", DNSTEXT_BAD_DATA, 0);
    REFUSES(print_data, "", DNSTEXT_BAD_DATA, 0);
    data_origin = NULL;
    data_origin_len = 0;
    GIVES(read_data, "10 mail.", "\0\12\4mail\0");
    REFUSES_DATA("10 mail", DNSTEXT_NO_ORIGIN, 3, "MX: exchange: relative name, and no origin");
    data_origin = (const uint8_t *)"\1a";
    data_origin_len = 2;
    REFUSES_DATA("10 mail.", DNSTEXT_RELATIVE_NAME, 0, "");
    data_origin_len = 1;
    REFUSES_DATA("10 mail.", DNSTEXT_SHORT_INPUT, 0, "");
    data_origin = many;
    data_origin_len = 256;
    REFUSES_DATA("10 mail.", DNSTEXT_TOO_LONG, 0, "");
    data_origin_len = 0;
    data_code = 16;
    GIVES(print_data, "\3a b\0\1\"", "\"a b\" \"\" \"\\\"\"");
    data_code = 42;
    GIVES(read_data, "", "");
    GIVES(read_data, " ; none", "");
    data_code = 0;
    REFUSES_DATA("\\# 0", DNSTEXT_BAD_DATA, 0, "TYPE0: type has no data in zones");
    REFUSES(print_data, "", DNSTEXT_BAD_DATA, 0);
    data_code = 65280;
    EXPECT(print_data(many, 65536, NULL, 0, &outcome) == DNSTEXT_TOO_LONG && tells(outcome, 0, 65535));
    EXPECT(print_data(many, 65535, NULL, 0, &outcome) == DNSTEXT_NO_ROOM && tells(outcome, 131079, 0));
}

/* RFC 4034 section 6.2, RFC 6840 section 5.1; and more octets than the call converts at once. */
static void canonical_forms(void) {
    static uint8_t many[65536], form[65536];
    struct dnstext_outcome outcome = {7, 7};
    data_code = 15;
    GIVES(canonical_data, "\0\12\4Mail\7EXAMPLE\0", "\0\12\4mail\7example\0");
    REFUSES(canonical_data, "\0\12\4Mail", DNSTEXT_BAD_DATA, 0);
    REFUSES(canonical_data, "", DNSTEXT_BAD_DATA, 0);
    data_code = 35;
    GIVES(canonical_data, "\0\1\0\2\1U\3SIP\1R\1A\0", "\0\1\0\2\1U\3SIP\1R\1a\0");
    data_code = 47;
    GIVES(canonical_data, "\1A\0\0\1@", "\1A\0\0\1@");
    data_code = 16;
    GIVES(canonical_data, "\1A", "\1A");
    data_code = 65280;
    GIVES(canonical_data, "", "");
    memset(many, 'A', sizeof many);
    EXPECT(canonical_data(many, 65536, form, sizeof form, &outcome) == DNSTEXT_TOO_LONG);
    EXPECT(tells(outcome, 0, 65535));
    EXPECT(canonical_data(many, 65535, form, 65534, &outcome) == DNSTEXT_NO_ROOM && tells(outcome, 65535, 0));
    EXPECT(canonical_data(many, 65535, form, 65535, &outcome) == DNSTEXT_OK && tells(outcome, 65535, 0));
    EXPECT(memcmp(form, many, 65535) == 0);
    data_code = 41;
    REFUSES(canonical_data, "", DNSTEXT_BAD_DATA, 0);
    /* NXT: a name, and octets that don't change */
    data_code = 30;
    memcpy(many, "\1A\0", 4);
    EXPECT(canonical_data(many, 1025, form, sizeof form, &outcome) == DNSTEXT_OK && tells(outcome, 1025, 0));
    EXPECT(memcmp(form, "\1a\0", 4) == 0 && memcmp(form + 4, many + 4, 1021) == 0);
}

/* RFC 1035 sections 3.3 and 3.3.14. */
static void texts_of_octets(void) {
    static uint8_t many[65280], data[65536 + 1];
    struct dnstext_outcome outcome = {7, 7};
    size_t i;
    memset(many, 'x', sizeof many);
    GIVES(dnstext_text_data, "", "\0");
    GIVES(dnstext_text_data, "v=DKIM1; p=\"\\\0", "\16v=DKIM1; p=\"\\\0");
    data[0] = 255;
    memset(data + 1, 'x', 255);
    gives(dnstext_text_data, many, 255, data, 256, __LINE__);
    data[256] = 1, data[257] = 'x';
    gives(dnstext_text_data, many, 256, data, 258, __LINE__);
    data[256] = 255;
    memset(data + 257, 'x', 255);
    gives(dnstext_text_data, many, 510, data, 512, __LINE__);
    EXPECT(dnstext_text_data(many, 65279, data, 65534, &outcome) == DNSTEXT_NO_ROOM);
    EXPECT(tells(outcome, 65535, 0));
    memset(data, '-', sizeof data);
    EXPECT(dnstext_text_data(many, 65279, data, 65536, &outcome) == DNSTEXT_OK && tells(outcome, 65535, 0));
    for (i = 0; i < 65535; i++)
        EXPECT(data[i] == (i % 256 != 0 ? 'x' : i < 65280 ? 255 : 254));
    EXPECT(data[65535] == '-');
    refuses(dnstext_text_data, many, 65280, DNSTEXT_TOO_LONG, 65279, __LINE__);
}

int main(void) {
    record_data();
    texts_of_octets();
    canonical_forms();
    return failures != 0;
}
