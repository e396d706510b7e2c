/* Lists the tokens of a zone file on standard input, one a line after the number of its entry, without
 * memory other than the text's. */
#include <dnstext.h>
#include <stdio.h>

static uint8_t text[1024 * 1024];

int main(void) {
    struct dnstext_lexer lexer = DNSTEXT_LEXER_INIT;
    struct dnstext_piece piece;
    struct dnstext_outcome outcome;
    size_t length = fread(text, 1, sizeof text, stdin);
    unsigned long entry = 1;
    uint32_t status;
    while ((status = dnstext_tokens_next(text, length, &lexer, &piece, &outcome)) == DNSTEXT_OK) {
        if (piece.kind == DNSTEXT_WORD || piece.kind == DNSTEXT_QUOTED)
            printf("%lu %.*s\n", entry, (int)(piece.end - piece.start), (const char *)text + piece.start);
        if (piece.kind == DNSTEXT_ENTRY_END)
            entry++;
    }
    if (status != DNSTEXT_END) {
        fprintf(stderr, "%s at %lu\n", dnstext_status_message(status), (unsigned long)outcome.place);
        return 1;
    }
    return 0;
}
