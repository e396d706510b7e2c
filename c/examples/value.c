/* value TYPE TEXT: prints what a user typed as zone files have it, or the offset and the text of an error. */
#include <dnstext.h>
#include <stdio.h>
#include <string.h>

int main(int argc, char **argv) {
    static uint8_t data[65535], text[1 << 20];
    const uint8_t *typed = (const uint8_t *)argv[argc - 1];
    size_t length = strlen(argv[argc - 1]);
    struct dnstext_outcome out;
    uint32_t status;
    uint16_t type;
    if (argc != 3 || dnstext_type_read((const uint8_t *)argv[1], strlen(argv[1]), &type, &out) != DNSTEXT_OK)
        return 2;
    /* TXT isn't parsed: in a zone file the value of a DKIM key would end at its first semicolon. */
    status = type == 16 ? dnstext_text_data(typed, length, data, sizeof data, &out)
                        : dnstext_data_read(type, typed, length, NULL, 0, data, sizeof data, &out);
    if (status == DNSTEXT_OK &&
        dnstext_data_print(type, data, out.length, text, sizeof text, &out) == DNSTEXT_OK)
        printf("%.*s\n", (int)out.length, (const char *)text);
    else
        printf("%zu: %.*s\n", out.place, out.length ? (int)out.length : 99,
               out.length ? (const char *)data : dnstext_status_message(status));
    return status != DNSTEXT_OK;
}
