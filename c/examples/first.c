#include <dnstext.h>
#include <stdio.h>

int main(void) {
    static uint8_t text[1 << 24], data[65535], line[1 << 20];
    struct dnstext_zone zone = DNSTEXT_ZONE_INIT;
    struct dnstext_record record;
    struct dnstext_outcome out;
    size_t length = fread(text, 1, sizeof text, stdin);
    while (dnstext_record_next(text, length, &zone, &record, data, sizeof data, &out) == DNSTEXT_OK &&
           dnstext_record_print(&record, data, out.length, line, sizeof line, &out) == DNSTEXT_OK)
        printf("%.*s\n", (int)out.length, (const char *)line);
}
