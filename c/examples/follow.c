/* Prints the records of a zone file, of the files that it includes and of its $GENERATE directives, a line
 * each; and each error on standard error, as FILE:LINE:COLUMN: MESSAGE. It opens any file that a zone names:
 *   follow ORIGIN FILE */
#include <dnstext.h>
#include <stdio.h>
#include <string.h>

enum { DEPTH = 10, ROOM = 1 << 24 };
static struct text { /* of a file, or of the entries of a directive, in place of what is in the text before */
    char path[4096];
    size_t length;
    uint8_t octets[ROOM];
} texts[DEPTH + 1];
static struct dnstext_outcome out;
static int errors;

static void complain(const struct text *text, size_t place, uint32_t status, const void *message) {
    size_t line = 0, column = 0;
    dnstext_position(text->octets, text->length, place, &line, &column);
    fprintf(stderr, "%s:%zu:%zu: %.*s\n", text->path, line, column, out.length != 0 ? (int)out.length : 99,
            out.length != 0 ? (const char *)message : dnstext_status_message(status));
    errors++;
}

static void follow(const struct text *text, struct text *next, struct dnstext_zone *zone) {
    static uint8_t data[65535], line[1 << 20];
    struct dnstext_record record;
    uint32_t number, status;
    while ((status = dnstext_record_next(text->octets, text->length, zone, &record, data, sizeof data,
                                         &out)) != DNSTEXT_END) {
        struct dnstext_zone inner = *zone;
        next->length = inner.at = 0;
        if (status == DNSTEXT_OK) {
            dnstext_record_print(&record, data, out.length, line, sizeof line, &out);
            printf("%.*s\n", (int)out.length, (const char *)line);
        } else if (status == DNSTEXT_INCLUDE && next < texts + DEPTH) {
            snprintf(next->path, sizeof next->path, "%.*s", (int)out.length, (const char *)data);
            FILE *file = fopen(next->path, "rb");
            next->length = file != NULL ? fread(next->octets, 1, ROOM, file) : 0;
            out.length = (size_t)snprintf((char *)line, sizeof line, "%s is not read", next->path);
            if (file == NULL || fclose(file) != 0)
                complain(text, record.place, status, line);
            inner.origin = record.name.length != 0 ? record.name : zone->origin;
        } else if (status == DNSTEXT_GENERATE && next < texts + DEPTH) {
            snprintf(next->path, sizeof next->path, "%.4000s: $GENERATE", text->path);
            uint64_t i = 0;
            while ((status = dnstext_generate_entry(text->octets + record.place, zone->at - record.place, i++,
                                                    &number, next->octets + next->length, ROOM - next->length,
                                                    &out)) == DNSTEXT_OK)
                next->length += out.length;
            if (status == DNSTEXT_BAD_GENERATE)
                complain(text, record.place + out.place, status, next->octets + next->length);
        } else {
            complain(text, out.place, status, data);
        }
        follow(next, next + 1, &inner);
        zone->has_default_ttl = inner.has_default_ttl, zone->default_ttl = inner.default_ttl;
        zone->has_last_ttl = inner.has_last_ttl, zone->last_ttl = inner.last_ttl;
    }
}

int main(int argc, char **argv) { /* the arguments are read as directives */
    struct dnstext_zone zone = DNSTEXT_ZONE_INIT;
    if (argc != 3)
        return 2;
    snprintf(texts->path, sizeof texts->path, "%s", argv[0]);
    texts->length = snprintf((char *)texts->octets, ROOM, "$ORIGIN %s\n$INCLUDE \"%s\"", argv[1], argv[2]);
    follow(texts, texts + 1, &zone);
    return errors != 0;
}
