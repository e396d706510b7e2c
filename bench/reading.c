/* Parses all records of a zone file with the C library, and prints their number and the microseconds of
 * processor time: reading FILE */
#include <dnstext.h>
#include <stdio.h>
#include <stdlib.h>
#include <time.h>

static uint8_t octets[65535];

/* Returns the octets of a file, and stores their number in `length`. */
static uint8_t *read_all(const char *path, size_t *length) {
    FILE *file = fopen(path, "rb");
    uint8_t *text = NULL;
    size_t room = 0;
    *length = 0;
    if (file == NULL)
        return NULL;
    do {
        uint8_t *more = (uint8_t *)realloc(text, room = room * 2 + 65536);
        if (more == NULL)
            break;
        text = more;
        *length += fread(text + *length, 1, room - *length, file);
    } while (*length == room);
    fclose(file);
    return text;
}

int main(int argc, char **argv) {
    struct dnstext_zone zone = DNSTEXT_ZONE_INIT;
    struct dnstext_record record;
    struct dnstext_outcome outcome;
    size_t length = 0, count = 0;
    uint8_t *text = argc == 2 ? read_all(argv[1], &length) : NULL;
    uint32_t status = DNSTEXT_END;
    clock_t begun = clock();
    if (text == NULL) {
        fputs("reading FILE\n", stderr);
        return 2;
    }
    while ((status = dnstext_record_next(text, length, &zone, &record, octets, sizeof octets, &outcome)) ==
           DNSTEXT_OK)
        count++;
    printf("%lu %.0f\n", (unsigned long)count, 1e6 * (double)(clock() - begun) / CLOCKS_PER_SEC);
    free(text);
    return status == DNSTEXT_END ? 0 : 1;
}
