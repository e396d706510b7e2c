/* Checks zone files: prints each error on standard output, as FILE:LINE:COLUMN: MESSAGE.
 *   check ORIGIN FILE..
 * Included files are named, and not read. An error of an entry of $GENERATE is reported at the directive. */
#include <dnstext.h>
#include <stdio.h>
#include <stdlib.h>
#include <string.h>

static uint8_t octets[65535];

/* Returns all octets of a file, which the caller frees; or NULL. */
static uint8_t *contents(const char *path, size_t *length) {
    FILE *file = fopen(path, "rb");
    uint8_t *text = NULL, *more = NULL;
    size_t room = 4096, got = 0;
    *length = 0;
    while (file != NULL && (more = (uint8_t *)realloc(text, room)) != NULL) {
        text = more;
        got = fread(text + *length, 1, room - *length, file);
        *length += got;
        if (got == 0)
            break;
        if (*length == room)
            room *= 2;
    }
    if (file == NULL || more == NULL || ferror(file)) {
        free(text);
        text = NULL;
    }
    if (file != NULL)
        fclose(file);
    return text;
}

/* The position continues from that of the error before: all of them take the time of one pass. */
static void tell(const char *path, const uint8_t *text, size_t length, struct dnstext_position *position,
                 uint32_t status, struct dnstext_outcome outcome) {
    dnstext_position_move(text, length, position, outcome.place);
    printf("%s:%lu:%lu: ", path, (unsigned long)position->line, (unsigned long)position->column);
    if (outcome.length != 0)
        printf("%.*s\n", (int)outcome.length, (const char *)octets);
    else
        printf("%s\n", dnstext_status_message(status));
}

/* Reads the entries of a $GENERATE directive as if they were in its place, up to the first error. Returns
 * its status, or DNSTEXT_END without an error. */
static uint32_t read_entries(const uint8_t *directive, size_t length, struct dnstext_zone *zone,
                             struct dnstext_outcome *outcome) {
    static uint8_t entry[65535];
    uint64_t index;
    for (index = 0;; index++) {
        struct dnstext_record record;
        struct dnstext_zone inner = *zone;
        size_t entry_length;
        uint32_t of,
            status = dnstext_generate_entry(directive, length, index, &of, entry, sizeof entry, outcome);
        if (status == DNSTEXT_BAD_GENERATE)
            memcpy(octets, entry, outcome->length);
        if (status != DNSTEXT_OK)
            return status;
        inner.at = 0;
        entry_length = outcome->length;
        status = dnstext_record_next(entry, entry_length, &inner, &record, octets, sizeof octets, outcome);
        zone->has_last_ttl = inner.has_last_ttl;
        zone->last_ttl = inner.last_ttl;
        zone->has_default_ttl = inner.has_default_ttl;
        zone->default_ttl = inner.default_ttl;
        if (status != DNSTEXT_OK)
            return status;
    }
}

/* Returns the number of errors of a file; or -1 if it can't be read. */
static long check(const char *path, const struct dnstext_zone *start) {
    struct dnstext_zone zone = *start;
    struct dnstext_position position = DNSTEXT_POSITION_INIT;
    struct dnstext_outcome outcome;
    size_t length;
    long refusals = 0;
    uint8_t *text = contents(path, &length);
    if (text == NULL)
        return -1;
    for (;;) {
        struct dnstext_record record;
        uint32_t status = dnstext_record_next(text, length, &zone, &record, octets, sizeof octets, &outcome);
        if (status == DNSTEXT_END)
            break;
        if (status == DNSTEXT_INCLUDE) {
            printf("%s: %.*s is not read\n", path, (int)outcome.length, (const char *)octets);
        } else if (status == DNSTEXT_GENERATE) {
            size_t place = record.place;
            status = read_entries(text + place, zone.at - place, &zone, &outcome);
            if (status != DNSTEXT_END) {
                outcome.place = place;
                tell(path, text, length, &position, status, outcome);
                refusals++;
            }
        } else if (status != DNSTEXT_OK) {
            tell(path, text, length, &position, status, outcome);
            refusals++;
        }
    }
    free(text);
    return refusals;
}

int main(int argc, char **argv) {
    struct dnstext_zone start = DNSTEXT_ZONE_INIT;
    struct dnstext_outcome outcome;
    bool is_absolute = false;
    uint8_t name[255];
    int i, status = 0;
    if (argc < 3) {
        fputs("check ORIGIN FILE..\n", stderr);
        return 2;
    }
    if (dnstext_name_read((const uint8_t *)argv[1], strlen(argv[1]), name, sizeof name, &is_absolute,
                          &outcome) != DNSTEXT_OK ||
        dnstext_zone_origin(&start, name, outcome.length, &outcome) != DNSTEXT_OK) {
        fprintf(stderr, "check: %s: no absolute name\n", argv[1]);
        return 2;
    }
    for (i = 2; i < argc; i++) {
        long refusals = check(argv[i], &start);
        if (refusals < 0) {
            fprintf(stderr, "check: %s: not read\n", argv[i]);
            return 2;
        }
        if (refusals != 0)
            status = 1;
    }
    return status;
}
