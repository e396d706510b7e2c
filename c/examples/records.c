/* Prints the records of one owner and type of a zone file, each as its TTL and its RDATA in base 16, and
 * the line and column of each error on standard error:
 *   records ORIGIN OWNER TYPE < FILE
 * Included files and the entries of $GENERATE are not read. */
#include <dnstext.h>
#include <stdio.h>
#include <stdlib.h>
#include <string.h>

static uint8_t *text;
static size_t text_len;
static uint8_t octets[65535];
static uint8_t shown[2 * 65535];

static void read_all(FILE *file) {
    size_t room = 0, got;
    do {
        if (text_len == room) {
            uint8_t *more;
            room = room * 2 + 4096;
            more = (uint8_t *)realloc(text, room);
            if (more == NULL) {
                fputs("records: out of memory\n", stderr);
                exit(2);
            }
            text = more;
        }
        got = fread(text + text_len, 1, room - text_len, file);
        text_len += got;
    } while (got != 0);
}

/* Returns an absolute name in wire format. */
static struct dnstext_kept_name name_of(const char *word) {
    struct dnstext_kept_name name = {0, false, {0}};
    struct dnstext_outcome outcome;
    bool is_absolute = false;
    uint32_t status = dnstext_name_read((const uint8_t *)word, strlen(word), name.octets, sizeof name.octets,
                                        &is_absolute, &outcome);
    if (status != DNSTEXT_OK || !is_absolute) {
        fprintf(stderr, "records: %s: %s\n", word,
                status != DNSTEXT_OK ? dnstext_status_message(status) : "no dot at the end");
        exit(2);
    }
    name.length = outcome.length;
    return name;
}

/* Returns whether two names are equal, without regard to the case of letters (RFC 4343). */
static bool same_name(const struct dnstext_kept_name *a, const struct dnstext_kept_name *b) {
    size_t i;
    if (a->length != b->length)
        return false;
    for (i = 0; i < a->length; i++) {
        int x = a->octets[i], y = b->octets[i];
        if ((x >= 'A' && x <= 'Z' ? x + 32 : x) != (y >= 'A' && y <= 'Z' ? y + 32 : y))
            return false;
    }
    return true;
}

/* The position continues from that of the error before: all of them take the time of one pass. */
static void complain(struct dnstext_position *position, uint32_t status, struct dnstext_outcome outcome) {
    dnstext_position_move(text, text_len, position, outcome.place);
    fprintf(stderr, "%lu:%lu: ", (unsigned long)position->line, (unsigned long)position->column);
    if (outcome.length != 0)
        fprintf(stderr, "%.*s\n", (int)outcome.length, (const char *)octets);
    else
        fprintf(stderr, "%s\n", dnstext_status_message(status));
}

static void print(const struct dnstext_record *record, size_t length) {
    struct dnstext_outcome outcome;
    dnstext_base16_print(octets, length, shown, sizeof shown, &outcome);
    printf("%lu %.*s\n", (unsigned long)record->ttl, (int)outcome.length, (const char *)shown);
}

int main(int argc, char **argv) {
    struct dnstext_zone zone = DNSTEXT_ZONE_INIT;
    struct dnstext_position position = DNSTEXT_POSITION_INIT;
    struct dnstext_kept_name owner;
    struct dnstext_outcome outcome;
    uint16_t type;
    int failed = 0;
    if (argc != 4) {
        fputs("records ORIGIN OWNER TYPE < FILE\n", stderr);
        return 2;
    }
    zone.origin = name_of(argv[1]);
    owner = name_of(argv[2]);
    if (dnstext_type_read((const uint8_t *)argv[3], strlen(argv[3]), &type, &outcome) != DNSTEXT_OK) {
        fprintf(stderr, "records: %s: %s\n", argv[3], dnstext_status_message(DNSTEXT_UNKNOWN_TYPE));
        return 2;
    }
    read_all(stdin);
    for (;;) {
        struct dnstext_record record;
        uint32_t status =
            dnstext_record_next(text, text_len, &zone, &record, octets, sizeof octets, &outcome);
        if (status == DNSTEXT_END)
            break;
        if (status == DNSTEXT_OK) {
            if (record.type_code == type && same_name(&record.name, &owner))
                print(&record, outcome.length);
        } else if (status != DNSTEXT_INCLUDE && status != DNSTEXT_GENERATE) {
            complain(&position, status, outcome);
            failed = 1;
        }
    }
    free(text);
    return failed;
}
