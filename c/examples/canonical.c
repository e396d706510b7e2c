/* canonical < FILE: prints records in canonical form and order (RFC 4034 section 6), up to an error. */
#include <dnstext.h>
#include <stdio.h>
#include <stdlib.h>
#include <string.h>
static struct dnstext_record records[1 << 18], *end = records; /* each has at least five octets of text, */
static uint8_t text[1 << 20], octets[1 << 27], data[65535], line[1 << 20]; /* and at most 128 for each */
static struct dnstext_outcome out;

static int compare(const void *p, const void *q) {
    const struct dnstext_record *a = (const struct dnstext_record *)p, *b = (const struct dnstext_record *)q;
    size_t m = a->end - a->data, n = b->end - b->data;
    int type = a->type_code - b->type_code, same = memcmp(octets + a->data, octets + b->data, m < n ? m : n);
    int32_t order = 0;
    dnstext_name_compare(a->name.octets, a->name.length, b->name.octets, b->name.length, &order, &out);
    return order != 0 ? order : type != 0 ? type : same != 0 ? same : (m > n) - (m < n);
}

int main(void) {
    struct dnstext_zone zone = DNSTEXT_ZONE_INIT;
    size_t length = fread(text, 1, sizeof text, stdin), used = 0, status;
    while ((status = dnstext_record_next(text, length, &zone, end, data, sizeof data, &out)) == DNSTEXT_OK) {
        struct dnstext_record it = *end;
        end->data = used, end->end = used += out.length; /* now the span of its RDATA in `octets` */
        dnstext_data_canonical(it.type_code, data, out.length, octets + end->data, out.length, &out);
        dnstext_name_canonical(it.name.octets, it.name.length, end++->name.octets, 255, &out);
    }
    qsort(records, end - records, sizeof *records, compare);
    for (const struct dnstext_record *r = records; r < end; r++)
        if (r == records || compare(r - 1, r) != 0) {
            dnstext_record_print(r, octets + r->data, r->end - r->data, line, sizeof line, &out);
            printf("%.*s\n", (int)out.length, (const char *)line);
        }
    return status != DNSTEXT_END;
}
