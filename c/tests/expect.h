/* Calls with buffers from none to ample, for the tests in the file TESTS. */
#ifndef EXPECT_H
#define EXPECT_H

#include <dnstext.h>
#include <stdio.h>
#include <stdlib.h>
#include <string.h>

#define BYTES(text) (const uint8_t *)(text), sizeof(text) - 1

typedef uint32_t (*call)(const uint8_t *, size_t, uint8_t *, size_t, struct dnstext_outcome *);

static int failures;

static inline void expect(int is_so, const char *what, int line) {
    if (!is_so) {
        fprintf(stderr, "%s:%d: %s\n", TESTS, line, what);
        failures++;
    }
}
#define EXPECT(is_so) expect((is_so), #is_so, __LINE__)

/* A call on memory of the exact lengths, so that a sanitizer detects accesses beyond them. */
static inline uint32_t run(call f, const uint8_t *from, size_t from_len, uint8_t *to, size_t to_len,
                           struct dnstext_outcome *outcome) {
    uint8_t *input = from_len != 0 ? (uint8_t *)malloc(from_len) : NULL;
    uint8_t *output = to_len != 0 ? (uint8_t *)malloc(to_len) : NULL;
    uint32_t status;
    if (from_len != 0)
        memcpy(input, from, from_len);
    if (to_len != 0)
        memcpy(output, to, to_len);
    status = f(input, from_len, output, to_len, outcome);
    if (to_len != 0)
        memcpy(to, output, to_len);
    free(input);
    free(output);
    return status;
}

static inline void gives(call f, const uint8_t *from, size_t from_len, const uint8_t *made, size_t length,
                         int line) {
    uint8_t memory[1100];
    size_t room, i;
    for (room = 0; room <= length + 15; room++) {
        struct dnstext_outcome outcome = {7, 7};
        uint32_t status;
        memset(memory, '-', sizeof memory);
        status = run(f, from, from_len, memory, room, &outcome);
        expect(outcome.length == length && outcome.place == 0, "length and place", line);
        expect(status == (room < length ? DNSTEXT_NO_ROOM : DNSTEXT_OK), "status", line);
        for (i = 0; i < sizeof memory; i++)
            expect(memory[i] == (status == DNSTEXT_OK && i < length ? made[i] : '-'), "memory", line);
    }
}
#define GIVES(f, from, made) gives(f, BYTES(from), BYTES(made), __LINE__)

/* An error, for every buffer, which leaves the memory unchanged. */
static inline void refuses(call f, const uint8_t *from, size_t from_len, uint32_t status, size_t place,
                           int line) {
    static const size_t rooms[] = {0, 1, 4, 255, 1023};
    uint8_t memory[1023];
    size_t at, i;
    for (at = 0; at < sizeof rooms / sizeof *rooms; at++) {
        struct dnstext_outcome outcome = {7, 7};
        memset(memory, '-', sizeof memory);
        expect(run(f, from, from_len, memory, rooms[at], &outcome) == status, "status", line);
        expect(outcome.length == 0 && outcome.place == place, "length and place", line);
        for (i = 0; i < sizeof memory; i++)
            expect(memory[i] == '-', "memory", line);
    }
}
#define REFUSES(f, from, status, place) refuses(f, BYTES(from), status, place, __LINE__)

static inline int tells(struct dnstext_outcome outcome, size_t length, size_t place) {
    return outcome.length == length && outcome.place == place;
}

#endif
