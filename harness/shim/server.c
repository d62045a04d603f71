/* Calls the functions of include/fordrambler.h for a program that can't link them: requests come on standard input, answers go to standard
   output, until the input ends. All numbers are little-endian.

   A request: the call (1 byte), how often to make it (4 bytes), then the call's fields in the order of its parameters, each as its length in
   bytes (8 bytes) and its bytes. A number that the function takes or sets is a field of its own size. An answer: what the function answered
   (4 bytes), the nanoseconds that all calls took together (8 bytes), 1 if memory outside the fields has changed, else 0 (1 byte), then the
   bytes of all fields. */
#include "fordrambler.h"

#include <stdio.h>
#include <stdlib.h>
#include <string.h>
#include <time.h>

enum { MOST_FIELDS = 8, GUARD = 64, GUARD_BYTE = 0xA5 };

typedef struct { unsigned char *bytes; size_t length; } field;

static void fail(const char *why) {
    fprintf(stderr, "server: %s\n", why);
    exit(2);
}

static void take(void *to, size_t length) {
    if (length != 0 && fread(to, 1, length, stdin) != length) fail("the request ends early");
}

static void give(const void *from, size_t length) {
    if (length != 0 && fwrite(from, 1, length, stdout) != length) fail("the answer can't be written");
}

/* A field between two guards, so that a stray write nearby shows. */
static field take_field(void) {
    uint64_t length;
    take(&length, sizeof length);
    unsigned char *memory = malloc((size_t)length + 2 * GUARD);
    if (memory == NULL) fail("no memory");
    memset(memory, GUARD_BYTE, GUARD);
    memset(memory + GUARD + length, GUARD_BYTE, GUARD);
    take(memory + GUARD, (size_t)length);
    return (field){memory + GUARD, (size_t)length};
}

static int guarded(field f) {
    for (size_t i = 0; i < GUARD; i++)
        if (f.bytes[i - GUARD] != GUARD_BYTE || f.bytes[f.length + i] != GUARD_BYTE) return 0;
    return 1;
}

#define BYTES(i) f[i].bytes, f[i].length
#define INTS(i) (int32_t *)f[i].bytes, f[i].length / sizeof(int32_t)
#define LONGS(i) (int64_t *)f[i].bytes, f[i].length / sizeof(int64_t)
#define RECORDS(i) (fordrambler_record *)f[i].bytes, f[i].length / sizeof(fordrambler_record)
#define BYTE(i) f[i].bytes
#define U32(i) (uint32_t *)f[i].bytes
#define SIZE(i) (size_t *)f[i].bytes

/* How many fields each call has. */
static const int fields_of[] = {3, 5, 5, 6, 4, 5, 7, 4, 6, 5};

static uint32_t call(int which, field *f) {
    switch (which) {
    case 0: return fordrambler_check(BYTES(0), RECORDS(1), SIZE(2));
    case 1: return fordrambler_measure(BYTES(0), U32(1), U32(2), U32(3), SIZE(4));
    case 2: return fordrambler_write(BYTES(0), RECORDS(1), INTS(2), INTS(3), SIZE(4));
    case 3: return fordrambler_row_clauses(BYTES(0), INTS(1), *U32(2), SIZE(3), SIZE(4), SIZE(5));
    case 4: return fordrambler_evaluate(BYTES(0), LONGS(1), LONGS(2), SIZE(3));
    case 5: return fordrambler_extend(BYTES(0), LONGS(1), BYTES(2), BYTE(3), SIZE(4));
    case 6: return fordrambler_decode(BYTES(0), RECORDS(1), INTS(2), INTS(3), BYTES(4), LONGS(5), SIZE(6));
    case 7: return fordrambler_read_lines(BYTES(0), BYTES(1), SIZE(2), SIZE(3));
    case 8: return fordrambler_read_lines_until_empty(BYTES(0), BYTES(1), SIZE(2), SIZE(3), BYTE(4), SIZE(5));
    default: return fordrambler_read_claim(BYTES(0), *U32(1), BYTES(2), BYTE(3), SIZE(4));
    }
}

static uint64_t now(void) {
    struct timespec t;
    clock_gettime(CLOCK_MONOTONIC, &t);
    return (uint64_t)t.tv_sec * 1000000000u + (uint64_t)t.tv_nsec;
}

static void serve(int which) {
    field f[MOST_FIELDS];
    uint32_t times, number = 0;
    unsigned char stray = 0;
    int fields = fields_of[which];
    take(&times, sizeof times);
    for (int i = 0; i < fields; i++) f[i] = take_field();
    uint64_t began = now();
    for (uint32_t i = 0; i < times; i++) number = call(which, f);
    uint64_t took = now() - began;
    for (int i = 0; i < fields; i++) stray |= !guarded(f[i]);
    give(&number, sizeof number);
    give(&took, sizeof took);
    give(&stray, 1);
    for (int i = 0; i < fields; i++) {
        give(f[i].bytes, f[i].length);
        free(f[i].bytes - GUARD);
    }
    fflush(stdout);
}

int main(void) {
    int which;
    while ((which = getchar()) != EOF) {
        if (which >= (int)(sizeof fields_of / sizeof fields_of[0])) fail("no such call");
        serve(which);
    }
    return 0;
}
