/* What the tests in C have in common: counts, a caller's devices, hex, and a small file. */
#ifndef CHECKS_H
#define CHECKS_H

#include <stdio.h>
#include <stdlib.h>
#include <string.h>

#include "oascanon.h"

#define MOST (1 << 20)

static const oascanon_limits standard = OASCANON_STANDARD;
static unsigned passed, failed;

static void expect(int holds, const char *name, const char *what) {
    if (holds) {
        passed++;
    } else {
        failed++;
        printf("%s: %s\n", name, what);
    }
}

/* A caller's reader, writer and memory. Each fails once `left` of it is 0; below 0 it never does. */
typedef struct {
    const uint8_t *bytes;
    size_t count, at, piece;
    long reads_left, writes_left, blocks_left;
    uint8_t *out;
    size_t put;
    long blocks;
} device;

static ptrdiff_t device_read(void *context, uint8_t *buffer, size_t size) {
    device *d = context;
    size_t n = d->count - d->at;
    if (d->reads_left == 0)
        return -1;
    d->reads_left--;
    n = n < size ? n : size;
    n = n < d->piece ? n : d->piece;
    if (n > 0)
        memcpy(buffer, d->bytes + d->at, n);
    d->at += n;
    return (ptrdiff_t)n;
}

static ptrdiff_t device_write(void *context, const uint8_t *bytes, size_t size) {
    device *d = context;
    size_t n = size < d->piece ? size : d->piece;
    if (d->writes_left == 0)
        return -1;
    d->writes_left--;
    memcpy(d->out + d->put, bytes, n);
    d->put += n;
    return (ptrdiff_t)n;
}

static void *device_resize(void *context, void *block, size_t old_size, size_t new_size) {
    device *d = context;
    if (new_size == 0) {
        if (block != NULL)
            d->blocks--;
        free(block);
        return NULL;
    }
    if (d->blocks_left == 0)
        return NULL;
    d->blocks_left--;
    if (block == NULL)
        d->blocks++;
    (void)old_size;
    return realloc(block, new_size);
}

static device device_over(const uint8_t *bytes, size_t count, uint8_t *out) {
    device d = {bytes, count, 0, 7, -1, -1, -1, out, 0, 0};
    return d;
}

static oascanon_callbacks callbacks_of(device *d) {
    oascanon_callbacks c = {device_read, device_write, device_resize, d};
    return c;
}

static size_t unhex(const char *text, uint8_t *bytes) {
    size_t n = 0;
    if (text[0] == '-')
        return 0;
    for (; text[0] != '\0' && text[1] != '\0'; text += 2) {
        char two[3] = {text[0], text[1], '\0'};
        bytes[n++] = (uint8_t)strtoul(two, NULL, 16);
    }
    return n;
}

static int is_filled(const uint8_t *bytes, size_t count, uint8_t with) {
    size_t i;
    for (i = 0; i < count && bytes[i] == with; i++)
        ;
    return i == count;
}

/* One cell with one rectangle. */
static size_t rectangle(uint8_t *file) {
    return unhex("2553454D492D4F415349530D0A0103312E3000E80700000000000000000000000000" "0E0141147B01000A14000002FC01", file) + 253;
}

#endif
