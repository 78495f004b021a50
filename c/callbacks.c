/* The calls over callbacks: the input is gathered, judged as a buffer, and the output handed on in pieces. */
#include <stdlib.h>

#include "oascanon.h"

/* How many bytes are asked for at once. */
#define PIECE 65536

typedef struct {
    const oascanon_callbacks *callbacks;
    uint8_t *bytes;
    size_t count;
    size_t size;
} block;

typedef oascanon_outcome (*filler)(const uint8_t *, size_t, const oascanon_limits *, uint8_t *, size_t);

static oascanon_outcome told(uint32_t status, uint32_t file, uint64_t at) {
    oascanon_outcome outcome = {status, file, at, 0};
    return outcome;
}

/* Makes it so large; on failure it stays as it was. */
static int resize(block *b, size_t size) {
    void *made;
    if (b->callbacks->resize != NULL) {
        made = b->callbacks->resize(b->callbacks->context, b->bytes, b->size, size);
    } else {
        made = realloc(b->bytes, size);
    }
    if (made == NULL)
        return 0;
    b->bytes = made;
    b->size = size;
    return 1;
}

static void release(block *b) {
    if (b->bytes == NULL)
        return;
    if (b->callbacks->resize != NULL) {
        b->callbacks->resize(b->callbacks->context, b->bytes, b->size, 0);
    } else {
        free(b->bytes);
    }
    b->bytes = NULL;
}

/* Room for a piece more. */
static int grow(block *b) {
    if (b->size - b->count >= PIECE)
        return 1;
    if (b->size > SIZE_MAX / 4)
        return 0;
    return resize(b, b->size < PIECE ? 2 * PIECE : 2 * b->size);
}

/* Whether the three numbers are limits. Of no bytes nothing else is asked before that. */
static int are_limits(const oascanon_limits *limits) {
    return oascanon_check(NULL, 0, limits).status != OASCANON_NOT_LIMITS;
}

/* Reads to the end, or past the limit of the input. Under numbers that are no limits nothing is read. */
static oascanon_outcome gather(block *b, const oascanon_limits *limits, uint32_t file) {
    if (!are_limits(limits))
        return told(OASCANON_NOT_LIMITS, 0, 0);
    while (b->count <= limits->input) {
        ptrdiff_t got;
        if (!grow(b))
            return told(OASCANON_REASON_MEMORY, file, b->count);
        got = b->callbacks->read(b->callbacks->context, b->bytes + b->count, PIECE);
        if (got < 0 || got > PIECE)
            return told(OASCANON_REASON_READ, file, b->count);
        if (got == 0)
            break;
        b->count += (size_t)got;
    }
    return told(OASCANON_DONE, 0, 0);
}

/* Whether the bytes are refused, as the first file. */
static oascanon_outcome judge(const block *b, const oascanon_limits *limits) {
    oascanon_outcome outcome = oascanon_check(b->bytes, b->count, limits);
    return outcome.status == OASCANON_NO ? told(OASCANON_DONE, 0, 0) : outcome;
}

static oascanon_outcome give(const block *b, size_t length) {
    size_t at = 0;
    while (at < length) {
        ptrdiff_t took = b->callbacks->write(b->callbacks->context, b->bytes + at, length - at);
        if (took <= 0 || (size_t)took > length - at)
            return told(OASCANON_REASON_WRITE, 1, at);
        at += (size_t)took;
    }
    oascanon_outcome outcome = {OASCANON_DONE, 0, 0, length};
    return outcome;
}

/* Fills a block of the size that is needed, and hands it on. */
static oascanon_outcome fill(const block *in, const oascanon_limits *limits, filler call) {
    block out = {in->callbacks, NULL, 0, 0};
    oascanon_outcome outcome;
    if (!resize(&out, in->count + 512))
        return told(OASCANON_REASON_MEMORY, 1, 0);
    outcome = call(in->bytes, in->count, limits, out.bytes, out.size);
    if (outcome.status == OASCANON_TOO_SMALL) {
        if (resize(&out, outcome.length)) {
            outcome = call(in->bytes, in->count, limits, out.bytes, out.size);
        } else {
            outcome = told(OASCANON_REASON_MEMORY, 1, 0);
        }
    }
    if (outcome.status == OASCANON_DONE)
        outcome = give(&out, outcome.length);
    release(&out);
    return outcome;
}

static oascanon_outcome put(const oascanon_callbacks *callbacks, const oascanon_limits *limits, filler call) {
    block in = {callbacks, NULL, 0, 0};
    oascanon_outcome outcome;
    if (callbacks == NULL || limits == NULL || callbacks->read == NULL || callbacks->write == NULL)
        return told(OASCANON_NULL, 0, 0);
    outcome = gather(&in, limits, 1);
    if (outcome.status == OASCANON_DONE)
        outcome = fill(&in, limits, call);
    release(&in);
    return outcome;
}

oascanon_outcome oascanon_canonicalize_callbacks(const oascanon_callbacks *callbacks, const oascanon_limits *limits) {
    return put(callbacks, limits, oascanon_canonicalize);
}

oascanon_outcome oascanon_list_callbacks(const oascanon_callbacks *callbacks, const oascanon_limits *limits) {
    return put(callbacks, limits, oascanon_list);
}

oascanon_outcome oascanon_keys_callbacks(const oascanon_callbacks *callbacks, const oascanon_limits *limits) {
    return put(callbacks, limits, oascanon_keys);
}

oascanon_outcome oascanon_info_callbacks(const oascanon_callbacks *callbacks, const oascanon_limits *limits) {
    return put(callbacks, limits, oascanon_info);
}

oascanon_outcome oascanon_key_callbacks(const oascanon_callbacks *callbacks, const oascanon_limits *limits, uint8_t digest[32]) {
    block in = {callbacks, NULL, 0, 0};
    oascanon_outcome outcome;
    if (callbacks == NULL || limits == NULL || digest == NULL || callbacks->read == NULL)
        return told(OASCANON_NULL, 0, 0);
    outcome = gather(&in, limits, 1);
    if (outcome.status == OASCANON_DONE)
        outcome = oascanon_key(in.bytes, in.count, limits, digest);
    release(&in);
    return outcome;
}

oascanon_outcome oascanon_check_callbacks(const oascanon_callbacks *callbacks, const oascanon_limits *limits) {
    block in = {callbacks, NULL, 0, 0};
    oascanon_outcome outcome;
    if (callbacks == NULL || limits == NULL || callbacks->read == NULL)
        return told(OASCANON_NULL, 0, 0);
    outcome = gather(&in, limits, 1);
    if (outcome.status == OASCANON_DONE)
        outcome = oascanon_check(in.bytes, in.count, limits);
    release(&in);
    return outcome;
}

oascanon_outcome oascanon_same_callbacks(const oascanon_callbacks *one, const oascanon_callbacks *other, const oascanon_limits *limits) {
    block first = {one, NULL, 0, 0};
    block second = {other, NULL, 0, 0};
    oascanon_outcome outcome;
    if (one == NULL || other == NULL || limits == NULL || one->read == NULL || other->read == NULL)
        return told(OASCANON_NULL, 0, 0);
    outcome = gather(&first, limits, 1);
    if (outcome.status == OASCANON_DONE)
        outcome = judge(&first, limits);
    if (outcome.status == OASCANON_DONE)
        outcome = gather(&second, limits, 2);
    if (outcome.status == OASCANON_DONE)
        outcome = oascanon_same(first.bytes, first.count, second.bytes, second.count, limits);
    release(&first);
    release(&second);
    return outcome;
}
