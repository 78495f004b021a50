/*
 * Runs the worked rows through the library, and then what no row has: room that is too small, callbacks that fail, memory
 * that is refused, NULL, nothing. Rows come on standard input, one a line: a name, the file in hex, and its canonical file in
 * hex or its refusal as NUMBER@OFFSET; `-` is no byte. The last line is 'N passed, M failed'.
 */
#include "checks.h"

static int is_refusal(oascanon_outcome o, unsigned number, unsigned long at) {
    return o.status == number && o.at == at && o.file == 1 && o.length == 0;
}

static void refused_row(const char *name, const uint8_t *in, size_t count, unsigned number, unsigned long at) {
    static uint8_t room[4096], digest[32];
    device d = device_over(in, count, room);
    oascanon_callbacks c = callbacks_of(&d);
    memset(room, 0xEE, sizeof room);
    memset(digest, 0xEE, sizeof digest);
    expect(is_refusal(oascanon_canonicalize(in, count, &standard, room, sizeof room), number, at), name, "canonicalize refuses");
    expect(is_refusal(oascanon_list(in, count, &standard, room, sizeof room), number, at), name, "list refuses");
    expect(is_filled(room, sizeof room, 0xEE), name, "the room is as it was");
    expect(is_refusal(oascanon_key(in, count, &standard, digest), number, at), name, "key refuses");
    expect(is_filled(digest, sizeof digest, 0xEE), name, "the digest is as it was");
    expect(is_refusal(oascanon_check(in, count, &standard), number, at), name, "check refuses");
    expect(is_refusal(oascanon_same(in, count, in, count, &standard), number, at), name, "same refuses");
    expect(is_refusal(oascanon_canonicalize_callbacks(&c, &standard), number, at), name, "callbacks refuse");
    expect(d.put == 0 && d.blocks == 0, name, "nothing was written or kept");
}

static void accepted_row(const char *name, const uint8_t *in, size_t count, const uint8_t *out, size_t length) {
    static uint8_t room[MOST], digest[32], other[32];
    int own = count == length && memcmp(in, out, count) == 0;
    oascanon_outcome o;
    device d = device_over(in, count, room);
    oascanon_callbacks c = callbacks_of(&d);
    memset(room, 0xEE, length + 9);
    o = oascanon_canonicalize(in, count, &standard, room, length + 9);
    expect(o.status == OASCANON_DONE && o.length == length && o.at == 0 && o.file == 0, name, "canonicalize answers");
    expect(memcmp(room, out, length) == 0 && is_filled(room + length, 9, 0xEE), name, "the canonical bytes stand in the room");
    memset(room, 0xEE, length + 9);
    o = oascanon_canonicalize(in, count, &standard, room, length);
    expect(o.status == OASCANON_DONE && memcmp(room, out, length) == 0 && is_filled(room + length, 9, 0xEE), name, "just enough room");
    memset(room, 0xEE, length + 9);
    o = oascanon_canonicalize(in, count, &standard, room, length - 1);
    expect(o.status == OASCANON_TOO_SMALL && o.length == length, name, "one byte too few");
    expect(memcmp(room, out, length - 1) == 0 && is_filled(room + length - 1, 10, 0xEE), name, "as much as fits");
    o = oascanon_canonicalize(in, count, &standard, NULL, 0);
    expect(o.status == OASCANON_TOO_SMALL && o.length == length, name, "no room");
    expect(oascanon_check(in, count, &standard).status == (own ? OASCANON_DONE : OASCANON_NO), name, "check answers");
    expect(oascanon_check(out, length, &standard).status == OASCANON_DONE, name, "the canonical file is canonical");
    expect(oascanon_same(in, count, out, length, &standard).status == OASCANON_DONE, name, "same answers");
    expect(oascanon_key(in, count, &standard, digest).status == OASCANON_DONE, name, "key answers");
    expect(oascanon_key(out, length, &standard, other).status == OASCANON_DONE && memcmp(digest, other, 32) == 0, name, "keys are equal");
    o = oascanon_canonicalize_callbacks(&c, &standard);
    expect(o.status == OASCANON_DONE && o.length == length && d.put == length, name, "callbacks answer");
    expect(memcmp(room, out, length) == 0 && d.blocks == 0, name, "the canonical bytes were written");
}

static void rows(void) {
    static char line[4 * MOST];
    static uint8_t in[MOST], out[MOST];
    while (fgets(line, sizeof line, stdin) != NULL) {
        char *name = strtok(line, " \n");
        char *file = strtok(NULL, " \n");
        char *answer = strtok(NULL, " \n");
        size_t count = unhex(file, in);
        char *at = strchr(answer, '@');
        if (at != NULL) {
            refused_row(name, in, count, (unsigned)strtoul(answer, NULL, 10), strtoul(at + 1, NULL, 10));
        } else {
            accepted_row(name, in, count, out, unhex(answer, out));
        }
    }
}

/* A reader without end. */
static ptrdiff_t endless_read(void *context, uint8_t *buffer, size_t size) {
    device *d = context;
    d->at++;
    memset(buffer, 0, size);
    return (ptrdiff_t)size;
}

/* Numbers that are no limits, over readers without end: nothing is read of any. */
static void no_limits(const oascanon_limits *limits) {
    static uint8_t digest[32];
    device d = device_over(NULL, 0, NULL);
    oascanon_callbacks c = callbacks_of(&d);
    c.read = endless_read;
    expect(oascanon_canonicalize_callbacks(&c, limits).status == OASCANON_NOT_LIMITS, "no limits", "canonicalize");
    expect(oascanon_list_callbacks(&c, limits).status == OASCANON_NOT_LIMITS, "no limits", "list");
    expect(oascanon_key_callbacks(&c, limits, digest).status == OASCANON_NOT_LIMITS, "no limits", "key");
    expect(oascanon_check_callbacks(&c, limits).status == OASCANON_NOT_LIMITS, "no limits", "check");
    expect(oascanon_same_callbacks(&c, &c, limits).status == OASCANON_NOT_LIMITS, "no limits", "same");
    expect(d.at == 0 && d.blocks == 0, "no limits", "nothing was read");
}

static void edges(void) {
    static uint8_t file[512], out[4096], digest[32];
    size_t count = rectangle(file);
    oascanon_limits none = {1, 1, 1};
    oascanon_limits few = {0, 1024, 1 << 20};
    oascanon_limits small = {16, 0, 320};
    oascanon_limits wide = {16, 16, UINT64_MAX};
    oascanon_outcome o;
    device d, e;
    oascanon_callbacks c, f;
    long i;
    static const char listing[] = "unit 1000/1\ncell A\nrectangle 1 0 10 20 0 0\n";

    o = oascanon_list(file, count, &standard, out, sizeof out);
    expect(o.status == OASCANON_DONE && o.length == strlen(listing) && memcmp(out, listing, o.length) == 0, "edges", "the listing");
    expect(is_refusal(oascanon_canonicalize(NULL, 0, &standard, out, sizeof out), 2, 0), "edges", "no bytes");
    expect(is_refusal(oascanon_check(NULL, 0, &standard), 2, 0), "edges", "no bytes to check");
    expect(is_refusal(oascanon_same(NULL, 0, NULL, 0, &standard), 2, 0), "edges", "no bytes to compare");
    expect(oascanon_canonicalize(NULL, 1, &standard, out, 1).status == OASCANON_NULL, "edges", "NULL bytes");
    expect(oascanon_canonicalize(file, count, NULL, out, 1).status == OASCANON_NULL, "edges", "NULL limits");
    expect(oascanon_canonicalize(file, count, &standard, NULL, 1).status == OASCANON_NULL, "edges", "NULL room");
    expect(oascanon_list(file, count, &standard, NULL, 1).status == OASCANON_NULL, "edges", "NULL room for a listing");
    expect(oascanon_key(file, count, &standard, NULL).status == OASCANON_NULL, "edges", "NULL digest");
    expect(oascanon_check(NULL, 1, &standard).status == OASCANON_NULL, "edges", "NULL bytes to check");
    expect(oascanon_same(file, count, NULL, 1, &standard).status == OASCANON_NULL, "edges", "NULL bytes to compare");
    expect(oascanon_canonicalize_callbacks(NULL, &standard).status == OASCANON_NULL, "edges", "NULL callbacks");
    expect(oascanon_check(file, count, &none).status == OASCANON_NOT_LIMITS, "edges", "no limits");
    expect(oascanon_key(file, count, &none, digest).status == OASCANON_NOT_LIMITS, "edges", "no limits for a key");
    expect(oascanon_check(file, count, &few).status == 24, "edges", "too many elements");
    expect(oascanon_check(file, count, &small).status == 25, "edges", "too heavy");
    o = oascanon_same(file, count, file, 12, &standard);
    expect(o.status == 2 && o.file == 2 && o.at == 0, "edges", "the second of two is refused");

    no_limits(&none);
    no_limits(&wide);

    /* Each read fails in turn, and what was given before it is told. */
    for (i = 0; i < 43; i++) {
        d = device_over(file, count, out);
        c = callbacks_of(&d);
        d.reads_left = i;
        o = oascanon_canonicalize_callbacks(&c, &standard);
        expect(is_refusal(o, OASCANON_REASON_READ, (unsigned long)(7 * i)), "edges", "a failing read");
        expect(d.put == 0 && d.blocks == 0, "edges", "nothing was written");
    }
    /* Each write fails in turn, after the first bytes of the canonical file. */
    for (i = 0; i < 43; i++) {
        d = device_over(file, count, out);
        c = callbacks_of(&d);
        d.writes_left = i;
        o = oascanon_canonicalize_callbacks(&c, &standard);
        expect(is_refusal(o, OASCANON_REASON_WRITE, (unsigned long)(7 * i)), "edges", "a failing write");
        expect(d.put == (size_t)(7 * i) && memcmp(out, file, d.put) == 0 && d.blocks == 0, "edges", "a front was written");
    }
    /* Each block is refused in turn. */
    for (i = 0; i < 2; i++) {
        d = device_over(file, count, out);
        c = callbacks_of(&d);
        d.blocks_left = i;
        o = oascanon_canonicalize_callbacks(&c, &standard);
        expect(o.status == OASCANON_REASON_MEMORY && d.put == 0 && d.blocks == 0, "edges", "a block is refused");
    }
    d = device_over(file, count, out);
    c = callbacks_of(&d);
    c.write = NULL;
    expect(oascanon_key_callbacks(&c, &standard, digest).status == OASCANON_DONE, "edges", "a key by callbacks");
    expect(oascanon_key(file, count, &standard, out).status == OASCANON_DONE && memcmp(out, digest, 32) == 0, "edges", "is that of the buffer");
    d = device_over(file, count, out);
    expect(oascanon_check_callbacks(&c, &standard).status == OASCANON_DONE, "edges", "check by callbacks");
    d = device_over(file, count, out);
    e = device_over(file, count - 1, out);
    f = callbacks_of(&e);
    o = oascanon_same_callbacks(&c, &f, &standard);
    expect(o.status == 2 && o.file == 2, "edges", "the second of two callbacks is refused");
    d = device_over(file, count - 1, out);
    e = device_over(file, count, out);
    e.reads_left = 0;
    o = oascanon_same_callbacks(&c, &f, &standard);
    expect(is_refusal(o, 2, 45) && e.at == 0 && e.blocks == 0, "edges", "the first of two is judged before the second is read");
    d = device_over(file, count, out);
    e = device_over(file, count, out);
    expect(oascanon_same_callbacks(&c, &f, &standard).status == OASCANON_DONE && d.blocks == 0 && e.blocks == 0, "edges", "same by callbacks");
    d = device_over(file, count, out);
    c = callbacks_of(&d);
    c.resize = NULL;
    o = oascanon_list_callbacks(&c, &standard);
    expect(o.status == OASCANON_DONE && o.length == strlen(listing) && memcmp(out, listing, o.length) == 0, "edges", "a listing by callbacks");
    expect(strcmp(oascanon_status_name(23), "CoordinateRange") == 0 && strcmp(oascanon_status_name(99), "Unknown") == 0, "edges", "names");
}

int main(void) {
    rows();
    edges();
    printf("%u passed, %u failed\n", passed, failed);
    return failed != 0;
}
