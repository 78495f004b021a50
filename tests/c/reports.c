/*
 * Runs the worked rows of `diff`, `keys`, `info --json` and `oasprep` through the library, and then what no row has: NULL,
 * numbers that are no limits, bits that name nothing, and each block of memory refused in turn. Rows come on standard input,
 * one a line: the call, a name, the bits of what is left out, the file in hex, for `diff` the other file, the output in hex or
 * the refusal as NUMBER@FILE@OFFSET@BLOCK@WITHIN, and the five counts of what is left out with commas; `-` is no byte. The last
 * line is 'N passed, M failed'. It is linked so that malloc and realloc are those below.
 */
#include "checks.h"

/* Memory is refused once `left` of it is 0; below 0 it never is. */
static long left = -1;

void *__real_malloc(size_t size);
void *__real_realloc(void *block, size_t size);
void *__wrap_malloc(size_t size);
void *__wrap_realloc(void *block, size_t size);

static int is_left(void) {
    if (left == 0)
        return 0;
    left -= left > 0;
    return 1;
}

void *__wrap_malloc(size_t size) {
    return is_left() ? __real_malloc(size) : NULL;
}

void *__wrap_realloc(void *block, size_t size) {
    return is_left() ? __real_realloc(block, size) : NULL;
}

typedef enum { DIFF, KEYS, INFO, PREPARE } call;

static const char *const calls[] = {"diff", "keys", "info", "prepare"};

/* What a call is asked, and what it says beside the outcome. */
typedef struct {
    call of;
    uint32_t drop;
    const uint8_t *in, *other;
    size_t count, other_count;
    oascanon_preparation said;
} request;

static oascanon_outcome ask(request *r, const oascanon_limits *limits, uint8_t *room, size_t size) {
    memset(&r->said, 0xEE, sizeof r->said);
    switch (r->of) {
    case DIFF:
        return oascanon_diff(r->in, r->count, r->other, r->other_count, limits, room, size);
    case KEYS:
        return oascanon_keys(r->in, r->count, limits, room, size);
    case INFO:
        return oascanon_info(r->in, r->count, limits, room, size);
    default:
        return oascanon_prepare(r->in, r->count, r->drop, limits, room, size, &r->said);
    }
}

/* What it says beside the outcome is this, if it says anything. */
static int says(const request *r, const oascanon_preparation *said) {
    return r->of != PREPARE || memcmp(&r->said, said, sizeof *said) == 0;
}

static int is_answer(oascanon_outcome o, uint32_t status, size_t length) {
    return o.status == status && o.length == length && o.file == 0 && o.at == 0;
}

static uint8_t room[MOST];

/* Room for all, for all but the last byte, and none. */
static void accepted_row(const char *name, request *r, const uint8_t *out, size_t length, const oascanon_preparation *said) {
    uint32_t done = r->of == DIFF && length > 0 ? OASCANON_NO : OASCANON_DONE;
    oascanon_outcome o;
    memset(room, 0xEE, length + 9);
    o = ask(r, &standard, room, length + 9);
    expect(is_answer(o, done, length) && says(r, said), name, "answers");
    expect(memcmp(room, out, length) == 0 && is_filled(room + length, 9, 0xEE), name, "the output stands in the room");
    memset(room, 0xEE, length + 9);
    o = ask(r, &standard, room, length);
    expect(is_answer(o, done, length) && memcmp(room, out, length) == 0 && is_filled(room + length, 9, 0xEE), name, "just enough room");
    if (length == 0)
        return;
    memset(room, 0xEE, length + 9);
    o = ask(r, &standard, room, length - 1);
    expect(is_answer(o, OASCANON_TOO_SMALL, length) && says(r, said), name, "one byte too few");
    expect(memcmp(room, out, length - 1) == 0 && is_filled(room + length - 1, 10, 0xEE), name, "as much as fits");
    expect(is_answer(ask(r, &standard, NULL, 0), OASCANON_TOO_SMALL, length), name, "no room");
}

static void refused_row(const char *name, request *r, const oascanon_outcome *wanted, const oascanon_preparation *said) {
    oascanon_outcome o;
    memset(room, 0xEE, 64);
    o = ask(r, &standard, room, 64);
    expect(o.status == wanted->status && o.file == wanted->file && o.at == wanted->at && o.length == 0, name, "is refused");
    expect(says(r, said), name, "says where");
    expect(is_filled(room, 64, 0xEE), name, "the room is as it was");
}

static void row(char *line) {
    static uint8_t in[MOST], other[MOST], out[MOST];
    static const oascanon_preparation nothing;
    oascanon_preparation said = nothing;
    oascanon_outcome wanted = {0, 0, 0, 0};
    request r = {DIFF, 0, in, other, 0, 0, nothing};
    char *named = strtok(line, " \n"), *name = strtok(NULL, " \n"), *drop = strtok(NULL, " \n");
    char *file = strtok(NULL, " \n"), *second = strtok(NULL, " \n"), *answer = strtok(NULL, " \n"), *counts = strtok(NULL, " \n");
    while (strcmp(named, calls[r.of]) != 0)
        r.of++;
    r.drop = (uint32_t)strtoul(drop, NULL, 10);
    r.count = unhex(file, in);
    r.other_count = unhex(second, other);
    if (strchr(answer, '@') != NULL) {
        wanted.status = (uint32_t)strtoul(answer, &answer, 10);
        wanted.file = (uint32_t)strtoul(answer + 1, &answer, 10);
        wanted.at = strtoul(answer + 1, &answer, 10);
        said.in_block = strtoul(answer + 1, &answer, 10);
        said.within = strtoul(answer + 1, &answer, 10);
        refused_row(name, &r, &wanted, &said);
        return;
    }
    said.properties = strtoul(counts, &counts, 10);
    said.property_names = strtoul(counts + 1, &counts, 10);
    said.layer_names = strtoul(counts + 1, &counts, 10);
    said.extensions = strtoul(counts + 1, &counts, 10);
    said.extension_names = strtoul(counts + 1, &counts, 10);
    accepted_row(name, &r, out, unhex(answer, out), &said);
}

/* Each block is refused in turn, until there are enough. */
static void scarce(request *r) {
    oascanon_outcome o;
    long blocks = 0;
    do {
        memset(room, 0xEE, 512);
        left = blocks++;
        o = ask(r, &standard, room, 512);
        left = -1;
        expect(o.status != OASCANON_REASON_MEMORY || (o.length == 0 && is_filled(room, 512, 0xEE)), calls[r->of], "the room is as it was");
    } while (o.status == OASCANON_REASON_MEMORY && blocks < 1000);
    expect(blocks > 1 && o.status == (r->of == DIFF ? OASCANON_NO : OASCANON_DONE), calls[r->of], "there is memory enough");
}

/* The same is written as is put over a buffer. */
static void by_callbacks(call of, oascanon_outcome (*asked)(const oascanon_callbacks *, const oascanon_limits *)) {
    static uint8_t file[512], out[512];
    request r = {of, 0, file, NULL, rectangle(file), 0, {0, 0, 0, 0, 0, 0, 0}};
    device d = device_over(file, r.count, out);
    oascanon_callbacks c = callbacks_of(&d);
    oascanon_outcome o = asked(&c, &standard);
    expect(is_answer(o, OASCANON_DONE, d.put) && d.blocks == 0, calls[of], "by callbacks");
    expect(is_answer(ask(&r, &standard, room, 512), OASCANON_DONE, d.put) && memcmp(room, out, d.put) == 0, calls[of], "as over a buffer");
}

static void edges(void) {
    static uint8_t file[512], taller[512];
    size_t count = rectangle(file);
    oascanon_limits none = {1, 1, 1};
    oascanon_preparation said, zeros = {0, 0, 0, 0, 0, 0, 0};
    request r = {DIFF, 7, file, taller, count, count, zeros};
    oascanon_outcome o;
    memcpy(taller, file, count);
    taller[42]++;
    for (r.of = DIFF; r.of <= PREPARE; r.of++) {
        scarce(&r);
        memset(room, 0xEE, 512);
        expect(is_answer(ask(&r, &none, room, 512), OASCANON_NOT_LIMITS, 0) && says(&r, &zeros), calls[r.of], "no limits");
        expect(ask(&r, NULL, room, 512).status == OASCANON_NULL, calls[r.of], "NULL limits");
        expect(ask(&r, &standard, NULL, 1).status == OASCANON_NULL, calls[r.of], "NULL room");
        r.in = NULL;
        expect(ask(&r, &standard, room, 512).status == OASCANON_NULL, calls[r.of], "NULL bytes");
        r.count = 0;
        o = ask(&r, &standard, room, 512);
        expect(o.status == OASCANON_REASON_TRUNCATED && o.at == 0 && o.file == 1, calls[r.of], "no bytes");
        expect(is_filled(room, 512, 0xEE), calls[r.of], "the room is as it was");
        r.in = file;
        r.count = count;
    }
    expect(oascanon_diff(file, count, NULL, 1, &standard, room, 512).status == OASCANON_NULL, "diff", "NULL second bytes");
    expect(oascanon_prepare(file, count, 0, &standard, room, 512, NULL).status == OASCANON_NULL, "prepare", "NULL preparation");
    memset(&said, 0xEE, sizeof said);
    o = oascanon_prepare(file, count, 8, &standard, room, 512, &said);
    expect(is_answer(o, OASCANON_UNKNOWN_DROP, 0) && memcmp(&said, &zeros, sizeof said) == 0, "prepare", "a bit that names nothing");
    expect(is_filled(room, 512, 0xEE), "prepare", "the room is as it was");
    by_callbacks(KEYS, oascanon_keys_callbacks);
    by_callbacks(INFO, oascanon_info_callbacks);
}

int main(void) {
    static char line[6 * MOST];
    while (fgets(line, sizeof line, stdin) != NULL)
        row(line);
    edges();
    printf("%u passed, %u failed\n", passed, failed);
    return failed != 0;
}
