/*
 * oascanon: the canonical form of OASIS (SEMI P39) files, for C. Every call answers by profile two (docs/PROFILE.md), as the
 * command of the same version does.
 *
 * There is no state but the caller's: each call may be made from any thread at any time. Memory comes from the program's
 * malloc and is freed before a call returns, but where oascanon_callbacks hand in a `resize` of their own (see there).
 *
 * What is proved and what is trusted of each call stands in docs/C.md, and what a file is, means and is refused for in
 * docs/PROFILE.md, docs/CANONICAL.md and docs/REFUSALS.md.
 */
#ifndef OASCANON_H
#define OASCANON_H

#include <stddef.h>
#include <stdint.h>

#ifdef __cplusplus
extern "C" {
#endif

/* The version of this header, as `oascanon --version` prints it after the program's name; and that of the library that is
   linked, ended by a zero byte. */
#define OASCANON_VERSION "0.3.0-dev"
const char *oascanon_version(void);

/* Statuses. From 1 to 34, and from 101 to 113, it is the number of a refusal's reason. */
#define OASCANON_DONE 0          /* done; or the answer is yes */
#define OASCANON_NO 64           /* the answer is no */
#define OASCANON_TOO_SMALL 65    /* the room is smaller than the output */
#define OASCANON_NOT_LIMITS 66   /* the three numbers are no limits: nothing was read */
#define OASCANON_NULL 67         /* a pointer is NULL that may not be: nothing was read */
#define OASCANON_UNKNOWN_DROP 68 /* a bit of `drop` names no kind of record: nothing was read */

/* The reasons of docs/REFUSALS.md, and from 101 on those of docs/PREPARING.md, which oascanon_prepare alone gives. */
enum {
    OASCANON_REASON_MAGIC = 1,
    OASCANON_REASON_TRUNCATED = 2,
    OASCANON_REASON_INTEGER_RANGE = 3,
    OASCANON_REASON_STRING_BYTE = 4,
    OASCANON_REASON_EMPTY_NAME = 5,
    OASCANON_REASON_FLOAT_REAL = 6,
    OASCANON_REASON_REAL_TYPE = 7,
    OASCANON_REASON_UNIT = 8,
    OASCANON_REASON_VERSION = 9,
    OASCANON_REASON_OFFSET_FLAG = 10,
    OASCANON_REASON_RECORD_LEFT_OUT = 11,
    OASCANON_REASON_UNKNOWN_RECORD = 12,
    OASCANON_REASON_OUT_OF_PLACE = 13,
    OASCANON_REASON_INFO_BYTE = 14,
    OASCANON_REASON_LIST_KIND = 15,
    OASCANON_REASON_POINT_COUNT = 16,
    OASCANON_REASON_REPETITION_KIND = 17,
    OASCANON_REASON_MODAL_UNDEFINED = 18,
    OASCANON_REASON_MAGNIFICATION = 19,
    OASCANON_REASON_ANGLE = 20,
    OASCANON_REASON_MIXED_NUMBERING = 21,
    OASCANON_REASON_NUMBER_TWICE = 22,
    OASCANON_REASON_COORDINATE_RANGE = 23,
    OASCANON_REASON_TOO_MANY_ELEMENTS = 24,
    OASCANON_REASON_TOO_HEAVY = 25,
    OASCANON_REASON_UNKNOWN_REFERENCE = 26,
    OASCANON_REASON_DUPLICATE_CELL = 27,
    OASCANON_REASON_END_LENGTH = 28,
    OASCANON_REASON_VALIDATION_SCHEME = 29,
    OASCANON_REASON_TRAILING_BYTES = 30,
    OASCANON_REASON_INPUT_TOO_LONG = 31,
    OASCANON_REASON_READ = 32,
    OASCANON_REASON_WRITE = 33,
    OASCANON_REASON_MEMORY = 34,
    OASCANON_REASON_PROPERTIES = 101,
    OASCANON_REASON_LAYER_NAMES = 102,
    OASCANON_REASON_EXTENSIONS = 103,
    OASCANON_REASON_CBLOCK_TYPE = 104,
    OASCANON_REASON_CBLOCK_NESTED = 105,
    OASCANON_REASON_CBLOCK_LENGTH = 106,
    OASCANON_REASON_CBLOCK_BORDER = 107,
    OASCANON_REASON_DEFLATE = 108,
    OASCANON_REASON_TRAPEZOID = 109,
    OASCANON_REASON_CTRAPEZOID_TYPE = 110,
    OASCANON_REASON_VALUE_TYPE = 111,
    OASCANON_REASON_INTERVAL_TYPE = 112,
    OASCANON_REASON_CHECKSUM = 113
};

typedef struct {
    uint32_t status; /* see above */
    uint32_t file;   /* which file was refused: 1, of two 1 or 2; else 0 */
    uint64_t at;     /* the offset at which it was refused, else 0 */
    uint64_t length; /* how many bytes the output has, else 0 */
} oascanon_outcome;

/* At most 2^26 elements, a weight of 2^30 and an input of 2^38 bytes, which is at least 320 + 64 * weight. */
typedef struct {
    uint64_t elements;
    uint64_t weight;
    uint64_t input;
} oascanon_limits;

/* 2^24 elements, a weight of 2^28, 2^36 bytes: those of the command. And the largest that there are: those of --large. */
#define OASCANON_STANDARD {16777216u, 268435456u, 68719476736u}
#define OASCANON_LARGE {67108864u, 1073741824u, 274877906944u}

/*
 * Over buffers. `bytes` may be NULL where `count` is 0, and `room` where `size` is 0; no other pointer may be.
 * Nothing that a pointer leads to overlaps another, and no buffer has 2^63 bytes or more.
 */

/* Puts the canonical file at the start of the room: all of it, of `length` bytes, and what is behind it stays. Where the
   room is too small, as much as fits stands there, and `length` says what is needed. After any other status the room is as
   it was. */
oascanon_outcome oascanon_canonicalize(const uint8_t *bytes, size_t count, const oascanon_limits *limits, uint8_t *room, size_t size);

/* The same of three texts, each with the end of its last line and no zero byte behind it. The listing, which `oascanon show`
   prints (docs/LISTING.md): the line of the unit, and then one for each cell and for each of its elements. */
oascanon_outcome oascanon_list(const uint8_t *bytes, size_t count, const oascanon_limits *limits, uint8_t *room, size_t size);

/* The keys of the cells, which `oascanon keys` prints: for each cell, by ascending names, a line of 64 lower-case hex digits,
   two spaces and the cell's name. They are the SHA-256 of the canonical file that has the unit and that cell alone. */
oascanon_outcome oascanon_keys(const uint8_t *bytes, size_t count, const oascanon_limits *limits, uint8_t *room, size_t size);

/* The facts of the layout, which `oascanon info --json` prints (docs/INFO.md): one line with a JSON object, whose members are
   cells, elements, kinds, layers, size, textlayers, undefined, unit, unplaced and weight. */
oascanon_outcome oascanon_info(const uint8_t *bytes, size_t count, const oascanon_limits *limits, uint8_t *room, size_t size);

/* Puts the SHA-256 of the canonical file. After any status but OASCANON_DONE the digest is as it was. */
oascanon_outcome oascanon_key(const uint8_t *bytes, size_t count, const oascanon_limits *limits, uint8_t digest[32]);

/* Whether the bytes are the canonical file of what they mean: OASCANON_DONE or OASCANON_NO. */
oascanon_outcome oascanon_check(const uint8_t *bytes, size_t count, const oascanon_limits *limits);

/* Whether two files mean the same layout: OASCANON_DONE or OASCANON_NO. The first is judged before the second. */
oascanon_outcome oascanon_same(const uint8_t *bytes, size_t count, const uint8_t *others, size_t other_count, const oascanon_limits *limits);

/* Puts what differs between two layouts, the lines that `oascanon diff` prints (docs/LISTING.md): `-` and `+` with a count and
   a line of the listing for what the first or the second has more often, and `@ cell NAME` above the elements of a cell that
   both have. OASCANON_DONE where they are the same, and then the room is as it was; OASCANON_NO where they are not, and all
   lines stand in the room, `length` bytes; OASCANON_TOO_SMALL where they are not, and the lines don't fit. */
oascanon_outcome oascanon_diff(const uint8_t *bytes, size_t count, const uint8_t *others, size_t other_count, const oascanon_limits *limits, uint8_t *room, size_t size);

/* What oascanon_prepare leaves out where it is told to, bits of `drop`. */
#define OASCANON_DROP_PROPERTIES 1u  /* properties, and the names and strings for them */
#define OASCANON_DROP_LAYER_NAMES 2u /* names of layers */
#define OASCANON_DROP_EXTENSIONS 4u  /* extensions among the elements, and the names for them */

/* What was left out of a file, in records; and where a compressed block was refused. */
typedef struct {
    uint64_t properties;
    uint64_t property_names;
    uint64_t layer_names;
    uint64_t extensions;
    uint64_t extension_names;
    uint64_t in_block; /* 1 where the refused record is in the compressed block at `at`, else 0 */
    uint64_t within;   /* then its offset in what the block inflates to, else 0 */
} oascanon_preparation;

/* Puts the canonical file of a file of the standard, without the kinds of records that are named, as `oasprep --drop` does
   (docs/PREPARING.md). It is put as by oascanon_canonicalize. The preparation is set whole after any status but
   OASCANON_NULL: the counts are those of the file where it is prepared, whether or not the room is too small, else 0. */
oascanon_outcome oascanon_prepare(const uint8_t *bytes, size_t count, uint32_t drop, const oascanon_limits *limits, uint8_t *room, size_t size, oascanon_preparation *preparation);

/*
 * Over callbacks. All that `read` gives is gathered before it is judged, and all of an output before it is written, so these
 * calls hold both in memory. Of two files the first is judged before anything is read of the second.
 *
 * `read` puts bytes at the start of the buffer and answers how many: 0 at the end, and below 0 where it failed. `write`
 * answers how many of the first bytes it took; 0 or less is a failure. An answer above `size` is one too. `resize` is
 * realloc with the old size beside the block: from NULL a new block, to size 0 it frees the block and answers NULL. Where it
 * is NULL, realloc and free serve. What the library takes for the layout itself always comes from malloc.
 */
typedef struct {
    ptrdiff_t (*read)(void *context, uint8_t *buffer, size_t size);
    ptrdiff_t (*write)(void *context, const uint8_t *bytes, size_t size);
    void *(*resize)(void *context, void *block, size_t old_size, size_t new_size);
    void *context; /* what each of them is handed */
} oascanon_callbacks;

/* Where `read` fails the status is OASCANON_REASON_READ and `at` is how many bytes it gave. Where `write` fails the status is
   OASCANON_REASON_WRITE and `at` is how many bytes it took, the first of the output; before any other refusal nothing is
   written. */
oascanon_outcome oascanon_canonicalize_callbacks(const oascanon_callbacks *callbacks, const oascanon_limits *limits);
oascanon_outcome oascanon_list_callbacks(const oascanon_callbacks *callbacks, const oascanon_limits *limits);
oascanon_outcome oascanon_keys_callbacks(const oascanon_callbacks *callbacks, const oascanon_limits *limits);
oascanon_outcome oascanon_info_callbacks(const oascanon_callbacks *callbacks, const oascanon_limits *limits);
oascanon_outcome oascanon_key_callbacks(const oascanon_callbacks *callbacks, const oascanon_limits *limits, uint8_t digest[32]);
oascanon_outcome oascanon_check_callbacks(const oascanon_callbacks *callbacks, const oascanon_limits *limits);
oascanon_outcome oascanon_same_callbacks(const oascanon_callbacks *one, const oascanon_callbacks *other, const oascanon_limits *limits);

/* The name of a status, as in docs/REFUSALS.md and docs/PREPARING.md; of a number that is none "Unknown". Never NULL. */
const char *oascanon_status_name(uint32_t status);

#ifdef __cplusplus
}
#endif

#endif
