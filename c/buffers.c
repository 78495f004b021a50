/* The calls over buffers: each hands on to the proved export, once no pointer is NULL. */
#include "exports.h"

static uint8_t nothing[1];

static const uint8_t *bytes_at(const uint8_t *bytes, size_t count) {
    return bytes == NULL && count == 0 ? nothing : bytes;
}

static uint8_t *room_at(uint8_t *room, size_t size) {
    return room == NULL && size == 0 ? nothing : room;
}

static oascanon_outcome is_null(void) {
    oascanon_outcome outcome = {OASCANON_NULL, 0, 0, 0};
    return outcome;
}

typedef oascanon_outcome (*putter)(const uint8_t *, size_t, const oascanon_limits *, uint8_t *, size_t);

static oascanon_outcome put(putter call, const uint8_t *bytes, size_t count, const oascanon_limits *limits, uint8_t *room, size_t size) {
    bytes = bytes_at(bytes, count);
    room = room_at(room, size);
    if (bytes == NULL || room == NULL || limits == NULL)
        return is_null();
    return call(bytes, count, limits, room, size);
}

oascanon_outcome oascanon_canonicalize(const uint8_t *bytes, size_t count, const oascanon_limits *limits, uint8_t *room, size_t size) {
    return put(oascanon_c_canonicalize, bytes, count, limits, room, size);
}

oascanon_outcome oascanon_list(const uint8_t *bytes, size_t count, const oascanon_limits *limits, uint8_t *room, size_t size) {
    return put(oascanon_c_list, bytes, count, limits, room, size);
}

oascanon_outcome oascanon_keys(const uint8_t *bytes, size_t count, const oascanon_limits *limits, uint8_t *room, size_t size) {
    return put(oascanon_c_keys, bytes, count, limits, room, size);
}

oascanon_outcome oascanon_info(const uint8_t *bytes, size_t count, const oascanon_limits *limits, uint8_t *room, size_t size) {
    return put(oascanon_c_info, bytes, count, limits, room, size);
}

oascanon_outcome oascanon_key(const uint8_t *bytes, size_t count, const oascanon_limits *limits, uint8_t digest[32]) {
    bytes = bytes_at(bytes, count);
    if (bytes == NULL || digest == NULL || limits == NULL)
        return is_null();
    return oascanon_c_key(bytes, count, limits, digest);
}

oascanon_outcome oascanon_check(const uint8_t *bytes, size_t count, const oascanon_limits *limits) {
    bytes = bytes_at(bytes, count);
    if (bytes == NULL || limits == NULL)
        return is_null();
    return oascanon_c_check(bytes, count, limits);
}

oascanon_outcome oascanon_same(const uint8_t *bytes, size_t count, const uint8_t *others, size_t other_count, const oascanon_limits *limits) {
    bytes = bytes_at(bytes, count);
    others = bytes_at(others, other_count);
    if (bytes == NULL || others == NULL || limits == NULL)
        return is_null();
    return oascanon_c_same(bytes, count, others, other_count, limits);
}

oascanon_outcome oascanon_diff(const uint8_t *bytes, size_t count, const uint8_t *others, size_t other_count, const oascanon_limits *limits, uint8_t *room, size_t size) {
    bytes = bytes_at(bytes, count);
    others = bytes_at(others, other_count);
    room = room_at(room, size);
    if (bytes == NULL || others == NULL || room == NULL || limits == NULL)
        return is_null();
    return oascanon_c_diff(bytes, count, others, other_count, limits, room, size);
}

oascanon_outcome oascanon_prepare(const uint8_t *bytes, size_t count, uint32_t drop, const oascanon_limits *limits, uint8_t *room, size_t size, oascanon_preparation *preparation) {
    bytes = bytes_at(bytes, count);
    room = room_at(room, size);
    if (bytes == NULL || room == NULL || limits == NULL || preparation == NULL)
        return is_null();
    return oascanon_c_prepare(bytes, count, drop, limits, room, size, preparation);
}
