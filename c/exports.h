/* What the proved library exports (crates/oascanon_c). A slice is a pointer, which is never NULL, and a length. */
#ifndef OASCANON_EXPORTS_H
#define OASCANON_EXPORTS_H

#include "oascanon.h"

oascanon_outcome oascanon_c_canonicalize(const uint8_t *bytes, size_t count, const oascanon_limits *limits, uint8_t *room, size_t size);
oascanon_outcome oascanon_c_list(const uint8_t *bytes, size_t count, const oascanon_limits *limits, uint8_t *room, size_t size);
oascanon_outcome oascanon_c_keys(const uint8_t *bytes, size_t count, const oascanon_limits *limits, uint8_t *room, size_t size);
oascanon_outcome oascanon_c_info(const uint8_t *bytes, size_t count, const oascanon_limits *limits, uint8_t *room, size_t size);
oascanon_outcome oascanon_c_key(const uint8_t *bytes, size_t count, const oascanon_limits *limits, uint8_t digest[32]);
oascanon_outcome oascanon_c_check(const uint8_t *bytes, size_t count, const oascanon_limits *limits);
oascanon_outcome oascanon_c_same(const uint8_t *bytes, size_t count, const uint8_t *others, size_t other_count, const oascanon_limits *limits);
oascanon_outcome oascanon_c_diff(const uint8_t *bytes, size_t count, const uint8_t *others, size_t other_count, const oascanon_limits *limits, uint8_t *room, size_t size);
oascanon_outcome oascanon_c_prepare(const uint8_t *bytes, size_t count, uint32_t drop, const oascanon_limits *limits, uint8_t *room, size_t size, oascanon_preparation *preparation);

#endif
