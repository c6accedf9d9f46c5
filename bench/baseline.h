/* The published method once more, in plain C (c_*) and in plain Rust (r_*): same rooms, same tests, no proof. Each returns the
 * refusal's number, 0 for success. */
#ifndef BASELINE_H
#define BASELINE_H

#include "../crates/capi/seam.h" /* for the record of a target */

#define DECLARE(p) \
    uint32_t p##_order_by_degree(size_t n, const uint32_t *s, size_t sl, const uint32_t *q, size_t ql, uint32_t *o, size_t ol); \
    uint32_t p##_order_scattered(size_t n, const uint32_t *s, size_t sl, const uint32_t *q, size_t ql, uint32_t *o, size_t ol); \
    uint32_t p##_build(size_t n, size_t w, size_t k, const uint32_t *s, size_t sl, const uint32_t *q, size_t ql, \
                       const uint32_t *o, size_t ol, uint32_t *labels, size_t ll, uint32_t *counts, size_t cl, \
                       uint32_t *met, size_t ml, uint32_t *queue, size_t ul, uint64_t *entries); \
    uint32_t p##_pair(size_t n, size_t w, const uint32_t *labels, size_t ll, const uint32_t *counts, size_t cl, size_t s, \
                      size_t t, uint32_t *found, uint64_t *joins); \
    uint32_t p##_within(size_t n, size_t w, const uint32_t *labels, size_t ll, const uint32_t *counts, size_t cl, size_t s, \
                        size_t t, size_t limit, uint32_t *yes); \
    uint32_t p##_spread(size_t n, size_t w, const uint32_t *labels, size_t ll, const uint32_t *counts, size_t cl, uint64_t *spread); \
    uint32_t p##_nearest(size_t n, size_t w, const uint32_t *labels, size_t ll, const uint32_t *counts, size_t cl, size_t asked, \
                         const seam_target *targets, size_t tl, uint32_t *found, uint64_t *target); \
    uint32_t p##_sixteen(size_t n, size_t w, const uint32_t *labels, size_t ll, const uint32_t *counts, size_t cl, \
                         const seam_target *targets, size_t tl, uint64_t *sixteen); \
    uint32_t p##_write(size_t n, size_t w, size_t k, const uint32_t *o, size_t ol, const uint32_t *labels, size_t ll, \
                       const uint32_t *counts, size_t cl, uint8_t *out, size_t outl, size_t start, uint64_t *bytes); \
    uint32_t p##_read(const uint8_t *b, size_t len, size_t w, uint32_t *o, size_t ol, uint32_t *labels, size_t ll, \
                      uint32_t *counts, size_t cl, uint64_t *n, uint64_t *k);

DECLARE(c)
DECLARE(r)

#endif
