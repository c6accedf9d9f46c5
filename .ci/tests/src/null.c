/* NULL with length 0 in each room of each call: the number and the place that the paper asks for, every out value written.
 * One frame without links is a block, so its neighbour places may be NULL and the call succeeds. */
#include <stdio.h>

#include "seam.h"

#define NONE NULL, 0
#define ONE(room) room, 1
#define POISON 77u

/* The sixteen counts lie from place 1 on, between two that no call writes. */
enum { ROOM = 18 };

static uint64_t a, b, place, sixteen[ROOM];
static uint32_t found;
static int failures;

static void poison(void)
{
    a = b = place = POISON;
    found = POISON;
    for (int i = 0; i < ROOM; i++)
        sixteen[i] = POISON;
}

/* Out values are written exactly where the call has them: A and B beside the place, FOUND of the pair question and of the nearest
 * target (and the yes of within), the SIXTEEN counts. */
enum { A = 1, B = 2, FOUND = 4, SIXTEEN = 8 };

static void tell(const char *call, uint32_t number, uint32_t want, uint64_t want_a, int outs)
{
    int written = place == 0 && a == (outs & A ? want_a : POISON) && b == (outs & B ? 0 : POISON) &&
                  found == (outs & FOUND ? 0 : POISON);

    for (int i = 0; i < ROOM; i++)
        written = written && sixteen[i] == (outs & SIXTEEN && i > 0 && i < ROOM - 1 ? 0 : POISON);
    if (number == want && written)
        return;
    fprintf(stderr, "%s: number %u, wanted %u; place %llu, values %llu %llu %u, counts", call, (unsigned)number, (unsigned)want,
            (unsigned long long)place, (unsigned long long)a, (unsigned long long)b, (unsigned)found);
    for (int i = 0; i < ROOM; i++)
        fprintf(stderr, " %llu", (unsigned long long)sixteen[i]);
    fprintf(stderr, "\n");
    failures++;
}

/* The number wanted, the value of A, the out values beside the place, the call. */
#define TRY(want, want_a, outs, call) \
    do { \
        poison(); \
        uint32_t number = call; \
        tell(#call, number, want, want_a, outs); \
    } while (0)

int main(void)
{
    static const uint32_t starts[2] = {0, 0}, order[1] = {0}, label[1] = {0}, count[1] = {0};
    static const seam_target target[1] = {{0, 7}};
    static const uint8_t file[10] = {0x10, 0, 0, 0x08, 0, 0, 0x08, 0, 0, 0};
    uint32_t filled[1] = {7}, labels[1] = {7}, counts[1] = {7}, met[1] = {7}, queue[1] = {7};
    uint8_t bytes[10] = {7};

    TRY(SEAM_SIZE, 0, 0, seam_check_links(0, NONE, NONE, &place));
    TRY(SEAM_LENGTH, 0, 0, seam_check_links(1, NONE, NONE, &place));
    TRY(SEAM_OK, 0, 0, seam_check_links(1, starts, 2, NONE, &place));

    TRY(SEAM_SIZE, 0, 0, seam_check_order(0, NONE, &place));
    TRY(SEAM_LENGTH, 0, 0, seam_check_order(1, NONE, &place));

    TRY(SEAM_SIZE, 0, 0, seam_order_by_degree(0, NONE, NONE, NONE, &place));
    TRY(SEAM_LENGTH, 0, 0, seam_order_by_degree(1, NONE, NONE, ONE(filled), &place));
    TRY(SEAM_LENGTH, 0, 0, seam_order_by_degree(1, starts, 2, NONE, NONE, &place));
    TRY(SEAM_OK, 0, 0, seam_order_by_degree(1, starts, 2, NONE, ONE(filled), &place));

    TRY(SEAM_SIZE, 0, 0, seam_order_scattered(0, NONE, NONE, NONE, &place));
    TRY(SEAM_LENGTH, 0, 0, seam_order_scattered(1, NONE, NONE, ONE(filled), &place));
    TRY(SEAM_LENGTH, 0, 0, seam_order_scattered(1, starts, 2, NONE, NONE, &place));
    TRY(SEAM_OK, 0, 0, seam_order_scattered(1, starts, 2, NONE, ONE(filled), &place));

    TRY(SEAM_SIZE, 0, A, seam_build(0, 1, 0, NONE, NONE, NONE, NONE, NONE, NONE, NONE, &a, &place));
    TRY(SEAM_LENGTH, 0, A, seam_build(1, 1, 1, NONE, NONE, ONE(order), ONE(labels), ONE(counts), ONE(met), ONE(queue), &a, &place));
    TRY(SEAM_LENGTH, 0, A, seam_build(1, 1, 1, starts, 2, NONE, NONE, ONE(labels), ONE(counts), ONE(met), ONE(queue), &a, &place));
    TRY(SEAM_LENGTH, 0, A, seam_build(1, 1, 1, starts, 2, NONE, ONE(order), NONE, ONE(counts), ONE(met), ONE(queue), &a, &place));
    TRY(SEAM_LENGTH, 0, A, seam_build(1, 1, 1, starts, 2, NONE, ONE(order), ONE(labels), NONE, ONE(met), ONE(queue), &a, &place));
    TRY(SEAM_LENGTH, 0, A, seam_build(1, 1, 1, starts, 2, NONE, ONE(order), ONE(labels), ONE(counts), NONE, ONE(queue), &a, &place));
    TRY(SEAM_LENGTH, 0, A, seam_build(1, 1, 1, starts, 2, NONE, ONE(order), ONE(labels), ONE(counts), ONE(met), NONE, &a, &place));
    TRY(SEAM_OK, 1, A, seam_build(1, 1, 1, starts, 2, NONE, ONE(order), ONE(labels), ONE(counts), ONE(met), ONE(queue), &a, &place));

    TRY(SEAM_SIZE, 0, A | FOUND, seam_pair(0, 1, NONE, NONE, 0, 0, &found, &a, &place));
    TRY(SEAM_LENGTH, 0, A | FOUND, seam_pair(1, 1, NONE, ONE(count), 0, 0, &found, &a, &place));
    TRY(SEAM_LENGTH, 0, A | FOUND, seam_pair(1, 1, ONE(label), NONE, 0, 0, &found, &a, &place));

    TRY(SEAM_SIZE, 0, FOUND, seam_within(0, 1, NONE, NONE, 0, 0, 0, &found, &place));
    TRY(SEAM_LENGTH, 0, FOUND, seam_within(1, 1, NONE, ONE(count), 0, 0, 0, &found, &place));
    TRY(SEAM_LENGTH, 0, FOUND, seam_within(1, 1, ONE(label), NONE, 0, 0, 0, &found, &place));

    TRY(SEAM_SIZE, 0, 0, seam_check_row(0, 1, NONE, NONE, 0, &place));
    TRY(SEAM_LENGTH, 0, 0, seam_check_row(1, 1, NONE, ONE(count), 0, &place));
    TRY(SEAM_LENGTH, 0, 0, seam_check_row(1, 1, ONE(label), NONE, 0, &place));

    TRY(SEAM_SIZE, 0, A | B, seam_row(0, 1, NONE, NONE, 0, &a, &b, &place));
    TRY(SEAM_LENGTH, 0, A | B, seam_row(1, 1, NONE, ONE(count), 0, &a, &b, &place));
    TRY(SEAM_LENGTH, 0, A | B, seam_row(1, 1, ONE(label), NONE, 0, &a, &b, &place));

    TRY(SEAM_SIZE, 0, A, seam_spread(0, 1, NONE, NONE, &a, &place));
    TRY(SEAM_LENGTH, 0, A, seam_spread(1, 1, NONE, ONE(count), &a, &place));
    TRY(SEAM_LENGTH, 0, A, seam_spread(1, 1, ONE(label), NONE, &a, &place));

    TRY(SEAM_SIZE, 0, A | FOUND, seam_nearest(0, 1, NONE, NONE, 0, NONE, &found, &a, &place));
    TRY(SEAM_LENGTH, 0, A | FOUND, seam_nearest(1, 1, NONE, ONE(count), 0, ONE(target), &found, &a, &place));
    TRY(SEAM_LENGTH, 0, A | FOUND, seam_nearest(1, 1, ONE(label), NONE, 0, ONE(target), &found, &a, &place));
    TRY(SEAM_OK, 0, A | FOUND, seam_nearest(1, 1, ONE(label), ONE(count), 0, NONE, &found, &a, &place));

    TRY(SEAM_SIZE, 0, SIXTEEN, seam_sixteen(0, 1, NONE, NONE, NONE, sixteen + 1, &place));
    TRY(SEAM_LENGTH, 0, SIXTEEN, seam_sixteen(1, 1, NONE, ONE(count), ONE(target), sixteen + 1, &place));
    TRY(SEAM_LENGTH, 0, SIXTEEN, seam_sixteen(1, 1, ONE(label), NONE, ONE(target), sixteen + 1, &place));
    TRY(SEAM_OK, 0, SIXTEEN, seam_sixteen(1, 1, ONE(label), ONE(count), NONE, sixteen + 1, &place));

    TRY(SEAM_SIZE, 0, A, seam_write(0, 1, 0, NONE, NONE, NONE, NONE, 0, &a, &place));
    TRY(SEAM_LENGTH, 0, A, seam_write(1, 1, 0, NONE, ONE(label), ONE(count), bytes, 10, 0, &a, &place));
    TRY(SEAM_LENGTH, 0, A, seam_write(1, 1, 0, ONE(order), NONE, ONE(count), bytes, 10, 0, &a, &place));
    TRY(SEAM_LENGTH, 0, A, seam_write(1, 1, 0, ONE(order), ONE(label), NONE, bytes, 10, 0, &a, &place));
    TRY(SEAM_OUT, 0, A, seam_write(1, 1, 0, ONE(order), ONE(label), ONE(count), NONE, 0, &a, &place));

    TRY(SEAM_SHORT, 0, A | B, seam_header(NONE, &a, &b, &place));

    TRY(SEAM_SIZE, 0, A | B, seam_read(NONE, 0, NONE, NONE, NONE, &a, &b, &place));
    TRY(SEAM_SHORT, 0, A | B, seam_read(NONE, 1, ONE(filled), ONE(labels), ONE(counts), &a, &b, &place));
    TRY(SEAM_LENGTH, 0, A | B, seam_read(file, 10, 1, NONE, ONE(labels), ONE(counts), &a, &b, &place));
    TRY(SEAM_LENGTH, 0, A | B, seam_read(file, 10, 1, ONE(filled), NONE, ONE(counts), &a, &b, &place));
    TRY(SEAM_LENGTH, 0, A | B, seam_read(file, 10, 1, ONE(filled), ONE(labels), NONE, &a, &b, &place));

    return failures != 0;
}
