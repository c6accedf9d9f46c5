/* The chain 0-1-2-3 through the C interface: order by degree, a build that is refused and one that is not, one question, the same with a
 * limit, the nearest of two targets, one row, the file written, its header read, and the file read back.
 *
 *   tools/archive
 *   gcc -Wall -Wextra -std=c11 -I crates/capi docs/example.c target/staticlib/libcapi.a -o example && ./example
 */
#include <stdio.h>

#include "seam.h"

enum { FRAMES = 4, NARROW = 2, WIDTH = 3, PLACES = 6, TARGETS = 2, BYTES = 64 };

static const uint32_t starts[FRAMES + 1] = {0, 1, 3, 5, 6};
static const uint32_t places[PLACES] = {1, 0, 2, 1, 3, 2};
static const seam_target targets[TARGETS] = {{.frame = 0, .mark = 71}, {.frame = 3, .mark = 72}};

static uint32_t order[FRAMES], labels[FRAMES * WIDTH], counts[FRAMES], met[FRAMES], queue[FRAMES];
static uint8_t out[BYTES];

/* Prints a refusal; 1 where there was one. */
static int refused(const char *call, uint32_t number, const uint64_t *place)
{
    if (number == SEAM_OK)
        return 0;
    fprintf(stderr, "%s: refused %u at %llu\n", call, (unsigned)number, (unsigned long long)*place);
    return 1;
}

int main(void)
{
    uint64_t place, entries, joins, target, start, count, bytes, n, k;
    uint32_t found, yes, number;

    if (refused("order", seam_order_by_degree(FRAMES, starts, FRAMES + 1, places, PLACES, order, FRAMES, &place), &place))
        return 1;
    printf("order");
    for (int r = 0; r < FRAMES; r++)
        printf(" %u", (unsigned)order[r]);
    printf("\n");

    /* Two entries a row are too few: the place is the rank at which it shows. Here a larger width is the way out. */
    number = seam_build(FRAMES, NARROW, FRAMES, starts, FRAMES + 1, places, PLACES, order, FRAMES, labels, FRAMES * NARROW,
                        counts, FRAMES, met, FRAMES, queue, FRAMES, &entries, &place);
    if (number != SEAM_ROOM)
        return 1;
    printf("width %d: refused %u at rank %llu\n", NARROW, (unsigned)number, (unsigned long long)place);

    if (refused("build",
                seam_build(FRAMES, WIDTH, FRAMES, starts, FRAMES + 1, places, PLACES, order, FRAMES, labels, FRAMES * WIDTH,
                           counts, FRAMES, met, FRAMES, queue, FRAMES, &entries, &place),
                &place))
        return 1;
    printf("entries %llu\n", (unsigned long long)entries);

    if (refused("pair",
                seam_pair(FRAMES, WIDTH, labels, FRAMES * WIDTH, counts, FRAMES, 0, 3, &found, &joins, &place), &place))
        return 1;
    if (found)
        printf("0 to 3: %llu joins\n", (unsigned long long)joins);
    else
        printf("0 to 3: none\n");

    /* Where only a limit matters. */
    if (refused("within", seam_within(FRAMES, WIDTH, labels, FRAMES * WIDTH, counts, FRAMES, 0, 3, 2, &yes, &place), &place))
        return 1;
    printf("0 to 3 within 2 joins: %s\n", yes ? "yes" : "no");

    /* A target's place in the list comes back; its mark is for the caller alone. */
    if (refused("nearest",
                seam_nearest(FRAMES, WIDTH, labels, FRAMES * WIDTH, counts, FRAMES, 2, targets, TARGETS, &found, &target,
                             &place),
                &place))
        return 1;
    if (found)
        printf("nearest to 2: target %llu, mark %u\n", (unsigned long long)target, (unsigned)targets[target].mark);
    else
        printf("nearest to 2: none\n");

    /* A row has ranks; the order says which frame is the hub. */
    if (refused("row",
                seam_row(FRAMES, WIDTH, labels, FRAMES * WIDTH, counts, FRAMES, 3, &start, &count, &place), &place))
        return 1;
    printf("row 3:");
    for (uint64_t i = start; i < start + count; i++)
        printf(" %u:%u", (unsigned)order[SEAM_RANK(labels[i])], (unsigned)SEAM_JOINS(labels[i]));
    printf("\n");

    if (refused("write",
                seam_write(FRAMES, WIDTH, FRAMES, order, FRAMES, labels, FRAMES * WIDTH, counts, FRAMES, out, BYTES, 0,
                           &bytes, &place),
                &place))
        return 1;
    printf("file %llu bytes, as foretold: %s\n", (unsigned long long)bytes,
           bytes == SEAM_FILE_BYTES(FRAMES, entries) ? "yes" : "no");

    /* The header says for how many frames the rooms must be cut. */
    if (refused("header", seam_header(out, bytes, &n, &k, &place), &place))
        return 1;
    printf("header: %llu frames, %llu hubs\n", (unsigned long long)n, (unsigned long long)k);
    if (n > FRAMES)
        return 1;

    if (refused("read", seam_read(out, bytes, WIDTH, order, n, labels, n * WIDTH, counts, n, &n, &k, &place), &place))
        return 1;
    printf("read back: %llu frames, %llu hubs\n", (unsigned long long)n, (unsigned long long)k);
    return 0;
}
