/* seam.h: the distance index for C.
 *
 * Links. Frames are numbered from 0 to n - 1; a link joins two of them. A block of links is n + 1 start positions and a list of
 * neighbour places: the list of frame v lies from starts[v] up to, and not including, starts[v + 1]. It rises strictly, and every
 * link stands in the lists of both its frames. The joins between two frames are the fewest links of a chain from one to the other.
 *
 * Hubs. A hub is a frame to which others keep their joins. The hub order is n frame numbers, each frame once; the frame at place r
 * has rank r, and an index of k hubs (k is 0 to n) uses those of rank below k. A rank is never a frame number: order[rank] is the hub.
 *
 * Rows. Row v of an index lies in the label room from place v * w on and has counts[v] used entries, each rank * 65,536 + joins: so
 * many joins from frame v to the hub of that rank. Unused places are 0, and so is an entry of rank 0 and 0 joins; only the count tells
 * them apart. A row is sound if its count is at most w, its ranks rise strictly and lie below a bound, and its joins are below n. The
 * bound is k for seam_write and seam_read, n everywhere else. A sound row has the right shape; that its joins are true comes from
 * seam_build alone, and no later call tests it.
 *
 * What a count says. Of the rows that seam_build made with k hubs, seam_pair gives the fewest joins of a chain from s to t, turning
 * back allowed, through one of these hubs, and none exactly if there is no such chain. So it is never too small, at most twice the
 * joins from either frame to its nearest used hub too many, and the true count at k = n; only there does none mean that no chain at
 * all joins the two. s = t is read from the row like any pair: 0 at k = n, but before that it may be above 0 or none.
 *
 * Targets. A target is a record of a frame and a mark. Up to 16 of them are lent as a list, the first at place 0; a frame may be in it
 * more than once. The joins from a frame to a target are what seam_pair gives for the two frames, also where they are one, and so 0 for a
 * target's own frame only once that is among the hubs used; at k = n they are the true count. The mark is the caller's own: no call tests
 * or reads it.
 *
 * How to choose w. It is the most entries that a row can have, 1 to 256, and the label room takes n * w * 4 bytes: at w = 256 that is
 * 1 KiB a frame, 4 MiB for 4,096. How long rows get depends on the order. On survey decks nearly all frames have equally many links, so
 * that seam_order_by_degree is nearly the frames' own order and rows grow long; seam_order_scattered takes frames of equally many links
 * from all over the deck instead (at most 123 entries in a row on four decks of 4,096 frames that were tried). A build that needs a
 * longer row than w is SEAM_ROOM: call seam_order_scattered and build again; if that was the order, take a larger w or an order of your
 * own. With k at most the rank that SEAM_ROOM names, the same build is not refused, but uses fewer hubs. A file can be read with any w
 * from its largest count up, so always with 256; a smaller w is SEAM_ROOM.
 *
 * The file. Its layout is these fields, in this order and without gaps, most significant bit first; bits are numbered from 0:
 *
 *     header, 32 bits   version 4 (1), n - 1 in 12, k in 13 (at most n), spare 3 (0)
 *     n times           order 12: the frame of rank 0, 1, ..; each frame once
 *     for each frame    count 9 (at most 256), then so many entries: rank 12 (rising, below k), joins 12 (below n)
 *     at the end        0 bits up to a whole byte
 *
 * Calls. Every call returns a number, SEAM_OK (0) for success or one of the refusals below, and takes any numbers whatever in any
 * room: none relies on the caller having checked. It tests in the order in which its refusals are listed with it. `*place` and every
 * other out value, the sixteen counts of seam_sixteen among them, are always written, 0 on a refusal unless it names a place. On a
 * refusal every room is as it was lent, but for SEAM_ROOM and SEAM_FAR of seam_build, which leave labels, counts, met and queue all 0.
 *
 * What the caller owes: each pointer is valid for the length passed with it (NULL is fine with length 0; targets_len counts records),
 * an out value's pointer is valid (that of the sixteen counts for 16 of them), rooms that are written and out values lie apart from each
 * other and from every other room.
 *
 * What a call takes. No state is kept between calls, so they are reentrant: several threads may call at once, as long as none uses a
 * room or out value that a call of another is writing. No heap: every room belongs to the caller throughout. Stack, as the archive of
 * this tree is compiled: at most 34 KiB for seam_build, seam_order_by_degree and seam_order_scattered, 18 for seam_check_links, 10 for
 * seam_nearest and seam_sixteen, 6 for seam_check_order, seam_write and seam_read; of each, 1 KiB is allowed for memset and memcpy of the
 * C library, the only functions called outside the archive, and where these are bound late, the loader takes its own besides at their
 * first call. The others call nothing outside the archive and take less than 1 KiB.
 */
#ifndef SEAM_H
#define SEAM_H

#include <stddef.h>
#include <stdint.h>

#ifdef __cplusplus
extern "C" {
#endif

/* The numbers that a call returns, and what *place then is. */
enum {
    SEAM_OK = 0,
    SEAM_SIZE = 1,     /* n, w, k, the number of neighbour places or that of targets is out of range; 0 */
    SEAM_LENGTH = 2,   /* a room's length differs from what n and w ask for; 0 */
    SEAM_STARTS = 3,   /* start positions: first 0, never falling, last the number of neighbour places; 0 */
    SEAM_LINKS = 4,    /* a list is not strictly rising, holds n or more, its own frame, or a frame whose list lacks it; lowest frame */
    SEAM_ORDER = 5,    /* not each frame once; lowest rank whose value is n or more or stands at a lower rank */
    SEAM_ROOM = 6,     /* build: a row needs over w entries; lowest such rank. read: a count over w, at most 256; the frame */
    SEAM_FAR = 7,      /* build: a frame is over 4,095 joins from a hub; of at most 4,096 frames none is; 0 */
    SEAM_FRAME = 8,    /* an asked frame is n or more; 0 for the first, 1 for the second. a target's frame is; its place plus one */
    SEAM_ROW = 9,      /* a row is not sound; the frame */
    SEAM_SHORT = 10,   /* the bytes end inside a field; its first bit */
    SEAM_VERSION = 11, /* the file's version is not 1; 0 */
    SEAM_FIELD = 12,   /* an illegal field; its first bit */
    SEAM_LONG = 13,    /* bytes after the layout; how many bytes the layout uses */
    SEAM_OUT = 14      /* start lies past the output room's end, or the room ends before the file would; 0 */
};

/* Limits. */
#define SEAM_MOST_FRAMES 4096u  /* n is 1 to this */
#define SEAM_MOST_WIDTH 256u    /* w is 1 to this */
#define SEAM_MOST_PLACES 65536u /* neighbour places */
#define SEAM_MOST_TARGETS 16u   /* targets in a list */

/* Bytes of the file of an index of n frames with so many entries in all: 4 + (21 n + 24 entries) / 8, rounded up. */
#define SEAM_FILE_BYTES(n, entries) (4u + (21u * (size_t)(n) + 24u * (size_t)(entries) + 7u) / 8u)

/* An entry's rank and joins. */
#define SEAM_RANK(entry) ((uint32_t)(entry) / 65536u)
#define SEAM_JOINS(entry) ((uint32_t)(entry) % 65536u)

/* A target: its frame, and a mark that no call tests or reads. */
typedef struct {
    uint32_t frame;
    uint32_t mark;
} seam_target;

/* Tests a block of links: SIZE, LENGTH, STARTS, LINKS. */
uint32_t seam_check_links(size_t n, const uint32_t *starts, size_t starts_len, const uint32_t *places, size_t places_len,
                          uint64_t *place);

/* Tests a hub order: SIZE, LENGTH, ORDER. */
uint32_t seam_check_order(size_t n, const uint32_t *order, size_t order_len, uint64_t *place);

/* Fills the order room: more links first, of equal degree the lower frame number first. SIZE, LENGTH, STARTS, LINKS. */
uint32_t seam_order_by_degree(size_t n, const uint32_t *starts, size_t starts_len, const uint32_t *places, size_t places_len,
                              uint32_t *order, size_t order_len, uint64_t *place);

/* Fills the order room: more links first, of equal degree the frame v with the lower v * 2,531 mod 4,096 first (no two frames have the
 * same). The order for survey decks. SIZE, LENGTH, STARTS, LINKS. */
uint32_t seam_order_scattered(size_t n, const uint32_t *starts, size_t starts_len, const uint32_t *places, size_t places_len,
                              uint32_t *order, size_t order_len, uint64_t *place);

/* Builds the rows of the first k hubs, with room for w entries a row. labels has n * w places, counts and the two work rooms, met and
 * queue, n each; they may hold anything before. *entries is the number of entries, the sum of all counts; met and queue are 0 after.
 * SIZE, LENGTH, STARTS, LINKS, ORDER, then ROOM or FAR. */
uint32_t seam_build(size_t n, size_t w, size_t k, const uint32_t *starts, size_t starts_len, const uint32_t *places,
                    size_t places_len, const uint32_t *order, size_t order_len, uint32_t *labels, size_t labels_len,
                    uint32_t *counts, size_t counts_len, uint32_t *met, size_t met_len, uint32_t *queue,
                    size_t queue_len, uint64_t *entries, uint64_t *place);

/* The fewest joins from s to t through one of the hubs used: *found 1 and *joins, or *found 0 and *joins 0 where there is no such
 * chain. Read from the two rows alone, as the least sum of joins over ranks in both. SIZE, LENGTH, FRAME, ROW for s, ROW for t. */
uint32_t seam_pair(size_t n, size_t w, const uint32_t *labels, size_t labels_len, const uint32_t *counts, size_t counts_len,
                   size_t s, size_t t, uint32_t *found, uint64_t *joins, uint64_t *place);

/* Whether seam_pair has an answer for s and t and it is at most limit: *yes 1, else 0. limit is any number; a limit of 2 n or more
 * asks whether there is an answer at all. The walk along the two rows stops at the first rank in both whose sum of joins is at most
 * limit, but both rows are tested whole before it, as for seam_pair: SIZE, LENGTH, FRAME, ROW for s, ROW for t. */
uint32_t seam_within(size_t n, size_t w, const uint32_t *labels, size_t labels_len, const uint32_t *counts, size_t counts_len,
                     size_t s, size_t t, size_t limit, uint32_t *yes, uint64_t *place);

/* Tests the row of v: SIZE, LENGTH, FRAME, ROW. */
uint32_t seam_check_row(size_t n, size_t w, const uint32_t *labels, size_t labels_len, const uint32_t *counts,
                        size_t counts_len, size_t v, uint64_t *place);

/* Where the used part of v's row lies in the label room: labels[*start] to labels[*start + *count - 1], none where *count is 0. As
 * seam_check_row. */
uint32_t seam_row(size_t n, size_t w, const uint32_t *labels, size_t labels_len, const uint32_t *counts, size_t counts_len,
                  size_t v, uint64_t *start, uint64_t *count, uint64_t *place);

/* Twice the largest joins among used entries of rank 0, or 0. SIZE, LENGTH, ROW for the lowest frame. */
uint32_t seam_spread(size_t n, size_t w, const uint32_t *labels, size_t labels_len, const uint32_t *counts,
                     size_t counts_len, uint64_t *spread, uint64_t *place);

/* The nearest target: of the list, the place of the one with the fewest joins from the frame asked for, the first such place on equal
 * counts: *found 1 and *target, or *found 0 and *target 0 where seam_pair has none for every target, and for an empty list. SIZE (over
 * 16 targets too), LENGTH, FRAME for the frame asked for (place 0), then for the targets in their order (the place in the list plus one),
 * ROW for the frame asked for, then for the targets in their order (the frame, so that of two the higher may be named). */
uint32_t seam_nearest(size_t n, size_t w, const uint32_t *labels, size_t labels_len, const uint32_t *counts, size_t counts_len,
                      size_t asked, const seam_target *targets, size_t targets_len, uint32_t *found, uint64_t *target,
                      uint64_t *place);

/* The sixteen counts: sixteen[i] is the number of frames whose nearest target is i joins away, sixteen[15] of those with 15 and more;
 * frames without any target are left out, so that all 16 are 0 for an empty list. A target's own frame is counted like any other. SIZE
 * (over 16 targets too), LENGTH, FRAME for the targets in their order (the place in the list plus one), ROW for the lowest frame of all
 * n, whether or not a target is near it. */
uint32_t seam_sixteen(size_t n, size_t w, const uint32_t *labels, size_t labels_len, const uint32_t *counts, size_t counts_len,
                      const seam_target *targets, size_t targets_len, uint64_t sixteen[16], uint64_t *place);

/* Writes the index file from out[start] on; *bytes is how many bytes it filled, and the others stay. Give it the k of the build: the
 * file says the k given here. SIZE, LENGTH, ORDER, ROW for the lowest frame (with rank bound k), OUT. SEAM_FILE_BYTES says beforehand
 * how many bytes it takes. */
uint32_t seam_write(size_t n, size_t w, size_t k, const uint32_t *order, size_t order_len, const uint32_t *labels,
                    size_t labels_len, const uint32_t *counts, size_t counts_len, uint8_t *out, size_t out_len,
                    size_t start, uint64_t *bytes, uint64_t *place);

/* The file's n and k, to cut the rooms for seam_read. SHORT, VERSION or FIELD, field by field in bit order. */
uint32_t seam_header(const uint8_t *bytes, size_t len, uint64_t *n, uint64_t *k, uint64_t *place);

/* Reads an index file into rooms of n, n * w and n. The whole file is tested before anything is stored; unused label places become
 * 0. It vouches for the file's shape, not for its truth. SIZE for w, then the header's refusals, LENGTH, then SHORT, FIELD or ROOM
 * in bit order, then LONG. */
uint32_t seam_read(const uint8_t *bytes, size_t len, size_t w, uint32_t *order, size_t order_len, uint32_t *labels,
                   size_t labels_len, uint32_t *counts, size_t counts_len, uint64_t *n, uint64_t *k, uint64_t *place);

#ifdef __cplusplus
}
#endif

#endif
