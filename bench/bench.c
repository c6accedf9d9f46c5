/* Times the proved library through its C interface beside the same method in plain C and plain Rust, in one run, interleaved, and
 * prints a table of ratios: library time over baseline time, medians of paired runs. Below 1 the library is the faster one.
 * Every answer and every room that a call fills, but the two work rooms, is compared, so a wrong baseline is noticed. A second table has
 * both orders on survey decks. */
#include "../crates/capi/seam.h"
#include "baseline.h"
#include <math.h>
#include <stdio.h>
#include <stdlib.h>
#include <string.h>
#include <time.h>

#define N 4096
#define W 256
#define ROUNDS 15

static uint32_t starts[N + 1], places[65536], order[N], order_b[3][N];
static uint32_t labels[3][N * W], counts[3][N], met[N], queue[N];
static uint32_t order_r[3][N], labels_r[3][N * W], counts_r[3][N];
static uint8_t file[3][4 + 3 * N + 3 * N * W + N * 2];
static uint32_t ask_s[20000], ask_t[20000];
static size_t n_places;
static uint64_t seed = 0x2545F4914F6CDD1DULL;

static uint64_t dice(void) {
    seed ^= seed << 13;
    seed ^= seed >> 7;
    seed ^= seed << 17;
    return seed;
}

static double now(void) {
    struct timespec t;
    clock_gettime(CLOCK_MONOTONIC, &t);
    return t.tv_sec + t.tv_nsec * 1e-9;
}

static int by_value(const void *a, const void *b) {
    double x = *(const double *)a, y = *(const double *)b;
    return (x > y) - (x < y);
}

static double median(double *x, int n) {
    qsort(x, n, sizeof *x, by_value);
    return n % 2 ? x[n / 2] : (x[n / 2 - 1] + x[n / 2]) / 2;
}

static void must(int ok, const char *what) {
    if (!ok) {
        fprintf(stderr, "bench: %s\n", what);
        exit(1);
    }
}

static int same(const void *a, const void *b, const void *c, size_t bytes) { return !memcmp(a, b, bytes) && !memcmp(b, c, bytes); }

/* ---- blocks, as pairs */

static uint32_t pair_a[65536], pair_b[65536];
static size_t n_pairs;

static int by_pair(const void *x, const void *y) {
    uint64_t a = *(const uint64_t *)x, b = *(const uint64_t *)y;
    return (a > b) - (a < b);
}

static void lay(void) {
    static uint64_t arcs[2 * 65536];
    size_t m = 0;
    for (size_t i = 0; i < n_pairs; i++) {
        if (pair_a[i] == pair_b[i]) continue;
        arcs[m++] = (uint64_t)pair_a[i] << 32 | pair_b[i];
        arcs[m++] = (uint64_t)pair_b[i] << 32 | pair_a[i];
    }
    qsort(arcs, m, sizeof *arcs, by_pair);
    n_places = 0;
    memset(starts, 0, sizeof starts);
    for (size_t i = 0; i < m; i++) {
        if (i && arcs[i] == arcs[i - 1]) continue;
        must(n_places < 65536, "too many links");
        places[n_places++] = (uint32_t)arcs[i];
        starts[(arcs[i] >> 32) + 1]++;
    }
    for (size_t v = 0; v < N; v++) starts[v + 1] += starts[v];
}

static void join(uint32_t a, uint32_t b) {
    pair_a[n_pairs] = a;
    pair_b[n_pairs++] = b;
}

static void grid(void) {
    n_pairs = 0;
    for (uint32_t y = 0; y < 64; y++)
        for (uint32_t x = 0; x < 64; x++) {
            if (x + 1 < 64) join(64 * y + x, 64 * y + x + 1);
            if (y + 1 < 64) join(64 * y + x, 64 * y + x + 64);
        }
    lay();
}

/* Points in a unit square, joined where close, for a mean degree of just under 10. */
static void geometric(void) {
    static double x[N], y[N];
    for (int v = 0; v < N; v++) {
        x[v] = (double)(dice() >> 11) / 9007199254740992.0;
        y[v] = (double)(dice() >> 11) / 9007199254740992.0;
    }
    double reach = 10.0 / (N * 3.14159265358979);
    n_pairs = 0;
    for (uint32_t a = 0; a < N; a++)
        for (uint32_t b = a + 1; b < N; b++)
            if ((x[a] - x[b]) * (x[a] - x[b]) + (y[a] - y[b]) * (y[a] - y[b]) < reach) join(a, b);
    lay();
}

/* Each frame joins four earlier ones, drawn from the ends of earlier joins. */
static void scale_free(void) {
    n_pairs = 0;
    join(0, 1);
    for (uint32_t v = 2; v < N; v++)
        for (int j = 0; j < 4; j++) {
            size_t at = dice() % (2 * n_pairs);
            uint32_t u = at % 2 ? pair_a[at / 2] : pair_b[at / 2];
            if (u != v) join(v, u);
        }
    lay();
}

/* A survey deck: strips side by side, each of so many frames. A frame overlaps so many ahead of it in its strip and the one beside it in
 * the next strip, with corners also that one's two neighbours; of ten overlaps so many are missing. */
struct deck {
    const char *name;
    uint32_t strips, frames, ahead, corners, missing;
};

/* The grid of the blocks, and three decks; DECK is a block too. */
static const struct deck decks[] = {
    {"64 x 64 grid", 64, 64, 1, 0, 0},
    {"16 strips of 256", 16, 256, 1, 0, 0},
    {"16 strips of 256, two ahead, corners, 1 in 10 missing", 16, 256, 2, 1, 1},
    {"64 x 64 grid, corners, 4 in 10 missing", 64, 64, 1, 1, 4},
};
#define DECK (&decks[2])

static void overlap(const struct deck *d, uint32_t a, uint32_t b) {
    if (dice() % 10 >= d->missing) join(a, b);
}

static void strip(const struct deck *d, uint32_t s) {
    for (uint32_t c = 0; c < d->frames; c++) {
        uint32_t v = s * d->frames + c, beside = v + d->frames;
        for (uint32_t i = 1; i <= d->ahead && c + i < d->frames; i++) overlap(d, v, v + i);
        if (s + 1 == d->strips) continue;
        overlap(d, v, beside);
        if (d->corners && c > 0) overlap(d, v, beside - 1);
        if (d->corners && c + 1 < d->frames) overlap(d, v, beside + 1);
    }
}

/* The dice start anew, so that a deck is the same wherever it is laid. */
static void survey(const struct deck *d) {
    seed = 0x2545F4914F6CDD1DULL;
    n_pairs = 0;
    for (uint32_t s = 0; s < d->strips; s++) strip(d, s);
    lay();
}

static void shuffled(void) {
    for (uint32_t v = 0; v < N; v++) order[v] = v;
    for (size_t i = N - 1; i > 0; i--) {
        size_t j = dice() % (i + 1);
        uint32_t t = order[i];
        order[i] = order[j];
        order[j] = t;
    }
}

typedef uint32_t ordering(size_t n, const uint32_t *starts, size_t starts_len, const uint32_t *places, size_t places_len,
                          uint32_t *order, size_t order_len, uint64_t *place);
typedef uint32_t plain_ordering(size_t n, const uint32_t *s, size_t sl, const uint32_t *q, size_t ql, uint32_t *o, size_t ol);

/* One of the two orders: the library's, in plain C and in plain Rust. */
struct kind {
    const char *name;
    ordering *seam;
    plain_ordering *c, *r;
};

static const struct kind by_degree = {"order by degree", seam_order_by_degree, c_order_by_degree, r_order_by_degree};
static const struct kind scattered = {"order scattered", seam_order_scattered, c_order_scattered, r_order_scattered};

/* A breadth-first search that stops at t. */
static long search(uint32_t s, uint32_t t) {
    static uint32_t d[N], q[N];
    static uint32_t mark[N], turn = 0;
    turn++;
    size_t head = 0, tail = 1;
    q[0] = s;
    d[s] = 0;
    mark[s] = turn;
    while (head < tail) {
        uint32_t u = q[head++];
        if (u == t) return d[u];
        for (uint32_t i = starts[u]; i < starts[u + 1]; i++)
            if (mark[places[i]] != turn) {
                mark[places[i]] = turn;
                d[places[i]] = d[u] + 1;
                q[tail++] = places[i];
            }
    }
    return -1;
}

/* ---- targets */

#define TARGETS 16
#define ASKED 5000
static seam_target targets[TARGETS];

/* The joins from each frame to its nearest target, by one search from all of them; -1 without any. */
static void search_all(long *d) {
    static uint32_t q[N];
    size_t head = 0, tail = 0;
    for (size_t v = 0; v < N; v++) d[v] = -1;
    for (size_t i = 0; i < TARGETS; i++) {
        uint32_t v = targets[i].frame;
        if (d[v] < 0) q[tail++] = v;
        d[v] = 0;
    }
    while (head < tail) {
        uint32_t u = q[head++];
        for (uint32_t i = starts[u]; i < starts[u + 1]; i++)
            if (d[places[i]] < 0) {
                d[places[i]] = d[u] + 1;
                q[tail++] = places[i];
            }
    }
}

/* The nearest target of a frame by its pair questions: the first place with the fewest joins, -1 without any. */
static long first_fewest(uint32_t asked) {
    uint32_t found;
    uint64_t joins, fewest = UINT64_MAX;
    long place = -1;
    for (long i = 0; i < TARGETS; i++) {
        must(!c_pair(N, W, labels[0], N * W, counts[0], N, asked, targets[i].frame, &found, &joins), "pair in C");
        if (found && joins < fewest) {
            fewest = joins;
            place = i;
        }
    }
    return place;
}

/* ---- timing */

/* A time in figures that can be read: three of them, in µs or ms. */
static const char *span(double seconds) {
    static char text[32];
    double t = seconds * 1e6;
    const char *unit = "µs";
    if (t >= 1000) {
        t /= 1000;
        unit = "ms";
    }
    snprintf(text, sizeof text, t >= 100 ? "%.0f %s" : t >= 10 ? "%.1f %s" : "%.2f %s", t, unit);
    return text;
}

static double seam_t[ROUNDS], c_t[ROUNDS], r_t[ROUNDS];

#define TIME_OF(repeat, lib, cc, rr)                                                             \
    do {                                                                                         \
        for (int round_ = 0; round_ < ROUNDS; round_++) {                                        \
            double t0 = now();                                                                   \
            for (int i_ = 0; i_ < (repeat); i_++) { lib; }                                       \
            double t1 = now();                                                                   \
            for (int i_ = 0; i_ < (repeat); i_++) { cc; }                                        \
            double t2 = now();                                                                   \
            for (int i_ = 0; i_ < (repeat); i_++) { rr; }                                        \
            double t3 = now();                                                                   \
            seam_t[round_] = (t1 - t0) / (repeat);                                               \
            c_t[round_] = (t1 - t0) / (t2 - t1);                                                 \
            r_t[round_] = (t1 - t0) / (t3 - t2);                                                 \
        }                                                                                        \
    } while (0)

static void row_of(const char *block, const char *name) {
    printf("| %s | %s | %s | %.2f | %.2f |\n", block, name, span(median(seam_t, ROUNDS)), median(c_t, ROUNDS), median(r_t, ROUNDS));
}

#define ROW_OF(name, repeat, lib, cc, rr)  \
    do {                                   \
        TIME_OF(repeat, lib, cc, rr);      \
        row_of(block, name);               \
    } while (0)

static void run_order(const char *block, const struct kind *by) {
    uint64_t place;
    uint32_t bad[3];
    ROW_OF(by->name, 20, bad[0] = by->seam(N, starts, N + 1, places, n_places, order_b[0], N, &place),
           bad[1] = by->c(N, starts, N + 1, places, n_places, order_b[1], N),
           bad[2] = by->r(N, starts, N + 1, places, n_places, order_b[2], N));
    must(!bad[0] && !bad[1] && !bad[2] && same(order_b[0], order_b[1], order_b[2], sizeof order_b[0]), "orders differ");
}

/* Fills the order room, and holds it against the baselines. */
static void in_order(const struct kind *by) {
    uint64_t place;
    must(!by->seam(N, starts, N + 1, places, n_places, order, N, &place), "order");
    must(!by->c(N, starts, N + 1, places, n_places, order_b[1], N), "order in C");
    must(!by->r(N, starts, N + 1, places, n_places, order_b[2], N), "order in Rust");
    must(same(order, order_b[1], order_b[2], sizeof order), "orders differ");
}

static uint32_t seam_built(const uint32_t *o, uint64_t *entries, uint64_t *place) {
    return seam_build(N, W, N, starts, N + 1, places, n_places, o, N, labels[0], N * W, counts[0], N, met, N, queue, N, entries, place);
}

/* The build in the order room's order, timed: its number and place. */
static uint32_t time_build(uint64_t *place) {
    uint64_t e[3];
    uint32_t bad[3];
    TIME_OF(1, bad[0] = seam_built(order, &e[0], place),
            bad[1] = c_build(N, W, N, starts, N + 1, places, n_places, order, N, labels[1], N * W, counts[1], N, met, N, queue, N, &e[1]),
            bad[2] = r_build(N, W, N, starts, N + 1, places, n_places, order, N, labels[2], N * W, counts[2], N, met, N, queue, N, &e[2]));
    must(bad[0] == bad[1] && bad[1] == bad[2] && e[0] == e[1] && e[1] == e[2], "builds differ");
    must(same(labels[0], labels[1], labels[2], sizeof labels[0]), "rows differ");
    must(same(counts[0], counts[1], counts[2], sizeof counts[0]), "counts differ");
    return bad[0];
}

/* The pairs once more, each with a limit: half its answer, its answer, and 0. A pair without an answer takes the number of its second
 * frame for one. */
static void run_within(const char *block) {
    static const char *names[3] = {"within half the answer (20,000)", "within the answer (20,000)", "within 0 (20,000)"};
    static uint64_t answer[20000];
    static uint32_t has[20000];
    static size_t limit[20000];
    uint64_t place, sum[3] = {0, 0, 0};
    uint32_t yes[3];
    for (int i = 0; i < 20000; i++)
        must(!c_pair(N, W, labels[0], N * W, counts[0], N, ask_s[i], ask_t[i], &has[i], &answer[i]), "pair in C");
    for (int which = 0; which < 3; which++) {
        for (int i = 0; i < 20000; i++) {
            size_t whole = has[i] ? answer[i] : ask_t[i];
            limit[i] = which == 0 ? whole / 2 : which == 1 ? whole : 0;
        }
#define ASK_WITHIN(x, call) for (int i = 0; i < 20000; i++) { call; sum[x] += yes[x]; }
        ROW_OF(names[which], 1,
               ASK_WITHIN(0, seam_within(N, W, labels[0], N * W, counts[0], N, ask_s[i], ask_t[i], limit[i], &yes[0], &place)),
               ASK_WITHIN(1, c_within(N, W, labels[0], N * W, counts[0], N, ask_s[i], ask_t[i], limit[i], &yes[1])),
               ASK_WITHIN(2, r_within(N, W, labels[0], N * W, counts[0], N, ask_s[i], ask_t[i], limit[i], &yes[2])));
        must(sum[0] == sum[1] && sum[1] == sum[2], "sums of replies differ");
        for (int i = 0; i < 20000; i++) {
            must(!seam_within(N, W, labels[0], N * W, counts[0], N, ask_s[i], ask_t[i], limit[i], &yes[0], &place), "within");
            must(!c_within(N, W, labels[0], N * W, counts[0], N, ask_s[i], ask_t[i], limit[i], &yes[1]), "within in C");
            must(!r_within(N, W, labels[0], N * W, counts[0], N, ask_s[i], ask_t[i], limit[i], &yes[2]), "within in Rust");
            must(yes[0] == yes[1] && yes[1] == yes[2], "replies differ");
            must(yes[0] == (has[i] && answer[i] <= limit[i]), "a reply is not that of the pair");
        }
    }
}

/* The targets are the first second frames of the pairs, the asked frames the first frames. */
static void run_nearest(const char *block) {
    uint64_t place, target[3], sum[3] = {0, 0, 0};
    uint32_t found[3];
    for (uint32_t i = 0; i < TARGETS; i++) targets[i] = (seam_target){ask_t[i], i};
#define ASK_NEAREST(x, call) for (int i = 0; i < ASKED; i++) { call; sum[x] += found[x] + target[x]; }
    ROW_OF("nearest of 16 (5,000)", 1,
           ASK_NEAREST(0, seam_nearest(N, W, labels[0], N * W, counts[0], N, ask_s[i], targets, TARGETS, &found[0], &target[0], &place)),
           ASK_NEAREST(1, c_nearest(N, W, labels[0], N * W, counts[0], N, ask_s[i], targets, TARGETS, &found[1], &target[1])),
           ASK_NEAREST(2, r_nearest(N, W, labels[0], N * W, counts[0], N, ask_s[i], targets, TARGETS, &found[2], &target[2])));
    must(sum[0] == sum[1] && sum[1] == sum[2], "sums of nearest targets differ");
    for (int i = 0; i < ASKED; i++) {
        must(!seam_nearest(N, W, labels[0], N * W, counts[0], N, ask_s[i], targets, TARGETS, &found[0], &target[0], &place), "nearest");
        must(!c_nearest(N, W, labels[0], N * W, counts[0], N, ask_s[i], targets, TARGETS, &found[1], &target[1]), "nearest in C");
        must(!r_nearest(N, W, labels[0], N * W, counts[0], N, ask_s[i], targets, TARGETS, &found[2], &target[2]), "nearest in Rust");
        must(found[0] == found[1] && found[1] == found[2] && target[0] == target[1] && target[1] == target[2], "nearest targets differ");
        must(first_fewest(ask_s[i]) == (found[0] ? (long)target[0] : -1), "a nearest target is not that of the pairs");
    }
}

static void run_sixteen(const char *block) {
    static long d[N];
    uint64_t place, sixteen[3][16], searched[16] = {0};
    uint32_t bad[3];
    ROW_OF("sixteen counts of 16", 10,
           bad[0] = seam_sixteen(N, W, labels[0], N * W, counts[0], N, targets, TARGETS, sixteen[0], &place),
           bad[1] = c_sixteen(N, W, labels[0], N * W, counts[0], N, targets, TARGETS, sixteen[1]),
           bad[2] = r_sixteen(N, W, labels[0], N * W, counts[0], N, targets, TARGETS, sixteen[2]));
    must(!bad[0] && !bad[1] && !bad[2] && same(sixteen[0], sixteen[1], sixteen[2], sizeof sixteen[0]), "sixteen counts differ");
    search_all(d);
    for (size_t v = 0; v < N; v++)
        if (d[v] >= 0) searched[d[v] < 15 ? d[v] : 15]++;
    must(!memcmp(sixteen[0], searched, sizeof searched), "the sixteen counts are not the search's");
}

static double search_ratio;
static const char *search_block;

static void run(const char *block) {
    uint64_t place, n[3], k[3], bytes[3], sp[3];
    uint32_t bad[3], found[3];
    uint64_t joins[3], sum[3];
    run_order(block, &by_degree);
    run_order(block, &scattered);
    uint32_t refused = time_build(&place);
    if (refused) fprintf(stderr, "%s: refused %u at %lu\n", block, refused, (unsigned long)place);
    must(!refused, "build");
    row_of(block, "build");
    for (int i = 0; i < 20000; i++) {
        ask_s[i] = dice() % N;
        ask_t[i] = dice() % N;
    }
    memset(sum, 0, sizeof sum);
#define ASK(x, call) for (int i = 0; i < 20000; i++) { call; sum[x] += found[x] + joins[x]; }
    ROW_OF("pair (20,000)", 1,
           ASK(0, seam_pair(N, W, labels[0], N * W, counts[0], N, ask_s[i], ask_t[i], &found[0], &joins[0], &place)),
           ASK(1, c_pair(N, W, labels[0], N * W, counts[0], N, ask_s[i], ask_t[i], &found[1], &joins[1])),
           ASK(2, r_pair(N, W, labels[0], N * W, counts[0], N, ask_s[i], ask_t[i], &found[2], &joins[2])));
    must(sum[0] == sum[1] && sum[1] == sum[2], "sums of answers differ");
    for (int i = 0; i < 20000; i++) {
        must(!seam_pair(N, W, labels[0], N * W, counts[0], N, ask_s[i], ask_t[i], &found[0], &joins[0], &place), "pair");
        must(!c_pair(N, W, labels[0], N * W, counts[0], N, ask_s[i], ask_t[i], &found[1], &joins[1]), "pair in C");
        must(!r_pair(N, W, labels[0], N * W, counts[0], N, ask_s[i], ask_t[i], &found[2], &joins[2]), "pair in Rust");
        must(found[0] == found[1] && found[1] == found[2] && joins[0] == joins[1] && joins[1] == joins[2], "answers differ");
    }
    long apart = 0;
    for (int round = 0; round < ROUNDS; round++) {
        double t0 = now();
        apart = 0;
        for (int i = 0; i < 400; i++) apart += search(ask_s[i], ask_t[i]);
        double t1 = now();
        ASK(0, seam_pair(N, W, labels[0], N * W, counts[0], N, ask_s[i], ask_t[i], &found[0], &joins[0], &place));
        double t2 = now();
        seam_t[round] = (t2 - t1) / 20000;
        c_t[round] = (t1 - t0) / 400 / seam_t[round];
    }
    double per_pair = median(seam_t, ROUNDS), faster = median(c_t, ROUNDS);
    for (int i = 0; i < 400; i++) {
        must(seam_pair(N, W, labels[0], N * W, counts[0], N, ask_s[i], ask_t[i], &found[0], &joins[0], &place) == 0, "pair");
        must(search(ask_s[i], ask_t[i]) == (found[0] ? (long)joins[0] : -1), "an answer is not the search's");
    }
    if (faster < search_ratio || !search_block) {
        search_ratio = faster;
        search_block = block;
    }
    printf("| %s | pair beside a search (400 pairs, %ld joins in all) | %s | %.0f times as fast | |\n", block, apart, span(per_pair), faster);
    run_within(block);
    run_nearest(block);
    run_sixteen(block);
    ROW_OF("spread", 20, bad[0] = seam_spread(N, W, labels[0], N * W, counts[0], N, &sp[0], &place),
           bad[1] = c_spread(N, W, labels[0], N * W, counts[0], N, &sp[1]),
           bad[2] = r_spread(N, W, labels[0], N * W, counts[0], N, &sp[2]));
    must(!bad[0] && !bad[1] && !bad[2] && sp[0] == sp[1] && sp[1] == sp[2], "spreads differ");
    ROW_OF("write", 5,
           bad[0] = seam_write(N, W, N, order, N, labels[0], N * W, counts[0], N, file[0], sizeof file[0], 0, &bytes[0], &place),
           bad[1] = c_write(N, W, N, order, N, labels[0], N * W, counts[0], N, file[1], sizeof file[1], 0, &bytes[1]),
           bad[2] = r_write(N, W, N, order, N, labels[0], N * W, counts[0], N, file[2], sizeof file[2], 0, &bytes[2]));
    must(!bad[0] && !bad[1] && !bad[2] && bytes[0] == bytes[1] && bytes[1] == bytes[2], "sizes differ");
    must(same(file[0], file[1], file[2], bytes[0]), "files differ");
    ROW_OF("read", 5,
           bad[0] = seam_read(file[0], bytes[0], W, order_r[0], N, labels_r[0], N * W, counts_r[0], N, &n[0], &k[0], &place),
           bad[1] = c_read(file[0], bytes[0], W, order_r[1], N, labels_r[1], N * W, counts_r[1], N, &n[1], &k[1]),
           bad[2] = r_read(file[0], bytes[0], W, order_r[2], N, labels_r[2], N * W, counts_r[2], N, &n[2], &k[2]));
    for (int x = 0; x < 3; x++) {
        must(!bad[x] && n[x] == N && k[x] == N && !memcmp(order_r[x], order, sizeof order), "a read differs");
        must(!memcmp(labels_r[x], labels[0], sizeof labels[0]) && !memcmp(counts_r[x], counts[0], sizeof counts[0]), "rows read differ");
    }
}

/* ---- both orders on a deck */

/* Of the rows just built, or of the rank at which one was full. */
static void deck_row(const char *deck, const char *name, uint32_t refused, uint64_t place) {
    uint64_t entries = 0;
    uint32_t longest = 0;
    must(refused == SEAM_OK || refused == SEAM_ROOM, "build");
    if (refused) {
        printf("| %s | %s | ROOM at rank %lu | | | | |\n", deck, name, (unsigned long)place);
        return;
    }
    for (size_t v = 0; v < N; v++) {
        entries += counts[0][v];
        if (counts[0][v] > longest) longest = counts[0][v];
    }
    printf("| %s | %s | %u | %.1f | %s | %.2f | %.2f |\n", deck, name, longest, (double)entries / N, span(median(seam_t, ROUNDS)),
           median(c_t, ROUNDS), median(r_t, ROUNDS));
}

static uint32_t deck_build(const char *deck, const struct kind *by) {
    uint64_t place;
    in_order(by);
    uint32_t refused = time_build(&place);
    deck_row(deck, by->name, refused, place);
    return refused;
}

/* The time of a build in the order room's order over that in another, in turns. */
static double beside_order(const uint32_t *other) {
    uint64_t entries, place;
    for (int round = 0; round < ROUNDS; round++) {
        double t0 = now();
        must(!seam_built(order, &entries, &place), "build");
        double t1 = now();
        must(!seam_built(other, &entries, &place), "build");
        double t2 = now();
        seam_t[round] = (t1 - t0) / (t2 - t1);
    }
    return median(seam_t, ROUNDS);
}

static void both_orders(const struct deck *d) {
    static uint32_t first[N];
    survey(d);
    uint32_t refused = deck_build(d->name, &by_degree);
    memcpy(first, order, sizeof order);
    refused |= deck_build(d->name, &scattered);
    if (!refused) printf("| %s | scattered over by degree | | | %.2f | | |\n", d->name, beside_order(first));
}

static void run_blocks(void) {
    grid();
    shuffled();
    run("64 x 64 grid, shuffled order");
    geometric();
    in_order(&by_degree);
    run("geometric, order by degree");
    scale_free();
    in_order(&by_degree);
    run("scale-free, order by degree");
    grid();
    in_order(&scattered);
    run("64 x 64 grid, order scattered");
    survey(DECK);
    in_order(&scattered);
    run("deck, order scattered");
}

int main(void) {
    printf("| block | call | library | beside C | beside Rust |\n|---|---|---|---|---|\n");
    run_blocks();
    printf("\nA pair question is at least %.0f times as fast as a search (%s).\n", search_ratio, search_block);
    printf("The deck is %s.\n", DECK->name);
    printf("\n| deck | order | longest row | mean row | build | beside C | beside Rust |\n|---|---|---|---|---|---|---|\n");
    for (size_t i = 0; i < sizeof decks / sizeof *decks; i++) both_orders(&decks[i]);
    return 0;
}
