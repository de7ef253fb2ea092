/* Tests c/cauchy_host.c, the part of the C interface that is not proved. Compiled as C11 and as C++17.
 *   host              the checks
 *   host --valgrind   fewer damaged bytes, and the floating-point state stays: valgrind does not follow its changes
 *   host IN OUT       takes the snapshot IN, which another host wrote, writes it again and finds the same bytes;
 *                     then does its work and writes the snapshot OUT
 *   host --old SNAPSHOT ANSWERS
 *                     takes a snapshot of the version before layers, goes on as the lines of ANSWERS ask, and finds the
 *                     answers that that version gave, bit for bit; data/make.py tells of the lines */
#include "cauchy_host.h"
#include "check.h"

#include <math.h>
#include <stdio.h>
#include <stdlib.h>
#include <string.h>
#include <xmmintrin.h>

/* ---- A store of 5 vertices, one of them in no face, with two kernels and some work done -------------- */

enum { V = 5, F = 4, N_XYZ = 3 * V, N_FACES = 3 * F, N_FLOATS = 1761 + N_XYZ, N_WORDS = 130 + N_FACES, SPARE = 2 };
enum { BYTES = 32 + 8 * N_FLOATS + 4 * N_WORDS };

static const double xyz[N_XYZ] = {-1, -2, -3, 7, 1, 0.5, 11, 12, 13, 0.25, 8, 2, 1.5, 3, 9};
static const uint32_t faces[N_FACES] = {0, 3, 1, 0, 1, 4, 0, 4, 3, 1, 3, 4};

static double floats[N_FLOATS + SPARE], again_floats[N_FLOATS + SPARE];
static uint32_t words[N_WORDS + SPARE], again_words[N_WORDS + SPARE];
static uint8_t bytes[BYTES + 16], again[BYTES + 16];

static void make_store(void) {
    CauchyKernel flat = {{1.25, 2.5, 3.75}, 0.375, 1100, 1}, steep = {{-0.5, 0.75, 1.5}, 0.625, 300, 2};
    for (int i = 0; i < N_FLOATS + SPARE; i++) floats[i] = 500 + i;
    for (int i = 0; i < N_WORDS + SPARE; i++) words[i] = 600 + (uint32_t)i;
    const size_t n = N_FLOATS + SPARE, m = N_WORDS + SPARE;
    CHECK(cauchy_store_open(floats, n, words, m, 17.5, xyz, N_XYZ, faces, N_FACES).no == 0);
    CHECK(cauchy_store_put(floats, n, words, m, 3, flat, 0).no == 0);
    CHECK(cauchy_store_put(floats, n, words, m, 31, steep, 4).no == 0);
    CHECK(cauchy_store_advance(floats, n, words, m, 6).left == 14 * F - 6);
}

static void fill_again(void) {
    for (int i = 0; i < N_FLOATS + SPARE; i++) again_floats[i] = 700 + i;
    for (int i = 0; i < N_WORDS + SPARE; i++) again_words[i] = 800 + (uint32_t)i;
}

static int again_untouched(void) {
    for (int i = 0; i < N_FLOATS + SPARE; i++) if (again_floats[i] != 700 + i) return 0;
    for (int i = 0; i < N_WORDS + SPARE; i++) if (again_words[i] != 800 + (uint32_t)i) return 0;
    return 1;
}

static CauchyRestored read_again(const uint8_t *from, size_t count) {
    return cauchy_snapshot_read(again_floats, N_FLOATS + SPARE, again_words, N_WORDS + SPARE, from, count);
}

static int refused(CauchyRestored told, uint32_t no) {
    return told.no == no && told.verts == 0 && told.faces == 0 && told.carried == 0;
}

/* ---- Texts, version, floating-point state ----------------------------------------------------------- */

static void texts(void) {
    const char *unknown = cauchy_refusal_text(999);
    CHECK(!strcmp(cauchy_refusal_text(0), "accepted") && !strcmp(unknown, cauchy_refusal_text(UINT32_MAX)));
    CHECK(!strcmp(cauchy_refusal_text(CAUCHY_LOOSE_CORNER), "loose corner: a face names a vertex that is not there"));
    for (uint32_t no = CAUCHY_HOST_FOREIGN; no <= CAUCHY_HOST_SHORT_BYTES; no++)
        CHECK(strcmp(cauchy_refusal_text(no), unknown));
    CHECK(!strcmp(cauchy_version(), CAUCHY_VERSION));
}

/* every bit of control is judged, and no bit of status */
static void float_state(void) {
    const unsigned before = _mm_getcsr();
    for (int bit = 0; bit < 16; bit++) {
        _mm_setcsr(0x1f80u ^ 1u << bit);
        const int told = cauchy_float_state_default();
        const CauchyRestored opened = read_again(bytes, BYTES);
        _mm_setcsr(before);
        CHECK(told == (bit < 6) && opened.no == (bit < 6 ? 0u : (uint32_t)CAUCHY_HOST_FLOAT_STATE));
    }
    CHECK(cauchy_float_state_default() == 1);
}

/* ---- Lines -------------------------------------------------------------------------------------------- */

/* an opening's counts are not told: the refusal alone */
static int no_counts(CauchyOpened told, uint32_t no) {
    return told.no == no && told.verts == 0 && told.faces == 0;
}

static CauchyOpened look(const char *verts, const char *faces, size_t more) {
    static uint8_t text[512];
    char head[128];
    const char *form = "(open (radius 3FF0000000000000) (verts %s) (faces %s))\n";
    const size_t count = (size_t)sprintf(head, form, verts, faces);
    memcpy(text, head, count), memset(text + count, '#', sizeof text - count);
    return cauchy_lines_look(text, count + more);
}

/* the counts of an opening, as far as lines of so many can follow; the store of them is read */
static void lines(void) {
    CauchyOpened o = look("2", "3", 2 * 58 + 3 * 13);
    CHECK(o.no == 0 && o.verts == 2 && o.faces == 3);
    CHECK(no_counts(look("2", "3", 2 * 58 + 3 * 13 - 1), CAUCHY_BAD_LINE) && look("0", "0", 0).no == 0);
    const char *bad[8] = {"", "-1", "01", "4294967296", "18446744073709551616", "99999999999999999999", " 0", "0x1"};
    for (int i = 0; i < 8; i++)
        CHECK(no_counts(look(bad[i], "0", 300), CAUCHY_BAD_LINE) && no_counts(look("0", bad[i], 300), CAUCHY_BAD_LINE));
    CHECK(no_counts(look("4294967295", "4294967295", 300), CAUCHY_BAD_LINE));
    static const char head[] = "(open (radius 3FF0000000000000) (verts 0) (faces 0))\n";
    for (size_t cut = 0; cut < sizeof head - 1; cut++)
        CHECK(no_counts(cauchy_lines_look((const uint8_t *)head, cut), CAUCHY_BAD_LINE));
    CHECK(no_counts(cauchy_lines_look(NULL, 0), CAUCHY_BAD_LINE));

    static uint8_t text[CAUCHY_LINES_BYTES(V, F)];
    const CauchyBytes written = cauchy_store_write(floats, N_FLOATS + SPARE, words, N_WORDS + SPARE, text, sizeof text);
    CHECK(written.no == 0 && written.bytes < sizeof text);
    o = cauchy_lines_look(text, written.bytes);
    CHECK(o.no == 0 && o.verts == V && o.faces == F);
    fill_again();
    const CauchyLoaded read = cauchy_store_read(again_floats, CAUCHY_STORE_FLOATS(o.verts), again_words,
                                                CAUCHY_STORE_WORDS(o.faces), text, written.bytes);
    CHECK(read.no == 0 && read.verts == V && read.faces == F && read.puts == 2);
    text[14] = 'g';
    CHECK(no_counts(cauchy_lines_look(text, written.bytes), CAUCHY_BAD_LINE));
}

/* a count above the limits, with bytes enough for its lines */
static void many_lines(void) {
    const char *head = "(open (radius 3FF0000000000000) (verts 1048577) (faces 0))\n";
    const size_t count = strlen(head) + (size_t)58 * 1048577;
    uint8_t *text = (uint8_t *)calloc(count, 1);
    CHECK(text != NULL);
    memcpy(text, head, strlen(head));
    CHECK(no_counts(cauchy_lines_look(text, count), CAUCHY_OVERSIZE));
    CHECK(no_counts(cauchy_lines_look(text, count - 1), CAUCHY_BAD_LINE));
    free(text);
}

/* ---- Snapshots ---------------------------------------------------------------------------------------- */

static void writing(void) {
    memset(bytes, 0xaa, sizeof bytes);
    memset(again, 0xaa, sizeof again);
    CauchySnapshot s = cauchy_snapshot_write(floats, N_FLOATS + SPARE, words, N_WORDS + SPARE, bytes, BYTES - 1);
    CHECK(s.no == CAUCHY_HOST_SHORT_BYTES && s.bytes == 0 && s.floats == 0 && s.words == 0);
    s = cauchy_snapshot_write(floats, N_FLOATS - 1, words, N_WORDS, bytes, BYTES);
    CHECK(s.no == CAUCHY_SHORT_STORE && s.bytes == 0 && s.floats == 0 && s.words == 0);
    CHECK(cauchy_snapshot_write(NULL, 0, NULL, 0, bytes, BYTES).no == CAUCHY_SHORT_STORE);
    words[130] = V;
    s = cauchy_snapshot_write(floats, N_FLOATS, words, N_WORDS, bytes, BYTES);
    CHECK(s.no == CAUCHY_UNSOUND && s.bytes == 0 && s.floats == 0 && s.words == 0);
    words[130] = faces[0];
    CHECK(!memcmp(bytes, again, sizeof bytes));

    /* what stands in longer runs past the store is left out */
    CHECK(CAUCHY_SNAPSHOT_BYTES(V, F) == BYTES);
    s = cauchy_snapshot_write(floats, N_FLOATS + SPARE, words, N_WORDS + SPARE, bytes, sizeof bytes);
    CHECK(s.no == 0 && s.bytes == BYTES && s.floats == N_FLOATS && s.words == N_WORDS);
    CHECK(cauchy_snapshot_write(floats, N_FLOATS, words, N_WORDS, again, BYTES).bytes == BYTES);
    CHECK(!memcmp(bytes, again, sizeof bytes) && bytes[BYTES] == 0xaa && !memcmp(bytes, "CAUCHY02", 8));
    CHECK(bytes[8] == N_FLOATS % 256 && bytes[9] == N_FLOATS / 256 && bytes[16] == N_WORDS);
    CHECK(!memcmp(bytes + 24, floats, 8 * N_FLOATS) && !memcmp(bytes + 24 + 8 * N_FLOATS, words, 4 * N_WORDS));
}

static void reading(void) {
    fill_again();
    CauchyRestored short_floats = cauchy_snapshot_read(again_floats, N_FLOATS - 1, again_words, N_WORDS, bytes, BYTES);
    CauchyRestored short_words = cauchy_snapshot_read(again_floats, N_FLOATS, again_words, N_WORDS - 1, bytes, BYTES);
    CHECK(refused(short_floats, CAUCHY_SHORT_STORE) && refused(short_words, CAUCHY_SHORT_STORE) && again_untouched());
    CauchySnapshot s = cauchy_snapshot_look(bytes, BYTES);
    CHECK(s.no == 0 && s.bytes == BYTES && s.floats == N_FLOATS && s.words == N_WORDS && s.carried == 0);
    CauchyRestored o = read_again(bytes, BYTES);
    CHECK(o.no == 0 && o.verts == V && o.faces == F && o.carried == 0);
    CHECK(!memcmp(again_floats, floats, 8 * N_FLOATS) && !memcmp(again_words, words, 4 * N_WORDS));
    CHECK(again_floats[N_FLOATS] == 700 + N_FLOATS && again_words[N_WORDS] == 800 + N_WORDS);

    /* the store goes on as if it had never stopped */
    CHECK(cauchy_store_advance(again_floats, N_FLOATS, again_words, N_WORDS, UINT64_MAX).done == 14 * F - 6);
    CHECK(cauchy_store_advance(floats, N_FLOATS, words, N_WORDS, UINT64_MAX).done == 14 * F - 6);
    CHECK(!memcmp(again_floats, floats, 8 * N_FLOATS) && !memcmp(again_words, words, 4 * N_WORDS));
}

/* every damaged byte, or every 31st, every cut and a longer snapshot */
static void damage(int stride) {
    fill_again();
    for (int i = 0; i < BYTES; i += stride) {
        memcpy(again, bytes, BYTES);
        again[i] ^= (uint8_t)(1 << i % 8);
        const uint32_t no = i < 8 ? CAUCHY_HOST_FOREIGN : i < 24 ? CAUCHY_HOST_LENGTH : CAUCHY_HOST_CHECKSUM;
        CHECK(refused(read_again(again, BYTES), no));
    }
    memcpy(again, bytes, BYTES);
    for (int i = 0; i < 8; i++) CHECK(refused(read_again(again, i), CAUCHY_HOST_FOREIGN));
    for (int i = 8; i < BYTES; i++) CHECK(refused(read_again(again, i), CAUCHY_HOST_LENGTH));
    CHECK(refused(read_again(again, BYTES + 1), CAUCHY_HOST_LENGTH));
    CHECK(refused(read_again(NULL, 0), CAUCHY_HOST_FOREIGN) && again_untouched());
    memcpy(again, "CAUCHY01", 8);
    CHECK(refused(read_again(again, BYTES), CAUCHY_HOST_CHECKSUM) && again_untouched());
}

static uint64_t crc_bit_by_bit(const uint8_t *from, size_t count) {
    uint64_t sum = UINT64_MAX;
    for (size_t i = 0; i < 8 * count; i++) {
        const uint64_t low = (sum ^ (uint64_t)(from[i / 8] >> i % 8)) & 1;
        sum = low ? sum >> 1 ^ 0xc96c5795d7870f42 : sum >> 1;
    }
    return ~sum;
}

/* A snapshot of any runs, of either form, with a checksum that fits. */
static size_t forge_form(const char *magic, const double *f, size_t n_f, const uint32_t *w, size_t n_w) {
    const uint64_t counts[2] = {n_f, n_w};
    const size_t covered = 24 + 8 * n_f + 4 * n_w;
    memcpy(again, magic, 8), memcpy(again + 8, counts, 16);
    memcpy(again + 24, f, 8 * n_f), memcpy(again + 24 + 8 * n_f, w, 4 * n_w);
    const uint64_t sum = crc_bit_by_bit(again, covered);
    memcpy(again + covered, &sum, 8);
    return covered + 8;
}

static size_t forge(const double *f, size_t n_f, const uint32_t *w, size_t n_w) {
    return forge_form("CAUCHY02", f, n_f, w, n_w);
}

/* ---- Snapshots of the form before layers ------------------------------------------------------------- */

enum { OLD_N_WORDS = 98 + N_FACES, CARRY_FLOATS = 2 * (N_FLOATS + 3), CARRY_WORDS = 2 * OLD_N_WORDS + 32 + 3 };

static double carry_floats[CARRY_FLOATS + SPARE];
static uint32_t carry_words[CARRY_WORDS + SPARE];

static CauchyRestored read_old(size_t count) {
    for (int i = 0; i < CARRY_FLOATS + SPARE; i++) carry_floats[i] = 900 + i;
    for (int i = 0; i < CARRY_WORDS + SPARE; i++) carry_words[i] = 1000 + (uint32_t)i;
    return cauchy_snapshot_read(carry_floats, CARRY_FLOATS + SPARE, carry_words, CARRY_WORDS + SPARE, again, count);
}

static size_t forge_old(const double *f, size_t n_f, const uint32_t *w, size_t n_w) {
    return forge_form("CAUCHY01", f, n_f, w, n_w);
}

/* the store above as the form before layers has it; what is carried over is that store with every kernel in layer 0 */
static void carrying(void) {
    static uint32_t old_words[OLD_N_WORDS], new_words[N_WORDS];
    memcpy(old_words, words, 8), memcpy(old_words + 98, words + 130, 4 * N_FACES);
    memcpy(new_words, words, 4 * N_WORDS);
    for (int place = 0; place < 32; place++) {
        memcpy(old_words + 2 + 3 * place, words + 2 + 4 * place, 12);
        new_words[5 + 4 * place] = 0;
    }
    size_t count = forge_old(floats, N_FLOATS, old_words, OLD_N_WORDS);
    CauchySnapshot s = cauchy_snapshot_look(again, count);
    CHECK(s.no == 0 && s.bytes == count && s.carried == 1);
    CHECK(s.floats == 2 * N_FLOATS && s.words == N_WORDS + OLD_N_WORDS);
    CauchyRestored o = read_old(count);
    CHECK(o.no == 0 && o.verts == V && o.faces == F && o.carried == 1);
    CHECK(!memcmp(carry_floats, floats, 8 * N_FLOATS) && !memcmp(carry_words, new_words, 4 * N_WORDS));
    CHECK(carry_floats[s.floats] == 900 + s.floats && carry_words[s.words] == 1000 + s.words);
    /* runs that have just the lengths told, and shorter ones, of which no element changes */
    CHECK(cauchy_snapshot_read(carry_floats, s.floats, carry_words, s.words, again, count).no == 0);
    fill_again();
    CHECK(refused(read_again(again, count), CAUCHY_SHORT_STORE) && again_untouched());
    o = cauchy_snapshot_read(carry_floats, s.floats - 1, carry_words, s.words, again, count);
    CHECK(refused(o, CAUCHY_SHORT_STORE));
    o = cauchy_snapshot_read(carry_floats, s.floats, carry_words, s.words - 1, again, count);
    CHECK(refused(o, CAUCHY_SHORT_STORE));

    /* what squeezes left is taken; other excess, damage and short runs are not */
    static double f[N_FLOATS + 3];
    memcpy(f, floats, 8 * N_FLOATS);
    f[N_FLOATS] = f[N_FLOATS + 1] = f[N_FLOATS + 2] = 0;
    CHECK(read_old(forge_old(f, N_FLOATS + 3, old_words, OLD_N_WORDS)).no == 0);
    CHECK(refused(read_old(forge_old(f, N_FLOATS + 1, old_words, OLD_N_WORDS)), CAUCHY_UNSOUND));
    f[N_FLOATS + 2] = -0.0;
    CHECK(refused(read_old(forge_old(f, N_FLOATS + 3, old_words, OLD_N_WORDS)), CAUCHY_UNSOUND));
    CHECK(refused(read_old(forge_old(f, N_FLOATS - 1, old_words, OLD_N_WORDS)), CAUCHY_SHORT_STORE));
    CHECK(refused(read_old(forge_old(f, N_FLOATS, old_words, OLD_N_WORDS - 1)), CAUCHY_SHORT_STORE));
    CHECK(refused(read_old(forge_old(f, 0, old_words, 0)), CAUCHY_SHORT_STORE));
    old_words[98] = V;
    CHECK(refused(read_old(forge_old(f, N_FLOATS, old_words, OLD_N_WORDS)), CAUCHY_UNSOUND));
    old_words[98] = faces[0];
    count = forge_old(f, N_FLOATS, old_words, OLD_N_WORDS);
    again[count / 2] ^= 4;
    CHECK(refused(read_old(count), CAUCHY_HOST_CHECKSUM) && carry_floats[0] == 900 && carry_words[0] == 1000);
}

/* ---- Other snapshots ----------------------------------------------------------------------------------- */

/* the cases of the Rust crate's own test, with the same answers */
static void forgeries(void) {
    static double f[1764];
    static uint32_t w[133];
    CHECK(crc_bit_by_bit((const uint8_t *)"123456789", 9) == 0x995dc9bbdf1939fa);
    CHECK(refused(read_again(again, forge(f, 0, w, 0)), CAUCHY_SHORT_STORE));
    CHECK(refused(read_again(again, forge(f, 1760, w, 130)), CAUCHY_SHORT_STORE));
    CHECK(refused(read_again(again, forge(f, 1762, w, 130)), CAUCHY_UNSOUND));
    CHECK(refused(read_again(again, forge(f, 1761, w, 133)), CAUCHY_UNSOUND));
    const double strays[3] = {1, -0.0, NAN};
    for (int i = 0; i < 3; i++) {
        f[1763] = strays[i];
        CHECK(refused(read_again(again, forge(f, 1764, w, 130)), CAUCHY_UNSOUND));
    }
    f[1763] = 0;
    CHECK(read_again(again, forge(f, 1764, w, 130)).no == 0 && read_again(again, forge(f, 1761, w, 130)).no == 0);
    w[2] = 18;
    CHECK(refused(read_again(again, forge(f, 1761, w, 130)), CAUCHY_UNSOUND));
    const uint64_t counts[3] = {UINT64_MAX, (uint64_t)1 << 61, (uint64_t)1 << 62};
    for (int i = 0; i < 3; i++) {
        memcpy(again + 8, &counts[i], 8), memcpy(again + 16, &counts[i], 8);
        CHECK(refused(read_again(again, 32), CAUCHY_HOST_LENGTH));
    }
}

/* after a squeeze the snapshot is shorter, and what squeezes freed elsewhere is taken too */
static void squeezed(void) {
    CHECK(cauchy_store_squeeze(floats, N_FLOATS, words, N_WORDS).freed == 3);
    CauchySnapshot s = cauchy_snapshot_write(floats, N_FLOATS, words, N_WORDS, bytes, sizeof bytes);
    CHECK(s.no == 0 && s.bytes == CAUCHY_SNAPSHOT_BYTES(V - 1, F) && s.floats == N_FLOATS - 3 && s.words == N_WORDS);
    CauchyRestored o = read_again(bytes, s.bytes);
    CHECK(o.no == 0 && o.verts == V - 1 && o.faces == F && !memcmp(again_floats, floats, 8 * (N_FLOATS - 3)));
    o = read_again(again, forge(floats, N_FLOATS, words, N_WORDS));
    CHECK(o.no == 0 && o.verts == V - 1 && o.faces == F && !memcmp(again_floats, floats, 8 * N_FLOATS));
}

/* ---- A snapshot of another host ----------------------------------------------------------------------- */

static uint8_t *room(size_t count) {
    uint8_t *at = (uint8_t *)calloc(count + 1, 1);
    CHECK(at != NULL);
    return at;
}

static uint8_t *file_bytes(const char *name, size_t *count) {
    const size_t most = 1 << 24;
    uint8_t *had = room(most);
    FILE *file = fopen(name, "rb");
    CHECK(file != NULL);
    *count = fread(had, 1, most, file);
    CHECK(*count > 0 && *count < most && fclose(file) == 0);
    return had;
}

static void exchange(const char *in, const char *out) {
    size_t count;
    uint8_t *had = file_bytes(in, &count);
    const CauchySnapshot s = cauchy_snapshot_look(had, count);
    CHECK(s.no == 0 && s.bytes == count && s.carried == 0);
    double *f = (double *)room(8 * s.floats);
    uint32_t *w = (uint32_t *)room(4 * s.words);
    CHECK(cauchy_snapshot_read(f, s.floats, w, s.words, had, count).no == 0);
    uint8_t *mine = room(count);
    CHECK(cauchy_snapshot_write(f, s.floats, w, s.words, mine, count).bytes == count && !memcmp(mine, had, count));

    const CauchySteps steps = cauchy_store_advance(f, s.floats, w, s.words, UINT64_MAX);
    CHECK(steps.no == 0 && steps.done > 0 && steps.left == 0);
    CHECK(cauchy_snapshot_write(f, s.floats, w, s.words, mine, count).bytes == count);
    FILE *file = fopen(out, "wb");
    CHECK(file != NULL && fwrite(mine, 1, count, file) == count && fclose(file) == 0);
    free(had), free(f), free(w), free(mine);
}

/* ---- A snapshot of the version before layers ---------------------------------------------------------- */

/* A store, and what a line asks of it. */
typedef struct Gone {
    double *f;
    uint32_t *w;
    size_t n_f, n_w;
    CauchyConvention by;
    double list[32 * 16 * 6];
    int pieces, shown; /* of the list by the last report: how many, and how many lines were compared */
    uint8_t page[CAUCHY_PAGE_BYTES(32)];
    size_t paged, page_at;
} Gone;

/* The next fields of a line: a float by its bits, a count. */
static double next_float(char **at) {
    const uint64_t bits = strtoull(*at, at, 16);
    double x;
    memcpy(&x, &bits, sizeof x);
    return x;
}

static uint64_t next_count(char **at) { return strtoull(*at, at, 10); }

static int next_is(char **at, double x) {
    const double want = next_float(at);
    return !memcmp(&x, &want, sizeof x);
}

static void report_line(Gone *g, char *at) {
    const CauchyStoreReport r = cauchy_store_report(g->f, g->n_f, g->w, g->n_w, g->by, CAUCHY_ALL_LAYERS);
    const CauchyMassReport m = r.report;
    CHECK(r.no == 0 && next_is(&at, m.raw_mass) && next_is(&at, m.rho0_scale) && next_is(&at, m.rho0_mass));
    CHECK(next_is(&at, m.applied_scale) && next_is(&at, m.applied_mass) && next_is(&at, m.target_mass));
    CHECK(next_is(&at, m.volume) && next_count(&at) == r.kernels && next_count(&at) == r.pieces);
    CHECK(next_is(&at, r.error));
    CHECK(g->shown == g->pieces);
    const size_t most = sizeof g->list / sizeof *g->list;
    const CauchyListed l = cauchy_store_list(g->f, g->n_f, g->w, g->n_w, g->by, CAUCHY_ALL_LAYERS, g->list, most);
    CHECK(l.no == 0);
    g->pieces = (int)l.pieces, g->shown = 0;
}

static void page_line(Gone *g, const char *rest) {
    if (g->paged == 0) {
        const CauchyBytes b = cauchy_store_page(g->f, g->n_f, g->w, g->n_w, g->page, sizeof g->page);
        CHECK(b.no == 0);
        g->paged = (size_t)b.bytes;
    }
    CHECK(g->page_at + 65 <= g->paged && !memcmp(rest, g->page + g->page_at, 64) && rest[64] == 0);
    g->page_at += 65;
}

static void answer_line(Gone *g, char *line) {
    char *at = strchr(line, ' ');
    CHECK(at != NULL);
    *at++ = 0;
    if (!strcmp(line, "state")) {
        const uint32_t *state = g->w + 2 + 4 * next_count(&at);
        for (int i = 0; i < 3; i++) CHECK(next_count(&at) == state[i]);
        CHECK(state[3] == 0);
    } else if (!strcmp(line, "left")) {
        CHECK(cauchy_store_advance(g->f, g->n_f, g->w, g->n_w, 0).left == next_count(&at));
    } else if (!strcmp(line, "advance")) {
        const CauchySteps s = cauchy_store_advance(g->f, g->n_f, g->w, g->n_w, next_count(&at));
        CHECK(s.no == 0 && s.done == next_count(&at) && s.left == next_count(&at));
    } else if (!strcmp(line, "by")) {
        g->by.kind = (uint32_t)next_count(&at), g->by.target = next_float(&at), g->by.bulk = next_float(&at);
    } else if (!strcmp(line, "density")) {
        CauchyVector p;
        p.x = next_float(&at), p.y = next_float(&at), p.z = next_float(&at);
        const CauchyValue v = cauchy_store_density(g->f, g->n_f, g->w, g->n_w, g->by, CAUCHY_ALL_LAYERS, p);
        CHECK(v.no == 0 && next_is(&at, v.value));
    } else if (!strcmp(line, "report")) {
        report_line(g, at);
    } else if (!strcmp(line, "piece")) {
        CHECK(g->shown < g->pieces);
        for (int i = 0; i < 6; i++) CHECK(next_is(&at, g->list[6 * g->shown + i]));
        g->shown++;
    } else {
        CHECK(!strcmp(line, "page"));
        page_line(g, at);
    }
}

static void old_snapshot(const char *snapshot, const char *answers) {
    static Gone g;
    size_t count, length;
    uint8_t *had = file_bytes(snapshot, &count);
    char *text = (char *)file_bytes(answers, &length);
    const CauchySnapshot s = cauchy_snapshot_look(had, count);
    CHECK(s.no == 0 && s.bytes == count && s.carried == 1);
    g.f = (double *)room(8 * s.floats), g.w = (uint32_t *)room(4 * s.words), g.n_f = s.floats, g.n_w = s.words;
    CHECK(cauchy_snapshot_read(g.f, g.n_f, g.w, g.n_w, had, count).carried == 1);
    int lines = 0;
    for (char *line = strtok(text, "\n"); line != NULL; line = strtok(NULL, "\n"), lines++) answer_line(&g, line);
    CHECK(lines > 100 && g.pieces > 0 && g.shown == g.pieces && g.paged > 0 && g.page_at == g.paged);
    printf("%d answers as the version before layers gave them, %d checks\n", lines, checks);
    free(had), free(text), free(g.f), free(g.w);
}

int main(int count, char **arguments) {
    if (count == 4 && !strcmp(arguments[1], "--old")) return old_snapshot(arguments[2], arguments[3]), 0;
    if (count == 3) return exchange(arguments[1], arguments[2]), 0;
    const int whole = count == 1;
    texts();
    make_store();
    lines();
    many_lines();
    writing();
    if (whole) float_state();
    carrying();
    reading();
    damage(whole ? 1 : 31);
    forgeries();
    squeezed();
    printf("%d checks\n", checks);
    return 0;
}
