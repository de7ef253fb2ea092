/* Holds include/cauchy.h to the archive: calls every function with a distinct value in every argument and
 * field, and compares every field of its answer with a figure worked here. Compiled as C11 and as C++17. */
#include "cauchy.h"
#include "check.h"

#include <ctype.h>
#include <inttypes.h>
#include <math.h>
#include <stdio.h>
#include <stdlib.h>
#include <string.h>

static int near(double got, double want, double relative) { return fabs(got - want) <= relative * fabs(want); }

/* ---- A mesh of 5 vertices, the last in no face, and 4 faces; two kernels ---------------------------- */

enum { V = 5, F = 4, N_XYZ = 3 * V, N_FACES = 3 * F, N_FLOATS = 1761 + N_XYZ + 2, N_WORDS = 130 + N_FACES + 3 };

static const double xyz[N_XYZ] = {-1, -2, -3, 7, 1, 0.5, 0.25, 8, 2, 1.5, 3, 9, 11, 12, 13};
static const uint32_t faces[N_FACES] = {0, 2, 1, 0, 1, 3, 0, 3, 2, 1, 2, 3};
static const double radius = 17.5;

static double floats[N_FLOATS];
static uint32_t words[N_WORDS];
static double floats_before[N_FLOATS];
static uint32_t words_before[N_WORDS];

static CauchyKernel kernel(double x, double y, double z, double sigma, double w, double alpha) {
    CauchyKernel k;
    k.c[0] = x, k.c[1] = y, k.c[2] = z, k.sigma = sigma, k.w = w, k.alpha = alpha;
    return k;
}

static CauchyKernel flat(void) { return kernel(1.25, 2.5, 3.75, 0.375, 1100, 1); }
static CauchyKernel steep(void) { return kernel(-0.5, 0.75, 1.5, 0.625, 300, 2); }

static CauchyVector vector(double x, double y, double z) {
    CauchyVector v;
    v.x = x, v.y = y, v.z = z;
    return v;
}

static CauchyConvention convention(uint32_t kind, double target, double bulk) {
    CauchyConvention v;
    v.kind = kind, v.target = target, v.bulk = bulk;
    return v;
}

static void write_kernel(double *list, CauchyKernel k) {
    memcpy(list, k.c, sizeof k.c);
    list[3] = k.sigma, list[4] = k.w, list[5] = k.alpha;
}

static void remember(void) {
    memcpy(floats_before, floats, sizeof floats);
    memcpy(words_before, words, sizeof words);
}

static int unchanged(void) {
    return !memcmp(floats_before, floats, sizeof floats) && !memcmp(words_before, words, sizeof words);
}

/* ---- The formulas once more, in the order of 01 ----------------------------------------------------- */

static double radial(double t) {
    double term = 1.0 / 3.0, sum = 1.0 / 3.0;
    if (!(fabs(t) < 0.1)) return (t - cauchy_arc(t)) / (t * t * t);
    for (int k = 1; k < 10; k++) {
        term *= -(t * t) * (2.0 * k + 1.0) / (2.0 * k + 3.0);
        sum += term;
    }
    return sum;
}

static const double rule[7][4] = {
    {1.0 / 3.0, 1.0 / 3.0, 1.0 / 3.0, 0.225},
    {0.05971587178976981, 0.4701420641051151, 0.4701420641051151, 0.1323941527885062},
    {0.4701420641051151, 0.05971587178976981, 0.4701420641051151, 0.1323941527885062},
    {0.4701420641051151, 0.4701420641051151, 0.05971587178976981, 0.1323941527885062},
    {0.7974269853530873, 0.10128650732345634, 0.10128650732345634, 0.12593918054482713},
    {0.10128650732345634, 0.7974269853530873, 0.10128650732345634, 0.12593918054482713},
    {0.10128650732345634, 0.10128650732345634, 0.7974269853530873, 0.12593918054482713},
};

/* The integral of (1 + sigma^2 * |x - c|^2)^-1 inside the mesh. */
static double volume_of(const double *c, double sigma) {
    double sum = 0;
    for (int f = 0; f < F; f++) {
        const double *p = xyz + 3 * faces[3 * f], *q = xyz + 3 * faces[3 * f + 1], *r = xyz + 3 * faces[3 * f + 2];
        double a[3], b[3], d[3];
        for (int i = 0; i < 3; i++) a[i] = q[i] - p[i], b[i] = r[i] - q[i];
        const double n[3] = {a[1] * b[2] - a[2] * b[1], a[2] * b[0] - a[0] * b[2], a[0] * b[1] - a[1] * b[0]};
        for (int k = 0; k < 7; k++) {
            const double *u = rule[k];
            for (int i = 0; i < 3; i++) d[i] = (u[0] * p[i] + u[1] * q[i] + u[2] * r[i]) - c[i];
            double size = cauchy_root(d[0] * d[0] + d[1] * d[1] + d[2] * d[2]);
            sum += u[3] * radial(sigma * size) * (d[0] * n[0] + d[1] * n[1] + d[2] * n[2]) * 0.5;
        }
    }
    return sum;
}

static double body(void) {
    const double origin[3] = {0, 0, 0};
    return volume_of(origin, 0);
}

/* The density of a list of kernels of exponent 1. */
static double density_of(const double *list, int count, double x, double y, double z) {
    double sum = 0;
    for (const double *k = list; k < list + 6 * count; k += 6) {
        double dx = x - k[0], dy = y - k[1], dz = z - k[2];
        sum += k[4] / (1.0 + k[3] * k[3] * (dx * dx + dy * dy + dz * dz));
    }
    return sum;
}

static double mass_of(const double *list, int count) {
    double sum = 0;
    for (const double *k = list; k < list + 6 * count; k += 6) sum += k[4] * volume_of(k, k[3]);
    return sum;
}

/* ---- The functions, in the header's order ------------------------------------------------------------ */

static void open_store(void) {
    for (int i = 0; i < N_FLOATS; i++) floats[i] = 500 + i;
    for (int i = 0; i < N_WORDS; i++) words[i] = 600 + (uint32_t)i;
    remember();
    static const uint32_t loose[3] = {0, 1, V};
    CauchyOpened no = cauchy_store_open(floats, N_FLOATS, words, N_WORDS, radius, xyz, N_XYZ - 1, faces, N_FACES);
    CHECK(no.no == CAUCHY_RAGGED && no.verts == 0 && no.faces == 0 && unchanged());
    no = cauchy_store_open(floats, N_FLOATS, words, N_WORDS, radius, xyz, N_XYZ, faces, N_FACES - 1);
    CHECK(no.no == CAUCHY_RAGGED && no.verts == 0 && no.faces == 0 && unchanged());
    no = cauchy_store_open(floats, N_FLOATS, words, N_WORDS, radius, xyz, N_XYZ, loose, 3);
    CHECK(no.no == CAUCHY_LOOSE_CORNER && no.verts == 0 && no.faces == 0 && unchanged());
    no = cauchy_store_open(floats, 1761 + N_XYZ - 1, words, N_WORDS, radius, xyz, N_XYZ, faces, N_FACES);
    CHECK(no.no == CAUCHY_SHORT_STORE && no.verts == 0 && no.faces == 0 && unchanged());
    no = cauchy_store_open(floats, N_FLOATS, words, 130 + N_FACES - 1, radius, xyz, N_XYZ, faces, N_FACES);
    CHECK(no.no == CAUCHY_SHORT_STORE && no.verts == 0 && no.faces == 0 && unchanged());

    CHECK(CAUCHY_STORE_FLOATS(V) == 1761 + N_XYZ && CAUCHY_STORE_WORDS(F) == 130 + N_FACES);
    CauchyOpened o = cauchy_store_open(floats, N_FLOATS, words, N_WORDS, radius, xyz, N_XYZ, faces, N_FACES);
    CHECK(o.no == CAUCHY_ACCEPTED && o.verts == V && o.faces == F);
    CHECK(floats[0] == radius && words[0] == V && words[1] == F);
    CHECK(!memcmp(floats + 1761, xyz, sizeof xyz) && !memcmp(words + 130, faces, sizeof faces));
    for (int i = 1; i < 1761; i++) CHECK(floats[i] == 0);
    for (int i = 2; i < 130; i++) CHECK(words[i] == 0);
    CHECK(floats[N_FLOATS - 2] == floats_before[N_FLOATS - 2] && floats[N_FLOATS - 1] == floats_before[N_FLOATS - 1]);
    CHECK(!memcmp(words + 130 + N_FACES, words_before + 130 + N_FACES, 3 * sizeof(uint32_t)));
}

static int holds(int place, CauchyKernel k) {
    return !memcmp(floats + 1 + 7 * place, k.c, sizeof k.c) && floats[1 + 7 * place + 3] == k.sigma
        && floats[1 + 7 * place + 4] == k.w && floats[1 + 7 * place + 5] == k.alpha;
}

/* a fit's end without column and pivot */
static int ended(CauchyFit fit, uint32_t kind) {
    return fit.kind == kind && fit.column == 0 && fit.pivot == 0;
}

static void put_clear_reweigh(void) {
    CauchyPlaced p = cauchy_store_put(floats, N_FLOATS, words, N_WORDS, 3, flat(), 2);
    CHECK(p.no == 0 && p.pieces == 1 && p.need == F && holds(3, flat()) && ended(p.fit, CAUCHY_KEPT));
    CauchyKernel k = flat();
    k.alpha = NAN;
    p = cauchy_store_put(floats, N_FLOATS, words, N_WORDS, 31, k, 9);
    CHECK(p.no == 0 && p.pieces == 0 && p.need == 0 && ended(p.fit, CAUCHY_NO_EXPONENT));
    p = cauchy_store_put(floats, N_FLOATS, words, N_WORDS, 31, steep(), 15);
    CHECK(p.no == 0 && p.pieces == 13 && p.need == 13 * F && holds(31, steep()) && holds(3, flat()));
    CHECK(p.fit.kind == CAUCHY_FITTED && p.fit.column == 0 && p.fit.pivot > 1e-18 && p.fit.pivot < 1);

    remember();
    p = cauchy_store_put(floats, N_FLOATS, words, N_WORDS, 32, flat(), 16);
    CHECK(p.no == CAUCHY_NO_PLACE && p.pieces == 0 && p.need == 0 && ended(p.fit, 0) && unchanged());
    p = cauchy_store_put(NULL, 0, NULL, 0, 3, flat(), 16);
    CHECK(p.no == CAUCHY_SHORT_STORE && p.pieces == 0 && p.need == 0 && ended(p.fit, 0));
    CHECK(cauchy_store_clear(floats, N_FLOATS, words, N_WORDS, 33) == CAUCHY_NO_PLACE && unchanged());
    CHECK(cauchy_store_clear(floats, N_FLOATS, words, N_WORDS, 4) == CAUCHY_VACANT && unchanged());
    CHECK(cauchy_store_reweigh(floats, N_FLOATS, words, N_WORDS, 34, 5) == CAUCHY_NO_PLACE && unchanged());
    CHECK(cauchy_store_reweigh(floats, N_FLOATS, words, N_WORDS, 5, 5) == CAUCHY_VACANT && unchanged());

    CHECK(cauchy_store_reweigh(floats, N_FLOATS, words, N_WORDS, 31, -42.5) == 0);
    floats_before[1 + 7 * 31 + 4] = -42.5;
    CHECK(unchanged());
    CHECK(cauchy_store_reweigh(floats, N_FLOATS, words, N_WORDS, 31, steep().w) == 0 && holds(31, steep()));
    CHECK(words[5 + 4 * 3] == 2 && words[5 + 4 * 31] == 15);
    CHECK(cauchy_store_put(floats, N_FLOATS, words, N_WORDS, 8, flat(), 7).no == 0 && words[2 + 4 * 8] == 2);
    CHECK(words[5 + 4 * 8] == 7 && cauchy_store_clear(floats, N_FLOATS, words, N_WORDS, 8) == 0);
    for (int i = 2 + 4 * 8; i < 6 + 4 * 8; i++) CHECK(words[i] == 0);
    remember();
    p = cauchy_store_put(floats, N_FLOATS, words, N_WORDS, 8, flat(), CAUCHY_LAYERS);
    CHECK(p.no == CAUCHY_NO_LAYER && p.pieces == 0 && p.need == 0 && unchanged());
}

/* A mesh of 8 vertices: 0, 3 and 7 in no face, 5 where 1 is. A squeeze leaves 5 of them. */
static void squeeze(void) {
    enum { OLD = 8, KEPT = 5, N_OLD = 1761 + 3 * OLD + 2 };
    static const double old[3 * OLD] = {21,   22, 23, -1, -2, -3, 7,   1, 0.5, 24, 25, 26,
                                        0.25, 8,  2,  -1, -2, -3, 1.5, 3, 9,   27, 28, 29};
    static const double kept[3 * KEPT] = {-1, -2, -3, 7, 1, 0.5, 0.25, 8, 2, -1, -2, -3, 1.5, 3, 9};
    static const uint32_t old_faces[N_FACES] = {1, 4, 2, 1, 2, 6, 5, 6, 4, 2, 4, 6};
    static const uint32_t kept_faces[N_FACES] = {0, 2, 1, 0, 1, 4, 3, 4, 2, 1, 2, 4};
    static double f[N_OLD], f_before[N_OLD];
    static uint32_t w[N_WORDS], w_before[N_WORDS];
    for (int i = 0; i < N_OLD; i++) f[i] = 500 + i;
    for (int i = 0; i < N_WORDS; i++) w[i] = 600 + (uint32_t)i;
    CHECK(cauchy_store_open(f, N_OLD, w, N_WORDS, radius, old, 3 * OLD, old_faces, N_FACES).no == 0);
    CHECK(cauchy_store_put(f, N_OLD, w, N_WORDS, 6, flat(), 0).no == 0);
    CHECK(cauchy_store_put(f, N_OLD, w, N_WORDS, 7, steep(), 1).no == 0);
    CHECK(cauchy_store_advance(f, N_OLD, w, N_WORDS, 5).left == 14 * F - 5);

    memcpy(f_before, f, sizeof f), memcpy(w_before, w, sizeof w);
    CauchySqueezed s = cauchy_store_squeeze(f, 1761 + 3 * OLD - 1, w, N_WORDS);
    CHECK(s.no == CAUCHY_SHORT_STORE && s.freed == 0);
    w[130] = w_before[130] = OLD;
    s = cauchy_store_squeeze(f, N_OLD, w, N_WORDS);
    CHECK(s.no == CAUCHY_UNSOUND && s.freed == 0);
    CHECK(!memcmp(f, f_before, sizeof f) && !memcmp(w, w_before, sizeof w));
    w[130] = w_before[130] = old_faces[0];

    s = cauchy_store_squeeze(f, N_OLD, w, N_WORDS);
    CHECK(s.no == 0 && s.freed == 3 * (OLD - KEPT) && w[0] == KEPT && w[1] == F);
    CHECK(!memcmp(f + 1761, kept, sizeof kept) && !memcmp(w + 130, kept_faces, sizeof kept_faces));
    for (int i = 1761 + 3 * KEPT; i < 1761 + 3 * OLD; i++) CHECK(f[i] == 0 && !signbit(f[i]));
    CHECK(!memcmp(f, f_before, 1761 * sizeof *f) && !memcmp(w + 2, w_before + 2, 128 * sizeof *w));
    CHECK(f[N_OLD - 2] == f_before[N_OLD - 2] && f[N_OLD - 1] == f_before[N_OLD - 1]);
    CHECK(!memcmp(w + 130 + N_FACES, w_before + 130 + N_FACES, 3 * sizeof *w));

    /* the work goes on, with the mesh's shorter run too, and leaves the volumes that it would have left */
    CHECK(cauchy_store_advance(f, 1761 + 3 * KEPT, w, N_WORDS, UINT64_MAX).done == 14 * F - 5);
    CHECK(cauchy_store_advance(f_before, N_OLD, w_before, N_WORDS, UINT64_MAX).done == 14 * F - 5);
    CHECK(!memcmp(f, f_before, 1761 * sizeof *f) && f[225 + 48 * 6 + 2] == volume_of(flat().c, flat().sigma));
    CHECK(cauchy_store_squeeze(f, N_OLD, w, N_WORDS).freed == 0);
}

/* A store of the form before layers, by hand: places 3 and 31, the first with a volume so far. */
static void carry(void) {
    enum { N_OLD_WORDS = 98 + N_FACES + 2, N_NEW = 1761 + N_XYZ + 2 };
    static double old_f[N_NEW], old_f_before[N_NEW], f[N_NEW], f_before[N_NEW];
    static uint32_t old_w[N_OLD_WORDS], old_w_before[N_OLD_WORDS], w[N_WORDS], w_before[N_WORDS];
    for (int i = 0; i < N_NEW; i++) old_f[i] = 0.25 + i, f[i] = 500 + i;
    for (int i = 0; i < N_WORDS; i++) w[i] = 600 + (uint32_t)i;
    memset(old_w, 0, sizeof old_w);
    old_w[0] = V, old_w[1] = F, old_w[98 + N_FACES] = 71, old_w[99 + N_FACES] = 72;
    old_w[2 + 3 * 3] = 2, old_w[4 + 3 * 3] = 3;
    old_w[2 + 3 * 31] = 14, old_w[3 + 3 * 31] = 12, old_w[4 + 3 * 31] = 1;
    memcpy(old_w + 98, faces, sizeof faces), memcpy(old_f + 1761, xyz, sizeof xyz);
    memcpy(old_f_before, old_f, sizeof f), memcpy(old_w_before, old_w, sizeof old_w);
    memcpy(f_before, f, sizeof f), memcpy(w_before, w, sizeof w);

    const size_t own_f = CAUCHY_STORE_FLOATS(V), own_old = CAUCHY_OLD_STORE_WORDS(F), own_w = CAUCHY_STORE_WORDS(F);
    CHECK(own_old == 98 + N_FACES);
    const size_t shorter[5][4] = {{own_f - 1, own_old, own_f, own_w}, {own_f, own_old - 1, own_f, own_w},
                                  {own_f, own_old, own_f - 1, own_w}, {own_f, own_old, own_f, own_w - 1},
                                  {own_f, 97, own_f, own_w}};
    for (int i = 0; i < 5; i++) {
        const size_t *n = shorter[i];
        CauchyOpened no = cauchy_store_carry(old_f, n[0], old_w, n[1], f, n[2], w, n[3]);
        CHECK(no.no == CAUCHY_SHORT_STORE && no.verts == 0 && no.faces == 0);
    }
    old_w[4 + 3 * 31] = F;
    CauchyOpened no = cauchy_store_carry(old_f, N_NEW, old_w, N_OLD_WORDS, f, N_NEW, w, N_WORDS);
    CHECK(no.no == CAUCHY_UNSOUND && no.verts == 0 && no.faces == 0);
    no = cauchy_store_carry(old_f, N_NEW, old_w, N_OLD_WORDS, f, N_NEW, w, own_w - 1);
    CHECK(no.no == CAUCHY_SHORT_STORE && no.verts == 0 && no.faces == 0);
    CHECK(!memcmp(f, f_before, sizeof f) && !memcmp(w, w_before, sizeof w));
    old_w[4 + 3 * 31] = 1;

    CauchyOpened o = cauchy_store_carry(old_f, N_NEW, old_w, N_OLD_WORDS, f, N_NEW, w, N_WORDS);
    CHECK(o.no == CAUCHY_ACCEPTED && o.verts == V && o.faces == F);
    CHECK(!memcmp(old_f, old_f_before, sizeof old_f) && !memcmp(old_w, old_w_before, sizeof old_w));
    CHECK(!memcmp(f, old_f, own_f * sizeof *f) && w[0] == V && w[1] == F);
    for (int place = 0; place < 32; place++) {
        for (int i = 0; i < 3; i++) CHECK(w[2 + 4 * place + i] == old_w[2 + 3 * place + i]);
        CHECK(w[5 + 4 * place] == 0);
    }
    CHECK(!memcmp(w + 130, faces, sizeof faces) && !memcmp(w + own_w, w_before + own_w, 3 * sizeof *w));
    CHECK(!memcmp(f + own_f, f_before + own_f, 2 * sizeof *f));
    /* one face of place 3 is left and three of place 31, and the volume so far goes on */
    CHECK(cauchy_store_advance(f, N_NEW, w, N_WORDS, 1).left == 3 && w[3 + 4 * 3] == 1);
    CHECK(f[225 + 48 * 3 + 2] != old_f[225 + 48 * 3 + 2] && f[225 + 48 * 3 + 5] == old_f[225 + 48 * 3 + 5]);
}

/* Another store of this mesh, without excess. */
enum { N_OTHER = 1761 + N_XYZ, N_OTHER_WORDS = 130 + N_FACES };
static double other[N_OTHER];
static uint32_t other_words[N_OTHER_WORDS];

static CauchyAdopted take(uint32_t place, uint32_t other_place) {
    return cauchy_store_adopt(floats, N_FLOATS, words, N_WORDS, place, other, N_OTHER, other_words, N_OTHER_WORDS,
                              other_place);
}

/* refused, or of another body where `no` is 0; nothing is changed */
static int not_taken(CauchyAdopted a, uint32_t no) {
    return a.no == no && a.same_body == 0 && a.pieces == 0 && a.left == 0 && unchanged();
}

/* Place 31 of the other store, five steps of whose work are done, comes into place 8 of this one. */
static void adopt(void) {
    static double mine[N_FLOATS], other_before[N_OTHER];
    static uint32_t my_words[N_WORDS], other_words_before[N_OTHER_WORDS];
    memcpy(mine, floats, sizeof mine), memcpy(my_words, words, sizeof my_words);
    CHECK(cauchy_store_open(other, N_OTHER, other_words, N_OTHER_WORDS, radius, xyz, N_XYZ, faces, N_FACES).no == 0);
    CHECK(cauchy_store_put(other, N_OTHER, other_words, N_OTHER_WORDS, 31, steep(), 6).no == 0);
    CHECK(cauchy_store_advance(other, N_OTHER, other_words, N_OTHER_WORDS, 5).done == 5);
    memcpy(other_before, other, sizeof other), memcpy(other_words_before, other_words, sizeof other_words);

    remember();
    CauchyAdopted a = cauchy_store_adopt(floats, 1760, words, N_WORDS, 8, other, N_OTHER, other_words, N_OTHER_WORDS, 31);
    CHECK(not_taken(a, CAUCHY_SHORT_STORE));
    a = cauchy_store_adopt(floats, N_FLOATS, words, 129, 8, other, N_OTHER, other_words, N_OTHER_WORDS, 31);
    CHECK(not_taken(a, CAUCHY_SHORT_STORE));
    a = cauchy_store_adopt(floats, N_FLOATS, words, N_WORDS, 8, other, N_OTHER - 1, other_words, N_OTHER_WORDS, 31);
    CHECK(not_taken(a, CAUCHY_SHORT_STORE));
    a = cauchy_store_adopt(floats, N_FLOATS, words, N_WORDS, 8, other, N_OTHER, other_words, N_OTHER_WORDS - 1, 31);
    CHECK(not_taken(a, CAUCHY_SHORT_STORE));
    other_words[2] = 18;
    CHECK(not_taken(take(32, 31), CAUCHY_UNSOUND));
    other_words[2] = 0;
    CHECK(not_taken(take(32, 30), CAUCHY_NO_PLACE) && not_taken(take(8, 32), CAUCHY_NO_PLACE));
    CHECK(not_taken(take(8, 30), CAUCHY_VACANT));
    other[1761] = -xyz[0];
    CHECK(not_taken(take(8, 31), 0));
    other[1761] = xyz[0], other[0] = radius + 1;
    CHECK(not_taken(take(8, 31), 0));
    other[0] = radius;

    a = take(8, 31);
    CHECK(a.no == 0 && a.same_body == 1 && a.pieces == 13 && a.left == 13 * F - 5);
    CHECK(!memcmp(other, other_before, sizeof other) && !memcmp(other_words, other_words_before, sizeof other_words));
    memcpy(floats_before + 1 + 7 * 8, other + 1 + 7 * 31, 7 * sizeof *other);
    memcpy(floats_before + 225 + 48 * 8, other + 225 + 48 * 31, 48 * sizeof *other);
    memcpy(words_before + 2 + 4 * 8, other_words + 2 + 4 * 31, 4 * sizeof *other_words);
    CHECK(unchanged() && holds(8, steep()));
    CHECK(words[2 + 4 * 8] == 14 && words[3 + 4 * 8] == 1 && words[4 + 4 * 8] == 1 && words[5 + 4 * 8] == 6);
    CHECK(cauchy_store_advance(floats, N_FLOATS, words, N_WORDS, 0).left == 27 * F - 5);
    memcpy(floats, mine, sizeof mine), memcpy(words, my_words, sizeof my_words);
}

static void advance(void) {
    remember();
    CauchySteps s = cauchy_store_advance(floats, N_FLOATS, words, 129, 5);
    CHECK(s.no == CAUCHY_SHORT_STORE && s.done == 0 && s.left == 0 && unchanged());
    words[130] = V, words_before[130] = V;
    s = cauchy_store_advance(floats, N_FLOATS, words, N_WORDS, 5);
    CHECK(s.no == CAUCHY_UNSOUND && s.done == 0 && s.left == 0 && unchanged());
    words[130] = faces[0];

    s = cauchy_store_advance(floats, N_FLOATS, words, N_WORDS, 5);
    CHECK(s.no == 0 && s.done == 5 && s.left == 14 * F - 5);
    CHECK(floats[225 + 48 * 3 + 2] == volume_of(flat().c, flat().sigma));

    CauchyValue d = cauchy_store_density(floats, N_FLOATS, words, N_WORDS, convention(CAUCHY_MASS, 9e5, 1300), CAUCHY_ALL_LAYERS, vector(1, 2, 3));
    CHECK(d.no == CAUCHY_UNFINISHED && d.value == 0);
    /* ragged, and its run too short: work that is left is told first */
    const CauchyConvention by_mass = convention(CAUCHY_MASS, 9e5, 1300);
    CauchyTrack t = cauchy_store_track(floats, N_FLOATS, words, N_WORDS, by_mass, CAUCHY_ALL_LAYERS, xyz, 5, NULL, 0);
    CHECK(t.no == CAUCHY_UNFINISHED && t.points == 0);
    t = cauchy_store_track(floats, N_FLOATS, words, N_WORDS, by_mass, 1u << 16, xyz, 5, NULL, 0);
    CHECK(t.no == CAUCHY_NO_LAYER && t.points == 0);
    /* the work of place 3 is done, and a reading of its layer needs no other */
    CHECK(cauchy_store_report(floats, N_FLOATS, words, N_WORDS, by_mass, 1u << 2).no == 0);
    CHECK(cauchy_store_report(floats, N_FLOATS, words, N_WORDS, by_mass, 1u << 15).no == CAUCHY_UNFINISHED);
    CauchyBytes p = cauchy_store_page(floats, N_FLOATS, words, N_WORDS, NULL, 0);
    CHECK(p.no == CAUCHY_UNFINISHED && p.bytes == 0);
    CauchyStoreReport r = cauchy_store_report(floats, N_FLOATS, words, N_WORDS, convention(CAUCHY_RAW, 0, 0), CAUCHY_ALL_LAYERS);
    CHECK(r.no == CAUCHY_UNFINISHED && r.kernels == 0 && r.pieces == 0 && r.error == 0);
    CHECK(r.report.raw_mass == 0 && r.report.rho0_scale == 0 && r.report.rho0_mass == 0 && r.report.applied_scale == 0);
    CHECK(r.report.applied_mass == 0 && r.report.target_mass == 0 && r.report.volume == 0);

    s = cauchy_store_advance(floats, N_FLOATS, words, N_WORDS, UINT64_MAX);
    CHECK(s.no == 0 && s.done == 14 * F - 5 && s.left == 0);
}

static double list[14 * 6 + 1];

static void list_store(void) {
    for (int i = 0; i < 14 * 6 + 1; i++) list[i] = 700 + i;
    CauchyListed l = cauchy_store_list(floats, N_FLOATS, words, N_WORDS, convention(CAUCHY_RAW, 0, 0), CAUCHY_ALL_LAYERS, list, 14 * 6 - 1);
    CHECK(l.no == CAUCHY_SHORT_LIST && l.pieces == 0);
    for (int i = 0; i < 14 * 6 + 1; i++) CHECK(list[i] == 700 + i);
    l = cauchy_store_list(floats, N_FLOATS, words, N_WORDS, convention(CAUCHY_RAW, 0, 0), CAUCHY_ALL_LAYERS, list, 14 * 6);
    CHECK(l.no == 0 && l.pieces == 14 && list[14 * 6] == 700 + 14 * 6);

    double first[6], pieces[13 * 6 + 1];
    write_kernel(first, flat());
    CHECK(!memcmp(list, first, sizeof first));
    for (int i = 0; i < 13 * 6 + 1; i++) pieces[i] = 800 + i;
    CauchyPieces p = cauchy_decompose(steep(), radius, pieces, 13 * 6 - 1);
    CHECK(p.no == CAUCHY_SHORT_LIST && p.pieces == 0 && p.error == 0 && ended(p.fit, 0) && pieces[0] == 800);
    p = cauchy_decompose(flat(), radius, pieces, 13 * 6);
    CHECK(p.no == 0 && p.pieces == 1 && ended(p.fit, CAUCHY_KEPT));
    p = cauchy_decompose(steep(), radius, pieces, 13 * 6 + 1);
    CHECK(p.fit.kind == CAUCHY_FITTED && p.fit.column == 0 && p.fit.pivot > 1e-18 && p.fit.pivot < 1);
    CHECK(p.no == 0 && p.pieces == 13 && p.error > 0 && p.error == floats[1 + 7 * 31 + 6] && pieces[13 * 6] == 800 + 13 * 6);
    CHECK(!memcmp(list + 6, pieces, 13 * 6 * sizeof(double)));
    for (int i = 0; i < 13; i++) CHECK(!memcmp(pieces + 6 * i, steep().c, 3 * sizeof(double)) && pieces[6 * i + 5] == 1);
    /* the pieces stand for the kernel: its peak, and half its width away */
    CHECK(fabs(density_of(pieces, 13, -0.5, 0.75, 1.5) - 300) < 300 * p.error * 1.001);
    CHECK(fabs(density_of(pieces, 13, -0.5, 0.75, 1.5 + 0.8) - 300 / pow(1.25, 2)) < 300 * 0.01);
    /* the radius has its say */
    CHECK(cauchy_decompose(steep(), 4 * radius, pieces, 13 * 6).error != p.error);
}

/* the list that the store has, from its two kernels */
static void decompose_lists(void) {
    double two[12], out[16 * 12 + 1];
    double error = floats[1 + 7 * 31 + 6];
    write_kernel(two, steep());
    write_kernel(two + 6, flat());
    for (int i = 0; i < 16 * 12 + 1; i++) out[i] = 900 + i;
    CauchyListPieces p = cauchy_decompose_list(two, 11, radius, out, 14 * 6);
    CHECK(p.no == CAUCHY_SHORT_LIST && p.kernels == 0 && p.pieces == 0 && p.error == 0);
    p = cauchy_decompose_list(two, 12, radius, out, 14 * 6 - 1);
    CHECK(p.no == CAUCHY_SHORT_LIST && p.kernels == 0 && p.pieces == 0 && p.error == 0);
    for (int i = 0; i < 16 * 12 + 1; i++) CHECK(out[i] == 900 + i);
    /* a run of just the pieces, and one that is never too short */
    for (size_t room = 14 * 6; room <= 16 * 12; room += 16 * 12 - 14 * 6) {
        p = cauchy_decompose_list(two, 12, radius, out, room);
        CHECK(p.no == 0 && p.kernels == 2 && p.pieces == 14 && p.error == error);
        CHECK(!memcmp(out, list + 6, 13 * 6 * sizeof(double)) && !memcmp(out + 13 * 6, list, 6 * sizeof(double)));
        for (int i = 14 * 6; i < 16 * 12 + 1; i++) CHECK(out[i] == 900 + i);
    }
    p = cauchy_decompose_list(NULL, 0, radius, NULL, 0);
    CHECK(p.no == 0 && p.kernels == 0 && p.pieces == 0 && p.error == 0);
}

/* What puts of the kernels charge and a list of them needs: exact for those that stay or have no exponent, and the
 * most that it can be for others. */
static void bills(void) {
    static const double alphas[] = {1, 1 + 0.5e-9, NAN, 2, 0, 1 + 2e-9, 2.25, -0.25, INFINITY, -INFINITY};
    static const uint64_t pieces[] = {1, 1, 0, 13, 13, 13, 16, 16, 16, 16};
    static double many[6 * 33 + 1], many_before[6 * 33 + 1];
    uint64_t sum = 0;
    for (int i = 0; i < 10; i++) {
        write_kernel(many + 6 * i, kernel(1.25 + i, 2.5, 3.75, 0.375, 1100, alphas[i]));
        sum += pieces[i];
        const CauchyBill b = cauchy_bill(many + 6 * i, 6, V, F), all = cauchy_bill(many, 6 * (i + 1), V, F);
        CHECK(b.no == 0 && b.steps == pieces[i] * F && b.floats == 6 * pieces[i]);
        CHECK(all.no == 0 && all.steps == sum * F && all.floats == 6 * sum);
    }
    /* the store of this test charged and listed no more */
    double two[12];
    write_kernel(two, steep());
    write_kernel(two + 6, flat());
    CauchyBill b = cauchy_bill(two, 12, V, F);
    CHECK(b.no == 0 && b.steps == 14 * F && b.floats == 14 * 6);

    for (int i = 0; i < 33; i++) write_kernel(many + 6 * i, kernel(i, 2.5, 3.75, 0.375, 1100, 5 + i));
    memcpy(many_before, many, sizeof many);
    b = cauchy_bill(many, 6 * 32, CAUCHY_MAX_VERTICES, CAUCHY_MAX_FACES);
    CHECK(b.no == 0 && b.steps == (uint64_t)32 * 16 * CAUCHY_MAX_FACES && b.floats == 32 * 16 * 6);
    b = cauchy_bill(NULL, 0, V, F);
    CHECK(b.no == 0 && b.steps == 0 && b.floats == 0);
    /* the first that applies: 2, then 9, then 15 */
    b = cauchy_bill(many, 6 * 33, V, F);
    CHECK(b.no == CAUCHY_MANY_KERNELS && b.steps == 0 && b.floats == 0);
    b = cauchy_bill(many, 6 * 33 + 1, V, F);
    CHECK(b.no == CAUCHY_SHORT_LIST && b.steps == 0 && b.floats == 0);
    b = cauchy_bill(many, 6 * 33 + 1, CAUCHY_MAX_VERTICES + 1, F);
    CHECK(b.no == CAUCHY_OVERSIZE && b.steps == 0 && b.floats == 0);
    b = cauchy_bill(many, 6 * 33, V, CAUCHY_MAX_FACES + 1);
    CHECK(b.no == CAUCHY_OVERSIZE && b.steps == 0 && b.floats == 0);
    CHECK(cauchy_bill(many, 6, UINT32_MAX, 0).no == CAUCHY_OVERSIZE && !memcmp(many, many_before, sizeof many));
}

/* The density along a track of 19 points, with weights scaled by the convention. */
static void check_track(CauchyConvention v, const double *scaled) {
    enum { POINTS = 19 };
    double points[3 * POINTS], out[POINTS + 2];
    for (int i = 0; i < 3 * POINTS; i++) points[i] = 0.375 * i - 4;
    for (int i = 0; i < POINTS + 2; i++) out[i] = 850 + i;
    CauchyTrack t = cauchy_store_track(floats, N_FLOATS, words, N_WORDS, v, CAUCHY_ALL_LAYERS, points, 3 * POINTS, out, POINTS + 2);
    CHECK(t.no == 0 && t.points == POINTS && out[POINTS] == 850 + POINTS && out[POINTS + 1] == 851 + POINTS);
    for (int i = 0; i < POINTS; i++) {
        const double *p = points + 3 * i;
        CHECK(out[i] == density_of(scaled, 14, p[0], p[1], p[2]));
    }
}

static void refused_tracks(void) {
    enum { MANY = CAUCHY_MAX_TRACK + 1 };
    static double points[3 * MANY], out[MANY];
    const CauchyConvention raw = convention(CAUCHY_RAW, 0, 0);
    for (int i = 0; i < MANY; i++) out[i] = 860 + i;
    CauchyTrack t = cauchy_store_track(floats, N_FLOATS, words, N_WORDS, raw, CAUCHY_ALL_LAYERS, points, 3 * MANY, out, MANY);
    CHECK(t.no == CAUCHY_BAD_TRACK && t.points == 0);
    t = cauchy_store_track(floats, N_FLOATS, words, N_WORDS, raw, CAUCHY_ALL_LAYERS, points, 10, out, MANY);
    CHECK(t.no == CAUCHY_BAD_TRACK && t.points == 0);
    t = cauchy_store_track(floats, N_FLOATS, words, N_WORDS, raw, CAUCHY_ALL_LAYERS, points, 9, out, 2);
    CHECK(t.no == CAUCHY_BAD_TRACK && t.points == 0);
    t = cauchy_store_track(floats, N_FLOATS, words, 129, raw, CAUCHY_ALL_LAYERS, points, 10, out, MANY);
    CHECK(t.no == CAUCHY_SHORT_STORE && t.points == 0);
    words[130] = V;
    t = cauchy_store_track(floats, N_FLOATS, words, N_WORDS, raw, CAUCHY_ALL_LAYERS, points, 10, out, MANY);
    CHECK(t.no == CAUCHY_UNSOUND && t.points == 0);
    words[130] = faces[0];
    for (int i = 0; i < MANY; i++) CHECK(out[i] == 860 + i);
    t = cauchy_store_track(floats, N_FLOATS, words, N_WORDS, raw, CAUCHY_ALL_LAYERS, NULL, 0, NULL, 0);
    CHECK(t.no == 0 && t.points == 0);
    t = cauchy_store_track(floats, N_FLOATS, words, N_WORDS, raw, CAUCHY_ALL_LAYERS, points, 3 * CAUCHY_MAX_TRACK, out, MANY);
    CHECK(t.no == 0 && t.points == CAUCHY_MAX_TRACK && out[MANY - 1] == 860 + MANY - 1);
    for (int i = 0; i < CAUCHY_MAX_TRACK; i++) CHECK(out[i] == density_of(list, 14, 0, 0, 0));
}

static void check_report(CauchyConvention v, double bulk, double target) {
    CauchyStoreReport r = cauchy_store_report(floats, N_FLOATS, words, N_WORDS, v, CAUCHY_ALL_LAYERS);
    double raw = mass_of(list, 14), rho0 = bulk / density_of(list, 14, 0, 0, 0);
    double applied = v.kind == CAUCHY_RAW ? 1 : v.kind == CAUCHY_RHO0 ? rho0 : target / raw;
    CHECK(r.no == 0 && r.kernels == 2 && r.pieces == 14 && r.error == floats[1 + 7 * 31 + 6]);
    CHECK(r.report.raw_mass == raw && r.report.rho0_scale == rho0 && r.report.rho0_mass == raw * rho0);
    CHECK(r.report.applied_scale == applied && r.report.applied_mass == raw * applied);
    CHECK(r.report.target_mass == target && r.report.volume == body());

    double scaled[14 * 6];
    memcpy(scaled, list, sizeof scaled);
    for (int i = 0; i < 14; i++) scaled[6 * i + 4] *= applied;
    CauchyValue d = cauchy_store_density(floats, N_FLOATS, words, N_WORDS, v, CAUCHY_ALL_LAYERS, vector(2.25, 1.125, 4.5));
    CHECK(d.no == 0 && d.value == density_of(scaled, 14, 2.25, 1.125, 4.5));
    double out[14 * 6];
    CauchyListed l = cauchy_store_list(floats, N_FLOATS, words, N_WORDS, v, CAUCHY_ALL_LAYERS, out, 14 * 6);
    CHECK(l.no == 0 && l.pieces == 14 && !memcmp(out, scaled, sizeof out));
    check_track(v, scaled);
}

static void readings(void) {
    check_report(convention(CAUCHY_RAW, 7e5, 1300), 1190, 0);
    check_report(convention(CAUCHY_RHO0, 7e5, 1300), 1300, 0);
    check_report(convention(CAUCHY_MASS, 7e5, 1300), 1300, 7e5);
    check_report(convention(77, 7e5, 1300), 1300, 7e5);
    CauchyValue d = cauchy_store_density(NULL, 0, NULL, 0, convention(CAUCHY_RAW, 0, 0), CAUCHY_ALL_LAYERS, vector(1, 2, 3));
    CHECK(d.no == CAUCHY_SHORT_STORE && d.value == 0);
}

/* Place 3 is in layer 2, with one piece; place 31 in layer 15, with thirteen. */
static void check_layers(uint32_t layers, int first, int pieces) {
    const CauchyConvention by_mass = convention(CAUCHY_MASS, 7e5, 1300);
    const double *seen = list + 6 * first;
    double scaled[14 * 6], out[14 * 6], at[3] = {2.25, 1.125, 4.5}, rho;
    const double raw = mass_of(seen, pieces), scale = pieces ? 7e5 / raw : 1;
    CauchyStoreReport r = cauchy_store_report(floats, N_FLOATS, words, N_WORDS, by_mass, layers);
    CHECK(r.no == 0 && (int)r.kernels == (pieces > 0) && (int)r.pieces == pieces && r.report.raw_mass == raw);
    CHECK(r.report.applied_scale == scale && r.report.volume == body());
    CHECK(r.error == (pieces == 13 ? floats[1 + 7 * 31 + 6] : 0));
    memcpy(scaled, list, sizeof scaled);
    for (int i = 0; i < pieces; i++) scaled[6 * (first + i) + 4] *= scale;
    CauchyListed l = cauchy_store_list(floats, N_FLOATS, words, N_WORDS, by_mass, layers, out, 6 * (size_t)pieces);
    CHECK(l.no == 0 && (int)l.pieces == pieces && !memcmp(out, scaled + 6 * first, 48 * (size_t)pieces));
    CauchyValue d = cauchy_store_density(floats, N_FLOATS, words, N_WORDS, by_mass, layers, vector(at[0], at[1], at[2]));
    CHECK(d.no == 0 && d.value == density_of(scaled + 6 * first, pieces, at[0], at[1], at[2]));
    CauchyTrack t = cauchy_store_track(floats, N_FLOATS, words, N_WORDS, by_mass, layers, at, 3, &rho, 1);
    CHECK(t.no == 0 && t.points == 1 && rho == d.value);
}

static void by_layers(void) {
    check_layers(1u << 2, 0, 1);
    check_layers(1u << 15 | 1u << 3, 1, 13);
    check_layers(0, 0, 0);
    const CauchyConvention raw = convention(CAUCHY_RAW, 0, 0);
    for (uint32_t bit = 16; bit < 32; bit++) {
        const uint32_t layers = CAUCHY_ALL_LAYERS | 1u << bit;
        CHECK(cauchy_store_density(floats, N_FLOATS, words, N_WORDS, raw, layers, vector(1, 2, 3)).no == CAUCHY_NO_LAYER);
        CHECK(cauchy_store_report(floats, N_FLOATS, words, N_WORDS, raw, layers).no == CAUCHY_NO_LAYER);
        CHECK(cauchy_store_list(floats, N_FLOATS, words, N_WORDS, raw, layers, NULL, 0).no == CAUCHY_NO_LAYER);
        CHECK(cauchy_store_track(floats, N_FLOATS, words, N_WORDS, raw, layers, xyz, 5, NULL, 0).no == CAUCHY_NO_LAYER);
    }
    words[5 + 4 * 3] = CAUCHY_LAYERS;
    CHECK(cauchy_store_report(floats, N_FLOATS, words, N_WORDS, raw, 1u << 16).no == CAUCHY_UNSOUND);
    words[5 + 4 * 3] = 2, words[5 + 4 * 4] = 1;
    CHECK(cauchy_store_report(floats, N_FLOATS, words, N_WORDS, raw, CAUCHY_ALL_LAYERS).no == CAUCHY_UNSOUND);
    words[5 + 4 * 4] = 0;
    CHECK(cauchy_store_report(floats, N_FLOATS, words, N_WORDS, raw, CAUCHY_ALL_LAYERS).no == 0);
}

/* Of these layers, with one face of place 31 left: place 3 alone, as the report of its layer has it. */
static void check_finished(CauchyConvention v, uint32_t layers, uint32_t passed) {
    const CauchyStoreReport r = cauchy_store_report(floats, N_FLOATS, words, N_WORDS, v, layers & 1u << 2);
    const CauchyFinished p = cauchy_store_finished(floats, N_FLOATS, words, N_WORDS, v, layers);
    CHECK(r.no == 0 && p.no == 0 && p.passed_over == passed && !memcmp(&p.report, &r.report, sizeof p.report));
    CHECK(p.kernels == r.kernels && p.pieces == r.pieces && p.error == r.error);
}

static void finished_places(void) {
    const CauchyConvention by_mass = convention(CAUCHY_MASS, 7e5, 1300);
    CauchyStoreReport r = cauchy_store_report(floats, N_FLOATS, words, N_WORDS, by_mass, CAUCHY_ALL_LAYERS);
    CauchyFinished p = cauchy_store_finished(floats, N_FLOATS, words, N_WORDS, by_mass, CAUCHY_ALL_LAYERS);
    CHECK(p.no == 0 && p.kernels == 2 && p.pieces == 14 && p.error == r.error && p.passed_over == 0);
    CHECK(!memcmp(&p.report, &r.report, sizeof p.report));
    words[3 + 4 * 31] = 12, words[4 + 4 * 31] = F - 1;
    CHECK(cauchy_store_report(floats, N_FLOATS, words, N_WORDS, by_mass, CAUCHY_ALL_LAYERS).no == CAUCHY_UNFINISHED);
    check_finished(by_mass, CAUCHY_ALL_LAYERS, 1);
    check_finished(by_mass, 1u << 2, 0);
    check_finished(by_mass, 1u << 15 | 1u << 3, 1);
    check_finished(convention(CAUCHY_RAW, 0, 0), CAUCHY_ALL_LAYERS, 1);
    p = cauchy_store_finished(floats, N_FLOATS, words, N_WORDS, by_mass, 1u << 16);
    CHECK(p.no == CAUCHY_NO_LAYER && p.kernels == 0 && p.pieces == 0 && p.error == 0 && p.passed_over == 0);
    CHECK(p.report.raw_mass == 0 && p.report.volume == 0);
    words[4 + 4 * 31] = F;
    CHECK(cauchy_store_finished(floats, N_FLOATS, words, N_WORDS, by_mass, 1u << 16).no == CAUCHY_UNSOUND);
    CHECK(cauchy_store_finished(NULL, 0, NULL, 0, by_mass, 1u << 16).no == CAUCHY_SHORT_STORE);
    words[3 + 4 * 31] = 13, words[4 + 4 * 31] = 0;
}

/* ---- The wall page ----------------------------------------------------------------------------------- */

enum { LINE_BYTES = 65, PAGE = LINE_BYTES * (CAUCHY_PLACES + 1) };

static uint8_t page[PAGE + 3];
static char wanted[PAGE + 1];

static void clean_page(void) { memset(page, 0xaa, sizeof page); }

static int page_untouched(void) {
    for (size_t i = 0; i < sizeof page; i++) if (page[i] != 0xaa) return 0;
    return 1;
}

/* Whether a page of this store is the text that is wanted, exactly as long, and the bytes past it stay. */
static int pinned(const double *f, const uint32_t *w) {
    const size_t bytes = strlen(wanted);
    for (size_t room = bytes; room <= bytes + 3; room++) {
        clean_page();
        const CauchyBytes p = cauchy_store_page(f, N_FLOATS, w, N_WORDS, page, room);
        if (p.no != 0 || p.bytes != bytes || memcmp(page, wanted, bytes)) return 0;
        for (size_t i = bytes; i < sizeof page; i++) if (page[i] != 0xaa) return 0;
    }
    return 1;
}

static int not_pinned(const double *f, const uint32_t *w, size_t room, uint32_t no) {
    clean_page();
    const CauchyBytes p = cauchy_store_page(f, N_FLOATS, w, N_WORDS, page, room);
    return p.no == no && p.bytes == 0 && page_untouched();
}

/* The store of this test: a place of one piece and one of 13, masses worked here. */
static void pages(void) {
    const long long first = llrint(mass_of(list, 1)), second = llrint(mass_of(list + 6, 13));
    CHECK(CAUCHY_PAGE_BYTES(2) == 3 * LINE_BYTES && CAUCHY_PAGE_BYTES(CAUCHY_PLACES) == PAGE);
    sprintf(wanted, " 3  1%59lld\n31 13%59lld\nTOTAL%59lld\n", first, second, first + second);
    CHECK(strlen(wanted) == CAUCHY_PAGE_BYTES(2) && first > 1000 && second > 1000);
    remember();
    CHECK(pinned(floats, words) && unchanged());
    CHECK(not_pinned(floats, words, 3 * LINE_BYTES - 1, CAUCHY_SHORT_PAGE));
    CHECK(not_pinned(floats, words, 0, CAUCHY_SHORT_PAGE) && unchanged());
    CHECK(cauchy_store_page(NULL, 0, NULL, 0, page, PAGE).no == CAUCHY_SHORT_STORE && page_untouched());
    CauchyBytes p = cauchy_store_page(floats, N_FLOATS, words, 129, page, PAGE);
    CHECK(p.no == CAUCHY_SHORT_STORE && p.bytes == 0 && page_untouched());
    words[130] = V;
    CHECK(not_pinned(floats, words, PAGE, CAUCHY_UNSOUND));
    words[130] = faces[0];
}

static double paged_floats[N_FLOATS];
static uint32_t paged_words[N_WORDS];

/* A store of so many places of one piece, whose volumes become 1, so that a weight is its place's mass. */
static void fill_pages(uint32_t places) {
    double *f = paged_floats;
    uint32_t *w = paged_words;
    CHECK(cauchy_store_open(f, N_FLOATS, w, N_WORDS, radius, xyz, N_XYZ, faces, N_FACES).no == 0);
    for (uint32_t i = 0; i < places; i++) CHECK(cauchy_store_put(f, N_FLOATS, w, N_WORDS, i, flat(), i % CAUCHY_LAYERS).pieces == 1);
    CHECK(cauchy_store_advance(f, N_FLOATS, w, N_WORDS, UINT64_MAX).left == 0);
    for (uint32_t i = 0; i < places; i++) f[225 + 48 * i + 2] = 1;
}

static void weigh(uint32_t place, double w) {
    CHECK(cauchy_store_reweigh(paged_floats, N_FLOATS, paged_words, N_WORDS, place, w) == 0);
}

/* To the nearest, ties to even, no minus before 0; the total is of what is printed. */
static void rounded_pages(void) {
    const struct {
        double mass;
        const char *printed, *twice;
    } rows[] = {
        {0, "0", "0"},       {-0.0, "0", "0"},   {0.3, "0", "0"},     {-0.3, "0", "0"},   {-0.4, "0", "0"},
        {0.5, "0", "0"},     {-0.5, "0", "0"},   {0.6, "1", "2"},     {-0.6, "-1", "-2"}, {1.5, "2", "4"},
        {-1.5, "-2", "-4"},  {2.5, "2", "4"},    {-2.5, "-2", "-4"},  {3.5, "4", "8"},    {5e-324, "0", "0"},
        {0.49999999999999994, "0", "0"},         {0.5000000000000001, "1", "2"},
        {1.4999999999999998, "1", "2"},          {-7, "-7", "-14"},   {4503599627370496, "", ""},
        {4503599627370.5, "4503599627370", "9007199254740"},
        {-4503599627371.5, "-4503599627372", "-9007199254744"},
        {999999999999998.5, "999999999999998", "1999999999999996"},
        {999999999999999.5, "1000000000000000", "2000000000000000"},
        {1e15, "1000000000000000", "2000000000000000"},
        {-1e15, "-1000000000000000", "-2000000000000000"},
        {1000000000000000.125, "", ""},          {-1000000000000000.125, "", ""},
        {INFINITY, "", ""},  {-INFINITY, "", ""}, {NAN, "", ""},      {1e300, "", ""},
    };
    fill_pages(2);
    for (size_t row = 0; row < sizeof rows / sizeof *rows; row++) {
        weigh(0, rows[row].mass), weigh(1, rows[row].mass);
        const char *m = rows[row].printed;
        sprintf(wanted, " 0  1%59s\n 1  1%59s\nTOTAL%59s\n", m, m, rows[row].twice);
        CHECK(*m ? pinned(paged_floats, paged_words) : not_pinned(paged_floats, paged_words, PAGE, CAUCHY_NO_FIGURE));
        /* no figure for one place alone, and told before a page that is too short */
        weigh(*m ? 1 : 0, 5);
        CHECK(not_pinned(paged_floats, paged_words, 0, *m ? CAUCHY_SHORT_PAGE : CAUCHY_NO_FIGURE));
    }
}

/* No place, all of them, and one without pieces. */
static void full_pages(void) {
    fill_pages(0);
    sprintf(wanted, "TOTAL%59d\n", 0);
    CHECK(CAUCHY_PAGE_BYTES(0) == LINE_BYTES && pinned(paged_floats, paged_words));
    CHECK(not_pinned(paged_floats, paged_words, LINE_BYTES - 1, CAUCHY_SHORT_PAGE));

    fill_pages(CAUCHY_PLACES);
    char *at = wanted;
    long long sum = 0;
    for (int i = 0; i < CAUCHY_PLACES; i++) {
        const long long mass = (i % 3 - 1) * 1000000000000000LL / (i + 1);
        weigh((uint32_t)i, (double)mass);
        at += sprintf(at, "%2d  1%59lld\n", i, mass);
        sum += mass;
    }
    sprintf(at, "TOTAL%59lld\n", sum);
    CHECK(strlen(wanted) == PAGE && pinned(paged_floats, paged_words));
    CHECK(not_pinned(paged_floats, paged_words, PAGE - 1, CAUCHY_SHORT_PAGE));
    for (uint32_t i = 0; i < CAUCHY_PLACES; i++) weigh(i, -1e15);
    CHECK(cauchy_store_page(paged_floats, N_FLOATS, paged_words, N_WORDS, page, PAGE).bytes == PAGE);
    CHECK(!memcmp(page + PAGE - 21, "  -32000000000000000\n", 21));

    fill_pages(0);
    CauchyKernel none = flat();
    none.alpha = NAN, none.w = NAN;
    CHECK(cauchy_store_put(paged_floats, N_FLOATS, paged_words, N_WORDS, 9, none, 0).pieces == 0);
    sprintf(wanted, " 9  0%59d\nTOTAL%59d\n", 0, 0);
    CHECK(pinned(paged_floats, paged_words));
}

static void kernels(void) {
    CauchyFileKernel k;
    k.c[0] = 1, k.c[1] = 2, k.c[2] = 3, k.sigma = 4, k.w = 5, k.alpha = 6, k.given = 7;
    CauchyKernel m = cauchy_kernel_from_file(k, 8);
    CHECK(m.c[0] == 1000 && m.c[1] == 2000 && m.c[2] == 3000 && m.sigma == 0.004 && m.w == 5 && m.alpha == 6);
    k.given = 0;
    CHECK(cauchy_kernel_from_file(k, 8).alpha == 8);

    CauchyVector at = vector(2.25, 1.125, 4.5);
    CauchyValue d = cauchy_densitize(list, 14 * 6, at);
    CHECK(d.no == 0 && d.value == density_of(list, 14, 2.25, 1.125, 4.5));
    d = cauchy_densitize(list, 14 * 6 + 1, at);
    CHECK(d.no == CAUCHY_SHORT_LIST && d.value == 0);
    CHECK(cauchy_densitize(NULL, 0, at).no == 0);
    d = cauchy_source_density_at(list, 14 * 6, at);
    CHECK(d.no == 0 && near(d.value, density_of(list, 14, 2.25, 1.125, 4.5), 1e-12));
    d = cauchy_source_density_at(list, 14 * 6 - 1, at);
    CHECK(d.no == CAUCHY_SHORT_LIST && d.value == 0);

    static const double cells[6] = {4, 0, 4, 0, 0.5, 1}, late[6] = {2, 2, 1, 1, 1, 1}, flat_cells[2] = {1e-18, 1};
    double answer[3] = {-1, -1, -1};
    CauchySolved s = cauchy_solve(2, cells, 5, answer, 3);
    CHECK(s.no == CAUCHY_BAD_MATRIX && s.column == 0 && s.pivot == 0 && answer[0] == -1);
    s = cauchy_solve(2, cells, 6, answer, 1);
    CHECK(s.no == CAUCHY_BAD_MATRIX && s.column == 0 && s.pivot == 0 && answer[0] == -1);
    s = cauchy_solve(1, flat_cells, 2, answer, 3);
    CHECK(s.no == CAUCHY_FLAT_PIVOT && s.column == 0 && s.pivot == 0 && answer[0] == -1);
    s = cauchy_solve(2, late, 6, answer, 3);
    CHECK(s.no == CAUCHY_FLAT_PIVOT && s.column == 1 && s.pivot == 0 && answer[0] == -1);
    s = cauchy_solve(0, NULL, 0, NULL, 0);
    CHECK(s.no == 0 && s.column == 0 && s.pivot == INFINITY);
    s = cauchy_solve(2, cells, 6, answer, 3);
    CHECK(s.no == 0 && s.column == 0 && s.pivot == 0.5 && answer[0] == 1 && answer[1] == 2 && answer[2] == -1);
}

/* ---- Lines of kernels ------------------------------------------------------------------------------- */

enum { LINE = 135, SHORT_LINE = 123, N_LINES = 7 }; /* the bytes of a line with an exponent and of one without */

static uint64_t bits(double x) {
    uint64_t pattern;
    memcpy(&pattern, &x, sizeof pattern);
    return pattern;
}

static int same_bits(double x, double y) { return bits(x) == bits(y) || (isnan(x) && isnan(y)); }

/* Writes the line of a kernel, and answers its bytes. */
static size_t write_line(uint8_t *at, CauchyFileKernel k) {
    char alpha[17] = "none", text[LINE + 1];
    if (k.given) snprintf(alpha, sizeof alpha, "%016" PRIX64, bits(k.alpha));
    int count = snprintf(text, sizeof text,
                         "(kernel (c %016" PRIX64 " %016" PRIX64 " %016" PRIX64 ") (sigma %016" PRIX64 ") "
                         "(w %016" PRIX64 ") (alpha %s))\n",
                         bits(k.c[0]), bits(k.c[1]), bits(k.c[2]), bits(k.sigma), bits(k.w), alpha);
    CHECK(count == (k.given ? LINE : SHORT_LINE));
    memcpy(at, text, (size_t)count);
    return (size_t)count;
}

static CauchyFileKernel file_kernel(int i, double alpha, uint32_t given) {
    CauchyFileKernel k;
    k.c[0] = 1 + i, k.c[1] = -2 - i, k.c[2] = 3.5 + i, k.sigma = 4.25 + i, k.w = -500 - i;
    k.alpha = alpha, k.given = given;
    return k;
}

/* The kernel that a loader makes of a file's, by the words of 02. */
static CauchyKernel loaded(CauchyFileKernel k, double default_alpha, uint32_t loader) {
    const int kept = k.given && (loader == CAUCHY_SOURCE || k.alpha > 0);
    return kernel(k.c[0] * 1000, k.c[1] * 1000, k.c[2] * 1000, k.sigma / 1000, k.w, kept ? k.alpha : default_alpha);
}

/* the last two are those of which the loaders always make the same */
static const double file_alphas[N_LINES] = {-1, NAN, -0.0, 0, -INFINITY, 2.5, INFINITY};

/* Every loader on lines with and without an exponent; the run's doubles past the kernels stay. */
static void conversions(void) {
    uint8_t lines[(N_LINES + 1) * LINE];
    double out[6 * (N_LINES + 1) + 2];
    const double defaults[5] = {1.5, 0, -0.0, NAN, -3};
    for (int j = 0; j < 5; j++) {
        size_t bytes = write_line(lines, file_kernel(0, 77, 0));
        for (int i = 0; i < N_LINES; i++) bytes += write_line(lines + bytes, file_kernel(i + 1, file_alphas[i], 1 + i));
        for (uint32_t loader = CAUCHY_NATIVE; loader <= CAUCHY_SOURCE; loader++) {
            for (int i = 0; i < 6 * (N_LINES + 1) + 2; i++) out[i] = 900 + i;
            CauchyKernels k = cauchy_convert(lines, bytes, defaults[j], loader, out, 6 * (N_LINES + 1) + 1);
            CHECK(k.no == 0 && k.kernels == N_LINES + 1);
            for (int i = 0; i <= N_LINES; i++) {
                double want[6];
                const CauchyFileKernel from = i ? file_kernel(i, file_alphas[i - 1], 1) : file_kernel(0, 77, 0);
                write_kernel(want, loaded(from, defaults[j], loader));
                for (int n = 0; n < 6; n++) CHECK(same_bits(out[6 * i + n], want[n]));
            }
            CHECK(out[6 * (N_LINES + 1)] == 900 + 6 * (N_LINES + 1));
            CHECK(out[6 * (N_LINES + 1) + 1] == 901 + 6 * (N_LINES + 1));
        }
    }
    CHECK(CAUCHY_CONVERT_FLOATS(SHORT_LINE - 1) == 0 && CAUCHY_CONVERT_FLOATS(3 * SHORT_LINE) == 18);
    CauchyKernels none = cauchy_convert(NULL, 0, 1.5, CAUCHY_STRICT, NULL, 0);
    CHECK(none.no == 0 && none.kernels == 0);
    none = cauchy_convert(lines, 0, NAN, CAUCHY_SOURCE, out, 6);
    CHECK(none.no == 0 && none.kernels == 0 && out[0] == 1000);
}

/* The strict form takes exactly the lines of which both loaders make the same, bit for bit with every NaN alike. */
static void strict_conversions(void) {
    const struct {
        double alpha, default_alpha;
        uint32_t given, no;
    } rows[] = {
        {0, 1.5, 0, 0},      {0, -1, 0, 0},         {0, NAN, 0, 0},
        {2.5, 1.5, 1, 0},    {2.5, NAN, 1, 0},      {INFINITY, 1, 1, 0},
        {5e-324, 1, 1, 0},   {-1, 1.5, 1, 21},      {-1, -1, 1, 0},
        {0, 0, 1, 0},        {-0.0, -0.0, 1, 0},    {-0.0, 0, 1, 21},
        {0, -0.0, 1, 21},    {-5e-324, -0.0, 1, 21}, {NAN, NAN, 1, 0},
        {NAN, 1.5, 1, 21},   {-1, NAN, 1, 21},      {-INFINITY, -INFINITY, 1, 0},
        {-INFINITY, INFINITY, 1, 21},
    };
    const uint32_t loaders[3] = {CAUCHY_STRICT, 3, UINT32_MAX};
    uint8_t lines[2 * LINE];
    double out[12], native[12];
    for (size_t row = 0; row < sizeof rows / sizeof *rows; row++) {
        size_t bytes = write_line(lines, file_kernel(1, 2, 1));
        bytes += write_line(lines + bytes, file_kernel(2, rows[row].alpha, rows[row].given));
        CHECK(cauchy_convert(lines, bytes, rows[row].default_alpha, CAUCHY_NATIVE, native, 12).kernels == 2);
        for (int i = 0; i < 3; i++) {
            for (int n = 0; n < 12; n++) out[n] = 900 + n;
            CauchyKernels k = cauchy_convert(lines, bytes, rows[row].default_alpha, loaders[i], out, 12);
            CHECK(k.no == rows[row].no && k.kernels == (k.no ? 0u : 2u));
            for (int n = 0; n < 12; n++) CHECK(k.no ? out[n] == 900 + n : same_bits(out[n], native[n]));
            /* a run that is too short is told first */
            k = cauchy_convert(lines, bytes, rows[row].default_alpha, loaders[i], out, 11);
            CHECK(k.no == CAUCHY_SHORT_LIST && k.kernels == 0);
        }
    }
}

static int no_line(const uint8_t *lines, size_t bytes, size_t room) {
    double out[12];
    int refused = 1;
    for (uint32_t loader = CAUCHY_NATIVE; loader <= CAUCHY_STRICT; loader++) {
        for (int n = 0; n < 12; n++) out[n] = 900 + n;
        const CauchyKernels k = cauchy_convert(lines, bytes, 1.5, loader, out, room);
        refused &= k.no == CAUCHY_BAD_KERNEL_LINE && k.kernels == 0;
        for (int n = 0; n < 12; n++) refused &= out[n] == 900 + n;
    }
    return refused;
}

/* Bytes that are no lines, ahead of a run that is too short and of loaders that differ: every cut, and at every place
 * of a line a byte changed, put in or taken out. */
static void refused_lines(void) {
    uint8_t lines[2 * LINE], bad[2 * LINE + 1];
    const size_t first = write_line(lines, file_kernel(1, -1, 1));
    const size_t bytes = first + write_line(lines + first, file_kernel(2, 0, 0));
    CHECK(cauchy_convert(lines, bytes, 1.5, CAUCHY_NATIVE, NULL, 0).no == CAUCHY_SHORT_LIST);
    for (size_t cut = 1; cut < bytes; cut++) CHECK(cut == first || (no_line(lines, cut, 12) && no_line(lines, cut, 0)));
    const uint8_t strange[7] = {0, '\r', '\n', ' ', '(', 'g', 255};
    for (size_t at = 0; at < bytes; at++) {
        memcpy(bad, lines, at), memcpy(bad + at, lines + at + 1, bytes - at - 1);
        CHECK(no_line(bad, bytes - 1, 12) && no_line(bad, bytes - 1, 0));
        for (int i = 0; i < 7; i++) {
            memcpy(bad, lines, bytes), bad[at] = strange[i];
            CHECK(lines[at] == strange[i] || no_line(bad, bytes, 12));
            memcpy(bad + at + 1, lines + at, bytes - at), bad[at] = strange[i];
            CHECK(no_line(bad, bytes + 1, 12));
        }
    }
    memcpy(bad, lines, bytes);
    for (size_t at = 0; at < bytes; at++) {
        bad[at] = (uint8_t)tolower(lines[at]);
        CHECK(bad[at] == lines[at] || no_line(bad, bytes, 12));
        bad[at] = lines[at];
    }
    bad[bytes] = '\n';
    CHECK(no_line(bad, bytes + 1, 12) && no_line(bad + bytes, 1, 12));
}

/* ---- Lines of a store ------------------------------------------------------------------------------- */

enum { TEXT = 8192 };

/* The opening of so many vertices and faces, then those of the mesh; answers its bytes. */
static size_t say_mesh(char *text, uint32_t verts, uint32_t corners) {
    int n = sprintf(text, "(open (radius %016" PRIX64 ") (verts %u) (faces %u))\n", bits(radius), verts, corners);
    for (int i = 0; i < N_XYZ; i += 3)
        n += sprintf(text + n, "(vert %016" PRIX64 " %016" PRIX64 " %016" PRIX64 ")\n", bits(xyz[i]), bits(xyz[i + 1]),
                     bits(xyz[i + 2]));
    for (int i = 0; i < N_FACES; i += 3)
        n += sprintf(text + n, "(face %u %u %u)\n", faces[i], faces[i + 1], faces[i + 2]);
    return (size_t)n;
}

/* The line of a put, without a layer where that is below 0. */
static size_t say_put(char *text, uint32_t place, CauchyKernel k, int layer) {
    int n = sprintf(text,
                    "(put %u (c %016" PRIX64 " %016" PRIX64 " %016" PRIX64 ") (sigma %016" PRIX64 ") (w %016" PRIX64
                    ") (alpha %016" PRIX64 ")",
                    place, bits(k.c[0]), bits(k.c[1]), bits(k.c[2]), bits(k.sigma), bits(k.w), bits(k.alpha));
    if (layer >= 0) n += sprintf(text + n, " (layer %d)", layer);
    n += sprintf(text + n, ")\n");
    return (size_t)n;
}

/* The NaN that is written for any. */
static double quiet_nan(void) {
    const uint64_t pattern = 0x7ff8000000000000;
    double x;
    memcpy(&x, &pattern, sizeof x);
    return x;
}

static void open_again(double *f, uint32_t *w) {
    for (int i = 0; i < N_FLOATS; i++) f[i] = 300 + i;
    for (int i = 0; i < N_WORDS; i++) w[i] = 400 + (uint32_t)i;
    CHECK(cauchy_store_open(f, N_FLOATS, w, N_WORDS, radius, xyz, N_XYZ, faces, N_FACES).no == 0);
}

/* A store's lines are those of its mesh and of its puts by rising place, whatever work is done. */
static void written_lines(void) {
    double f[N_FLOATS];
    uint32_t w[N_WORDS];
    char want[TEXT];
    uint8_t out[TEXT];
    open_again(f, w);
    CHECK(cauchy_store_put(f, N_FLOATS, w, N_WORDS, 31, kernel(1, -0.0, -NAN, INFINITY, -7, 2.5), 15).no == 0);
    CHECK(cauchy_store_put(f, N_FLOATS, w, N_WORDS, 10, flat(), 9).no == 0);
    CHECK(cauchy_store_reweigh(f, N_FLOATS, w, N_WORDS, 10, -40) == 0);
    CHECK(cauchy_store_advance(f, N_FLOATS, w, N_WORDS, 3).done == 3);
    CauchyKernel light = flat();
    light.w = -40;
    size_t n = say_mesh(want, V, F);
    n += say_put(want + n, 10, light, 9);
    n += say_put(want + n, 31, kernel(1, -0.0, quiet_nan(), INFINITY, -7, 2.5), 15);
    for (size_t room = 0; room < n; room++) {
        memset(out, 0xaa, sizeof out);
        CauchyBytes b = cauchy_store_write(f, N_FLOATS, w, N_WORDS, out, room);
        CHECK(b.no == CAUCHY_SHORT_TEXT && b.bytes == 0);
        for (size_t i = 0; i < n; i++) CHECK(out[i] == 0xaa);
    }
    for (size_t room = n; room <= TEXT; room += TEXT - n) {
        memset(out, 0xaa, sizeof out);
        CauchyBytes b = cauchy_store_write(f, N_FLOATS, w, N_WORDS, out, room);
        CHECK(b.no == 0 && b.bytes == n && !memcmp(out, want, n) && out[n] == 0xaa);
    }
    CHECK(n < CAUCHY_LINES_BYTES(V, F) && CAUCHY_LINES_BYTES(V, F) == 53 + 58 * V + 13 * F + 32 * 142 + 54 + 64);
    CHECK(CAUCHY_LINES_BYTES(0, 0) == 53 + 4662 && CAUCHY_LINES_BYTES(11, 10) == 55 + 58 * 11 + 16 * 10 + 4662);
    CHECK(CAUCHY_LINES_BYTES(10, 9) == 54 + 58 * 10 + 13 * 9 + 4662);
    const size_t most = 65 + (size_t)58 * CAUCHY_MAX_VERTICES + (size_t)31 * CAUCHY_MAX_FACES + 4662;
    CHECK(CAUCHY_LINES_BYTES(CAUCHY_MAX_VERTICES, CAUCHY_MAX_FACES) == most);

    CauchyBytes b = cauchy_store_write(f, 1761 + N_XYZ - 1, w, N_WORDS, out, TEXT);
    CHECK(b.no == CAUCHY_SHORT_STORE && b.bytes == 0);
    w[130] = V;
    b = cauchy_store_write(f, N_FLOATS, w, N_WORDS, NULL, 0);
    CHECK(b.no == CAUCHY_UNSOUND && b.bytes == 0);
}

/* The longest lines that a store of 11 vertices and a face has. */
static void longest_lines(void) {
    static double f[1761 + 33], points[33];
    static uint32_t w[133];
    static const uint32_t last[3] = {10, 10, 10};
    static uint8_t out[CAUCHY_LINES_BYTES(11, 1)];
    CHECK(cauchy_store_open(f, 1761 + 33, w, 133, 1, points, 33, last, 3).no == 0);
    for (uint32_t i = 0; i < CAUCHY_PLACES; i++) CHECK(cauchy_store_put(f, 1761 + 33, w, 133, i, flat(), 15).no == 0);
    CauchyBytes b = cauchy_store_write(f, 1761 + 33, w, 133, out, sizeof out);
    CHECK(b.no == 0 && b.bytes == sizeof out && b.bytes == CAUCHY_LINES_BYTES(11, 1));
    CHECK(cauchy_store_write(f, 1761 + 33, w, 133, out, sizeof out - 1).no == CAUCHY_SHORT_TEXT);
}

static double lines_floats[N_FLOATS];
static uint32_t lines_words[N_WORDS];

static CauchyLoaded read_text(const char *text, size_t count, size_t n_floats, size_t n_words) {
    for (int i = 0; i < N_FLOATS; i++) lines_floats[i] = 100 + i;
    for (int i = 0; i < N_WORDS; i++) lines_words[i] = 200 + (uint32_t)i;
    return cauchy_store_read(lines_floats, n_floats, lines_words, n_words, (const uint8_t *)text, count);
}

static int refused_text(const char *text, size_t count, uint32_t no) {
    CauchyLoaded l = read_text(text, count, N_FLOATS, N_WORDS);
    int kept = l.no == no && l.verts == 0 && l.faces == 0 && l.puts == 0;
    for (int i = 0; i < N_FLOATS; i++) kept &= lines_floats[i] == 100 + i;
    for (int i = 0; i < N_WORDS; i++) kept &= lines_words[i] == 200 + (uint32_t)i;
    return kept;
}

/* What is read is the store of the opening and the puts, line by line, every word of it. */
static void read_lines(void) {
    double f[N_FLOATS];
    uint32_t w[N_WORDS];
    char text[TEXT];
    size_t n = say_mesh(text, V, F);
    n += say_put(text + n, 31, steep(), 15);
    n += say_put(text + n, 10, steep(), 3);
    n += say_put(text + n, 10, flat(), -1);
    open_again(f, w);
    CHECK(cauchy_store_put(f, N_FLOATS, w, N_WORDS, 31, steep(), 15).no == 0);
    CHECK(cauchy_store_put(f, N_FLOATS, w, N_WORDS, 10, flat(), 0).no == 0);
    CauchyLoaded l = read_text(text, n, N_FLOATS, N_WORDS);
    CHECK(l.no == 0 && l.verts == V && l.faces == F && l.puts == 3);
    CHECK(!memcmp(lines_floats, f, (1761 + N_XYZ) * sizeof *f) && !memcmp(lines_words, w, (130 + N_FACES) * sizeof *w));
    for (int i = 1761 + N_XYZ; i < N_FLOATS; i++) CHECK(lines_floats[i] == 100 + i);
    for (int i = 130 + N_FACES; i < N_WORDS; i++) CHECK(lines_words[i] == 200 + (uint32_t)i);
    CHECK(cauchy_store_advance(lines_floats, N_FLOATS, lines_words, N_WORDS, 0).left == 14 * F);
    CHECK(read_text(text, n, 1761 + N_XYZ, 130 + N_FACES).no == 0);
    l = read_text(text, n, 1761 + N_XYZ - 1, N_WORDS);
    CHECK(l.no == CAUCHY_SHORT_STORE && l.verts == 0 && l.faces == 0 && l.puts == 0 && lines_floats[0] == 100);
    CHECK(read_text(text, n, N_FLOATS, 130 + N_FACES - 1).no == CAUCHY_SHORT_STORE && lines_words[0] == 200);
    /* the opening alone, of nothing */
    n = (size_t)sprintf(text, "(open (radius 0000000000000000) (verts 0) (faces 0))\n");
    l = read_text(text, n, 1761, 130);
    CHECK(l.no == 0 && l.verts == 0 && l.faces == 0 && l.puts == 0 && lines_words[0] == 0 && lines_words[131] == 331);
}

/* The whole is refused where one line is, by the first of 13, 2, 3, 4, 6 and 16 that applies to any. */
static void refused_texts(void) {
    char text[TEXT], bad[TEXT];
    const size_t mesh = say_mesh(text, V, F), first = mesh + say_put(text + mesh, 31, steep(), 15);
    const size_t n = first + say_put(text + first, 0, flat(), -1);
    for (size_t cut = 0; cut < n; cut++)
        CHECK(cut == mesh || cut == first ? read_text(text, cut, N_FLOATS, N_WORDS).no == 0
                                          : refused_text(text, cut, CAUCHY_BAD_LINE));
    const uint8_t strange[5] = {0, '\r', '\n', ' ', '('};
    for (size_t at = 0; at <= n; at++)
        for (int i = 0; i < 5; i++) {
            memcpy(bad, text, at), bad[at] = (char)strange[i], memcpy(bad + at + 1, text + at, n - at);
            CHECK(refused_text(bad, n + 1, CAUCHY_BAD_LINE));
        }
    memcpy(bad, text, n);
    bad[mesh - 3] = '5';
    CHECK(refused_text(bad, n, CAUCHY_LOOSE_CORNER));
    size_t m = mesh + say_put(bad + mesh, 3, flat(), 16);
    m += say_put(bad + m, 32, flat(), 2);
    CHECK(refused_text(bad, m, CAUCHY_LOOSE_CORNER) && refused_text(bad, m - 1, CAUCHY_BAD_LINE));
    bad[mesh - 3] = text[mesh - 3];
    CHECK(refused_text(bad, m, CAUCHY_NO_PLACE));
    CHECK(read_text(bad, m, N_FLOATS, 130 + N_FACES - 1).no == CAUCHY_SHORT_STORE);
    CHECK(refused_text(bad, mesh + say_put(bad + mesh, 3, flat(), 16), CAUCHY_NO_LAYER));
    CHECK(refused_text(bad, say_mesh(bad, V + 1, F), CAUCHY_BAD_LINE));
    CHECK(refused_text(bad, say_mesh(bad, V, F - 1), CAUCHY_BAD_LINE));
    CHECK(refused_text(NULL, 0, CAUCHY_BAD_LINE));
}

/* A face too many: 2, ahead of its loose corners; a line too few: 13. */
static void many_lines(void) {
    const size_t count = (size_t)CAUCHY_MAX_FACES + 1;
    char *many = (char *)malloc(100 + 13 * count);
    CHECK(many != NULL);
    const size_t head = (size_t)sprintf(many, "(open (radius 0000000000000000) (verts 0) (faces %zu))\n", count);
    for (size_t i = 0; i < count; i++) memcpy(many + head + 13 * i, "(face 0 0 0)\n", 13);
    CHECK(refused_text(many, head + 13 * count, CAUCHY_OVERSIZE));
    CHECK(refused_text(many, head + 13 * (count - 1), CAUCHY_BAD_LINE));
    free(many);
}

static void closed(void) {
    static const uint32_t turned[N_FACES] = {0, 2, 1, 0, 1, 3, 0, 3, 2, 1, 3, 2}, twice[3] = {2, 2, 3};
    CHECK(cauchy_closed(xyz, N_XYZ, faces, N_FACES) == CAUCHY_ACCEPTED);
    CHECK(cauchy_closed(xyz, N_XYZ, NULL, 0) == CAUCHY_ACCEPTED && cauchy_closed(NULL, 0, NULL, 0) == CAUCHY_ACCEPTED);
    CHECK(cauchy_closed(xyz, N_XYZ, faces, N_FACES - 3) == CAUCHY_NOT_CLOSED);
    CHECK(cauchy_closed(xyz, N_XYZ, turned, N_FACES) == CAUCHY_NOT_CLOSED);
    CHECK(cauchy_closed(xyz, N_XYZ, twice, 3) == CAUCHY_NOT_CLOSED);
    CHECK(cauchy_closed(xyz, N_XYZ - 1, faces, N_FACES) == CAUCHY_RAGGED);
    CHECK(cauchy_closed(xyz, N_XYZ, faces, N_FACES - 1) == CAUCHY_RAGGED);
    CHECK(cauchy_closed(xyz, 9, faces, N_FACES) == CAUCHY_LOOSE_CORNER);
}

static void meshes(void) {
    const CauchyVector c = vector(1.25, 2.5, 3.75);
    CauchyValue v = cauchy_kernel_volume(xyz, N_XYZ, faces, N_FACES, c, 0.375);
    CHECK(v.no == 0 && v.value == volume_of(flat().c, 0.375));
    CauchyValue s = cauchy_source_kernel_volume(xyz, N_XYZ, faces, N_FACES, c, 0.375);
    CHECK(s.no == 0 && near(s.value, v.value, 1e-14));
    CauchyValue b = cauchy_body_volume(xyz, N_XYZ, faces, N_FACES);
    CHECK(b.no == 0 && b.value == body());
    s = cauchy_source_enclosed_volume(xyz, N_XYZ, faces, N_FACES);
    CHECK(s.no == 0 && near(s.value, body(), 1e-14));
    CauchyPoint p = cauchy_volume_centroid(xyz, N_XYZ, faces, N_FACES);
    CHECK(p.no == 0 && near(p.at.x, 7.75 / 4, 1e-12) && near(p.at.y, 10.0 / 4, 1e-12) && near(p.at.z, 8.5 / 4, 1e-12));
    CauchyValue m = cauchy_field_mass(xyz, N_XYZ, faces, N_FACES, list, 14 * 6);
    CHECK(m.no == 0 && m.value == mass_of(list, 14));
    m = cauchy_field_mass(xyz, N_XYZ, faces, N_FACES, list, 14 * 6 - 2);
    CHECK(m.no == CAUCHY_SHORT_LIST && m.value == 0);
    CauchyReport h = cauchy_homogeneous(1234, xyz, N_XYZ, faces, N_FACES);
    CHECK(h.no == 0 && h.report.raw_mass == 1234 * body() && h.report.rho0_scale == 1 && h.report.rho0_mass == 1234 * body());
    CHECK(h.report.applied_scale == 1 && h.report.applied_mass == 1234 * body() && h.report.target_mass == 0);
    CHECK(h.report.volume == body());
}

static void refused_meshes(void) {
    const CauchyVector c = vector(1.25, 2.5, 3.75);
    const size_t big = 3 * ((size_t)CAUCHY_MAX_VERTICES + 1);
    double *many = (double *)calloc(big, sizeof *many);
    double out[6];
    CHECK(many != NULL);
    CauchyValue v = cauchy_kernel_volume(xyz, N_XYZ - 1, faces, N_FACES, c, 0.375);
    CHECK(v.no == CAUCHY_RAGGED && v.value == 0);
    v = cauchy_source_kernel_volume(xyz, N_XYZ, faces, N_FACES - 2, c, 0.375);
    CHECK(v.no == CAUCHY_RAGGED && v.value == 0);
    v = cauchy_body_volume(many, big, NULL, 0);
    CHECK(v.no == CAUCHY_OVERSIZE && v.value == 0);
    CHECK(cauchy_closed(many, big, NULL, 0) == CAUCHY_OVERSIZE);
    v = cauchy_source_enclosed_volume(xyz, 9, faces, N_FACES);
    CHECK(v.no == CAUCHY_LOOSE_CORNER && v.value == 0);
    CauchyPoint p = cauchy_volume_centroid(xyz, 9, faces, N_FACES);
    CHECK(p.no == CAUCHY_LOOSE_CORNER && p.at.x == 0 && p.at.y == 0 && p.at.z == 0);
    v = cauchy_field_mass(many, big, NULL, 0, list, 6);
    CHECK(v.no == CAUCHY_OVERSIZE && v.value == 0);
    CauchyReport h = cauchy_homogeneous(1234, xyz, 9, faces, N_FACES);
    CHECK(h.no == CAUCHY_LOOSE_CORNER && h.report.raw_mass == 0 && h.report.rho0_scale == 0 && h.report.rho0_mass == 0);
    CHECK(h.report.applied_scale == 0 && h.report.applied_mass == 0 && h.report.target_mass == 0 && h.report.volume == 0);
    CauchyKernels k = cauchy_source_normalize(xyz, 9, faces, N_FACES, list, 6, 7e5, out, 6);
    CHECK(k.no == CAUCHY_LOOSE_CORNER && k.kernels == 0);
    free(many);
}

static void source_lists(void) {
    double two[12], out[13];
    write_kernel(two, flat());
    write_kernel(two + 6, kernel(-0.5, 0.75, 1.5, 0.625, 300, 1));
    out[12] = 900;
    CauchyKernels k = cauchy_source_normalize(xyz, N_XYZ, faces, N_FACES, two, 12, 7e5, out, 13);
    CHECK(k.no == 0 && k.kernels == 2 && out[12] == 900);
    double scale = 7e5 / mass_of(two, 2);
    for (int i = 0; i < 12; i++) CHECK(i % 6 == 4 ? near(out[i], two[i] * scale, 1e-14) : out[i] == two[i]);
    k = cauchy_source_normalize(xyz, N_XYZ, faces, N_FACES, two, 12, 7e5, out, 11);
    CHECK(k.no == CAUCHY_SHORT_LIST && k.kernels == 0);
    two[11] = 2;
    k = cauchy_source_normalize(xyz, N_XYZ, faces, N_FACES, two, 12, 7e5, out, 12);
    CHECK(k.no == CAUCHY_EXPONENT && k.kernels == 0);

    /* calibrate stretches by the farthest corner over 528.5, where that is above 10: here it is below */
    double mean_scale = 1500 * body() / mass_of(two, 1), total_scale = 8e5 / mass_of(two, 1);
    k = cauchy_source_calibrate(xyz, N_XYZ, faces, N_FACES, two, 6, 8e5, 1500, 1, out, 6);
    CHECK(k.no == 0 && k.kernels == 1);
    for (int i = 0; i < 6; i++) CHECK(i == 4 ? near(out[i], two[i] * mean_scale, 1e-14) : out[i] == two[i]);
    k = cauchy_source_calibrate(xyz, N_XYZ, faces, N_FACES, two, 6, 8e5, 1500, 0, out, 6);
    CHECK(k.no == 0 && k.kernels == 1 && near(out[4], two[4] * total_scale, 1e-14));
    k = cauchy_source_calibrate(xyz, N_XYZ, faces, N_FACES, two, 6, 8e5, 1500, 0, out, 5);
    CHECK(k.no == CAUCHY_SHORT_LIST && k.kernels == 0);
}

static void numbers(void) {
    CHECK(cauchy_root(7) == sqrt(7.0) && near(cauchy_arc(0.7), atan(0.7), 1e-15));
    CHECK(near(cauchy_log(0.3), log2(0.3), 1e-15) && near(cauchy_exp(2.3), exp2(2.3), 1e-15));
    CHECK(near(cauchy_power(3, 0.7), pow(3, 0.7), 1e-14) && near(cauchy_ten(0.6), pow(10, 0.6), 1e-14));
    CHECK(cauchy_ten(1) == 10 && cauchy_ten(-1) == 0.1 && cauchy_ten(22) == 1e22 && cauchy_ten(-22) == 1e-22);
    CHECK(near(cauchy_log10(0.02), log10(0.02), 1e-15));
    CHECK(cauchy_radial_g(0) == 1.0 / 3 && near(cauchy_radial_g(2), (2 - atan(2)) / 8, 1e-15));
}

int main(void) {
    open_store();
    put_clear_reweigh();
    squeeze();
    carry();
    adopt();
    advance();
    list_store();
    decompose_lists();
    bills();
    readings();
    by_layers();
    finished_places();
    refused_tracks();
    pages();
    rounded_pages();
    full_pages();
    kernels();
    conversions();
    strict_conversions();
    refused_lines();
    written_lines();
    longest_lines();
    read_lines();
    refused_texts();
    many_lines();
    closed();
    meshes();
    refused_meshes();
    source_lists();
    numbers();
    printf("%d checks\n", checks);
    return 0;
}
