/* The host's part of libcauchy: what a C or C++ program wants beside the store, in c/cauchy_host.c.
 *
 * THIS PART IS NOT PROVED. It is plain C, tested by host/tests/host.c; cauchy.h has the proved functions. It has
 * no state and allocates nothing, and what cauchy.h says on runs, threads and answers holds for it too. */
#ifndef CAUCHY_HOST_H
#define CAUCHY_HOST_H

#include "cauchy.h"

#ifdef __cplusplus
extern "C" {
#endif

/* Refusals of this part, above every number of the specification. */
enum {
    CAUCHY_HOST_FOREIGN = 1001,     /* the bytes do not begin as a snapshot does */
    CAUCHY_HOST_LENGTH = 1002,      /* the bytes are fewer or more than their counts say */
    CAUCHY_HOST_CHECKSUM = 1003,    /* the checksum does not fit */
    CAUCHY_HOST_FLOAT_STATE = 1004, /* the thread's floating-point state is not the default one */
    CAUCHY_HOST_SHORT_BYTES = 1005  /* the bytes to be written are too few for the snapshot */
};

/* What a refusal means, in a line: any `no` of cauchy.h or of this file. Never NULL. */
const char *cauchy_refusal_text(uint32_t no);

/* The version of the library that is linked, to be compared with CAUCHY_VERSION of the header. */
const char *cauchy_version(void);

/* 1 where the floating-point state of this thread is the default one (guarantee 4 of cauchy.h), else 0. */
CAUCHY_MUST_USE
int cauchy_float_state_default(void);

/* ---- Lines ---------------------------------------------------------------------------------------- */

/* The counts in the opening line of a store's lines, by which the runs for cauchy_store_read are lent. 13 where the
 * bytes do not begin with an opening line, or are too few for the lines that it counts; 2 where a count is above the
 * limits. cauchy_store_read refuses these bytes too, with 13 or 2, whatever runs are lent; and it may refuse others.
 *                                                                                                 13 2 */
CAUCHY_MUST_USE
CauchyOpened cauchy_lines_look(const uint8_t *bytes, size_t n_bytes);

/* ---- Snapshots ------------------------------------------------------------------------------------ */

/* A store as bytes, the same in C, Rust and Python. Numbers have their lowest byte first: the eight bytes
 * CAUCHY02; the count of floats and the count of words, eight bytes each; the floats, eight bytes each, by their
 * bits; the words, four bytes each; and the CRC-64/XZ of all bytes before it, eight bytes.
 *
 * A snapshot of the form before layers is the same with CAUCHY01 and three words to a place. It is read too: its store
 * is carried over by cauchy_store_carry, every kernel in layer 0, and `carried` tells so. None is written. */

/* The bytes that a snapshot needs for V vertices and F faces. */
#define CAUCHY_SNAPSHOT_BYTES(V, F) ((size_t)32 + 8 * CAUCHY_STORE_FLOATS(V) + 4 * CAUCHY_STORE_WORDS(F))

typedef struct CauchySnapshot {
    uint32_t no;
    size_t bytes;         /* the length of the snapshot */
    size_t floats, words; /* the lengths of its two runs, as cauchy_snapshot_read needs them */
    uint32_t carried;     /* 1: it is of the form before layers, and reading it carries its store over; else 0 */
} CauchySnapshot;

typedef struct CauchyRestored {
    uint32_t no, verts, faces; /* of the mesh */
    uint32_t carried;          /* 1: the store was carried over from the form before layers; else 0 */
} CauchyRestored;

/* Writes a snapshot of a store; elements of the runs past the store's own are left out, and bytes past the
 * snapshot stay.                                                                              4 5 1005 */
CAUCHY_MUST_USE
CauchySnapshot cauchy_snapshot_write(const double *floats, size_t n_floats, const uint32_t *words, size_t n_words,
                                     uint8_t *bytes, size_t n_bytes);

/* Whether bytes are a whole snapshot, and the lengths of the runs that cauchy_snapshot_read needs for them. For a
 * snapshot of the form before layers they are about twice those of the store: the old store stands behind the new one
 * while it is carried over.                                                                 1001 1002 1003 */
CAUCHY_MUST_USE
CauchySnapshot cauchy_snapshot_look(const uint8_t *bytes, size_t n_bytes);

/* Makes two runs the store of a snapshot, from which it goes on. Longer runs are good, and keep their excess past the
 * lengths that cauchy_snapshot_look tells. A damaged snapshot changes no element. One that is whole by its checksum but
 * holds no store (5, or 4 where its own runs are too short for its mesh) has been written to the runs when that is
 * seen: they hold no store then.                                              1004 1001 1002 1003 4 5 */
CAUCHY_MUST_USE
CauchyRestored cauchy_snapshot_read(double *floats, size_t n_floats, uint32_t *words, size_t n_words,
                                    const uint8_t *bytes, size_t n_bytes);

#ifdef __cplusplus
}
#endif

#endif
