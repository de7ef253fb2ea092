/* The Cauchy density store: the C interface of libcauchy.a (x86-64).
 *
 * A list of density kernels w * (1 + sigma^2 * |x - c|^2)^-alpha inside a triangle mesh, its density, its
 * mass, and its weights rescaled by a convention. Lengths are metres, densities kg/m^3, masses kg, unless
 * a line says kilometres. Every function is proved to end and to meet its contract for all arguments, NaN
 * and runs of any length and contents among them; documents 01 and 02 are the specification.
 *
 * Runs. An array is lent as a pointer and a count of elements (size_t), two arguments side by side:
 *   mesh         xyz: 3 doubles a vertex; faces: 3 vertex numbers a face, from 0
 *   kernel list  6 doubles a kernel: c (3), sigma, w, alpha
 *   lines        the bytes of a file of kernels
 *   bytes        the bytes of a store's lines, without a byte 0 after them
 *   track        3 doubles a point
 *   page         bytes of text, without a byte 0 after them
 *   store        floats and words: the store itself, which has no memory elsewhere
 * A run that a call only reads is const.
 *
 * Layers. A set of layers is a uint32_t, bit l for layer l: (1u << 2 | 1u << 5) is layers 2 and 5,
 * CAUCHY_ALL_LAYERS all sixteen. A bit from 16 on names a layer that there is not (16). A reading sees only the
 * places whose layer is in its set, as if all others were empty; the volume is that of the whole mesh. The set
 * of no layer is good: nothing is seen.
 *
 * Answers. The first field, `no`, is 0 where the call is accepted, else the number of the refusal. The
 * numbers before a declaration are the refusals that it may answer: the first of those listed that applies
 * is answered. A refused call changes no element of any run, and its other fields are 0, but for the column
 * of a flat pivot.
 *
 * What the host guarantees, and what happens otherwise:
 *  1. A run of n > 0 elements is n initialised elements, aligned as its type. (A run of 0 elements may have
 *     any pointer, NULL too.) Otherwise: undefined behaviour, as for any C function that is lent an array.
 *  2. A run that is not const overlaps no other run of the same call. Otherwise: the call still ends, but
 *     the answer and the runs may be neither the old nor the right ones.
 *  3. One writer: while a call runs, no one else writes its runs, nor reads those that are not const.
 *     Otherwise: a data race, undefined behaviour. There is no other shared state: calls on different
 *     stores may run in different threads, and so may readings of one store.
 *  4. The default floating-point state of the thread (MXCSR 0x1F80: to nearest, subnormals kept, exceptions
 *     masked). Otherwise memory stays safe, but the values are not those specified. A program linked by
 *     `gcc -ffast-math` starts with subnormals flushed to zero. Unmasked exceptions may end the process.
 *  5. Snapshots of the two runs are taken between calls only. Otherwise (also where a process is killed
 *     inside a call) the runs are half written, and may still look sound.
 *  6. Stack. The local memory of any call stays within 512 KiB, so a thread needs no more than 2 MiB of
 *     stack. Otherwise: the stack overflows, as in any C function.
 *
 * host/tests/abi.c holds this file to the archive. */
#ifndef CAUCHY_H
#define CAUCHY_H

#include <stddef.h>
#include <stdint.h>

/* The version of this file, of the host's part and of the packages, which stands in host/Cargo.toml. */
#define CAUCHY_VERSION "0.1.0"

/* Stands before every function that may refuse: an answer that is not looked at is a mistake. */
#if defined(__GNUC__)
#define CAUCHY_MUST_USE __attribute__((warn_unused_result))
#elif defined(__cplusplus) && __cplusplus >= 201703L
#define CAUCHY_MUST_USE [[nodiscard]]
#else
#define CAUCHY_MUST_USE
#endif

#ifdef __cplusplus
extern "C" {
#endif

/* ---- Refusals ------------------------------------------------------------------------------------- */

enum {
    CAUCHY_ACCEPTED = 0,
    CAUCHY_RAGGED = 1,           /* a count of coordinates or corners that is not a multiple of 3 */
    CAUCHY_OVERSIZE = 2,         /* more vertices or faces than the limits below */
    CAUCHY_LOOSE_CORNER = 3,     /* a corner names a vertex that is not there */
    CAUCHY_SHORT_STORE = 4,      /* a run of the store is too short for its mesh */
    CAUCHY_UNSOUND = 5,          /* the runs hold no sound store */
    CAUCHY_NO_PLACE = 6,         /* the place is 32 or above */
    CAUCHY_VACANT = 7,           /* the place to be cleared, reweighed or adopted is empty */
    CAUCHY_UNFINISHED = 8,       /* work is left that this reading needs: advance first */
    CAUCHY_SHORT_LIST = 9,       /* the run to be written is too short, or a kernel list is not of sixes */
    CAUCHY_BAD_MATRIX = 10,      /* n above 16, or lengths that do not go with n */
    CAUCHY_FLAT_PIVOT = 11,      /* the pivot chosen in some column is at most 1e-18 in absolute value */
    CAUCHY_EXPONENT = 12,        /* an exponent more than 1e-9 from 1, where only 1 can be integrated; a NaN passes */
    CAUCHY_BAD_LINE = 13,        /* the bytes are not one whole opening and then puts */
    CAUCHY_BAD_TRACK = 14,       /* a track of more than 4,096 points or not of threes, or its run is too short */
    CAUCHY_MANY_KERNELS = 15,    /* more kernels to be billed than a store has places */
    CAUCHY_NO_LAYER = 16,        /* a layer above 15, given to a put or in a set of layers */
    CAUCHY_NO_FIGURE = 17,       /* the mass of a place is NaN or exceeds 10^15 kg, and a page cannot show it */
    CAUCHY_SHORT_PAGE = 18,      /* the bytes to be written are too few for the page */
    CAUCHY_SHORT_TEXT = 19,      /* the bytes to be written are too few for the store's lines */
    CAUCHY_BAD_KERNEL_LINE = 20, /* a line of a file is no kernel line */
    CAUCHY_LOADERS_DIFFER = 21,  /* the two loaders make different kernels of the lines */
    CAUCHY_NOT_CLOSED = 22       /* the mesh is not closed */
};

/* ---- Sizes ---------------------------------------------------------------------------------------- */

enum {
    CAUCHY_MAX_VERTICES = 1048576,
    CAUCHY_MAX_FACES = 2097152,
    CAUCHY_PLACES = 32,     /* places of a store, numbered from 0 */
    CAUCHY_MAX_PIECES = 16, /* pieces of one kernel, so a store's list is at most 32 * 16 * 6 doubles */
    CAUCHY_MAX_TRACK = 4096, /* points of one track */
    CAUCHY_LAYERS = 16,      /* layers of a store, numbered from 0 */
    CAUCHY_ALL_LAYERS = 0xFFFF /* the set of all layers */
};

/* The lengths that a store needs for V vertices and F faces; longer runs are good, and keep their excess. */
#define CAUCHY_STORE_FLOATS(V) ((size_t)1761 + (size_t)3 * (size_t)(V))
#define CAUCHY_STORE_WORDS(F) ((size_t)130 + (size_t)3 * (size_t)(F))

/* The words of a store of the form before layers, which cauchy_store_carry takes: three to a place, and not four. Its
 * doubles are those of CAUCHY_STORE_FLOATS. */
#define CAUCHY_OLD_STORE_WORDS(F) ((size_t)98 + (size_t)3 * (size_t)(F))

/* The bytes of the page of P filled places: 64 characters and a newline for each of them, and for the total. */
#define CAUCHY_PAGE_BYTES(P) ((size_t)65 * ((size_t)(P) + 1))

/* The most bytes that the lines of a store of V vertices and F faces have, both within the limits: of an opening
 * 51 and its two counts, of a vertex 58, of a face 10 and its three corners, of the 32 places 142 each with the
 * digits of their numbers, 54 in all, and of their layers, at most 64. CAUCHY_DIGITS is how many a count has. */
#define CAUCHY_DIGITS(N) \
    ((size_t)1 + ((N) > 9) + ((N) > 99) + ((N) > 999) + ((N) > 9999) + ((N) > 99999) + ((N) > 999999))
#define CAUCHY_LINES_BYTES(V, F) \
    ((size_t)51 + CAUCHY_DIGITS(V) + CAUCHY_DIGITS(F) + (size_t)58 * (size_t)(V) + \
     ((size_t)10 + 3 * CAUCHY_DIGITS((V) > 0 ? (V)-1 : 0)) * (size_t)(F) + (size_t)(142 * 32 + 54 + 64))

/* The doubles that are enough for the kernels of any B bytes of lines: a kernel line has 123 bytes or more. */
#define CAUCHY_CONVERT_FLOATS(B) ((size_t)6 * ((size_t)(B) / 123))

/* ---- Values --------------------------------------------------------------------------------------- */

/* A point or a vector, in metres. */
typedef struct CauchyVector {
    double x, y, z;
} CauchyVector;

/* A kernel: centre [m], inverse width sigma [1/m], weight [kg/m^3], exponent. */
typedef struct CauchyKernel {
    double c[3];
    double sigma, w, alpha;
} CauchyKernel;

/* A kernel as its file has it: centre [km], sigma [1/km], weight [kg/m^3], exponent. */
typedef struct CauchyFileKernel {
    double c[3];
    double sigma, w, alpha;
    uint32_t given; /* 0: the file gives no exponent, and alpha is not read */
} CauchyFileKernel;

/* Which of the original's two loaders makes the kernels of a file. They differ in the exponent alone. */
enum {
    CAUCHY_NATIVE = 0, /* one that is missing or not above 0, a NaN too, becomes the default */
    CAUCHY_SOURCE = 1, /* one that is missing becomes the default; one that is given is kept, whatever it is */
    CAUCHY_STRICT = 2  /* either, where both give equal kernels, every NaN alike; so is any number above 2 */
};

/* How one reading rescales the weights; the kept weights never change. */
enum {
    CAUCHY_RAW = 0,  /* as entered; reports use a bulk density of 1190 */
    CAUCHY_RHO0 = 1, /* the density at the origin becomes `bulk` */
    CAUCHY_MASS = 2  /* the mass becomes `target`, or as rho0 where that cannot be; so is any kind above 2 */
};

typedef struct CauchyConvention {
    uint32_t kind;
    double target; /* kg; read by mass; not above 0 or NaN: no target */
    double bulk;   /* kg/m^3; read by rho0 and mass; not above 0 or NaN: 1190 */
} CauchyConvention;

/* Masses before and after a convention's scale. */
typedef struct CauchyMassReport {
    double raw_mass;      /* kg, weights as entered */
    double rho0_scale;    /* the factor by which the density at the origin becomes bulk */
    double rho0_mass;     /* kg, after that factor */
    double applied_scale; /* the convention's factor */
    double applied_mass;  /* kg, after the convention's factor */
    double target_mass;   /* kg, the convention's target; 0 where it has none */
    double volume;        /* m^3, of the mesh, signed */
} CauchyMassReport;

/* ---- Answers: `no` first -------------------------------------------------------------------------- */

typedef struct CauchyOpened {
    uint32_t no, verts, faces; /* of the mesh */
} CauchyOpened;

/* How a kernel's fit ended. */
enum {
    CAUCHY_KEPT = 0,       /* the exponent is within 1e-9 of 1: the kernel stays, and nothing is fitted */
    CAUCHY_FITTED = 1,     /* by the solver */
    CAUCHY_FALLBACK = 2,   /* the solver met a flat pivot, and one piece stands for the fit */
    CAUCHY_NO_EXPONENT = 3 /* the exponent is a NaN: there is no piece */
};

typedef struct CauchyFit {
    uint32_t kind;   /* one of those */
    uint32_t column; /* CAUCHY_FALLBACK: the column of the flat pivot, from 0; else 0 */
    double pivot;    /* CAUCHY_FITTED: the smallest pivot accepted, in absolute value: above 1e-18 or a NaN; else 0 */
} CauchyFit;

typedef struct CauchyPlaced {
    uint32_t no, pieces, need; /* the kernel's pieces, and the steps that they need */
    CauchyFit fit;             /* all 0 at a refusal */
} CauchyPlaced;

typedef struct CauchySqueezed {
    uint32_t no, freed; /* coordinates freed, three a vertex */
} CauchySqueezed;

typedef struct CauchySteps {
    uint32_t no;
    uint64_t done, left; /* steps that this call did, and that are left */
} CauchySteps;

typedef struct CauchyAdopted {
    uint32_t no, same_body; /* 1 where the other store is of the same body, and its place came across; else 0 */
    uint32_t pieces;        /* of the place that came across; 0 where none did */
    uint64_t left;          /* steps that it has left */
} CauchyAdopted;

typedef struct CauchyValue {
    uint32_t no;
    double value;
} CauchyValue;

typedef struct CauchyPoint {
    uint32_t no;
    CauchyVector at;
} CauchyPoint;

typedef struct CauchyReport {
    uint32_t no;
    CauchyMassReport report;
} CauchyReport;

typedef struct CauchyStoreReport {
    uint32_t no;
    CauchyMassReport report;
    uint32_t kernels, pieces; /* filled places, and their pieces */
    double error;             /* the greatest error of a fit, as a fraction of its kernel's peak */
} CauchyStoreReport;

typedef struct CauchyFinished {
    uint32_t no;
    CauchyMassReport report;
    uint32_t kernels, pieces; /* filled places that are complete, and their pieces */
    double error;             /* the greatest error of a fit among them, as a fraction of its kernel's peak */
    uint32_t passed_over;     /* filled places of the layers that have work left */
} CauchyFinished;

typedef struct CauchyListed {
    uint32_t no, pieces; /* pieces written */
} CauchyListed;

typedef struct CauchyTrack {
    uint32_t no, points; /* points whose density is written */
} CauchyTrack;

typedef struct CauchyBytes {
    uint32_t no;
    uint64_t bytes; /* bytes written */
} CauchyBytes;

typedef struct CauchyLoaded {
    uint32_t no, verts, faces; /* of the mesh */
    uint64_t puts;             /* lines of puts, all taken */
} CauchyLoaded;

typedef struct CauchyKernels {
    uint32_t no;
    uint64_t kernels; /* kernels written */
} CauchyKernels;

typedef struct CauchyPieces {
    uint32_t no;
    uint64_t pieces; /* pieces written */
    double error;    /* the fit's greatest error, as a fraction of the kernel's peak */
    CauchyFit fit;   /* all 0 at a refusal */
} CauchyPieces;

typedef struct CauchyListPieces {
    uint32_t no;
    uint64_t kernels, pieces; /* kernels of the list, and pieces written */
    double error;             /* the greatest error of a fit, 0 where none was needed */
} CauchyListPieces;

typedef struct CauchySolved {
    uint32_t no, column; /* CAUCHY_FLAT_PIVOT: the column of the flat pivot, from 0; else 0 */
    double pivot;        /* the smallest pivot accepted, in absolute value: infinite for n = 0, a NaN where one was */
} CauchySolved;

typedef struct CauchyBill {
    uint32_t no;
    uint64_t steps, floats; /* the most steps that puts charge, and the most doubles that a list needs */
} CauchyBill;

/* ---- The store ------------------------------------------------------------------------------------ */

/* Makes two runs a store of this mesh and body radius, every place empty; what they held does not matter.
 * The radius bounds the fits of exponents other than 1.                                        1 2 3 4 */
CAUCHY_MUST_USE
CauchyOpened cauchy_store_open(double *floats, size_t n_floats, uint32_t *words, size_t n_words, double radius,
                               const double *xyz, size_t n_xyz, const uint32_t *faces, size_t n_faces);

/* Carries a store of the form before layers over, as its calls left it between two of them: makes two fresh runs a
 * store like it, with every kernel in layer 0. Work goes on where it was; nothing is fitted anew, and pieces go across
 * as they are held, also those of a version whose powers were others. The old runs are only read, what they have past
 * the old store's own is left behind, and what the new runs held does not matter; they keep their excess. 4 is
 * answered where the old runs are too short for the counts in them, or the new ones for a store of these counts; 5
 * where the old runs hold no sound store.                                                          4 5 */
CAUCHY_MUST_USE
CauchyOpened cauchy_store_carry(const double *old_floats, size_t n_old_floats, const uint32_t *old_words,
                                size_t n_old_words, double *floats, size_t n_floats, uint32_t *words, size_t n_words);

/* Puts a kernel into a place, whatever that held, with all its work to do, in a layer from 0 to 15, and tells how its
 * fit ended; the store does not keep that.                                                    4 5 6 16 */
CAUCHY_MUST_USE
CauchyPlaced cauchy_store_put(double *floats, size_t n_floats, uint32_t *words, size_t n_words, uint32_t place,
                              CauchyKernel kernel, uint32_t layer);

/* Empties a place; answers `no`.                                                               4 5 6 7 */
CAUCHY_MUST_USE
uint32_t cauchy_store_clear(double *floats, size_t n_floats, uint32_t *words, size_t n_words, uint32_t place);

/* Gives the kernel of a place another weight, its work and its layer kept; answers `no`.       4 5 6 7 */
CAUCHY_MUST_USE
uint32_t cauchy_store_reweigh(double *floats, size_t n_floats, uint32_t *words, size_t n_words, uint32_t place,
                              double w);

/* Takes the vertices that no face uses out of the mesh. The others keep their order, corners are renumbered to
 * match, and the doubles that are freed, the last of the old coordinates, become 0. It may come between any
 * two calls: no place, no step and no later reading changes by it.                                 4 5 */
CAUCHY_MUST_USE
CauchySqueezed cauchy_store_squeeze(double *floats, size_t n_floats, uint32_t *words, size_t n_words);

/* Does up to `budget` steps of the work left, one face of one piece each. Every call looks the store over
 * first, about half a ns a face, so budgets of many faces are cheapest. A budget of 0 tells what is left. 4 5 */
CAUCHY_MUST_USE
CauchySteps cauchy_store_advance(double *floats, size_t n_floats, uint32_t *words, size_t n_words, uint64_t budget);

/* Takes what a filled place of another store of the same body holds into a place of this one, whatever that held: the
 * kernel, its layer, its pieces, their error, the volumes so far and the steps done. So the work on a place may be done
 * in another store, on another core or machine, and goes on here where it was. The bodies are the same where radius,
 * counts, coordinates and corners are, bit for bit and every NaN as one; they are compared in full. Where they differ,
 * `same_body` is 0 and nothing is changed. The other runs are only read. 4 and 5 are of either store, 6 is of either
 * place, 7 of the other's place.                                                               4 5 6 7 */
CAUCHY_MUST_USE
CauchyAdopted cauchy_store_adopt(double *floats, size_t n_floats, uint32_t *words, size_t n_words, uint32_t place,
                                 const double *other_floats, size_t n_other_floats, const uint32_t *other_words,
                                 size_t n_other_words, uint32_t other_place);

/* The density at a point, of the places in some layers.
 *                4 5 16 8; 8 while work is left in these places, by mass with a target above 0 only */
CAUCHY_MUST_USE
CauchyValue cauchy_store_density(const double *floats, size_t n_floats, const uint32_t *words, size_t n_words,
                                 CauchyConvention convention, uint32_t layers, CauchyVector point);

/* Masses, counts and the greatest error of the places in some layers.
 *                                               4 5 16 8; 8 while work is left in these places */
CAUCHY_MUST_USE
CauchyStoreReport cauchy_store_report(const double *floats, size_t n_floats, const uint32_t *words, size_t n_words,
                                      CauchyConvention convention, uint32_t layers);

/* The report of what is finished, which may be taken while work is left: of those places in some layers whose steps are
 * complete (a place without pieces, and any place of a mesh without faces, is), and how many filled places of these
 * layers it passed over. It is the report of a store that holds just those places.              4 5 16 */
CAUCHY_MUST_USE
CauchyFinished cauchy_store_finished(const double *floats, size_t n_floats, const uint32_t *words, size_t n_words,
                                     CauchyConvention convention, uint32_t layers);

/* Writes the pieces of the places in some layers as a kernel list, weights rescaled; doubles past them stay.
 *                                                                       4 5 16 8 9; 8 as for a density */
CAUCHY_MUST_USE
CauchyListed cauchy_store_list(const double *floats, size_t n_floats, const uint32_t *words, size_t n_words,
                               CauchyConvention convention, uint32_t layers, double *out, size_t n_out);

/* Writes the density at each point of a track, in order; doubles past them stay. Each is what
 * cauchy_store_density answers at that point, but the store is looked over, and the scale and the rescaled
 * weights are worked, once for the whole track. `n_points` counts doubles, three a point. No points: nothing is
 * written.
 *                                                                      4 5 16 8 14; 8 as for a density */
CAUCHY_MUST_USE
CauchyTrack cauchy_store_track(const double *floats, size_t n_floats, const uint32_t *words, size_t n_words,
                               CauchyConvention convention, uint32_t layers, const double *points, size_t n_points,
                               double *out, size_t n_out);

/* Writes the wall page, of every layer; bytes past it stay. Each filled place has a line, in order: its number in
 * columns 1-2, its pieces in 4-5 and its own field mass in 45-64, by the weight as entered and in whole kilograms,
 * to the nearest and ties to even. All are right-aligned, with spaces elsewhere; a mass below 0 has a minus sign,
 * and zero is 0. A last line has TOTAL in columns 1-5 and the sum of the printed masses in 45-64.
 * CAUCHY_PAGE_BYTES tells the length; that of CAUCHY_PLACES is enough for any store.
 *                                                             4 5 8 17 18; 8 while any work is left */
CAUCHY_MUST_USE
CauchyBytes cauchy_store_page(const double *floats, size_t n_floats, const uint32_t *words, size_t n_words,
                              uint8_t *page, size_t n_page);

/* Writes the store as lines, from which cauchy_store_read makes the same mesh, radius, kernels and layers; bytes past
 * them stay. They are an opening, the vertices, the faces and a put for each filled place by rising place, with the
 * weight as it is kept:
 *   (open (radius H) (verts N) (faces N))
 *   (vert H H H)
 *   (face N N N)
 *   (put N (c H H H) (sigma H) (w H) (alpha H) (layer N))
 * each with a newline, with single spaces and nothing else. H is a double by the 16 upper-case hexadecimal digits of
 * its bits, every NaN as 7FF8000000000000; N is a number in decimal, without leading zeros. The work that is done is
 * not written. CAUCHY_LINES_BYTES tells how many bytes are always enough; with so many the lines are written at once,
 * and with fewer their length is found first, which reads every face once more.                  4 5 19 */
CAUCHY_MUST_USE
CauchyBytes cauchy_store_write(const double *floats, size_t n_floats, const uint32_t *words, size_t n_words,
                               uint8_t *bytes, size_t n_bytes);

/* Makes two runs the store of such lines, with all steps to do; what they held does not matter. It is what the opening
 * and then the puts, line by line, would leave: they may be in any order, and of two into one place the later one
 * stands. A put line may lack ` (layer N)`, and is then in layer 0. A refusal is of all the lines: 13, ahead of all
 * others, where the bytes are not one whole opening and then puts, each line with its newline, a number of more than
 * 32 bits being none; then the first of the others that applies to any line. Counts above the limits, with so many
 * lines, are 2. cauchy_lines_look of cauchy_host.h tells how long the runs must be.      13 2 3 4 6 16 */
CAUCHY_MUST_USE
CauchyLoaded cauchy_store_read(double *floats, size_t n_floats, uint32_t *words, size_t n_words,
                               const uint8_t *bytes, size_t n_bytes);

/* ---- Kernels -------------------------------------------------------------------------------------- */

/* One kernel of a file, in metres. A missing exponent, or one not above 0, becomes `default_alpha`. Never
 * refused. */
CauchyKernel cauchy_kernel_from_file(CauchyFileKernel kernel, double default_alpha);

/* Writes the kernels of a file's lines as a kernel list, in metres and in their order, as a loader makes them;
 * doubles past them stay. A kernel is one of the two lines
 *   (kernel (c H H H) (sigma H) (w H) (alpha H))
 *   (kernel (c H H H) (sigma H) (w H) (alpha none))
 * and a newline, the last one too, with single spaces and nothing else; H is a double of CauchyFileKernel, in
 * kilometres, by the 16 upper-case hexadecimal digits of its bits. No line: no kernel, and nothing is written.
 *                                                                                              20 9 21 */
CAUCHY_MUST_USE
CauchyKernels cauchy_convert(const uint8_t *lines, size_t n_lines, double default_alpha, uint32_t loader, double *out,
                             size_t n_out);

/* Writes a kernel's pieces, on a body of this radius, as a kernel list; 96 doubles are always enough. 9 */
CAUCHY_MUST_USE
CauchyPieces cauchy_decompose(CauchyKernel kernel, double radius, double *out, size_t n_out);

/* Writes the pieces of all kernels of a list, in its order. 96 doubles for each kernel are always enough, and
 * spare the fits that count the pieces of a shorter run first.                                       9 */
CAUCHY_MUST_USE
CauchyListPieces cauchy_decompose_list(const double *kernels, size_t n_kernels, double radius, double *out,
                                       size_t n_out);

/* The bill before the work: what up to 32 kernels take on a mesh of so many vertices and faces, whatever its
 * radius. Puts of them charge at most so many steps, and a list of them needs at most so many doubles. Nothing
 * is fitted: 1 piece is counted for a kernel that stays (an exponent within 1e-9 of 1), none for a NaN exponent,
 * and for another the most that it can have: 13 where |alpha - 1| <= 1, else 16. Both numbers are exact where
 * every kernel stays or has a NaN exponent. `n_kernels` counts doubles, six a kernel.
 *                                                                                               2 9 15 */
CAUCHY_MUST_USE
CauchyBill cauchy_bill(const double *kernels, size_t n_kernels, uint32_t verts, uint32_t faces);

/* The density of a kernel list at a point.                                                           9 */
CAUCHY_MUST_USE
CauchyValue cauchy_densitize(const double *kernels, size_t n_kernels, CauchyVector point);

/* Solves n equations, n + 1 cells each, the right-hand side last.                                10 11 */
CAUCHY_MUST_USE
CauchySolved cauchy_solve(size_t n, const double *cells, size_t n_cells, double *answer, size_t n_answer);

/* ---- Meshes --------------------------------------------------------------------------------------- */

/* Whether the mesh is closed, without which a mass inside it means nothing: no face names a corner twice, and
 * each edge of a face, from a corner to the next, occurs once over all faces, its reverse also once. A mesh
 * without faces is closed. It works in local memory, in passes over the faces; answers `no`.   1 2 3 22 */
CAUCHY_MUST_USE
uint32_t cauchy_closed(const double *xyz, size_t n_xyz, const uint32_t *faces, size_t n_faces);

/* The integral of (1 + sigma^2 * |x - c|^2)^-1 inside the mesh.                                  1 2 3 */
CAUCHY_MUST_USE
CauchyValue cauchy_kernel_volume(const double *xyz, size_t n_xyz, const uint32_t *faces, size_t n_faces,
                                 CauchyVector c, double sigma);

/* The enclosed volume, below 0 where the faces are inside out.                                   1 2 3 */
CAUCHY_MUST_USE
CauchyValue cauchy_body_volume(const double *xyz, size_t n_xyz, const uint32_t *faces, size_t n_faces);

/* The centroid of the enclosed volume; zeros where that is tiny or NaN.                          1 2 3 */
CAUCHY_MUST_USE
CauchyPoint cauchy_volume_centroid(const double *xyz, size_t n_xyz, const uint32_t *faces, size_t n_faces);

/* The mass of a kernel list inside the mesh, exponents taken as 1.                             1 2 3 9 */
CAUCHY_MUST_USE
CauchyValue cauchy_field_mass(const double *xyz, size_t n_xyz, const uint32_t *faces, size_t n_faces,
                              const double *kernels, size_t n_kernels);

/* The report of a body of one density, which is taken as it is given.                            1 2 3 */
CAUCHY_MUST_USE
CauchyReport cauchy_homogeneous(double bulk, const double *xyz, size_t n_xyz, const uint32_t *faces, size_t n_faces);

/* ---- The second implementation of the original (its "source" folder): other orders of operations --- */

/* The density of a kernel list at a point.                                                           9 */
CAUCHY_MUST_USE
CauchyValue cauchy_source_density_at(const double *kernels, size_t n_kernels, CauchyVector point);

/* The integral of (1 + sigma^2 * |x - c|^2)^-1 inside the mesh.                                  1 2 3 */
CAUCHY_MUST_USE
CauchyValue cauchy_source_kernel_volume(const double *xyz, size_t n_xyz, const uint32_t *faces, size_t n_faces,
                                        CauchyVector c, double sigma);

/* The enclosed volume, without its sign.                                                         1 2 3 */
CAUCHY_MUST_USE
CauchyValue cauchy_source_enclosed_volume(const double *xyz, size_t n_xyz, const uint32_t *faces, size_t n_faces);

/* Writes a kernel list rescaled to a target mass inside the mesh.                           1 2 3 9 12 */
CAUCHY_MUST_USE
CauchyKernels cauchy_source_normalize(const double *xyz, size_t n_xyz, const uint32_t *faces, size_t n_faces,
                                      const double *kernels, size_t n_kernels, double target, double *out,
                                      size_t n_out);

/* Writes a kernel list stretched with its mesh and brought to its mass: `mean` density [kg/m^3] times the
 * mesh's volume, or `total` [kg] where `given` is 0.                                        1 2 3 9 12 */
CAUCHY_MUST_USE
CauchyKernels cauchy_source_calibrate(const double *xyz, size_t n_xyz, const uint32_t *faces, size_t n_faces,
                                      const double *kernels, size_t n_kernels, double total, double mean,
                                      uint32_t given, double *out, size_t n_out);

/* ---- Roots and powers of 01, and its radial factor, never refused --------------------------------- */

double cauchy_root(double x);            /* the IEEE 754 square root */
double cauchy_arc(double t);             /* arc tangent */
double cauchy_log(double b);             /* logarithm to base 2 */
double cauchy_exp(double y);             /* 2 to the power y */
double cauchy_power(double b, double y); /* b to the power y */
double cauchy_ten(double y);             /* 10 to the power y; of a whole y from -22 to 22 rounded once */
double cauchy_log10(double b);           /* logarithm to base 10 */
double cauchy_radial_g(double t);        /* (t - arc(t)) / t^3, which is 1/3 at 0 */

#ifdef __cplusplus
}
#endif

#endif
