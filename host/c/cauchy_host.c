/* The host's part of libcauchy, which is NOT PROVED: include/cauchy_host.h tells what each function does. It is
 * compiled by the Makefile into the installed libraries, or by a program that takes the archive as it is. */
#include "cauchy_host.h"

#include <string.h>
#include <xmmintrin.h>

/* The words are those of the Rust crate; host/tests/declarations.py compares them. */
const char *cauchy_refusal_text(uint32_t no) {
    switch (no) {
    case CAUCHY_ACCEPTED: return "accepted";
    case CAUCHY_RAGGED: return "ragged: a count of coordinates or corners is not a multiple of 3";
    case CAUCHY_OVERSIZE: return "oversize: more than 1,048,576 vertices or 2,097,152 faces";
    case CAUCHY_LOOSE_CORNER: return "loose corner: a face names a vertex that is not there";
    case CAUCHY_SHORT_STORE: return "short store: a run is too short for its mesh";
    case CAUCHY_UNSOUND: return "unsound: the runs hold no sound store";
    case CAUCHY_NO_PLACE: return "no place: the places are 0 to 31";
    case CAUCHY_VACANT: return "vacant: the place is empty";
    case CAUCHY_UNFINISHED: return "unfinished: work is left that this reading needs";
    case CAUCHY_SHORT_LIST: return "short list: six floats are needed for each kernel";
    case CAUCHY_BAD_MATRIX: return "bad matrix: more than 16 equations, or lengths that do not fit";
    case CAUCHY_FLAT_PIVOT: return "flat pivot: the pivot chosen in some column is at most 1e-18";
    case CAUCHY_EXPONENT: return "exponent: some exponent is farther than 1e-9 from 1";
    case CAUCHY_BAD_LINE: return "bad line: the bytes are not one whole opening and then puts";
    case CAUCHY_BAD_TRACK: return "bad track: more than 4,096 points, or lengths that do not fit";
    case CAUCHY_MANY_KERNELS: return "many kernels: a bill takes at most 32";
    case CAUCHY_NO_LAYER: return "no layer: the layers are 0 to 15";
    case CAUCHY_NO_FIGURE: return "no figure: the mass of a place is NaN or exceeds 10^15 kg";
    case CAUCHY_SHORT_PAGE: return "short page: 65 bytes are needed for each filled place and for the total";
    case CAUCHY_SHORT_TEXT: return "short text: the bytes are too few for the store's lines";
    case CAUCHY_BAD_KERNEL_LINE: return "bad kernel line: not (kernel (c h h h) (sigma h) (w h) (alpha h or none))";
    case CAUCHY_LOADERS_DIFFER: return "loaders differ: native and source make different kernels of some line";
    case CAUCHY_NOT_CLOSED: return "not closed: an edge does not occur once each way, or a face names a corner twice";
    case CAUCHY_HOST_FOREIGN: return "not a snapshot of a store";
    case CAUCHY_HOST_LENGTH: return "damaged: bytes are missing, or there are too many";
    case CAUCHY_HOST_CHECKSUM: return "damaged: its checksum does not fit its bytes";
    case CAUCHY_HOST_FLOAT_STATE: return "floating-point state is not the default";
    case CAUCHY_HOST_SHORT_BYTES: return "short bytes: the snapshot needs more of them";
    default: return "a number that no refusal has";
    }
}

const char *cauchy_version(void) { return CAUCHY_VERSION; }

/* Of MXCSR: subnormal operands as zero, the six masks, the rounding, subnormal results as zero. */
int cauchy_float_state_default(void) {
    const unsigned control = 0xffc0, masks = 0x1f80;
    return (_mm_getcsr() & control) == masks;
}

/* ---- Lines ---------------------------------------------------------------------------------------- */

/* Bytes that are read from the front, until one does not fit. */
typedef struct Rest {
    const uint8_t *at;
    size_t count;
    int good;
} Rest;

static void take_text(Rest *rest, const char *text) {
    const size_t count = strlen(text);
    rest->good = rest->good && rest->count >= count && !memcmp(rest->at, text, count);
    if (rest->good) rest->at += count, rest->count -= count;
}

static void take_pattern(Rest *rest) {
    size_t digits = 0;
    while (rest->good && digits < 16 && digits < rest->count && rest->at[digits] != 0 &&
           strchr("0123456789ABCDEF", rest->at[digits]))
        digits++;
    rest->good = rest->good && digits == 16;
    if (rest->good) rest->at += 16, rest->count -= 16;
}

/* A number of at most 32 bits, in decimal and without leading zeros. */
static uint32_t take_number(Rest *rest) {
    uint64_t number = 0;
    size_t digits = 0;
    while (rest->good && digits < rest->count && rest->at[digits] >= '0' && rest->at[digits] <= '9' && digits < 11)
        number = 10 * number + (uint64_t)(rest->at[digits++] - '0');
    rest->good = rest->good && digits > 0 && (rest->at[0] != '0' || digits == 1) && number <= UINT32_MAX;
    if (rest->good) rest->at += digits, rest->count -= digits;
    return rest->good ? (uint32_t)number : 0;
}

CauchyOpened cauchy_lines_look(const uint8_t *bytes, size_t n_bytes) {
    enum { VERT = 58, SHORTEST_FACE = 13 };
    Rest rest = {bytes, n_bytes, 1};
    CauchyOpened told = {CAUCHY_BAD_LINE, 0, 0};
    take_text(&rest, "(open (radius "), take_pattern(&rest), take_text(&rest, ") (verts ");
    const uint32_t verts = take_number(&rest);
    take_text(&rest, ") (faces ");
    const uint32_t faces = take_number(&rest);
    take_text(&rest, "))\n");
    /* neither product overflows: both numbers have 32 bits */
    const uint64_t need = (uint64_t)VERT * verts + (uint64_t)SHORTEST_FACE * faces;
    if (!rest.good || need > rest.count) return told;
    told.no = verts > CAUCHY_MAX_VERTICES || faces > CAUCHY_MAX_FACES ? CAUCHY_OVERSIZE : CAUCHY_ACCEPTED;
    if (told.no == CAUCHY_ACCEPTED) told.verts = verts, told.faces = faces;
    return told;
}

/* ---- Snapshots ------------------------------------------------------------------------------------ */

enum { HEAD = 24, CHECKSUM = 8 };
static const uint8_t magic[8] = {'C', 'A', 'U', 'C', 'H', 'Y', '0', '2'};
static const uint8_t old_magic[8] = {'C', 'A', 'U', 'C', 'H', 'Y', '0', '1'};

static void put_number(uint8_t *at, uint64_t number, int size) {
    for (int i = 0; i < size; i++) at[i] = (uint8_t)(number >> 8 * i);
}

static uint64_t get_number(const uint8_t *at, int size) {
    uint64_t number = 0;
    for (int i = 0; i < size; i++) number |= (uint64_t)at[i] << 8 * i;
    return number;
}

static uint64_t crc_of_byte(uint64_t rest) {
    for (int bit = 0; bit < 8; bit++) rest = rest & 1 ? rest >> 1 ^ 0xc96c5795d7870f42 : rest >> 1;
    return rest;
}

/* The CRC-64/XZ. Its table is made anew in each call, in 2 KiB of the stack, so that there is no state. */
static uint64_t crc64(const uint8_t *bytes, size_t count) {
    uint64_t table[256], sum = UINT64_MAX;
    for (unsigned i = 0; i < 256; i++) table[i] = crc_of_byte(i);
    for (size_t i = 0; i < count; i++) sum = sum >> 8 ^ table[(sum ^ bytes[i]) & 255];
    return ~sum;
}

static CauchySnapshot snapshot(uint32_t no, size_t floats, size_t words) {
    CauchySnapshot told = {no, 0, 0, 0, 0};
    if (no != CAUCHY_ACCEPTED) return told;
    told.bytes = HEAD + 8 * floats + 4 * words + CHECKSUM, told.floats = floats, told.words = words;
    return told;
}

/* 4 or 5 where the runs hold no sound store. A density as entered is refused for nothing else. */
static uint32_t unsound(const double *floats, size_t n_floats, const uint32_t *words, size_t n_words) {
    const CauchyConvention raw = {CAUCHY_RAW, 0, 0};
    const CauchyVector origin = {0, 0, 0};
    return cauchy_store_density(floats, n_floats, words, n_words, raw, CAUCHY_ALL_LAYERS, origin).no;
}

/* Whether all that stands past the mesh is what squeezes leave: no word, and the zeros of whole vertices. A store of
 * this form, or of the one before it, has `own_words` words. */
static int exact(const double *floats, size_t n_floats, const uint32_t *words, size_t n_words, size_t own_words) {
    uint64_t bits, stray = 0;
    const size_t own = CAUCHY_STORE_FLOATS(words[0]);
    for (size_t i = own; i < n_floats; i++) memcpy(&bits, floats + i, sizeof bits), stray |= bits;
    return n_words == own_words && (n_floats - own) % 3 == 0 && stray == 0;
}

CauchySnapshot cauchy_snapshot_write(const double *floats, size_t n_floats, const uint32_t *words, size_t n_words,
                                     uint8_t *bytes, size_t n_bytes) {
    const uint32_t no = unsound(floats, n_floats, words, n_words);
    if (no != CAUCHY_ACCEPTED) return snapshot(no, 0, 0);
    const CauchySnapshot told = snapshot(0, CAUCHY_STORE_FLOATS(words[0]), CAUCHY_STORE_WORDS(words[1]));
    if (n_bytes < told.bytes) return snapshot(CAUCHY_HOST_SHORT_BYTES, 0, 0);
    uint8_t *at = bytes + HEAD;
    uint64_t bits;
    memcpy(bytes, magic, sizeof magic);
    put_number(bytes + 8, told.floats, 8);
    put_number(bytes + 16, told.words, 8);
    for (size_t i = 0; i < told.floats; i++, at += 8) memcpy(&bits, floats + i, 8), put_number(at, bits, 8);
    for (size_t i = 0; i < told.words; i++, at += 4) put_number(at, words[i], 4);
    put_number(at, crc64(bytes, told.bytes - CHECKSUM), CHECKSUM);
    return told;
}

/* Whether bytes are a whole snapshot, of either form, and the counts of its two runs. */
static CauchySnapshot whole_snapshot(const uint8_t *bytes, size_t n_bytes) {
    const int long_enough = n_bytes >= sizeof magic;
    const int old = long_enough && !memcmp(bytes, old_magic, sizeof magic);
    if (!old && (!long_enough || memcmp(bytes, magic, sizeof magic) != 0)) return snapshot(CAUCHY_HOST_FOREIGN, 0, 0);
    if (n_bytes < HEAD + CHECKSUM) return snapshot(CAUCHY_HOST_LENGTH, 0, 0);
    const size_t body = n_bytes - HEAD - CHECKSUM;
    const uint64_t floats = get_number(bytes + 8, 8), words = get_number(bytes + 16, 8);
    /* each product is at most the body, so nothing overflows */
    const int fits = floats <= body / 8 && words <= body / 4 && 8 * floats + 4 * words == body;
    if (!fits) return snapshot(CAUCHY_HOST_LENGTH, 0, 0);
    const size_t covered = n_bytes - CHECKSUM;
    if (crc64(bytes, covered) != get_number(bytes + covered, CHECKSUM)) return snapshot(CAUCHY_HOST_CHECKSUM, 0, 0);
    CauchySnapshot told = snapshot(CAUCHY_ACCEPTED, floats, words);
    told.carried = (uint32_t)old;
    return told;
}

/* The lengths that reading it needs. An old store has as many floats as the new one and 32 words less; its runs stand
 * behind the new ones while it is carried over. */
static CauchySnapshot needed(CauchySnapshot whole) {
    if (whole.carried) whole.floats += whole.floats, whole.words += whole.words + CAUCHY_PLACES;
    return whole;
}

CauchySnapshot cauchy_snapshot_look(const uint8_t *bytes, size_t n_bytes) {
    return needed(whole_snapshot(bytes, n_bytes));
}

static CauchyRestored restored(uint32_t no, const uint32_t *words, uint32_t carried) {
    CauchyRestored told = {no, 0, 0, 0};
    if (no == CAUCHY_ACCEPTED) told.verts = words[0], told.faces = words[1], told.carried = carried;
    return told;
}

/* The two runs of a whole snapshot. */
static void get_runs(CauchySnapshot whole, const uint8_t *bytes, double *floats, uint32_t *words) {
    const uint8_t *at = bytes + HEAD;
    uint64_t bits;
    for (size_t i = 0; i < whole.floats; i++, at += 8) bits = get_number(at, 8), memcpy(floats + i, &bits, 8);
    for (size_t i = 0; i < whole.words; i++, at += 4) words[i] = (uint32_t)get_number(at, 4);
}

/* The store of a snapshot of this form; `no`. */
static uint32_t read_store(CauchySnapshot whole, const uint8_t *bytes, double *floats, uint32_t *words) {
    get_runs(whole, bytes, floats, words);
    const uint32_t no = unsound(floats, whole.floats, words, whole.words);
    if (no != CAUCHY_ACCEPTED) return no;
    const int own = exact(floats, whole.floats, words, whole.words, CAUCHY_STORE_WORDS(words[1]));
    return own ? CAUCHY_ACCEPTED : CAUCHY_UNSOUND;
}

/* The store of a snapshot of the form before layers, carried over; `no`. */
static uint32_t carry_store(CauchySnapshot whole, const uint8_t *bytes, double *floats, uint32_t *words) {
    const size_t n_floats = whole.floats, n_words = whole.words + CAUCHY_PLACES;
    double *old_floats = floats + n_floats;
    uint32_t *old_words = words + n_words;
    get_runs(whole, bytes, old_floats, old_words);
    const CauchyOpened told =
        cauchy_store_carry(old_floats, whole.floats, old_words, whole.words, floats, n_floats, words, n_words);
    if (told.no != CAUCHY_ACCEPTED) return told.no;
    const int own = exact(old_floats, whole.floats, old_words, whole.words, CAUCHY_OLD_STORE_WORDS(told.faces));
    return own ? CAUCHY_ACCEPTED : CAUCHY_UNSOUND;
}

CauchyRestored cauchy_snapshot_read(double *floats, size_t n_floats, uint32_t *words, size_t n_words,
                                    const uint8_t *bytes, size_t n_bytes) {
    if (!cauchy_float_state_default()) return restored(CAUCHY_HOST_FLOAT_STATE, words, 0);
    const CauchySnapshot whole = whole_snapshot(bytes, n_bytes), needs = needed(whole);
    if (whole.no != CAUCHY_ACCEPTED) return restored(whole.no, words, 0);
    if (n_floats < needs.floats || n_words < needs.words) return restored(CAUCHY_SHORT_STORE, words, 0);
    const uint32_t no = (whole.carried ? carry_store : read_store)(whole, bytes, floats, words);
    return restored(no, words, whole.carried);
}
