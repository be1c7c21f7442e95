/* check.c: check as document 01 and requests 2 and 4 of document 02 have it, written the way one would without a proof to
 * carry. It has a heap, marks there which blocks are owned and which the free chain has seen, and takes addresses apart field
 * by field. The benchmark measures the library against it; host/perq/tests/plain_check.rs holds its answers to the reference's.
 */
#include "check.h"
#include <stdlib.h>
#include <string.h>

#if __BYTE_ORDER__ != __ORDER_LITTLE_ENDIAN__
#error "words are read as they lie in the image, low byte first"
#endif

/* Bytes of a record, and of the header in it. */
enum { RECORD = 528, HEADER = 16 };
/* Words of a record: those of the header, */
enum { SERIAL = 0, RELATIVE = 2, NEXT = 4, PREVIOUS = 6, DATA = HEADER / 2 };
/* of a PIB's data, */
enum { FREE_HEAD = DATA, FREE_TAIL = DATA + 2, NUMBER_FREE = DATA + 4, START = DATA + 118, END = DATA + 120 };
/* and of a FIB's. */
enum { DIRECT = DATA + 52, INDIRECT = DATA + 180, DOUBLE = DATA + 244, IN_USE = DATA + 249, LAST = DATA + 250 };
enum { LAST_ADDRESS = DATA + 251, LAST_NEGATIVE = DATA + 253, LAST_NEGATIVE_ADDRESS = DATA + 254 };
/* Entries: a FIB's direct, indirect and double ones, and those of a pointer block, -2 or -3. */
enum { DIRECTS = 64, INDIRECTS = 32, DOUBLES = 2, ENTRIES = 128 };
enum { LARGEST_L = 32766, LARGEST_PARTITION = 32767, FIB = -1, NIL = 0 };

/* No block. It is above every block of a partition. */
#define NONE UINT32_MAX

static const uint32_t blocks_of[4] = {24210, 48450, 69552, 432};

/* What the marks say of a block. */
enum { UNOWNED, OWNED, SEEN };

struct partition {
    const uint8_t *image;
    uint32_t drive, s, e;
    uint8_t *marks; /* of block b at b - s */
};

/* What a file's index consists of. */
struct index {
    const uint8_t *fib;
    uint32_t length, pointers, doubles; /* blocks but the FIB: data, pointer blocks over data, -2 and -3 */
    const uint8_t *over[DOUBLES];       /* the records of -2 and -3 */
};

/* A file on the way along its blocks, in the order of their links. */
struct walk {
    struct partition *p;
    uint32_t serial;   /* PDA(f) */
    const uint8_t *at; /* the record come to, NULL before the first one */
    uint32_t block;    /* its block */
    uint32_t pda;      /* its PDA, nil before the first one */
    int linked;        /* whether all links so far are right */
};

/* ---- Words and addresses */

static inline uint32_t word(const uint8_t *record, size_t at) {
    uint16_t value;
    memcpy(&value, record + 2 * at, sizeof value);
    return value;
}

static inline int32_t signed_word(const uint8_t *record, size_t at) {
    return (int16_t)word(record, at);
}

static inline uint32_t pair(const uint8_t *record, size_t at) {
    uint32_t value;
    memcpy(&value, record + 2 * at, sizeof value);
    return value;
}

/* Whether `count` pairs from `at` on are all nil. */
static inline int all_nil(const uint8_t *record, size_t at, size_t count) {
    uint32_t any = NIL;
    for (size_t i = 0; i < count; i++) {
        any |= pair(record, at + 2 * i);
    }
    return any == NIL;
}

/* The PDA of a block of the drive. */
static inline uint32_t pda_of(uint32_t drive, uint32_t b) {
    uint32_t sector, track;
    switch (drive) {
    case 0:
        sector = b + 30, track = sector / 30;
        return track / 4 << 8 | track % 4 << 5 | sector % 30;
    case 1:
        sector = b + 30, track = sector / 30;
        return track / 8 << 8 | track % 8 << 5 | sector % 30;
    case 2:
        sector = b + 48, track = sector / 24;
        return track / 5 << 16 | track % 5 << 8 | sector % 24;
    default:
        return (5 + b / 6) << 16 | (3 + 4 * (b % 6));
    }
}

/* The block whose PDA this is; NONE if there is none. Below block 0, in the boot area, the difference is far too large. */
static inline uint32_t block_of_pda(uint32_t drive, uint32_t pda) {
    uint32_t low = pda & 0xFFFF, high = pda >> 16, tracks = drive == 0 ? 4 : 8, b;
    switch (drive) {
    case 0:
    case 1:
        if (high != 0 || (low >> 5 & 7) >= tracks || (low & 31) >= 30) {
            return NONE;
        }
        b = ((low >> 8) * tracks + (low >> 5 & 7)) * 30 + (low & 31) - 30;
        break;
    case 2:
        if (low >> 8 >= 5 || (low & 255) >= 24) {
            return NONE;
        }
        b = (high * 5 + (low >> 8)) * 24 + (low & 255) - 48;
        break;
    default:
        if (low < 3 || (low - 3) % 4 != 0 || (low - 3) / 4 >= 6) {
            return NONE;
        }
        b = high * 6 + (low - 3) / 4 - 5 * 6;
    }
    return b < blocks_of[drive] ? b : NONE;
}

/* The block that an LDA names, whatever its bits 0-7 are; NONE if it names none. */
static inline uint32_t block_of_lda(uint32_t drive, uint32_t lda) {
    uint32_t b = lda >> 8 & 0x7FFFF, tag = drive == 3 ? 034 : 030;
    return lda >> 27 == tag && b < blocks_of[drive] ? b : NONE;
}

/* ---- The partition */

static inline const uint8_t *record_of(const struct partition *p, uint32_t b) {
    return p->image + (size_t)RECORD * b;
}

/* Whether b is in s+1..e. */
static inline int holds(const struct partition *p, uint32_t b) {
    return p->s < b && b <= p->e;
}

/* The block that the LDA at this place of a record names. */
static inline uint32_t named(const struct partition *p, const uint8_t *record, size_t at) {
    return block_of_lda(p->drive, pair(record, at));
}

/* ---- Files */

/* Goes on to a block that is known to be the file's. */
static inline void step(struct walk *w, uint32_t b, const uint8_t *record, uint32_t pda) {
    w->linked &= pair(record, PREVIOUS) == w->pda;
    w->linked &= w->at == NULL || pair(w->at, NEXT) == pda;
    w->p->marks[b - w->p->s] = OWNED;
    w->at = record;
    w->block = b;
    w->pda = pda;
}

/* Whether block b is the file's relative block of this number. */
static inline int is_own(const struct walk *w, uint32_t b, int32_t relative) {
    const uint8_t *record;
    if (!holds(w->p, b)) {
        return 0;
    }
    record = record_of(w->p, b);
    return pair(record, SERIAL) == w->serial && signed_word(record, RELATIVE) == relative;
}

/* Goes on to block b; 0 if it is not the file's relative block of this number. */
static inline int enter(struct walk *w, uint32_t b, int32_t relative) {
    if (!is_own(w, b, relative)) {
        return 0;
    }
    step(w, b, record_of(w->p, b), pda_of(w->p->drive, b));
    return 1;
}

/* The block named for -2 (0) or -3 (1). */
static inline uint32_t double_named(const struct partition *p, const struct index *x, uint32_t i) {
    return named(p, x->fib, DOUBLE + 2 * i);
}

/* The block named for pointer block -4-j: the FIB names the first 32, then -2 and -3, which are good, 128 each. */
static inline uint32_t pointer_named(const struct partition *p, const struct index *x, uint32_t j) {
    if (j < INDIRECTS) {
        return named(p, x->fib, INDIRECT + 2 * j);
    }
    j -= INDIRECTS;
    return named(p, x->over[j / ENTRIES], DATA + 2 * (j % ENTRIES));
}

/* Goes on to -(3+P) .. -4 and then to -3 and -2, which are looked at first; 0 if one is not as it should be. */
static int enter_pointers(struct walk *w, struct index *x) {
    for (uint32_t i = 0; i < x->doubles; i++) {
        uint32_t b = double_named(w->p, x, i);
        if (!is_own(w, b, -2 - (int32_t)i)) {
            return 0;
        }
        x->over[i] = record_of(w->p, b);
    }
    for (uint32_t j = x->pointers; j-- > 0;) {
        if (!enter(w, pointer_named(w->p, x, j), -4 - (int32_t)j)) {
            return 0;
        }
    }
    for (uint32_t i = x->doubles; i-- > 0;) {
        uint32_t b = double_named(w->p, x, i);
        step(w, b, x->over[i], pda_of(w->p->drive, b));
    }
    return 1;
}

/* Goes on to relative blocks 0..L, the pointer blocks being good; 0 if one is not as it should be. */
static int enter_data(struct walk *w, const struct index *x) {
    uint32_t length = x->length, r = 0;
    for (; r < length && r < DIRECTS; r++) {
        if (!enter(w, named(w->p, x->fib, DIRECT + 2 * r), (int32_t)r)) {
            return 0;
        }
    }
    while (r < length) {
        const uint8_t *pointers = record_of(w->p, pointer_named(w->p, x, (r - DIRECTS) / ENTRIES));
        for (uint32_t entry = 0; entry < ENTRIES && r < length; entry++, r++) {
            if (!enter(w, named(w->p, pointers, DATA + 2 * entry), (int32_t)r)) {
                return 0;
            }
        }
    }
    return 1;
}

/* How many blocks name those of a level that the FIB, with `entries` for it, does not. */
static inline uint32_t blocks_over(uint32_t count, uint32_t entries) {
    return count <= entries ? 0 : (count - entries + ENTRIES - 1) / ENTRIES;
}

/* Whether the last of those blocks has nil in the entries that it does not use. */
static inline int rest_nil(const uint8_t *last, uint32_t count, uint32_t entries) {
    uint32_t used = (count - entries - 1) % ENTRIES + 1;
    return all_nil(last, DATA + 2 * used, ENTRIES - used);
}

/* Whether the FIB's entries for a level, from word `first` on, are nil but for the first `count`. */
static inline int fib_rest_nil(const uint8_t *fib, size_t first, uint32_t count, uint32_t entries) {
    uint32_t used = count < entries ? count : entries;
    return all_nil(fib, first + 2 * used, entries - used);
}

/* Whether the FIB says nothing else than its index: entries that are not needed are nil, and words 249 and 251-255 fit. */
static int agrees(const struct partition *p, const struct index *x, uint32_t last, uint32_t most_negative) {
    const uint8_t *fib = x->fib;
    return fib_rest_nil(fib, DIRECT, x->length, DIRECTS) && fib_rest_nil(fib, INDIRECT, x->pointers, INDIRECTS) &&
           (x->doubles > 0 || pair(fib, DOUBLE) == NIL) && (x->doubles > 1 || pair(fib, DOUBLE + 2) == NIL) &&
           word(fib, IN_USE) == 1 + x->length + x->pointers + x->doubles && named(p, fib, LAST_ADDRESS) == last &&
           signed_word(fib, LAST_NEGATIVE) == (x->pointers == 0 ? FIB : -3 - (int32_t)x->pointers) &&
           named(p, fib, LAST_NEGATIVE_ADDRESS) == most_negative;
}

/* Judges candidate f: its number of blocks, all marked, or 0 if it is malformed. *sound becomes 0 where a link, or an
 * unused entry of the last pointer block, of -2 or of -3, is wrong. */
static uint32_t judge(struct partition *p, uint32_t f, int *sound) {
    const uint8_t *fib = record_of(p, f);
    struct walk w = {p, pair(fib, SERIAL), NULL, NONE, NIL, 1};
    int32_t l = signed_word(fib, LAST);
    struct index x = {fib, (uint32_t)(l + 1), 0, 0, {NULL, NULL}};
    uint32_t most_negative = f;
    if (l < -1 || l > LARGEST_L) {
        return 0;
    }
    if (x.length > DIRECTS) {
        x.pointers = blocks_over(x.length, DIRECTS);
        x.doubles = blocks_over(x.pointers, INDIRECTS);
        if (!enter_pointers(&w, &x)) {
            return 0;
        }
        most_negative = pointer_named(p, &x, x.pointers - 1);
        *sound &= rest_nil(record_of(p, most_negative), x.length, DIRECTS);
    }
    if (x.doubles > 0) {
        *sound &= rest_nil(x.over[x.doubles - 1], x.pointers, INDIRECTS);
    }
    step(&w, f, fib, w.serial);
    if (!enter_data(&w, &x) || !agrees(p, &x, w.block, most_negative)) {
        return 0;
    }
    *sound &= w.linked && pair(w.at, NEXT) == NIL;
    return 1 + x.length + x.pointers + x.doubles;
}

/* ---- The free chain */

/* Whether the chain from FreeHead visits `unowned` blocks, none of them owned and none twice, and agrees with the PIB. */
static int chain_good(struct partition *p, uint32_t unowned) {
    const uint8_t *pib = record_of(p, p->s), *record;
    uint32_t b = named(p, pib, FREE_HEAD), pda, before = NIL, visited = 0;
    if (!holds(p, b)) {
        return 0;
    }
    /* Every block but the first is come to by its PDA. */
    pda = pda_of(p->drive, b);
    for (;;) {
        record = record_of(p, b);
        if (p->marks[b - p->s] != UNOWNED || pair(record, PREVIOUS) != before) {
            return 0;
        }
        p->marks[b - p->s] = SEEN;
        visited++;
        if (pair(record, NEXT) == NIL) {
            break;
        }
        before = pda;
        pda = pair(record, NEXT);
        b = block_of_pda(p->drive, pda);
        if (!holds(p, b)) {
            return 0;
        }
    }
    return b == named(p, pib, FREE_TAIL) && visited == unowned && visited == pair(pib, NUMBER_FREE);
}

/* ---- Check */

static perq_answer refused(uint32_t number, uint32_t block) {
    perq_answer answer = {PERQ_REFUSED, number, block, 0, 0, 0, 0};
    return answer;
}

/* Check of a good partition whose marks are all UNOWNED. */
static perq_answer check_good(struct partition *p) {
    perq_answer answer = {PERQ_DONE, 0, 0, 0, 0, 0, 0};
    int sound = 1;
    for (uint32_t f = p->s + 1; f <= p->e; f++) {
        const uint8_t *record = record_of(p, f);
        if (signed_word(record, RELATIVE) == FIB && pair(record, SERIAL) == pda_of(p->drive, f)) {
            uint32_t blocks = judge(p, f, &sound);
            if (blocks == 0) {
                return refused(4, f);
            }
            answer.a++;
            answer.b += blocks;
        }
    }
    answer.c = p->e - p->s - answer.b;
    return sound && chain_good(p, answer.c) ? answer : refused(5, 0);
}

perq_answer plain_check(const uint8_t *image, size_t length, uint32_t drive, uint32_t s) {
    struct partition p = {image, drive, s, 0, NULL};
    perq_answer answer;
    size_t n = length / RECORD;
    if (drive > 3 || length == 0 || length % RECORD != 0 || n > blocks_of[drive]) {
        return refused(1, 0);
    }
    if (s < 1 || s >= n || named(&p, record_of(&p, s), START) != s) {
        return refused(2, 0);
    }
    p.e = named(&p, record_of(&p, s), END);
    if (p.e <= s || p.e >= n || p.e - s + 1 > LARGEST_PARTITION) {
        return refused(2, 0);
    }
    p.marks = calloc(p.e - s + 1, 1);
    if (p.marks == NULL) {
        abort();
    }
    answer = check_good(&p);
    free(p.marks);
    return answer;
}
