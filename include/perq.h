/* perq.h: the C interface of the library, fixed so that every host (C, Rust, Python) and every test
 * sees the same calls. Each is a thin exported function over the proved library; each has a contract.
 *
 * An image is a caller's buffer of n records of 528 bytes in LBN order. `drive` is 0..3, `s` names the
 * partition by its first block, `f` a file by the LBN of its FIB, `r` a relative block number.
 * An address of two words is one number: low word + 65536 * high word.
 * Nothing is stored and no buffer is touched under any refusal.
 *
 * An address with a length above 0 must be that of so many bytes. With length 0 it may be NULL, or any other:
 *   an image         refused by 1; perq_show_pair is answered by the other image, if that one is not refused
 *   a buffer         in its turn refused by 3; perq_extract of a file without blocks is PERQ_DONE, a = 0
 *   a rule, a path   the rule is not known; the root
 *   rows             PERQ_DONE, a = 0, b = 1 if there is an entry
 *
 * What a call writes to must not overlap with anything else that it is lent: in perq_read, perq_description, perq_extract,
 * perq_write and perq_describe the buffer with the image, in perq_tree the rows with the image or the rule. The library
 * cannot see that it does; nothing is promised of such a call, and one that is answered PERQ_DONE may have left the image
 * malformed. What is only read may be the same memory: both images of perq_show_pair, the image, the rule and the path of
 * perq_look_up, the image and the rule of perq_tree.
 */
#ifndef PERQ_H
#define PERQ_H
#include <stddef.h>
#include <stdint.h>

#ifdef __cplusplus
extern "C" {
#endif

enum { PERQ_DONE = 0, PERQ_ABSENT = 1, PERQ_REFUSED = 2 };

/* A field that a call does not speak of is 0. */
typedef struct perq_answer {
    uint32_t outcome; /* PERQ_DONE, PERQ_ABSENT or PERQ_REFUSED                          */
    uint32_t number;  /* when refused: its number, 1 to 12 (docs/FORMAT.md, 7.3)         */
    uint32_t block;   /* when refused by 4: the LBN of the malformed candidate; by 11:   */
                      /* that of the directory of the tenth level                        */
    uint32_t made;    /* changing calls: how many stores were made                       */
    uint32_t a, b, c; /* the call's values, below                                        */
} perq_answer;

/* Conversions: a = the converted number. */
perq_answer perq_lbn_to_pda(uint32_t drive, uint32_t lbn);
perq_answer perq_pda_to_lbn(uint32_t drive, uint32_t pda);
perq_answer perq_lbn_to_lda(uint32_t drive, uint32_t lbn);
perq_answer perq_lda_to_lbn(uint32_t drive, uint32_t lda);
perq_answer perq_lbn_to_fileid(uint32_t drive, uint32_t lbn);
perq_answer perq_fileid_to_lbn(uint32_t drive, uint32_t fileid);

/* a = files, b = owned blocks, c = free blocks. */
perq_answer perq_check(const uint8_t *image, size_t length, uint32_t drive, uint32_t s);
/* a = the lowest file above `after`; PERQ_ABSENT if there is none. */
perq_answer perq_next_file(const uint8_t *image, size_t length, uint32_t drive, uint32_t s, uint32_t after);
/* Fills the 512-byte buffer: PERQ_DONE with the block's bytes, PERQ_ABSENT with zeros. */
perq_answer perq_read(const uint8_t *image, size_t length, uint32_t drive, uint32_t s, uint32_t f, uint32_t r,
                      uint8_t *buffer, size_t buffer_length);
/* PERQ_DONE: a = the offset in the image of the block's bytes, b = 512. */
perq_answer perq_show(const uint8_t *image, size_t length, uint32_t drive, uint32_t s, uint32_t f, uint32_t r);
/* As perq_show; c = 1 if the answer is the repaired image's, 2 if it is the original's (refusals too). */
perq_answer perq_show_pair(const uint8_t *original, size_t original_length,
                           const uint8_t *repaired, size_t repaired_length,
                           uint32_t drive, uint32_t s, uint32_t f, uint32_t r);
/* Copies the 104 bytes of the description out. */
perq_answer perq_description(const uint8_t *image, size_t length, uint32_t drive, uint32_t s, uint32_t f,
                             uint8_t *buffer, size_t buffer_length);

/* Changing calls: only the first `limit` stores are made; made says how many; the rest of the answer
 * is that of the whole call. */
/* a = the LBN of the new file. */
perq_answer perq_create(uint8_t *image, size_t length, uint32_t drive, uint32_t s, uint16_t kind, uint32_t limit);
perq_answer perq_write(uint8_t *image, size_t length, uint32_t drive, uint32_t s, uint32_t f, uint32_t r,
                       const uint8_t *buffer, size_t buffer_length, uint32_t limit);
/* Request 5: refused by 12, after 3 and before 4, for a bad name in the 104 bytes; perq_name says why. */
perq_answer perq_describe(uint8_t *image, size_t length, uint32_t drive, uint32_t s, uint32_t f,
                          const uint8_t *buffer, size_t buffer_length, uint32_t limit);
perq_answer perq_destroy(uint8_t *image, size_t length, uint32_t drive, uint32_t s, uint32_t f, uint32_t limit);
perq_answer perq_repair(uint8_t *image, size_t length, uint32_t drive, uint32_t s, uint32_t limit);

/* An addition to the fixed interface above: the whole file at once. The buffer is exactly 512 * (L + 1) bytes;
 * refused as perq_read is (1, 2, 6, 4), then by 3 for a buffer of another length. PERQ_DONE: a = L + 1. */
perq_answer perq_extract(const uint8_t *image, size_t length, uint32_t drive, uint32_t s, uint32_t f,
                         uint8_t *buffer, size_t buffer_length);

/* An addition to the fixed interface above: what describe says of a name. The buffer is a description, 104 bytes; another
 * length is refused by 3. PERQ_DONE: a = 0, b = 0 if perq_describe takes the name; otherwise it refuses it by 12, a = the
 * rule that the name breaks and b = where:
 *   1 the length is 0 or above 80; b = 0
 *   2 a control character, below 32 or 127
 *   3 "<", "/" or ":"
 *   4 a final ">"
 *   5 ">.>" or ">..>"
 * For rules 2 to 5 b is the place, counted from 1, of the first character at which one of them is broken; a ">.>" or ">..>"
 * is broken where its first ">" stands. At one character at most one of them is broken. With rule 1 no character is looked at.
 *
 * A name is words 11-51 of the description, length byte first: byte 22 is the length, byte 23 the first character. What stands
 * past the length is not looked at. */
perq_answer perq_name(const uint8_t *buffer, size_t buffer_length);

/* ---- Request 1: directory names.
 *
 * `rule` is the hash rule, as data: 26 bytes w0 .. w25, or no bytes. The hash of a name of n characters c1 .. cn is
 * (w0 * n + w1 * c1 + .. + wn * cn) mod 31, each letter taken as a capital. A block r of a directory is selected by a name if
 * r mod 31 is its hash; with no bytes the rule is not known and every block is selected. Another length is refused by 3.
 * Refusals: 1, 2, 3, 6 (the root is no file), 11.
 */

/* A path is simple names joined by '>', from the root down; the empty path is the root. Names are compared without case.
 * PERQ_DONE: a = the file's LBN, b = 0; or a = 0, b = 1 where the entry is there but its target is no file (dangling).
 * PERQ_ABSENT: the path is not there. Refused by 11: block = the directory of the tenth level. */
perq_answer perq_look_up(const uint8_t *image, size_t length, uint32_t drive, uint32_t s,
                         const uint8_t *rule, size_t rule_length, const uint8_t *path, size_t path_length);

/* The tree, depth first, by block and entry: one row of 32 bytes for each entry taken, as many as fit.
 *   bytes 0-3 the target's LBN (0 if dangling) · 4 level, 1 in the root · 5 what: 0 file, 1 directory, 2 dangling
 *   6 length of the name · 7-31 the name as it stands on the disk, then zeros
 * PERQ_DONE: a = the rows filled, b = 1 if the walk stopped because no row was left for the next entry. Bytes past the rows filled
 * stay. A length that is no multiple of 32 is refused by 3. Refused by 11: the walk, as far as it went, met a directory of the tenth
 * level; block = its LBN. */
perq_answer perq_tree(const uint8_t *image, size_t length, uint32_t drive, uint32_t s,
                      const uint8_t *rule, size_t rule_length, uint8_t *rows, size_t rows_length);

#ifdef __cplusplus
}
#endif

#endif
