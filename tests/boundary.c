/* boundary.c: what the calls answer where a length is 0 and the address is NULL, as include/perq.h says, and what describe
 * and name answer to good and bad names. tools/example compiles it as C and as C++ and runs both; it ends with status 0 if
 * every answer is the right one. */
#include "perq.h"
#include "perq.h" /* a second time, as it may come by way of other headers */
#include <stdio.h>
#include <string.h>

enum { RECORD = 528, HEADER = 16, RECORDS = 12, DRIVE = 0, START = 1, END = 11 };

/* An image with two files: the root directory, one block whose entry names the other, and that one without blocks. */
static uint8_t image[RECORD * RECORDS], image_before[RECORD * RECORDS];
static uint8_t block[512], block_before[512], text[104], text_before[104];
static uint32_t root, empty;
static int wrong;

/* Puts the LDA of a block into four bytes, low byte first. */
static void put_lda(uint8_t *at, uint32_t lbn) {
    uint32_t lda = perq_lbn_to_lda(DRIVE, lbn).a;
    for (int i = 0; i < 4; i++) {
        at[i] = (uint8_t)(lda >> 8 * i);
    }
}

/* A data word of the partition's first block. */
static uint8_t *word(uint32_t k) {
    return image + RECORD * START + HEADER + 2 * k;
}

static void make_image(void) {
    put_lda(word(118), START);
    put_lda(word(120), END);
    perq_repair(image, sizeof image, DRIVE, START, UINT32_MAX);
    root = perq_create(image, sizeof image, DRIVE, START, 0, UINT32_MAX).a;
    empty = perq_create(image, sizeof image, DRIVE, START, 0, UINT32_MAX).a;
    block[0] = 1;
    put_lda(block + 2, empty);
    block[6] = 1;
    block[7] = 'x';
    perq_write(image, sizeof image, DRIVE, START, root, 0, block, sizeof block, UINT32_MAX);
    text[16] = 3;
    text[22] = 1;
    text[23] = 'r';
    perq_describe(image, sizeof image, DRIVE, START, root, text, sizeof text, UINT32_MAX);
    put_lda(word(6), root);
    memset(block, 0xA5, sizeof block);
    memset(text, 0x5A, sizeof text);
    memcpy(image_before, image, sizeof image);
    memcpy(block_before, block, sizeof block);
    memcpy(text_before, text, sizeof text);
}

/* The answer must have these fields and no others, and nothing that was lent may have changed. */
static void is(const char *what, perq_answer found, uint32_t outcome, uint32_t number, uint32_t a, uint32_t b, uint32_t c) {
    int same = found.outcome == outcome && found.number == number && found.block == 0 && found.made == 0 && found.a == a &&
               found.b == b && found.c == c;
    int kept = memcmp(image, image_before, sizeof image) == 0 && memcmp(block, block_before, sizeof block) == 0 &&
               memcmp(text, text_before, sizeof text) == 0;
    if (!same || !kept) {
        wrong = 1;
        printf("%s: outcome %u, number %u, block %u, made %u, a %u, b %u, c %u%s\n", what, found.outcome, found.number,
               found.block, found.made, found.a, found.b, found.c, kept ? "" : ", and something has changed");
    }
}

static void refused(const char *what, perq_answer found, uint32_t number) {
    is(what, found, PERQ_REFUSED, number, 0, 0, 0);
}

/* No image, in every call that takes one. */
static void no_image(void) {
    refused("check", perq_check(NULL, 0, DRIVE, START), 1);
    refused("next_file", perq_next_file(NULL, 0, DRIVE, START, 0), 1);
    refused("read", perq_read(NULL, 0, DRIVE, START, root, 0, block, sizeof block), 1);
    refused("show", perq_show(NULL, 0, DRIVE, START, root, 0), 1);
    refused("description", perq_description(NULL, 0, DRIVE, START, root, text, sizeof text), 1);
    refused("extract", perq_extract(NULL, 0, DRIVE, START, root, block, sizeof block), 1);
    refused("look_up", perq_look_up(NULL, 0, DRIVE, START, NULL, 0, NULL, 0), 1);
    refused("tree", perq_tree(NULL, 0, DRIVE, START, NULL, 0, block, sizeof block), 1);
    refused("create", perq_create(NULL, 0, DRIVE, START, 0, UINT32_MAX), 1);
    refused("write", perq_write(NULL, 0, DRIVE, START, root, 0, block, sizeof block, UINT32_MAX), 1);
    refused("describe", perq_describe(NULL, 0, DRIVE, START, root, text, sizeof text, UINT32_MAX), 1);
    refused("destroy", perq_destroy(NULL, 0, DRIVE, START, root, UINT32_MAX), 1);
    refused("repair", perq_repair(NULL, 0, DRIVE, START, UINT32_MAX), 1);
    refused("read without a buffer too", perq_read(NULL, 0, DRIVE, START, root, 0, NULL, 0), 1);
    refused("write without a buffer too", perq_write(NULL, 0, DRIVE, START, root, 0, NULL, 0, UINT32_MAX), 1);
}

/* No image in a pair: the other one answers unless it is refused, and then the answer is the original's. */
static void no_image_of_a_pair(void) {
    uint32_t at = RECORD * (empty + 1) + HEADER;
    is("no original", perq_show_pair(NULL, 0, image, sizeof image, DRIVE, START, root, 0), PERQ_DONE, 0, at, 512, 1);
    is("no original, an absent block", perq_show_pair(NULL, 0, image, sizeof image, DRIVE, START, empty, 0), PERQ_ABSENT, 0, 0,
       0, 1);
    is("no original, no file", perq_show_pair(NULL, 0, image, sizeof image, DRIVE, START, END, 0), PERQ_REFUSED, 1, 0, 0, 2);
    is("no repaired image", perq_show_pair(image, sizeof image, NULL, 0, DRIVE, START, root, 0), PERQ_DONE, 0, at, 512, 2);
    is("no image at all", perq_show_pair(NULL, 0, NULL, 0, DRIVE, START, root, 0), PERQ_REFUSED, 1, 0, 0, 2);
    is("twice the same", perq_show_pair(image, sizeof image, image, sizeof image, DRIVE, START, root, 0), PERQ_DONE, 0, at, 512,
       1);
}

/* No buffer, rule, path or rows. */
static void no_buffer(void) {
    const uint8_t *path = (const uint8_t *)"X";
    refused("read", perq_read(image, sizeof image, DRIVE, START, root, 0, NULL, 0), 3);
    refused("description", perq_description(image, sizeof image, DRIVE, START, root, NULL, 0), 3);
    refused("extract", perq_extract(image, sizeof image, DRIVE, START, root, NULL, 0), 3);
    is("extract of nothing", perq_extract(image, sizeof image, DRIVE, START, empty, NULL, 0), PERQ_DONE, 0, 0, 0, 0);
    refused("write", perq_write(image, sizeof image, DRIVE, START, root, 0, NULL, 0, UINT32_MAX), 3);
    refused("describe", perq_describe(image, sizeof image, DRIVE, START, root, NULL, 0, UINT32_MAX), 3);
    refused("name", perq_name(NULL, 0), 3);
    is("no rule", perq_look_up(image, sizeof image, DRIVE, START, NULL, 0, path, 1), PERQ_DONE, 0, empty, 0, 0);
    is("no path", perq_look_up(image, sizeof image, DRIVE, START, NULL, 0, NULL, 0), PERQ_DONE, 0, root, 0, 0);
    is("no rows", perq_tree(image, sizeof image, DRIVE, START, NULL, 0, NULL, 0), PERQ_DONE, 0, 0, 1, 0);
}

/* The description gets a name: its length, and the characters from the first on. */
static void set_name(uint8_t length, const char *characters) {
    text[22] = length;
    memcpy(text + 23, characters, strlen(characters));
    memcpy(text_before, text, sizeof text);
}

static perq_answer describe(uint32_t limit) {
    return perq_describe(image, sizeof image, DRIVE, START, root, text, sizeof text, limit);
}

/* The name breaks a rule at a place: describe refuses it, and name says so. */
static void bad_name(const char *what, uint32_t rule, uint32_t place) {
    refused(what, describe(UINT32_MAX), 12);
    is(what, perq_name(text, sizeof text), PERQ_DONE, 0, rule, place, 0);
}

static void names(void) {
    set_name(0, "");
    bad_name("no characters", 1, 0);
    set_name(81, "<");
    bad_name("81 characters", 1, 0);
    set_name(2, "x\x1f");
    bad_name("a control character", 2, 2);
    set_name(3, "x/\x7f");
    bad_name("a stroke", 3, 2);
    set_name(2, "x>");
    bad_name("a final >", 4, 2);
    set_name(6, "x>..>y");
    bad_name("two dots", 5, 2);
    refused("a bad name in 103 bytes", perq_name(text, sizeof text - 1), 3);
    set_name(3, ">.x/");
    is("a good name, a stroke past its length", perq_name(text, sizeof text), PERQ_DONE, 0, 0, 0, 0);
    is("a good name and no store", describe(0), PERQ_DONE, 0, 0, 0, 0);
    if (describe(UINT32_MAX).made != 1 || memcmp(image + RECORD * root + HEADER, text, sizeof text) != 0) {
        wrong = 1;
        printf("a good name is not stored\n");
    }
}

int main(void) {
    make_image();
    is("the image", perq_check(image, sizeof image, DRIVE, START), PERQ_DONE, 0, 2, 3, 7);
    no_image();
    no_image_of_a_pair();
    no_buffer();
    names();
    return wrong;
}
