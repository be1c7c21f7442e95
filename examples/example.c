/* example.c: the library from C. Makes a blank partition image, repairs it into a fresh one, creates a file, writes a
 * block, checks the partition and shows the block where it lies in the image. Then it makes a root directory that names
 * the file, and finds the file by its name.
 *
 *   make library
 *   gcc -Iinclude examples/example.c build/libperq.a -o build/example && build/example
 */
#include "perq.h"
#include <stdio.h>
#include <stdlib.h>
#include <string.h>

enum { RECORD = 528, HEADER = 16, RECORDS = 8, DRIVE = 0, START = 1, END = 7 };

static uint8_t image[RECORD * RECORDS];

/* Ends the program with the number of the refusal if there was one. */
static perq_answer done(const char *what, perq_answer answer) {
    if (answer.outcome == PERQ_REFUSED) {
        fprintf(stderr, "%s: refused (%u)", what, answer.number);
        if (answer.number == 4 || answer.number == 11) {
            fprintf(stderr, ", block %u", answer.block);
        }
        fprintf(stderr, "\n");
        exit(1);
    }
    return answer;
}

/* Puts the LDA of a block into four bytes, low byte first. */
static void put_lda(uint8_t *at, uint32_t block) {
    uint32_t lda = done("LDA", perq_lbn_to_lda(DRIVE, block)).a;
    for (int i = 0; i < 4; i++) {
        at[i] = (uint8_t)(lda >> 8 * i);
    }
}

/* A data word of the partition's first block. */
static uint8_t *word(uint32_t k) {
    return image + RECORD * START + HEADER + 2 * k;
}

/* Makes a file whose first entry names another one, and makes it the root directory: words 6 and 7 of the partition's
 * first block. The hash rule is not known here, so it has no bytes. */
static void name_file(uint32_t file, const char *name) {
    uint8_t entries[512] = {1}, rows[4 * 32];
    perq_answer answer;
    uint32_t root = done("create", perq_create(image, sizeof image, DRIVE, START, 0, UINT32_MAX)).a;

    put_lda(entries + 2, file);
    entries[6] = (uint8_t)strlen(name);
    memcpy(entries + 7, name, strlen(name));
    done("write", perq_write(image, sizeof image, DRIVE, START, root, 0, entries, sizeof entries, UINT32_MAX));
    put_lda(word(6), root);

    answer = done("tree", perq_tree(image, sizeof image, DRIVE, START, NULL, 0, rows, sizeof rows));
    printf("tree: %u row, %.*s on level %u\n", answer.a, rows[6], (const char *)rows + 7, rows[4]);
    answer = done("look up", perq_look_up(image, sizeof image, DRIVE, START, NULL, 0, (const uint8_t *)"HELLO.TEXT", 10));
    printf("look up of HELLO.TEXT: file %u\n", answer.a);
    answer = perq_look_up(image, sizeof image, DRIVE, START, NULL, 0, (const uint8_t *)"hello", 5);
    printf("look up of hello: %s\n", answer.outcome == PERQ_ABSENT ? "absent" : "there");
}

int main(void) {
    uint8_t data[512];
    perq_answer answer;

    /* All zero but where the partition starts and ends, words 118 and 120 of its first block. */
    put_lda(word(118), START);
    put_lda(word(120), END);
    answer = done("repair", perq_repair(image, sizeof image, DRIVE, START, UINT32_MAX));
    printf("repair: %u stores\n", answer.made);

    answer = done("create", perq_create(image, sizeof image, DRIVE, START, 0, UINT32_MAX));
    uint32_t file = answer.a;
    printf("create: file %u, %u stores\n", file, answer.made);

    memset(data, 0, sizeof data);
    strcpy((char *)data, "Hello, PERQ.");
    answer = done("write", perq_write(image, sizeof image, DRIVE, START, file, 0, data, sizeof data, UINT32_MAX));
    printf("write: %u stores\n", answer.made);

    answer = done("check", perq_check(image, sizeof image, DRIVE, START));
    printf("check: %u file, %u blocks owned, %u free\n", answer.a, answer.b, answer.c);

    answer = done("show", perq_show(image, sizeof image, DRIVE, START, file, 0));
    printf("show: %u bytes from %u on: %s\n", answer.b, answer.a, (const char *)image + answer.a);

    answer = perq_show(image, sizeof image, DRIVE, START, file, 1);
    printf("show of block 1: %s\n", answer.outcome == PERQ_ABSENT ? "absent" : "there");

    answer = perq_show(image, sizeof image, DRIVE, START, file + 1, 0);
    printf("show of block %u as a file: refused (%u)\n", file + 1, answer.number);

    name_file(file, "Hello.text");
    return 0;
}
