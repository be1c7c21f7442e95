/* check.h: check in plain C, as a measure for the library's; see check.c. */
#ifndef PLAIN_CHECK_H
#define PLAIN_CHECK_H
#include "perq.h"

/* The same answer as perq_check's to the same arguments. Allocates a byte for each block of the partition; without the
 * memory for that the program ends. */
perq_answer plain_check(const uint8_t *image, size_t length, uint32_t drive, uint32_t s);

#endif
