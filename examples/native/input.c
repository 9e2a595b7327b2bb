/* Each byte of a file goes into the sum. */
#include <stdio.h>
#include "crc.h"
#include "input.h"

unsigned sum_of(FILE *file) {
    int byte;
    crc_begin();
    while ((byte = getc(file)) != EOF) crc_add((unsigned)byte);
    return crc_sum();
}
