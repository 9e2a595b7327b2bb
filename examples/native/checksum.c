/* Prints the CRC-32 of each file that it is told, or of its input. */
#include <stdio.h>
#include "crc.h"
#include "input.h"

int main(int count, char **words) {
    if (!crc_main()) return 1;
    if (count < 2) printf("%08x\n", sum_of(stdin));
    for (int word = 1; word < count; word++) {
        FILE *file = fopen(words[word], "rb");
        if (!file) return 2;
        printf("%08x %s\n", sum_of(file), words[word]);
        fclose(file);
    }
    return 0;
}
