#ifndef INPUT_H
#define INPUT_H
#include <stdio.h>
unsigned sum_of(FILE *file);
#endif
