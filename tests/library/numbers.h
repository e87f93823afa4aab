/* What the programs of this folder share: numbers that are written, and numbers that come one after another. */
#ifndef NUMBERS_H
#define NUMBERS_H
#include <stdio.h>

/* a number and a blank */
void put(long number) {
  printf("%ld ", number);
}

void put_sign(int number) {
  putchar(number < 0 ? '-' : number > 0 ? '+' : '0');
}

void put_bytes(const char *from, int count) {
  for (int i = 0; i < count; i++)
    put(from[i]);
}

unsigned int seed = 1;

/* the next number, from 0 to below a bound */
int next(int bound) {
  seed = seed * 1103515245u + 12345u;
  return (int)((seed >> 16) % (unsigned int)bound);
}
#endif
