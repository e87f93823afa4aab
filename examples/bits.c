/* Prints a number in binary, and counts its bits by Kernighan's method: each turn takes the lowest bit away. */
#include <limits.h>
#include <stdio.h>

int main(void) {
  const unsigned char number = 0xb4;
  unsigned char mask = 1 << CHAR_BIT - 1;
  unsigned long rest = number;
  int ones = 0, bits = 0;
  do {
    putchar(number & mask ? '1' : '0');
    ones += (number & mask) != 0;
    mask >>= 1;
  } while (mask);
  while (rest) {
    rest &= rest - 1;
    ++bits;
  }
  putchar('\n');
  //@ assert bits == ones;
  //@ assert rest <= UCHAR_MAX;
  return bits == 4 && !rest;
}
