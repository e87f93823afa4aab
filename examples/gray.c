/* Prints the Gray code of four bits, in which each number differs from the one before it in one bit. */
#include <stdio.h>

int main(void) {
  int before = 0;
  for (int i = 0; i < 16; i++) {
    int code = i ^ i >> 1;
    int change = code ^ before;
    /*@ assert 0 <= code < 1 << 4;
      @ assert i > 0 ==> (1 << 4) % change == 0;
      @ assert i % 2 == 1 ==> change == 1;
      @ assert (code ^ code >> 1 ^ code >> 2 ^ code >> 3) == i; */
    for (int bit = 3; bit >= 0; bit--)
      putchar(code >> bit & 1 ? '1' : '0');
    putchar('\n');
    before = code;
  }
  return 0;
}
