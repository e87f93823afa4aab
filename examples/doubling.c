#include <stdio.h>

int main(void) {
  int power = 1, doublings = 0;
  while (power > 0) {
    //@ assert power < power + power;
    power *= 2;
    putchar(++doublings % 10 ? '+' : '|');
  }
  putchar('\n');
  return 0;
}
