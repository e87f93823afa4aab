#include <stdio.h>

int main(void) {
  int a = 84, b = 0;
  while (a != b) {
    //@ assert a + b > 0;
    if (a > b) {
      a -= b;
      putchar('a');
    } else {
      b -= a;
      putchar('b');
    }
  }
  putchar('\n');
  return 0;
}
