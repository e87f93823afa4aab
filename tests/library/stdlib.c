/* abs, labs and atoi of <stdlib.h>. */
#include <stdlib.h>
#include <limits.h>
#include "numbers.h"

/* blanks, a sign, at most nine digits, and what stands after them */
void make(char *to) {
  int count = next(3), sign;
  for (int i = 0; i < count; i++)
    *to++ = " \t\n\v\f\r"[next(6)];
  if ((sign = next(4)) < 2)
    *to++ = sign ? '+' : '-';
  count = next(10);
  for (int i = 0; i < count; i++)
    *to++ = '0' + next(10);
  switch (next(3)) {
  case 0: *to++ = 'x'; break;
  case 1: *to++ = '-';
  }
  *to = 0;
}

int main(void) {
  char text[32];
  int number;
  printf("%d %d\n", atoi("2147483647"), atoi("-2147483648"));
  for (int round = 0; round < 300; round++) {
    make(text);
    printf("%d %d ", number = atoi(text), abs(atoi(text)));
    printf("%ld\n", labs((long)number * next(65536) * 65536));
  }
  printf("%d %d %ld\n", abs(INT_MAX), abs(-INT_MAX), labs(-LONG_MAX));
  return 0;
}
