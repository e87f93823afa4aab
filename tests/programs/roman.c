/* Roman numerals to numbers and back, a line each. */
#include <stdio.h>

const int values[] = {1000, 900, 500, 400, 100, 90, 50, 40, 10, 9, 5, 4, 1};
const char *const words[] = {"M", "CM", "D", "CD", "C", "XC", "L", "XL", "X", "IX", "V", "IV", "I"};

static int digit(int c) {
  switch (c) {
  case 'I': return 1;
  case 'V': return 5;
  case 'X': return 10;
  case 'L': return 50;
  case 'C': return 100;
  case 'D': return 500;
  case 'M': return 1000;
  default: return 0;
  }
}

static void print_roman(int n) {
  for (int i = 0; n; i++)
    for (; n >= values[i]; n -= values[i])
      printf("%s", words[i]);
}

int main(void) {
  int c = getchar(), lines = 0;
  for (; c != EOF; c = getchar(), lines++) {
    int n = 0, last = 0, d;
    if (c >= '0' && c <= '9') {
      do
        n = n * 10 + c - '0';
      while ((c = getchar()) >= '0' && c <= '9');
      if (n < 4000)
        print_roman(n);
      else
        printf("too large");
    } else {
      for (; (d = digit(c)); c = getchar())
        n += (d > last && last ? d - 2 * last : d), last = d;
      printf("%d", n);
    }
    printf("\n");
    while (c != '\n' && c != EOF)
      c = getchar();
  }
  return lines;
}
