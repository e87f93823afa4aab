/* Breaks a shift cipher: the input is shifted so that its letters are most like English. */
#include <stdio.h>

const int frequent[26] = {82, 15, 28, 43, 127, 22, 20, 61, 70, 2, 8, 40, 24, 67, 75, 19, 1, 60, 63, 91, 28, 10, 24, 2, 20, 1};

enum { MOST = 500 };

char text[MOST];

static int shifted(int c, int by) {
  return c >= 'a' && c <= 'z' ? (c - 'a' + by) % 26 + 'a'
    : c >= 'A' && c <= 'Z' ? (c - 'A' + by) % 26 + 'A'
    : c;
}

static long score(const char *s, int by) {
  long sum = 0;
  int c;
  while ((c = *s++) != 0)
    if ((c = shifted(c, by) | 32) >= 'a' && c <= 'z')
      sum += frequent[c - 'a'];
  return sum;
}

int main(void) {
  int c, n = 0, best = 0;
  long most = -1, s;
  while (n < MOST - 1 && (c = getchar()) != EOF)
    text[n++] = c;
  for (int by = 0; by < 26; by++)
    if ((s = score(text, by)) > most)
      most = s, best = by;
  for (char *p = text; *p; putchar(shifted(*p++, best)))
    ;
  return best;
}
