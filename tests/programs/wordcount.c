/* Counts lines, words and bytes of the input, as `wc` does. */
#include <stdio.h>

static int is_blank(int c) {
  return c == ' ' || (c >= '\t' && c <= '\r');
}

int main(void) {
  unsigned long lines = 0, words = 0, bytes = 0;
  int c, inside = 0;
  while ((c = getchar()) != EOF) {
    bytes++;
    if (c == '\n')
      lines++;
    if (is_blank(c))
      inside = 0;
    else if (!inside++)
      words++;
  }
  printf("%lu %lu %lu\n", lines, words, bytes);
  return 0;
}
