/* The permutations of the letters of a word, in order and each once, and the anagrams among the next words. */
#include <stdio.h>

static int length(const char *s) {
  const char *p = s;
  while (*p)
    ++p;
  return p - s;
}

static void swap(char *a, char *b) {
  char t = *a;
  *a = *b, *b = t;
}

static void sort(char *s) {
  for (char *p = s; *p; p++)
    for (char *q = p; q > s && q[-1] > *q; q--)
      swap(q, q - 1);
}

static int next(char *s) {
  int n = length(s), i = n - 1, j = n;
  while (i > 0 && s[i - 1] >= s[i])
    i--;
  if (i <= 0)
    return 0;
  while (s[--j] <= s[i - 1])
    ;
  swap(&s[i - 1], &s[j]);
  for (j = n - 1; i < j; swap(&s[i++], &s[j--]))
    ;
  return 1;
}

static char *word(char *to) {
  int c, n = 0;
  while ((c = getchar()) == ' ' || c == '\n')
    ;
  for (; c > ' ' && n < 15; c = getchar())
    to[n++] = c;
  to[n] = 0;
  return n ? to : NULL;
}

static int same(const char *a, const char *b) {
  while (*a && *a == *b)
    a++, b++;
  return *a == *b;
}

int main(void) {
  char first[16], other[16], sorted[16];
  int count = 0, found = 0;
  if (!word(first))
    return 1;
  sort(first);
  do
    printf("%s%c", first, ++count % 6 ? ' ' : '\n');
  while (next(first));
  printf("\n");
  sort(first);
  while (word(other)) {
    int i = 0;
    do
      sorted[i] = other[i];
    while (other[i++]);
    sort(sorted);
    if (same(sorted, first))
      printf("%s\n", other), found++;
  }
  return 10 * found + (count == 12);
}
