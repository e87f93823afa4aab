/* Matches lines against a pattern with `.`, `*`, `^` and `$`. The first line of the input is the pattern. */
#include <stdio.h>

enum { MOST = 80 };

static int match_here(const char *p, const char *s);

static int match_star(int c, const char *p, const char *s) {
  do
    if (match_here(p, s))
      return 1;
  while (*s && (*s++ == c || c == '.'));
  return 0;
}

static int match_here(const char *p, const char *s) {
  return !*p ? 1
    : p[1] == '*' ? match_star(p[0], p + 2, s)
    : p[0] == '$' && !p[1] ? !*s
    : *s && (*p == '.' || *p == *s) && match_here(p + 1, s + 1);
}

static int match(const char *p, const char *s) {
  if (*p == '^')
    return match_here(p + 1, s);
  do
    if (match_here(p, s))
      return 1;
  while (*s++);
  return 0;
}

static char *line(char *to) {
  int c, n = 0;
  while ((c = getchar()) != EOF && c != '\n')
    if (n < MOST - 1)
      to[n++] = c;
  to[n] = 0;
  return c == EOF && !n ? NULL : to;
}

int main(void) {
  char pattern[MOST], text[MOST];
  int found = 0;
  if (!line(pattern))
    return 255;
  while (line(text))
    if (match(pattern, text))
      printf("%s\n", text), found++;
  return found;
}
