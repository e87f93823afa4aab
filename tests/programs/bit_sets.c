/* Sets of letters: a line `abc&bcd|x-y^z` is worked out from the left. */
#include <stdio.h>

typedef unsigned set;

static set add(set s, char c) {
  return s | 1u << (c - 'a');
}

static int size(set s) {
  int n = 0;
  while (s)
    s &= s - 1, ++n;
  return n;
}

static void print(set s) {
  for (char c = 'a'; s; c++, s >>= 1)
    if (s & 1)
      putchar(c);
  putchar('\n');
}

static set apply(char op, set a, set b) {
  switch (op) {
  case '&': return a & b;
  case '|': return a | b;
  case '^': return a ^ b;
  case '-': return a & ~b;
  default: return b;
  }
}

int main(void) {
  set all = 0, s = 0, now = 0;
  char op = 0;
  int c, lines = 0;
  while ((c = getchar()) != EOF)
    switch (c) {
    case '&': case '|': case '^': case '-':
      s = apply(op, s, now), now = 0, op = c;
      break;
    case '~':
      now = ~now & (1u << 26) - 1;
      break;
    case '\n':
      all ^= s = apply(op, s, now);
      print(s);
      printf("%d%d\n", size(s) / 10, size(s) % 10);
      s = now = op = 0;
      lines++;
      break;
    default:
      if (c >= 'a' && c <= 'z')
        now = add(now, c);
    }
  print(all);
  return lines;
}
