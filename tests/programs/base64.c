/* Writes the input in base 64, and reads it back. */
#include <stdio.h>

enum { MOST = 200 };

const char letters[] = "ABCDEFGHIJKLMNOPQRSTUVWXYZabcdefghijklmnopqrstuvwxyz0123456789+/";

static int encode(char *to, const unsigned char *from, int n) {
  char *start = to;
  while (n > 0) {
    unsigned bits = *from++ << 16;
    if (n > 1)
      bits |= *from++ << 8;
    if (n > 2)
      bits |= *from++;
    *to++ = letters[bits >> 18];
    *to++ = letters[bits >> 12 & 63];
    *to++ = n > 1 ? letters[bits >> 6 & 63] : '=';
    *to++ = n > 2 ? letters[bits & 63] : '=';
    n -= 3;
  }
  return to - start;
}

static int value(char c) {
  return c >= 'A' && c <= 'Z' ? c - 'A'
    : c >= 'a' && c <= 'z' ? c - 'a' + 26
    : c >= '0' && c <= '9' ? c - '0' + 52
    : c == '+' ? 62
    : c == '/' ? 63
    : -1;
}

static int decode(unsigned char *to, const char *from, int n) {
  unsigned bits = 0;
  int count = 0, have = 0, v;
  while (n-- && (v = value(*from++)) >= 0) {
    bits = bits << 6 | v;
    if ((have += 6) >= 8)
      to[count++] = bits >> (have -= 8) & 255;
  }
  return count;
}

int main(void) {
  unsigned char bytes[MOST], back[MOST];
  char text[(MOST + 2) / 3 * 4];
  int c, n = 0, length;
  while (n < MOST && (c = getchar()) != EOF)
    bytes[n++] = c;
  length = encode(text, bytes, n);
  for (int i = 0; i < length; i++) {
    putchar(text[i]);
    if (i % 32 == 31)
      putchar('\n');
  }
  putchar('\n');
  if (decode(back, text, length) != n)
    return 1;
  for (int i = 0; i < n; putchar(back[i++]))
    if (back[i] != bytes[i])
      return 2;
  return 0;
}
