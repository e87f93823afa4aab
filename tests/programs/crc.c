/* The CRC-32 of the input, by a table and bit by bit, and its Adler-32. */
#include <stdio.h>

unsigned table[256];

static void make_table(void) {
  for (unsigned i = 0; i < 256; i++) {
    unsigned c = i;
    for (int k = 0; k < 8; k++)
      c = c & 1 ? 0xEDB88320u ^ c >> 1 : c >> 1;
    table[i] = c;
  }
}

static unsigned by_table(unsigned crc, unsigned char byte) {
  return table[(crc ^ byte) & 0xFF] ^ crc >> 8;
}

static unsigned by_bits(unsigned crc, unsigned char byte) {
  crc ^= byte;
  for (int k = 8; k--; )
    crc = crc >> 1 ^ (0xEDB88320u & -(crc & 1));
  return crc;
}

static void print_hex(unsigned n) {
  for (int shift = 28; shift >= 0; shift -= 4)
    putchar("0123456789abcdef"[n >> shift & 15]);
  putchar('\n');
}

int main(void) {
  unsigned first = ~0u, second = 0xFFFFFFFF, a = 1, b = 0;
  int c;
  make_table();
  while ((c = getchar()) != EOF) {
    first = by_table(first, c);
    second = by_bits(second, c);
    b = (b + (a = (a + c) % 65521)) % 65521;
  }
  if ((first ^= ~0u) != (second = ~second))
    return 1;
  print_hex(first);
  print_hex(b << 16 | a);
  return 0;
}
