/* Places eight queens, and tells how many ways there are for boards up to 8. */
#include <stdio.h>

enum { MOST = 8 };

int row[MOST];
unsigned long found;

static void show(int n) {
  putchar('\n');
  for (int y = 0; y < n; y++) {
    for (int x = 0; x < n; x++)
      putchar(row[y] == x ? 'Q' : '.');
    putchar('\n');
  }
}

static void place(int n, int y, unsigned columns, unsigned left, unsigned right) {
  if (y == n) {
    if (!found++ && n == MOST)
      show(n);
    return;
  }
  for (unsigned open = ~(columns | left | right) & ((1u << n) - 1), bit; open; open &= open - 1) {
    bit = open & -open;
    for (row[y] = 0; bit >> row[y] != 1; row[y]++)
      ;
    place(n, y + 1, columns | bit, (left | bit) << 1, (right | bit) >> 1);
  }
}

int main(void) {
  for (int n = 1; n <= MOST; n++) {
    found = 0;
    place(n, 0, 0, 0, 0);
    printf("%lu%c", found, n < MOST ? ' ' : '\n');
  }
  return 0;
}
