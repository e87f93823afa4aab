/* Solves a sudoku by trying, with sets of bits for what a row, a column and a square have. */
#include <stdio.h>

int cell[9][9];
unsigned row[9], column[9], square[9];
int tried;

static int put(int y, int x, int n) {
  unsigned bit = 1u << n;
  if ((row[y] | column[x] | square[y / 3 * 3 + x / 3]) & bit)
    return 0;
  row[y] |= bit, column[x] |= bit, square[y / 3 * 3 + x / 3] |= bit;
  return cell[y][x] = n;
}

static void take(int y, int x) {
  unsigned bit = ~(1u << cell[y][x]);
  row[y] &= bit, column[x] &= bit, square[y / 3 * 3 + x / 3] &= bit;
  cell[y][x] = 0;
}

static int count(unsigned bits) {
  int n = 0;
  for (; bits; bits &= bits - 1)
    n++;
  return n;
}

static int solve(void) {
  int best = 10, by = 0, bx = 0, n;
  for (int y = 0; y < 9; y++)
    for (int x = 0; x < 9; x++)
      if (!cell[y][x] && (n = 9 - count(row[y] | column[x] | square[y / 3 * 3 + x / 3])) < best)
        best = n, by = y, bx = x;
  if (best == 10)
    return 1;
  for (n = 1; n <= 9; n++)
    if (put(by, bx, n)) {
      tried++;
      if (solve())
        return 1;
      take(by, bx);
    }
  return 0;
}

int main(void) {
  int c, n = 0;
  while (n < 81 && (c = getchar()) != EOF)
    switch (c) {
    case '1': case '2': case '3': case '4': case '5': case '6': case '7': case '8': case '9':
      if (!put(n / 9, n % 9, c - '0'))
        return 1;
    case '.':
      n++;
    }
  if (n < 81 || !solve())
    return 2;
  for (int y = 0; y < 9; y++)
    for (int x = 0; x < 9; x++)
      printf("%d%c", cell[y][x], x < 8 ? ' ' : '\n');
  return tried > 60 ? 60 : tried;
}
