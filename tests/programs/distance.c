/* The distance between two lines of the input, by insertions, deletions and changes, and the steps of one way. */
#include <stdio.h>

enum { MOST = 40 };

int table[MOST + 1][MOST + 1];

static int read(char *to) {
  int c, n = 0;
  while ((c = getchar()) != EOF && c != '\n')
    if (n < MOST)
      to[n++] = c;
  return n;
}

static int least(int a, int b, int c) {
  return a < b ? a < c ? a : c : b < c ? b : c;
}

static int fill(const char *a, int n, const char *b, int m) {
  for (int i = 0; i <= n; i++)
    for (int j = 0; j <= m; j++)
      table[i][j] = !i ? j : !j ? i
        : least(table[i - 1][j] + 1, table[i][j - 1] + 1, table[i - 1][j - 1] + (a[i - 1] != b[j - 1]));
  return table[n][m];
}

static void steps(const char *a, int i, const char *b, int j) {
  if (!i && !j)
    return;
  if (i && j && table[i][j] == table[i - 1][j - 1] + (a[i - 1] != b[j - 1])) {
    steps(a, i - 1, b, j - 1);
    if (a[i - 1] == b[j - 1])
      putchar(a[i - 1]);
    else
      printf("[%c>%c]", a[i - 1], b[j - 1]);
  } else if (i && table[i][j] == table[i - 1][j] + 1) {
    steps(a, i - 1, b, j);
    printf("-%c", a[i - 1]);
  } else {
    steps(a, i, b, j - 1);
    printf("+%c", b[j - 1]);
  }
}

int main(void) {
  char a[MOST], b[MOST];
  int n, m, total = 0;
  while ((n = read(a)) && (m = read(b))) {
    total += fill(a, n, b, m);
    steps(a, n, b, m);
    printf("\n");
  }
  return total;
}
