/* Products and powers of matrices, and a determinant by fractions free elimination. */
#include <stdio.h>

enum { N = 4 };

static void print(long m[N][N]) {
  for (int i = 0; i < N; i++)
    for (int j = 0; j < N; j++)
      printf("%ld%c", m[i][j], j < N - 1 ? ' ' : '\n');
  printf("\n");
}

static void multiply(long to[N][N], long a[N][N], long b[N][N]) {
  long product[N][N];
  for (int i = 0; i < N; i++)
    for (int j = 0; j < N; j++) {
      long sum = 0;
      for (int k = 0; k < N; k++)
        sum += a[i][k] * b[k][j];
      product[i][j] = sum;
    }
  for (int i = 0; i < N; i++)
    for (int j = 0; j < N; j++)
      to[i][j] = product[i][j];
}

static void power(long to[N][N], long a[N][N], unsigned n) {
  long base[N][N];
  for (int i = 0; i < N; i++)
    for (int j = 0; j < N; j++)
      to[i][j] = i == j, base[i][j] = a[i][j];
  for (; n; n >>= 1) {
    if (n & 1)
      multiply(to, to, base);
    if (n > 1)
      multiply(base, base, base);
  }
}

static long determinant(long m[N][N]) {
  long last = 1, sign = 1;
  for (int k = 0; k < N - 1; last = m[k][k], k++) {
    if (m[k][k] == 0) {
      int r = k + 1;
      while (r < N && m[r][k] == 0)
        r++;
      if (r == N)
        return 0;
      for (int j = 0; j < N; j++) {
        long t = m[k][j];
        m[k][j] = m[r][j], m[r][j] = t;
      }
      sign = -sign;
    }
    for (int i = k + 1; i < N; i++)
      for (int j = k + 1; j < N; j++)
        m[i][j] = (m[i][j] * m[k][k] - m[i][k] * m[k][j]) / last;
  }
  return sign * m[N - 1][N - 1];
}

int main(void) {
  long a[N][N] = {{1, 1, 0, 0}, {1, 0, 1, 0}, {0, 1, 0, 1}, {0, 0, 1, 1}};
  long b[N][N] = {{0, 2, -1, 3}, {4, 0, 1, 1}, {-2, 5, 3, 0}, {1, 1, 1, 1}};
  long c[N][N];
  multiply(c, a, b);
  print(c);
  power(c, a, 20);
  print(c);
  printf("%ld\n", determinant(b));
  return 0;
}
