/* Pascal's triangle, and its sums. */
#include <stdio.h>

enum { ROWS = 12 };

int main(void) {
  unsigned long row[ROWS + 1] = {1};
  for (int n = 0; n < ROWS; n++) {
    unsigned long sum = 0;
    for (int i = 0; i <= n; sum += row[i++])
      printf("%lu%c", row[i], i < n ? ' ' : '\t');
    printf("= %lu\n", sum);
    for (int i = n + 1; i > 0; i--)
      row[i] += row[i - 1];
  }
  return 0;
}
