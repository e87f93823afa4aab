/* The longest ways to 1 below a bound, by a table. */
#include <stdio.h>

enum { BOUND = 3000 };

unsigned short lengths[BOUND];

static unsigned length(unsigned long n) {
  unsigned steps;
  if (n < BOUND && lengths[n])
    return lengths[n];
  steps = n == 1 ? 1 : 1 + length(n % 2 ? 3 * n + 1 : n / 2);
  return n < BOUND ? (lengths[n] = steps) : steps;
}

int main(void) {
  unsigned longest = 0, l;
  for (unsigned i = 1; i < BOUND; i++)
    if ((l = length(i)) > longest)
      printf("%u takes %u\n", i, longest = l);
  printf("100%% done\n");
  return 0;
}
