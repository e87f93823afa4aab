/* Primes by a sieve of bits, and the factors of the numbers on the input. */
#include <stdio.h>

enum { LIMIT = 5000, BITS = 8 * sizeof(unsigned) };

unsigned composite[LIMIT / BITS + 1];
int primes[700];
int count;

static int get(int n) {
  return composite[n / BITS] >> n % BITS & 1;
}

static void set(int n) {
  composite[n / BITS] |= 1u << n % BITS;
}

static void sieve(void) {
  for (int n = 2; n < LIMIT; n++) {
    if (get(n))
      continue;
    primes[count++] = n;
    for (int m = n * n; m < LIMIT; m += n)
      set(m);
  }
}

static int read_number(unsigned *n) {
  int c;
  while ((c = getchar()) != EOF && (c < '0' || c > '9'))
    ;
  if (c == EOF)
    return 0;
  for (*n = 0; c >= '0' && c <= '9'; c = getchar())
    *n = *n * 10 + (c - '0');
  return 1;
}

static void factor(unsigned n) {
  printf("%u:", n);
  for (int i = 0; i < count && (unsigned)primes[i] * primes[i] <= n; i++)
    for (; n % primes[i] == 0; n /= primes[i])
      printf(" %d", primes[i]);
  if (n > 1)
    printf(" %u", n);
  printf("\n");
}

int main(void) {
  unsigned n;
  sieve();
  printf("%d\n", count);
  while (read_number(&n))
    factor(n);
  return primes[count - 1] != 4999;
}
