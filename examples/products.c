// prints primes, and asserts of each that it is no product
#include <stdio.h>

/*@ ensures \result != 0 ==> \forall integer i, j; 2 <= i <= j < n ==> i * j != n;
  @ ensures \result == 0 ==> \exists integer i, j; 2 <= i <= j < n && i * j == n;
  @*/
int is_prime(int n) {
  for (int d = 2; d * d <= n; d++)
    if (n % d == 0)
      return 0;
  return 1;
}

int main(void) {
  for (int n = 2; ; n++)
    if (is_prime(n))
      printf("%d\n", n);
}
