#include <stdio.h>

/*@ requires 0 <= n <= 12;
  @ ensures \result >= n; */
int factorial(int n) {
  return n == 0 ? 1 : n * factorial(n - 1);
}

int main(void) {
  for (int n = 10; n < 20; n++)
    printf("%d\n", factorial(n));
  return 0;
}
