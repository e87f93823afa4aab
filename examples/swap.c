// turns an array around where it stands, with an exchange that needs no third variable
#include <stdio.h>

/*@ requires \valid(a) && \valid(b);
  @ ensures *a == \old(*b) && *b == \old(*a); */
void swap(int *a, int *b) {
  *a ^= *b;
  *b ^= *a;
  *a ^= *b;
}

int main(void) {
  int primes[] = {2, 3, 5, 7, 11}, last = 4;
  for (int i = 0; i <= last - i; i++) {
    swap(&primes[i], &primes[last - i]);
    printf("%d %d\n", primes[i], primes[last - i]);
  }
  return 0;
}
