// finds numbers in a sorted array by halves
#include <stdio.h>

enum { COUNT = 9 };

int primes[COUNT] = {2, 3, 5, 7, 11, 13, 17, 19, 23};

/*@ requires \forall integer i; 0 <= i < count - 1 ==> a[i] <= a[i + 1];
  @ ensures \result == -1 ==> \forall integer i; 0 <= i < count ==> a[i] != wanted;
  @ ensures \result != -1 ==> a[\result] == wanted;
  @*/
int search(int *a, int count, int wanted) {
  int low = 0, high = count;
  /*@ loop invariant 0 <= low <= high <= count;
    @ loop invariant \forall integer i; 0 <= i < low ==> a[i] < wanted;
    @ loop invariant \forall integer i; high <= i < count ==> wanted < a[i];
    @ loop variant high - low;
    @*/
  while (low < high) {
    int middle = (low + high) / 2;
    if (a[middle] == wanted)
      return middle;
    if (a[middle] < wanted)
      low = middle;
    else
      high = middle;
  }
  return -1;
}

int main(void) {
  int wanted[] = {11, 2, 23, 1, 9, 30};
  for (int i = 0; i < 6; i++)
    printf("%d\n", search(primes, COUNT, wanted[i]));
  return 0;
}
