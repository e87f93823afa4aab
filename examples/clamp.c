// brings numbers between two bounds
#include <stdio.h>

/*@ requires low <= high;
  @ behavior below:
  @   assumes n < low;
  @   ensures \result == low;
  @ behavior above:
  @   assumes n > high;
  @   ensures \result == high;
  @ behavior inside:
  @   assumes low < n < high;
  @   ensures \result == n;
  @ complete behaviors;
  @ disjoint behaviors below, above; */
int clamp(int n, int low, int high) {
  if (n < low)
    return low;
  return n > high ? high : n;
}

int main(void) {
  for (int n = -2; n < 12; n += 3)
    printf("%d\n", clamp(n, 0, 7));
  return 0;
}
