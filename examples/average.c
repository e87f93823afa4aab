// prints the mean of the digits of each line, rounded down
#include <stdio.h>

/*@ requires 0 <= sum;
  @ requires 0 < count;
  @ ensures \result * count <= sum < (\result + 1) * count; */
int mean(int sum, int count) {
  return sum / count;
}

int main(void) {
  int c, sum = 0, count = 0;
  while ((c = getchar()) != EOF)
    if (c == '\n') {
      printf("%d\n", mean(sum, count));
      sum = count = 0;
    } else if (c >= '0' && c <= '9') {
      sum += c - '0';
      count++;
    }
  return 0;
}
