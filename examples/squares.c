// fills one element more than there is, and asks in front of each write
#include <stdio.h>

int squares[10];

int main(void) {
  printf("A\n");
  for (int i = 0; i <= 10; i++) {
    //@ assert \valid(&squares[i]);
    squares[i] = i * i;
  }
  printf("B\n");
  return 0;
}
