/* Prints a triangle of stars, and checks how many there are. */
#include <stdio.h>

int main(void) {
  int height = 5, row = 0, column = 0, stars = 0;
  for (row = 1; row <= height; row++) {
    for (column = 0; column < row; column++) {
      putchar('*');
      stars++;
    }
    //@ assert column == row;
    putchar('\n');
  }
  /*@ assert 2 * stars == height * (height + 1); */
  return 0;
}
