// prints the greatest of the capital letters in the input
#include <stdio.h>

int main(void) {
  int c, greatest, found = 0;
  while ((c = getchar()) != EOF)
    if (c >= 'A' && c <= 'Z' && (!found || c > greatest))
      greatest = c, found = 1;
  //@ assert greatest >= 'A';
  printf("%c\n", greatest);
  return 0;
}
