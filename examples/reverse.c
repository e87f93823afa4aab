// prints the rest of a line of the input backwards, and says whether a line comes behind it
#include <stdio.h>

int reverse(int length) {
  int c = getchar();
  if (c == EOF || c == '\n')
    return c == '\n';
  int more = reverse(length + 1);
  putchar(c);
  //@ assert length >= 0;
  return more;
}

int main(void) {
  int lines = 0;
  for (; reverse(0); lines++)
    putchar('\n');
  return lines;
}
