// copies bytes from the front, which is wrong where the target begins inside the source
#include <stdio.h>

void copy(char *to, char *from, int length) {
  //@ assert length >= 0 && \valid(to + (0 .. length - 1)) && \valid_read(from + (0 .. length - 1));
  //@ assert \separated(to + (0 .. length - 1), from + (0 .. length - 1));
  while (length-- > 0)
    *to++ = *from++;
}

int main(void) {
  char text[8];
  copy(text, "abc", 4);
  printf("%s\n", text);
  copy(text + 4, text, 4);
  printf("%s\n", text + 4);
  copy(text + 1, text, 4);
  printf("%s\n", text);
  return 0;
}
