// turns a string around where it stands
#include <stdio.h>

char text[] = "a man, a plan";

int length(const char *s) {
  const char *end = s;
  while (*end)
    end++;
  return end - s;
}

void mirror(char *s) {
  for (char *last = s + length(s) - 1; s < last; ) {
    char kept = *s;
    *s++ = *last;
    *last-- = kept;
  }
}

int main(void) {
  mirror(text);
  printf("%s\n", text);
  mirror(text);
  printf("%s\n", text);
  int whole = sizeof text, found = length(text);
  //@ assert found + 1 == whole;
  return found;
}
