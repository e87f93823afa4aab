/* Each function of <string.h> on strings of three letters, one of them above 127, and on bytes. */
#include "numbers.h"
#include <string.h>

char left[48], right[48], buffer[48];

/* a string of at most so many letters */
void make(char *to, int most) {
  int count = next(most + 1);
  for (int i = 0; i < count; i++) {
    to[i] = "ab\xe4"[next(3)];
  }
  to[count] = 0;
}

void fill(char *to, int count) {
  for (int i = 0; i < count; i++) {
    int byte = next(5);
    to[i] = byte == 4 ? '\xff' : byte;
  }
}

void put_place(const char *from, const char *found) {
  put(found == NULL ? -1 : found - from);
}

void compare(void) {
  put(strlen(left));
  put_sign(strcmp(left, right));
  put_sign(strncmp(left, right, next(8)));
}

void look(void) {
  const int letters[] = {'a', 'b', 0xe4, 0, 256 + 'a', 'x'};
  int letter = letters[next(6)];
  put_place(left, strchr(left, letter));
  put_place(left, strrchr(left, letter));
}

void copy(void) {
  fill(buffer, 48);
  put_place(buffer, strcpy(buffer + 2, left));
  put_place(buffer, strcat(buffer + 2, right));
  put_bytes(buffer, 24);
  put_place(buffer, strncpy(buffer + 1, right, next(12)));
  put_bytes(buffer, 24);
}

void move(void) {
  fill(left, 40), fill(right, 40);
  int from = next(16), to = next(16), count = next(16);
  put_place(buffer, memcpy(buffer + to, left + from, count));
  put_place(buffer, memmove(buffer + to, buffer + from, count));
  put_place(right, memmove(right + from, left + to, count));
  put_bytes(buffer, 32);
  put_bytes(right, 32);
  put_place(buffer, memset(buffer + from, next(600) - 300, count));
  put_bytes(buffer, 32);
  put_sign(memcmp(left + from, right + to, next(4)));
  put_sign(memcmp(left, right, 0));
}

int main(void) {
  for (int round = 0; round < 200; round++) {
    make(left, 6);
    make(right, round % 2 ? 6 : 3);
    compare();
    look();
    copy();
    move();
    printf("\n");
  }
  return 0;
}
