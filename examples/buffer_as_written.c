#include <stdio.h>
enum { SIZE = 4 };

struct buffer {
  unsigned char bytes[SIZE];
  unsigned count;
};

/*@ requires buffer->count < SIZE; */
int put(struct buffer *buffer, unsigned char byte) {
  buffer->bytes[buffer->count++] = byte;
  return buffer->count == SIZE;
}

int main(void) {
  struct buffer buffer = {.count = 0};
  int byte;
  while ((byte = getchar()) != EOF)
    if (put(&buffer, byte))
      printf("full\n");
  return 0;
}
