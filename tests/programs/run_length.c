/* Packs bytes by run lengths and unpacks them again, in one buffer each. */
#include <stdio.h>
#include <stdlib.h>

struct buffer {
  unsigned char *bytes;
  unsigned long length, room;
};

static void put(struct buffer *b, int c) {
  if (b->length == b->room) {
    unsigned char *more = malloc(b->room = b->room ? b->room * 2 : 16), *to = more;
    if (!more)
      exit(9);
    for (unsigned char *from = b->bytes; from && from < b->bytes + b->length; )
      *to++ = *from++;
    free(b->bytes);
    b->bytes = more;
  }
  b->bytes[b->length++] = c;
}

static void pack(struct buffer *to, const struct buffer *from) {
  for (unsigned long i = 0, n; i < from->length; i += n) {
    for (n = 1; i + n < from->length && n < 130 && from->bytes[i + n] == from->bytes[i]; n++)
      ;
    if (n > 2) {
      put(to, n + 125), put(to, from->bytes[i]);
      continue;
    }
    for (n = 1; i + n < from->length && n < 128; n++)
      if (i + n + 2 < from->length && from->bytes[i + n] == from->bytes[i + n + 1] && from->bytes[i + n] == from->bytes[i + n + 2])
        break;
    put(to, n - 1);
    for (unsigned long k = 0; k < n; put(to, from->bytes[i + k++]))
      ;
  }
}

static void unpack(struct buffer *to, const struct buffer *from) {
  for (unsigned long i = 0; i < from->length; ) {
    int n = from->bytes[i++];
    if (n < 128)
      do
        put(to, from->bytes[i++]);
      while (n--);
    else {
      for (n -= 125; n--; put(to, from->bytes[i]))
        ;
      i++;
    }
  }
}

int main(void) {
  struct buffer text = {NULL, 0, 0}, packed = {NULL}, back = {0};
  int c;
  while ((c = getchar()) != EOF)
    put(&text, c);
  pack(&packed, &text);
  unpack(&back, &packed);
  if (back.length != text.length)
    return 1;
  for (unsigned long i = 0; i < back.length; i++)
    if (back.bytes[i] != text.bytes[i])
      return 2;
  printf("%lu %lu\n", text.length, packed.length);
  for (unsigned long i = 0; i < packed.length; i++)
    printf("%d%c", packed.bytes[i], i % 16 == 15 || i + 1 == packed.length ? '\n' : ' ');
  free(text.bytes), free(packed.bytes), free(back.bytes);
  return 0;
}
