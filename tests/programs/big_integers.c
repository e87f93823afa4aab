/* Factorials and powers with as many digits as they have, in base 10,000. */
#include <stdio.h>
#include <stdlib.h>

enum { BASE = 10000 };

struct big {
  int used, room;
  int *digits;
};

static void make(struct big *b, int n) {
  b->room = 4;
  if (!(b->digits = malloc(b->room * sizeof *b->digits)))
    exit(1);
  b->used = 1;
  b->digits[0] = n;
}

static void push(struct big *b, int digit) {
  if (b->used == b->room) {
    int *more = malloc((b->room *= 2) * sizeof *more);
    if (!more)
      exit(1);
    for (int i = 0; i < b->used; i++)
      more[i] = b->digits[i];
    free(b->digits);
    b->digits = more;
  }
  b->digits[b->used++] = digit;
}

static void multiply(struct big *b, int by) {
  int carry = 0;
  for (int i = 0; i < b->used; i++, carry /= BASE) {
    carry += b->digits[i] * by;
    b->digits[i] = carry % BASE;
  }
  for (; carry; carry /= BASE)
    push(b, carry % BASE);
}

static void add(struct big *a, const struct big *b) {
  int carry = 0, i;
  for (i = 0; i < b->used || carry; i++) {
    if (i == a->used)
      push(a, 0);
    carry += a->digits[i] + (i < b->used ? b->digits[i] : 0);
    a->digits[i] = carry % BASE;
    carry /= BASE;
  }
}

static void print(const struct big *b) {
  int i = b->used - 1;
  printf("%d", b->digits[i]);
  while (i-- > 0)
    for (int unit = BASE / 10; unit; unit /= 10)
      printf("%d", b->digits[i] / unit % 10);
  printf("\n");
}

int main(void) {
  struct big f, sum;
  make(&f, 1);
  make(&sum, 0);
  for (int i = 1; i <= 50; i++) {
    multiply(&f, i);
    add(&sum, &f);
    if (i % 10 == 0)
      print(&f);
  }
  print(&sum);
  free(f.digits);
  make(&f, 1);
  for (int i = 0; i < 127; multiply(&f, 2), i++)
    ;
  print(&f);
  free(f.digits), free(sum.digits);
  return 0;
}
