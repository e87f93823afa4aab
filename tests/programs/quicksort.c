/* Sorts numbers, by partition around a pivot, and insertion in short parts. */
#include <stdio.h>

enum { COUNT = 200, SHORT = 8 };

int numbers[COUNT];
unsigned seed = 12345;
int swaps;

static int random(int below) {
  seed = seed * 1103515245 + 12345;
  return (int)(seed >> 16 & 0x7fff) % below;
}

static void swap(int *a, int *b) {
  int t = *a;
  *a = *b;
  *b = t;
  swaps++;
}

static void insertion(int *from, int *to) {
  for (int *p = from + 1; p < to; p++) {
    int x = *p, *q = p;
    while (q > from && q[-1] > x)
      *q = q[-1], q--;
    *q = x;
  }
}

static void sort(int *from, int *to) {
  while (to - from > SHORT) {
    swap(from, from + (to - from) / 2);
    int pivot = *from, *left = from, *right = to;
    for (;;) {
      while (++left < to && *left < pivot)
        ;
      while (*--right > pivot)
        ;
      if (left >= right)
        break;
      swap(left, right);
    }
    swap(from, right);
    if (right - from < to - (right + 1))
      sort(from, right), from = right + 1;
    else
      sort(right + 1, to), to = right;
  }
  insertion(from, to);
}

int main(void) {
  int i, sum = 0, after = 0;
  for (i = 0; i < COUNT; sum += numbers[i++])
    numbers[i] = random(1000) - 500;
  sort(numbers, numbers + COUNT);
  for (i = 0; i < COUNT; after += numbers[i++])
    if (i > 0 && numbers[i - 1] > numbers[i])
      return 1;
  if (sum != after)
    return 2;
  for (i = 0; i < COUNT; i += 10)
    printf("%d%c", numbers[i], i % 50 == 40 ? '\n' : ' ');
  return swaps == 0;
}
