// sorts numbers where they stand, and checks the order before it prints them
#include <stdio.h>

int numbers[] = {31, 41, 59, 26, 53, 58, 97, 93, 23, 84, 62, 64};

enum { COUNT = sizeof numbers / sizeof numbers[0] };

void swap(int *a, int *b) {
  int kept = *a;
  *a = *b;
  *b = kept;
}

void sort(int *from, int *end) {
  for (int sorted = 0; !sorted; end--) {
    sorted = 1;
    for (int *at = from; at + 1 < end; at++)
      if (at[0] > at[1]) {
        swap(at, at + 1);
        sorted = 0;
      }
  }
}

int main(void) {
  sort(numbers, numbers + COUNT);
  for (int i = 0; i < COUNT; i++) {
    //@ assert i == 0 || numbers[i - 1] <= numbers[i];
    printf("%d\n", numbers[i]);
  }
  return COUNT;
}
