// sorts a hand of cards by insertion
#include <stdio.h>

enum { COUNT = 7 };

int cards[COUNT] = {4, 9, 7, 10, 2, 8, 3};

/*@ ensures \forall integer i, j; 0 <= i < j < count ==> a[i] <= a[j]; */
void sort(int *a, int count) {
  for (int next = 1; next < count; next++) {
    int card = a[next];
    int at = next;
    while (at > 1 && a[at - 1] > card) {
      a[at] = a[at - 1];
      at--;
    }
    a[at] = card;
    //@ assert \forall integer i; 0 <= i < next ==> a[i] <= a[i + 1];
    printf("%d cards\n", next + 1);
  }
}

int main(void) {
  sort(cards, COUNT);
  return 0;
}
