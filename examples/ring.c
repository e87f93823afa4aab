// prints who is left when of twelve that stand in a ring each fifth goes
#include <stdio.h>

struct person {
  char name;
  struct person *next;
};

struct person people[12];

// brings them into a ring, so that the last has the first behind it, and one alone has itself
struct person *ring(int count) {
  for (int i = 0; i < count; i++) {
    people[i].name = 'A' + i;
    people[i].next = &people[(i + 1) % count];
  }
  return &people[count - 1];
}

int main(void) {
  struct person *before = ring(12);
  int left = 12;
  while (before->next != before) {
    for (int step = 1; step < 5; step++)
      before = before->next;
    putchar(before->next->name);
    before->next = before->next->next;
    left--;
    //@ assert left >= 1;
  }
  printf("\n%c\n", before->name);
  //@ assert left == 1;
  return 0;
}
