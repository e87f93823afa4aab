// frees a list, and reads the next item out of one that is gone
#include <stdio.h>
#include <stdlib.h>

struct item {
  int value;
  struct item *next;
};

struct item *push(int value, struct item *next) {
  struct item *item = malloc(sizeof(struct item));
  //@ assert \valid(item);
  item->value = value;
  item->next = next;
  return item;
}

void release(struct item *list) {
  while (list != NULL) {
    printf("%d\n", list->value);
    free(list);
    //@ assert list->next == NULL || \valid(list->next);
    list = list->next;
  }
}

int main(void) {
  release(push(1, push(2, push(3, NULL))));
  return 0;
}
