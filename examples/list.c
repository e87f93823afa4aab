// sorts the letters of the input in a list on the heap, which is freed as it is printed
#include <stdio.h>
#include <stdlib.h>

struct node {
  char letter;
  struct node *next;
};

int living;

// puts a letter before the first one that isn't less
void insert(struct node **list, char letter) {
  while (*list && (*list)->letter < letter)
    list = &(*list)->next;
  struct node *node = malloc(sizeof *node);
  living++;
  node->letter = letter;
  node->next = *list;
  *list = node;
}

int main(void) {
  struct node *list = NULL, node;
  int c;
  while ((c = getchar()) != EOF)
    if (c >= 'a' && c <= 'z')
      insert(&list, c);
  for (char last = 'a'; list; list = node.next) {
    node = *list;
    free(list), living--;
    //@ assert last <= node.letter;
    putchar(last = node.letter);
  }
  putchar('\n');
  //@ assert living == 0;
  return 0;
}
