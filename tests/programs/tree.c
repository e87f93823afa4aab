/* A binary search tree of the numbers on the input: `n` puts n in, `-n` takes it out, `?n` looks for it; the tree is printed at the end. */
#include <stdio.h>
#include <stdlib.h>

struct node {
  int key;
  struct node *left, *right;
};

struct node *root;

static struct node **place(int key) {
  struct node **p = &root;
  while (*p && (*p)->key != key)
    p = key < (*p)->key ? &(*p)->left : &(*p)->right;
  return p;
}

static int insert(int key) {
  struct node **p = place(key);
  if (*p)
    return 0;
  if ((*p = malloc(sizeof(struct node))) == NULL)
    exit(9);
  (*p)->key = key;
  (*p)->left = (*p)->right = NULL;
  return 1;
}

static int remove_key(int key) {
  struct node **p = place(key), *old = *p;
  if (!old)
    return 0;
  if (old->left && old->right) {
    struct node **q = &old->right;
    while ((*q)->left)
      q = &(*q)->left;
    struct node *least = *q;
    *q = least->right;
    least->left = old->left, least->right = old->right;
    *p = least;
  } else
    *p = old->left ? old->left : old->right;
  free(old);
  return 1;
}

static int show(struct node *t, int depth) {
  if (!t)
    return 0;
  int right = show(t->right, depth + 1);
  for (int i = 0; i < depth; i++)
    printf("  ");
  printf("%d\n", t->key);
  int left = show(t->left, depth + 1);
  return 1 + (left > right ? left : right);
}

static void empty(struct node *t) {
  if (t)
    empty(t->left), empty(t->right), free(t);
}

int main(void) {
  int c, ok = 0, bad = 0;
  while ((c = getchar()) != EOF) {
    int what = c, n = 0;
    if (c == '-' || c == '?')
      c = getchar();
    if (c < '0' || c > '9')
      continue;
    do
      n = 10 * n + c - '0';
    while ((c = getchar()) >= '0' && c <= '9');
    switch (what) {
    case '-': remove_key(n) ? ok++ : bad++; break;
    case '?': *place(n) ? ok++ : bad++; break;
    default: insert(n) ? ok++ : bad++;
    }
  }
  int height = show(root, 0);
  empty(root);
  return height * 10 + bad;
}
