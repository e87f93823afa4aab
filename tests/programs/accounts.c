/* Accounts: `o name` opens one, `d name n` pays in, `w name n` takes out, `t a b n` moves, `p` prints. */
#include <stdio.h>

enum { MOST = 8, LONGEST = 16 };

struct account {
  char name[LONGEST];
  unsigned long balance;
  int turns;
};

struct account accounts[MOST];
int used;

static int word(char *to) {
  int c, n = 0;
  while ((c = getchar()) == ' ')
    ;
  while (c != ' ' && c != '\n' && c != EOF) {
    if (n < LONGEST - 1)
      to[n++] = c;
    c = getchar();
  }
  to[n] = 0;
  return n;
}

static int same(const char *a, const char *b) {
  for (; *a || *b; a++, b++)
    if (*a != *b)
      return 0;
  return 1;
}

static struct account *find(void) {
  char name[LONGEST];
  word(name);
  for (struct account *a = accounts; a < accounts + used; a++)
    if (same(a->name, name))
      return a;
  printf("no account %s\n", name);
  return NULL;
}

static unsigned long amount(void) {
  char digits[LONGEST], *p = digits;
  unsigned long n = 0;
  word(digits);
  while (*p >= '0' && *p <= '9')
    n = n * 10 + (*p++ - '0');
  return n;
}

static int take(struct account *a, unsigned long n) {
  if (a->balance < n)
    return printf("%s has %lu, not %lu\n", a->name, a->balance, n), 0;
  return a->balance -= n, ++a->turns;
}

static void give(struct account *a, unsigned long n) {
  a->balance += n, a->turns++;
}

int main(void) {
  char command[LONGEST];
  struct account *a, *b;
  while (word(command))
    switch (command[0]) {
    case 'o':
      if (used == MOST)
        return 1;
      word(accounts[used].name);
      printf("%c%s opened\n", '#', accounts[used++].name);
      break;
    case 'd':
      if ((a = find()))
        give(a, amount());
      break;
    case 'w':
      if ((a = find()))
        take(a, amount());
      break;
    case 't':
      if ((a = find()) && (b = find())) {
        unsigned long n = amount();
        take(a, n) ? give(b, n) : (void)0;
      }
      break;
    case 'p':
      for (int i = 0; i < used; i++)
        printf("%d. %s: %lu by %d\n", i + 1, accounts[i].name, accounts[i].balance, accounts[i].turns);
      break;
    default:
      printf("%s?\n", command);
    }
  return 0;
}
