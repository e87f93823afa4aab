/* A calculator with a parser by recursive descent: a line is an expression, or `x = expression` of a letter. */
#include <stdio.h>

int ahead;
int failed;
long variables[26];

static void next(void) {
  do
    ahead = getchar();
  while (ahead == ' ');
}

static int take(int c) {
  return ahead == c ? (next(), 1) : 0;
}

static long fail(void) {
  failed = 1;
  return 0;
}

static long sum(void);

static long primary(void) {
  if (take('(')) {
    long x = sum();
    return take(')') ? x : fail();
  }
  if (ahead >= '0' && ahead <= '9') {
    long x = 0;
    while (ahead >= '0' && ahead <= '9')
      x = x * 10 + (ahead - '0'), ahead = getchar();
    if (ahead == ' ')
      next();
    return x;
  }
  if (ahead >= 'a' && ahead <= 'z') {
    long *x = &variables[ahead - 'a'];
    next();
    return take('=') ? (*x = sum()) : *x;
  }
  return fail();
}

static long power(void) {
  long x = primary();
  if (!take('^'))
    return x;
  long n = power(), result = 1;
  while (n-- > 0)
    result *= x;
  return result;
}

static long sign(void) {
  switch (ahead) {
  case '-':
    next();
    return -sign();
  case '+':
    next();
    return sign();
  default:
    return power();
  }
}

static long product(void) {
  long x = sign(), y;
  for (;;)
    switch (ahead) {
    case '*':
      next();
      x *= sign();
      break;
    case '/':
    case '%': {
      int c = ahead;
      next();
      if ((y = sign()) == 0)
        return fail();
      x = c == '/' ? x / y : x % y;
      break;
    }
    default:
      return x;
    }
}

static long sum(void) {
  long x = product();
  while (ahead == '+' || ahead == '-')
    if (take('+'))
      x += product();
    else
      next(), x -= product();
  return x;
}

int main(void) {
  int lines = 0;
  while (next(), ahead != EOF) {
    failed = 0;
    long x = sum();
    if (failed || ahead != '\n')
      printf("?\n");
    else
      printf("%ld\n", x);
    while (ahead != '\n' && ahead != EOF)
      next();
    ++lines;
  }
  return lines != 8;
}
