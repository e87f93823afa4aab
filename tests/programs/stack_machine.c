/* A machine with a stack runs two programs: the first prints powers of two, the second squares by sums. */
#include <stdio.h>

enum code { PUSH, ADD, SUB, MUL, DUP, SWAP, DROP, LESS, JUMP, UNLESS, PRINT, CALL, BACK, HALT };

enum fault { NONE, TOO_DEEP, TOO_EMPTY, NO_CODE };

const int powers[] = {PUSH, 1, DUP, PRINT, PUSH, 2, MUL, DUP, PUSH, 1000, LESS, UNLESS, 15, JUMP, 2, HALT};

const int squares[] = {
  PUSH, 0, PUSH, 0,
  /* 4 */ CALL, 16, DUP, PUSH, 10, LESS, UNLESS, 14, JUMP, 4,
  /* 14 */ HALT, HALT,
  /* 16, (sum n): the next square is the sum and 2n + 1 */
  DUP, DUP, ADD, PUSH, 1, ADD, /* sum n 2n+1 */
  SWAP, PUSH, 1, ADD, /* sum 2n+1 n+1 */
  BACK};

struct machine {
  const int *code;
  int length, at, top, depth;
  int stack[16], calls[4];
  unsigned long steps;
};

static enum fault step(struct machine *m) {
  int *top = m->stack + m->top, t;
  switch (m->code[m->at++]) {
  case PUSH:
    if (m->top == 16)
      return TOO_DEEP;
    *top = m->code[m->at++], m->top++;
    return NONE;
  case ADD:
    return m->top < 2 ? TOO_EMPTY : (top[-2] += top[-1], m->top--, NONE);
  case SUB:
    return m->top < 2 ? TOO_EMPTY : (top[-2] -= top[-1], m->top--, NONE);
  case MUL:
    return m->top < 2 ? TOO_EMPTY : (top[-2] *= top[-1], m->top--, NONE);
  case LESS:
    return m->top < 2 ? TOO_EMPTY : (top[-2] = top[-2] < top[-1], m->top--, NONE);
  case DUP:
    if (!m->top)
      return TOO_EMPTY;
    if (m->top == 16)
      return TOO_DEEP;
    *top = top[-1], m->top++;
    return NONE;
  case SWAP:
    if (m->top < 2)
      return TOO_EMPTY;
    t = top[-1], top[-1] = top[-2], top[-2] = t;
    return NONE;
  case PRINT:
    if (!m->top)
      return TOO_EMPTY;
    printf("%d\n", top[-1]);
  case DROP:
    return m->top ? m->top--, NONE : TOO_EMPTY;
  case UNLESS:
    if (!m->top)
      return TOO_EMPTY;
    m->top--;
    m->at = top[-1] ? m->at + 1 : m->code[m->at];
    return NONE;
  case JUMP:
    m->at = m->code[m->at];
    return NONE;
  case CALL:
    if (m->depth == 4)
      return TOO_DEEP;
    m->calls[m->depth++] = m->at + 1;
    m->at = m->code[m->at];
    return NONE;
  case BACK:
    if (!m->depth)
      return TOO_EMPTY;
    m->at = m->calls[--m->depth];
    return NONE;
  default:
    return NO_CODE;
  }
}

static enum fault run(struct machine *m, const int *code, int length) {
  enum fault f = NONE;
  m->code = code, m->length = length;
  m->at = m->top = m->depth = 0;
  m->steps = 0;
  while (m->at < m->length && m->code[m->at] != HALT && !(f = step(m)))
    m->steps++;
  return f;
}

int main(void) {
  struct machine m;
  enum fault f = run(&m, powers, sizeof powers / sizeof powers[0]);
  printf("%d %lu\n", f, m.steps);
  f = run(&m, squares, sizeof squares / sizeof *squares);
  printf("%d %lu\n", f, m.steps);
  for (int i = 0; i < m.top; i++)
    printf("%d%c", m.stack[i], i + 1 < m.top ? ' ' : '\n');
  return 0;
}
