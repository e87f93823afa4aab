/* Splits C into tokens, and prints each with its kind. */
#include <stdio.h>

enum kind { END, NAME, NUMBER, STRING, MARK, BROKEN };

int ahead;
char text[80];

static int next(void) {
  int c = ahead;
  ahead = getchar();
  return c;
}

static int is_letter(int c) {
  return (c >= 'a' && c <= 'z') || (c >= 'A' && c <= 'Z') || c == '_';
}

static int is_digit(int c) {
  return c >= '0' && c <= '9';
}

static enum kind string(int n) {
  while (ahead != EOF && ahead != '"' && ahead != '\n') {
    if (ahead == '\\')
      text[n++] = next();
    text[n++] = next();
    if (n > 70)
      return BROKEN;
  }
  if (ahead != '"')
    return BROKEN;
  text[n++] = next();
  text[n] = 0;
  return STRING;
}

static enum kind token(void) {
  int n = 0;
  while (ahead == ' ' || ahead == '\t' || ahead == '\n')
    next();
  if (ahead == EOF)
    return END;
  int c = text[n++] = next();
  if (is_letter(c)) {
    while ((is_letter(ahead) || is_digit(ahead)) && n < 79)
      text[n++] = next();
    text[n] = 0;
    return NAME;
  }
  if (is_digit(c)) {
    while (is_digit(ahead) && n < 79)
      text[n++] = next();
    text[n] = 0;
    return NUMBER;
  }
  switch (c) {
  case '"':
    return string(n);
  case '+':
  case '-':
  case '&':
  case '|':
    if (ahead == c || ahead == '=' || (c == '-' && ahead == '>'))
      text[n++] = next();
    break;
  case '<':
  case '>':
    if (ahead == c)
      text[n++] = next();
    /* and perhaps `=` */
  case '=':
  case '!':
  case '*':
  case '/':
    if (ahead == '=')
      text[n++] = next();
    break;
  case '(': case ')': case '{': case '}': case '[': case ']': case ';': case ',': case '.':
    break;
  default:
    text[n] = 0;
    return BROKEN;
  }
  text[n] = 0;
  return MARK;
}

int main(void) {
  enum kind k;
  int count = 0;
  ahead = getchar();
  while ((k = token()) != END) {
    switch (k) {
    case NAME: printf("name   "); break;
    case NUMBER: printf("number "); break;
    case STRING: printf("string "); break;
    case MARK: printf("mark   "); break;
    default: printf("broken\n"); return 1;
    }
    printf("%s\n", text);
    ++count;
  }
  return count != 37;
}
