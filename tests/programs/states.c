/* Takes comments out of C by a state machine; strings and character constants stay as they are. */
#include <stdio.h>

enum state { CODE, SLASH, LINE, BLOCK, STAR, STRING, STRING_ESCAPE, LETTER, LETTER_ESCAPE };

int main(void) {
  enum state s = CODE;
  int c, taken = 0;
  while ((c = getchar()) != EOF) {
    switch (s) {
    case SLASH:
      switch (c) {
      case '/': s = LINE; taken++; continue;
      case '*': s = BLOCK; taken++; continue;
      }
      putchar('/');
      s = CODE;
    case CODE:
      switch (c) {
      case '/': s = SLASH; continue;
      case '"': s = STRING; break;
      case '\'': s = LETTER; break;
      }
      break;
    case LINE:
      if (c != '\n')
        continue;
      s = CODE;
      break;
    case BLOCK:
      if (c == '*')
        s = STAR;
      if (c == '\n')
        break;
      continue;
    case STAR:
      switch (c) {
      case '/': s = CODE; putchar(' '); continue;
      case '*': continue;
      default: s = BLOCK; continue;
      }
    case STRING:
      s = c == '\\' ? STRING_ESCAPE : c == '"' ? CODE : STRING;
      break;
    case STRING_ESCAPE:
      s = STRING;
      break;
    case LETTER:
      s = c == '\\' ? LETTER_ESCAPE : c == '\'' ? CODE : LETTER;
      break;
    case LETTER_ESCAPE:
      s = LETTER;
    }
    putchar(c);
  }
  if (s == SLASH)
    putchar('/');
  return s == CODE ? taken : 99;
}
