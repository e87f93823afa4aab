/* Each function of <ctype.h> on EOF and on all bytes. */
#include "numbers.h"
#include <ctype.h>

void truth(int is) {
  putchar(is ? '1' : '0');
}

int main(void) {
  for (int c = EOF; c < 256; c++) {
    truth(isalnum(c)), truth(isalpha(c)), truth(isblank(c)), truth(iscntrl(c));
    truth(isdigit(c)), truth(isgraph(c)), truth(islower(c)), truth(isprint(c));
    truth(ispunct(c)), truth(isspace(c)), truth(isupper(c)), truth(isxdigit(c));
    printf(" %d %d\n", tolower(c), toupper(c));
  }
  return 0;
}
