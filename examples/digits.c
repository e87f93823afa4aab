#include <stdio.h>

int main(void) {
  int rest = 300, hundreds = 0, tens = 0;
  for (; rest > 100; rest -= 100)
    hundreds++;
  //@ assert hundreds < 10;
  printf("%d", hundreds);
  for (; rest > 10; rest -= 10)
    tens++;
  //@ assert tens < 10;
  printf("%d", tens);
  //@ assert rest < 10;
  printf("%d\n", rest);
  return 0;
}
