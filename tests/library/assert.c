/* <stdbool.h> and <assert.h>, with assertions that hold. */
#include "numbers.h"
#include <assert.h>
#include <stdbool.h>

bool is_even(int number) {
  assert(number >= 0);
  if (number % 2 == 0) assert(number != 1); else assert(number != 2 && number > 0);
  return number % 2 == 0;
}

int main(void) {
  for (int round = 0; round < 200; round++) {
    bool even = is_even(round);
    assert(even == true || !even);
    put(even);
    put(even ? true : false);
    put(__bool_true_false_are_defined);
  }
#undef NDEBUG
#define NDEBUG
#include <assert.h>
  assert(1 == 2);
  return 0;
}
