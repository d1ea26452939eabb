// Tests arithmetic.c on this machine, against the compiler's own numbers of 128 bits. The last line is `N passed, M failed`.
// usage: arithmetic-test [ROUNDS [SEED]]

#include <stdint.h>
#include <stdio.h>
#include <stdlib.h>

#define __multi3 product_of
#define __ashlti3 shifted_left
#define __lshrti3 shifted_right
#define __ashrti3 shifted_right_signed
#include "arithmetic.c"

static uint64_t state;

static word some_word(void) {
  static const word edges[] = {0, 1, 2, 0xffffffff, 0x100000000, ~(word)0, (word)1 << 63, ((word)1 << 63) - 1};
  state = state * 6364136223846793005u + 1442695040888963407u;
  if (state >> 60 < 4) return edges[state >> 57 & 7];
  return state ^ state >> 29;
}

int main(int count, char **words) {
  long rounds = count > 1 ? strtol(words[1], 0, 10) : 1000000;
  state = count > 2 ? strtoul(words[2], 0, 10) : 1;
  int passed[4] = {0, 0, 0, 0};
  for (long i = 0; i < rounds; i++) {
    wide x = joined(some_word(), some_word()), y = joined(some_word(), some_word());
    int by = (int)(some_word() >> 32 & 127);
    passed[0] += product_of(x, y) == x * y;
    passed[1] += shifted_left(x, by) == x << by;
    passed[2] += shifted_right(x, by) == x >> by;
    passed[3] += shifted_right_signed((__int128)x, by) == (__int128)x >> by;
  }
  int failed = 0;
  for (int i = 0; i < 4; i++) failed += passed[i] != rounds;
  printf("%d passed, %d failed\n", 4 - failed, failed);
  return failed > 0;
}
