/* Plain loops over one byte an element, beside which bench/values sets the operators on values. */
#include <stdio.h>
#include <stdlib.h>
#include <string.h>

int main(int argc, char **argv) {
  if (argc != 4) return 2;
  const char *what = argv[1];
  long length = atol(argv[2]), rounds = atol(argv[3]);
  unsigned char *a = malloc(length), *b = malloc(length), *c = malloc(length), *made = malloc(2 * length);
  unsigned long sum = 0;
  for (long i = 0; i < length; i++) a[i] = i & 1, b[i] = (i & 3) == 0, c[i] = a[i];
  for (long round = 0; round < rounds; round++) {
    a[round % length] ^= 1;
    c[round % length] = a[round % length];
    if (!strcmp(what, "and"))
      for (long i = 0; i < length; i++) made[i] = a[i] & b[i];
    else if (!strcmp(what, "concatenate")) {
      memcpy(made, a, length);
      memcpy(made + length, b, length);
    } else if (!strcmp(what, "equal")) {
      int same = 1;
      for (long i = 0; i < length && same; i++) same = a[i] == c[i];
      made[0] = same;
    } else if (!strcmp(what, "sll")) {
      memcpy(made, a + 3, length - 3);
      memset(made + length - 3, 0, 3);
    }
    sum += made[round % length];
  }
  printf("%lu\n", sum);
  return 0;
}
