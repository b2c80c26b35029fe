// An assertion that fails, in a function that only computes.
#include <cassert>
#include <cstdio>
static int half(int n) {
  assert(n % 2 == 0);
  return n / 2;
}
int main() {
  printf("%d\n", half(8));
  printf("%d\n", half(7));
  printf("never\n");
}
