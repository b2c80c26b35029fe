// The exit code of main.
#include <cstdio>
static int faults;
static void check(bool ok, const char *what) {
  if (!ok) {
    printf("fault: %s\n", what);
    faults++;
  }
}
int main() {
  check(1 + 1 == 2, "sum");
  check(2 * 2 == 5, "product");
  if (faults) return faults + 40;
  return 0;
}
