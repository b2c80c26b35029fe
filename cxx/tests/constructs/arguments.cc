// Arguments of main: the port does what a run without any does.
#include <cstdio>
#include <cstdlib>
#include <cstring>
int main(int argc, char *argv[]) {
  int n = argc > 1 ? atoi(argv[1]) : 6;
  bool loud = false;
  for (int i = 2; i < argc; i++)
    if (strcmp(argv[i], "-v") == 0) loud = true;
  if (n <= 0) {
    printf("usage: %s N\n", argv[0]);
    return 1;
  }
  long product = 1;
  for (int i = 2; i <= n; i++) product *= i;
  printf("%d! = %ld%s\n", n, product, loud ? "!" : "");
  return 0;
}
