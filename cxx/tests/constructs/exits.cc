// exit ends the program from within.
#include <cstdio>
#include <cstdlib>
struct Deep {
  int n;
  void go() {
    printf("%d\n", n);
    if (n == 3) std::exit(7);
    n++;
    go();
  }
};
int main() {
  Deep d{0};
  d.go();
  printf("never\n");
}
