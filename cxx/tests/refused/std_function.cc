#include <cstdio>
#include <functional>
int main() {
  std::function<int(int)> f = [](int x) { return x + 1; };
  printf("%d\n", f(2));
}
// refused: 4:8: std::function (pointers to functions); write functions by their names, lambdas, or virtual functions
