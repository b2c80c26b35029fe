#include <cstdio>
struct Pair {
  int a = 0, b = 0;
  int &get(bool first) {
    if (first) return a;
    return b;
  }
};
static int &local() {
  int n = 3;
  return n;
}
int main() {
  Pair p;
  p.get(true) = 4;
  int &n = local();
  printf("%d %d\n", p.a, p.b);
}
// refused: 6:5: references to places of several kinds as results; write a setter
// refused: 11:3: a reference to a local as a result; give the value
