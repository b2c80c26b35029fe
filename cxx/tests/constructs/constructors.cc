// Constructors with initialisers, default members, overloads, delegation.
#include <cstdio>
struct Inner {
  int a = 5, b;
  Inner() : b(a * 2) {}
  Inner(int x) : a(x), b(x + 1) {}
};
class Outer {
  Inner first, second{9};
  int n;
  long total = 3;

public:
  Outer() : Outer(7) { total += 100; }
  explicit Outer(int k) : first(k), n(k) { total += n; }
  Outer(int k, int m) : second(m), n(k) {}
  void print() const { printf("%d %d %d %d %d %ld\n", first.a, first.b, second.a, second.b, n, total); }
};
int main() {
  Outer a;
  Outer b(4);
  Outer c(1, 2);
  Outer *d = new Outer(8, 3);
  a.print();
  b.print();
  c.print();
  d->print();
}
