// Shifts to the right of numbers that may be below zero, whatever way they came there.
#include <cstdint>
#include <cstdio>
#include <utility>
static void shown(long by, int from) { printf("%u %ld\n", (unsigned)(from >> 27), by); }
static int rest(int of) { return of % 1000; }
static int part(int of) { return of / -3; }
struct Cell {
  int n = 0;
  long low = 5;
  short s = 32000;
  int &place() { return n; }
};
struct Root {
  virtual ~Root() {}
  virtual long get() const = 0;
};
struct Leaf : Root {
  long get() const override { return -9; }
};
static int narrow(unsigned long of) {
  int cut = (int)(of & 4294967295u);
  return cut >> 4;
}
int main() {
  for (int d = -2; d < 2; d++) shown(d, d % 1000);
  int left = 7 - 16;
  printf("%d %d\n", rest(left) >> 1, part(7) >> 1);
  Cell c;
  c.place() = -5;
  printf("%d\n", c.n >> 1);
  int a = 0, b = 0, e = 0;
  (left > 3 ? a : b) = -3;
  printf("%d %d\n", a >> 1, b >> 1);
  (e = 4) -= 9;
  printf("%d\n", e >> 1);
  int *to = nullptr;
  int f = 3;
  int &other = f;
  other -= 20;
  printf("%d %d\n", f >> 2, to == nullptr);
  c.low /= -2;
  printf("%ld\n", c.low >> 1);
  for (int i = 0; i < 3; i++) c.s += 500;
  printf("%d\n", c.s >> 3);
  int g = 5;
  g += 4294967280u;
  printf("%d\n", g >> 2);
  Root *root = new Leaf;
  printf("%ld\n", root->get() >> 1);
  printf("%d\n", narrow(4294967000u));
  int p = 6, q = -6;
  std::swap(p, q);
  printf("%d %d\n", p >> 1, q >> 1);
  uint64_t wide = 0 - 1ul;
  printf("%d %d\n", wide >> 1 > 5, wide / 2 > 9223372036854775806u);
}
